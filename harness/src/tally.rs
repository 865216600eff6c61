//! How often each refusal of each call and each branch of the build came up; a case that never comes up is a hole.

use crate::reference::{Counts, BRANCHES};
use crate::why;

/// Prints how often each thing came up, and gives those that never did, with whose they are.
pub fn report(title: &str, whose: &str, rows: impl Iterator<Item = (String, u64)>) -> Vec<String> {
    println!("\n{title}\n");
    let mut holes = Vec::new();
    for (name, count) in rows {
        println!("{name:50}{count:>9}");
        if count == 0 {
            holes.push(format!("{whose}: {name}"));
        }
    }
    holes
}

pub struct Call {
    pub name: &'static str,
    /// The numbers that this call can answer.
    pub numbers: &'static [u32],
}

const MESH: &[u32] = &[0, 1, 2, 6, 7, 8, 9, 10];
const AT_SITE: &[u32] = &[0, 1, 2, 4, 6, 7, 8, 9, 10];

pub const CALLS: &[Call] = &[
    Call { name: "check", numbers: MESH },
    Call { name: "walk", numbers: AT_SITE },
    Call { name: "neighbours", numbers: AT_SITE },
    Call { name: "clipped_neighbours", numbers: &[0, 1, 2, 4, 6, 7, 8, 9, 10, 16] },
    Call { name: "path", numbers: &[0, 1, 2, 4, 5, 6, 7, 8, 9, 10] },
    Call { name: "shared_edge", numbers: MESH },
    Call { name: "cells_share_edge", numbers: &[0, 4, 16] },
    Call { name: "cell", numbers: &[0, 4, 16] },
    Call { name: "areas", numbers: &[0, 1, 2, 16, 18, 24] },
    Call { name: "all_neighbours", numbers: &[0, 1, 2, 6, 7, 8, 9, 10, 16] },
    Call { name: "ends", numbers: &[0, 1, 2, 4, 5, 6, 7, 8, 9, 10] },
    Call { name: "cell_wkb", numbers: &[0, 1, 2, 4, 16, 18] },
    Call { name: "cell_wkb_bits", numbers: &[0, 1, 2, 4, 16, 18] },
    Call { name: "all_wkb", numbers: &[0, 1, 2, 16, 18] },
    Call { name: "read_multipoint", numbers: &[0, 1, 2, 6, 21] },
    Call { name: "write_multipoint", numbers: &[0, 1, 2, 6] },
    Call { name: "build", numbers: &[0, 1, 2, 3, 6, 7, 8, 9, 10, 11, 12, 13, 14] },
    Call { name: "why", numbers: &[0, 1, 2, 3, 4, 6, 7, 8, 9, 10, 11, 12, 13, 14] },
    Call { name: "build_by_edges", numbers: &[0, 1, 2, 3, 6, 7, 8, 9, 10, 11, 12, 13, 14] },
    Call { name: "why_by_edges", numbers: &[0, 1, 2, 3, 4, 6, 7, 8, 9, 10, 11, 12, 13, 14] },
    Call { name: "cut", numbers: &[0, 1, 2, 3, 6, 7, 8, 9, 10, 11, 25] },
    Call { name: "cut_by_edges", numbers: &[0, 1, 2, 3, 6, 7, 8, 9, 10, 11, 25] },
];

const NUMBERS: usize = 27;

/// The calls that try rules after rule 10, with what each can answer without rule 10 where a fan is broken.
const FANS: &[Call] = &[
    Call { name: "build", numbers: BUILT },
    Call { name: "why", numbers: BUILT },
    Call { name: "build_by_edges", numbers: BUILT },
    Call { name: "why_by_edges", numbers: BUILT },
    Call { name: "cut", numbers: &[0, 11, 25] },
    Call { name: "cut_by_edges", numbers: &[0, 11, 25] },
];
const BUILT: &[u32] = &[0, 11, 12, 13, 14];

/// Prints how often each call had each number of the columns, and gives the names of those that never came up and of those that it cannot have.
fn table(calls: &[Call], rows: &[[u64; NUMBERS]], columns: impl IntoIterator<Item = usize> + Clone, named: impl Fn(&str, usize) -> String) -> Vec<String> {
    let mut holes = Vec::new();
    print!("{:20}", "");
    for n in columns.clone() {
        print!("{n:>9}");
    }
    println!();
    for (call, row) in calls.iter().zip(rows) {
        print!("{:20}", call.name);
        for n in columns.clone() {
            let count = row[n];
            if call.numbers.contains(&(n as u32)) {
                print!("{count:>9}");
                if count == 0 {
                    holes.push(named(call.name, n));
                }
            } else if count > 0 {
                print!("{:>9}", format!("{count}!"));
                holes.push(format!("{}, which is no answer of that call", named(call.name, n)));
            } else {
                print!("{:>9}", "");
            }
        }
        println!();
    }
    holes
}

#[derive(Default)]
pub struct Tally {
    pub cases: u64,
    pub numbers: Vec<[u64; NUMBERS]>,
    /// How often each call of FANS refused a broken fan, by what it would answer without rule 10.
    fans: Vec<[u64; NUMBERS]>,
    pub branches: Counts,
    /// How often each reason was given (why::ROWS), by what was asked: nothing, a site, a pair, more than 2.
    pub reasons: Vec<[u64; 4]>,
    /// Reasons that have no row there.
    strange: Vec<String>,
    /// How long the lent slice was against the list: 0, shorter, as long, longer.
    pub allowances: [u64; 4],
    /// Corners of accepted builds: lost, and met by a crossing alone.
    pub corners: [u64; 2],
    /// Points of accepted builds that were reused: extensions, first crossings, second crossings.
    pub reused: [u64; 3],
    /// Of the vertex store of accepted builds: points reused across a border of the grid, builds with more vertices than links, points reused past the
    /// links, points reused by their buckets.
    pub store: [u64; 4],
    pub most_vertices: f64,
    pub most_entries: f64,
    /// The same of pieces by cutting: vertices, entries.
    pub most_cut: [f64; 2],
}

impl Tally {
    pub fn new() -> Tally {
        Tally { numbers: vec![[0; NUMBERS]; CALLS.len()], fans: vec![[0; NUMBERS]; FANS.len()], reasons: vec![[0; 4]; why::ROWS.len()], ..Tally::default() }
    }

    pub fn number(&mut self, call: &str, number: u32) {
        let i = CALLS.iter().position(|c| c.name == call).unwrap();
        self.numbers[i][number as usize] += 1;
    }

    /// A broken fan, by what the call would answer without rule 10.
    pub fn fan(&mut self, call: &str, without: u32) {
        let i = FANS.iter().position(|c| c.name == call).unwrap();
        self.fans[i][without as usize] += 1;
    }

    /// A reason by its row.
    pub fn reason(&mut self, row: String, asked: u32) {
        match why::ROWS.iter().position(|r| *r == row) {
            Some(i) => self.reasons[i][asked.min(3) as usize] += 1,
            None => self.strange.push(row),
        }
    }

    /// Allowance 0, below the whole, the whole, more.
    pub fn allowance(&mut self, given: usize, whole: usize) {
        let i = match given {
            0 => 0,
            g if g < whole => 1,
            g if g == whole => 2,
            _ => 3,
        };
        self.allowances[i] += 1;
    }

    /// Prints the table and gives the names of what never came up.
    pub fn report(&self) -> Vec<String> {
        println!("\nHow often each call answered each number (0: accepted)\n");
        let mut holes = table(CALLS, &self.numbers, 0..NUMBERS - 1, |call, n| format!("{call} {n}"));
        println!("\nHow often each call refused a broken fan (10), by what it would answer without rule 10\n");
        holes.extend(table(FANS, &self.fans, [0, 11, 12, 13, 14, 25], |call, n| format!("{call}: 10 before {n}")));
        println!("\nAllowances: 0 {}, short {}, exact {}, more {}", self.allowances[0], self.allowances[1], self.allowances[2], self.allowances[3]);
        for (i, name) in ["0", "short", "exact", "more"].iter().enumerate() {
            if self.allowances[i] == 0 {
                holes.push(format!("allowance {name}"));
            }
        }
        println!("\nHow often each reason was given, by what was asked\n");
        println!("{:24}{:>9}{:>9}{:>9}{:>9}", "", "nothing", "a site", "a pair", "above 2");
        for (name, row) in why::ROWS.iter().zip(&self.reasons) {
            println!("{name:24}{:>9}{:>9}{:>9}{:>9}", row[0], row[1], row[2], row[3]);
            if row.iter().sum::<u64>() == 0 {
                holes.push(format!("why: {name}"));
            }
        }
        holes.extend(self.strange.iter().map(|row| format!("why: {row} was never met before")));
        for (i, name) in ["nothing", "a site", "a pair", "above 2"].iter().enumerate() {
            if self.reasons.iter().all(|row| row[i] == 0) {
                holes.push(format!("why: asked {name}"));
            }
        }
        println!("\nHow often each branch of the build was taken\n");
        let column = (BRANCHES + 2) / 3;
        for i in 0..column {
            for j in (i..BRANCHES).step_by(column) {
                print!("{:34}{:>12}   ", Counts::name(j), self.branches.0[j]);
            }
            println!();
        }
        for i in 0..BRANCHES {
            if self.branches.0[i] == 0 {
                holes.push(Counts::name(i));
            }
        }
        println!("\nCorners: lost {}, in a cell and not wrapped {}", self.corners[0], self.corners[1]);
        for (i, name) in ["lost", "in a cell and not wrapped"].iter().enumerate() {
            if self.corners[i] == 0 {
                holes.push(format!("corner {name}"));
            }
        }
        println!("\nReused points: extensions {}, first crossings {}, second crossings {}", self.reused[0], self.reused[1], self.reused[2]);
        for (i, name) in ["extension", "first crossing", "second crossing"].iter().enumerate() {
            if self.reused[i] == 0 {
                holes.push(format!("reused {name}"));
            }
        }
        println!(
            "\nThe vertex store: reused across a border of the grid {}, builds with more vertices than links {}, reused past the links {}, reused by their buckets {}",
            self.store[0], self.store[1], self.store[2], self.store[3]
        );
        for (i, name) in ["reused across a border", "more vertices than links", "reused past the links", "reused by their buckets"].iter().enumerate() {
            if self.store[i] == 0 {
                holes.push(format!("vertex store: {name}"));
            }
        }
        println!("\nRoom used at most: vertices {:.3}, entries {:.3}", self.most_vertices, self.most_entries);
        println!("By cutting: vertices {:.3}, entries {:.3}", self.most_cut[0], self.most_cut[1]);
        holes
    }
}
