//! Flipping an edge (request 2026-13): a second program, from the request's text, and what the call owes.

use crate::cases;
use crate::compare;
use crate::expect::{padded, work_after};
use crate::generate::rng::Rng;
use crate::generate::{damage, meshes};
use crate::library::{Call, Difference, Library};
use crate::mesh::{next, Mesh, EMPTY};
use crate::reference;
use crate::tally::{self, Tally};
use std::collections::HashSet;

/// The half-edge that comes before e.
fn earlier(e: usize) -> usize {
    next(next(e))
}

/// 23 as the request has it: out of range or unpaired, the opposite sites the same or already joined, or a wrong table.
fn refused(m: &Mesh, table: &[u32], named: u32) -> bool {
    let a = named as usize;
    if a >= m.halfedges.len() || m.halfedges[a] == EMPTY {
        return true;
    }
    let opposite = |e: usize| m.triangles[earlier(e)];
    let (x, y) = (opposite(a), opposite(m.halfedges[a] as usize));
    let joined: HashSet<(u32, u32)> = (0..m.triangles.len()).map(|e| m.run(e)).collect();
    x == y || joined.contains(&(x, y)) || joined.contains(&(y, x)) || table[..m.count()] != reference::leftmost(m)[..]
}

/// The flipped mesh, sentence by sentence; outer pairs name back.
fn flipped(m: &Mesh, named: u32) -> Mesh {
    let mut new = m.clone();
    let (a, b) = (named as usize, m.halfedges[named as usize] as usize);
    // the named half-edge starts at the site opposite its pair, and the pair at the site opposite the named one
    new.triangles[a] = m.triangles[earlier(b)];
    new.triangles[b] = m.triangles[earlier(a)];
    // each takes the old pair of the half-edge that comes before the other, and those two become a pair
    for (e, other) in [(a, b), (b, a)] {
        let outer = m.halfedges[earlier(other)];
        new.halfedges[e] = outer;
        if outer != EMPTY {
            new.halfedges[outer as usize] = e as u32;
        }
        new.halfedges[earlier(e)] = earlier(other) as u32;
    }
    new
}

/// 1, 2, 7 to 10, 23, or the flipped mesh.
pub fn flip(m: &Mesh, sites: u32, table: &[u32], work: usize, named: u32) -> Result<Mesh, u32> {
    let (n, entries) = (sites as usize, m.triangles.len());
    let triangles = entries % 3 == 0 && (1..=131_072).contains(&(entries / 3)) && m.halfedges.len() == entries;
    if !((3..=65_536).contains(&n) && triangles && (3..=n).contains(&m.hull.len())) {
        return Err(1);
    }
    if table.len() < m.count() || work < m.count() {
        return Err(2);
    }
    match reference::topology(m) {
        0 if refused(m, table, named) => Err(23),
        0 => Ok(flipped(m, named)),
        number => Err(number),
    }
}

/// What must come up in a run.
const SEEN: [&str; 10] = [
    "an outer pair told", "no outer pair", "a table longer than the sites", "work longer than the sites", "the table's entry lost, unpaired",
    "the table's entry lost, paired", "an entry lowered by a gain", "opposite sites the same", "opposite sites joined", "a wrong table",
];

pub const NUMBERS: [u32; 8] = [0, 1, 2, 7, 8, 9, 10, 23];

#[derive(Default)]
pub struct Seen {
    numbers: [u64; NUMBERS.len()],
    seen: [u64; SEEN.len()],
}

impl Seen {
    fn at(&mut self, what: &str, holds: bool) {
        self.seen[SEEN.iter().position(|s| *s == what).unwrap()] += holds as u64;
    }

    /// Prints what came up and gives what did not.
    pub fn report(&self) -> Vec<String> {
        let names = NUMBERS.iter().map(|n| format!("flip {n}")).chain(SEEN.iter().map(|s| s.to_string()));
        let counts = self.numbers.iter().chain(&self.seen).copied();
        tally::report("How often flipping answered each number, and what came up", "flipping", names.zip(counts))
    }
}

/// A mesh, and how much is lent.
#[derive(Clone, Debug)]
pub struct Case {
    pub mesh: Mesh,
    pub sites: u32,
    pub table: Vec<u32>,
    pub work: usize,
    seed: u64,
}

impl Case {
    pub fn random(seed: u64, index: u64) -> Case {
        let r = &mut Rng::new(seed ^ 0x666c_6970, index);
        let mut mesh = meshes::sound(r);
        let mut table = reference::leftmost(&mesh);
        if r.chance(1, 8) {
            damage::any(r, &mut mesh);
        }
        let mut work = mesh.count();
        match r.below(12) {
            0 => table.truncate(mesh.count().saturating_sub(1)),
            1 => work = work.saturating_sub(1),
            2 | 3 => table.extend((0..1 + r.below(4)).map(|i| 900 + i as u32)),
            4 | 5 => work += 1 + r.below(4),
            6 if !table.is_empty() => {
                let s = r.below(table.len());
                table[s] = if r.chance(1, 2) { EMPTY } else { r.below(mesh.triangles.len() + 1) as u32 };
            }
            _ => {}
        }
        let sites = if r.chance(1, 20) { r.pick(&[0, 2, 65_537, EMPTY]) } else { mesh.count() as u32 };
        let seed = r.word();
        Case { mesh, sites, table, work, seed }
    }
}

fn note(c: &Case, named: u32, answer: &Result<Mesh, u32>, seen: &mut Seen) -> Result<(), String> {
    let m = &c.mesh;
    let number = *answer.as_ref().err().unwrap_or(&0);
    seen.numbers[NUMBERS.iter().position(|&n| n == number).unwrap()] += 1;
    let a = named as usize;
    if number == 23 && a < m.halfedges.len() && m.halfedges[a] != EMPTY {
        let (x, y) = (m.triangles[earlier(a)], m.triangles[earlier(m.halfedges[a] as usize)]);
        let wrong = c.table[..m.count()] != reference::leftmost(m)[..];
        seen.at("a wrong table", wrong);
        seen.at("opposite sites the same", x == y);
        seen.at("opposite sites joined", x != y && !wrong);
    }
    let Ok(new) = answer else { return Ok(()) };
    let b = m.halfedges[a] as usize;
    let (old_table, new_table) = (reference::leftmost(m), reference::leftmost(new));
    for (e, other) in [(a, b), (b, a)] {
        let outer = m.halfedges[earlier(e)];
        seen.at("an outer pair told", outer != EMPTY);
        seen.at("no outer pair", outer == EMPTY);
        let lost = old_table[m.triangles[e] as usize] as usize == earlier(e);
        seen.at("the table's entry lost, unpaired", lost && outer == EMPTY);
        seen.at("the table's entry lost, paired", lost && outer != EMPTY);
        let gains = m.triangles[earlier(e)] as usize;
        seen.at("an entry lowered by a gain", new_table[gains] as usize == earlier(other));
    }
    seen.at("a table longer than the sites", c.table.len() > m.count());
    seen.at("work longer than the sites", c.work > m.count());
    // what the request says of every flip
    if reference::topology(new) != 0 {
        return Err(format!("the flipped mesh is refused by {}", reference::topology(new)));
    }
    let again = flipped(m, b as u32);
    if (&again.triangles, &again.halfedges) != (&new.triangles, &new.halfedges) {
        return Err("flipping at the pair is another flip".to_string());
    }
    Ok(())
}

/// The call: every list to its last element.
fn call(c: &Case, named: u32, answer: &Result<Mesh, u32>) -> Call {
    let work = vec![0xa5a5a5a5; c.work];
    let (number, triangles, halfedges, table, exit) = match answer {
        Ok(new) => {
            let fresh = reference::leftmost(new);
            let mut table = c.table.clone();
            table[..fresh.len()].copy_from_slice(&fresh);
            (0, &new.triangles, &new.halfedges, table, padded(&fresh, c.work))
        }
        Err(number) => (*number, &c.mesh.triangles, &c.mesh.halfedges, c.table.clone(), work_after(*number, &work, &[])),
    };
    Call::new("flip")
        .gives(number)
        .number(c.sites)
        .lent_indexes(&c.mesh.triangles, triangles)
        .lent_indexes(&c.mesh.halfedges, halfedges)
        .indexes(&c.mesh.hull)
        .lent_indexes(&c.table, &table)
        .lent_indexes(&work, &exit)
        .number(named)
}

/// Every half-edge of a mesh and two past the end; of those that are flipped one is put to every other call, beside the Rust.
pub fn run_one(index: u64, c: &Case, library: &mut Library, seen: &mut Seen, tally: &mut Tally) -> Result<(), Difference> {
    let told = |words| Difference { case: index, words };
    let r = &mut Rng::new(c.seed, index);
    let ends = [c.mesh.halfedges.len() as u32, EMPTY];
    let mut made = Vec::new();
    for named in (0..c.mesh.halfedges.len() as u32).chain(ends) {
        let answer = flip(&c.mesh, c.sites, &c.table, c.work, named);
        note(c, named, &answer, seen).map_err(told)?;
        if library.has("flip") {
            library.put(index, call(c, named, &answer))?;
        }
        made.extend(answer.ok());
    }
    if !made.is_empty() {
        let mesh = made.swap_remove(r.below(made.len()));
        compare::run(index, &cases::Case::about(r, mesh), library, tally)?;
    }
    Ok(())
}
