//! What each public call owes by the rules (docs/use/RULES.md): its number, its values and every lent slice at exit.
//! Where the call is accepted the values are the Rust's own, handed in by the caller.

use crate::mesh::{cut_index_room, cut_vertex_room, index_room, vertex_room, Area, Mesh, Pt, EMPTY};
use crate::reference::{self, Outcome};

/// What the rules say about a mesh before any question, worked out once.
#[derive(Clone, Debug)]
pub struct Facts {
    pub counts: bool,
    pub coordinates: bool,
    pub topology: u32,
    pub leftmost: Vec<u32>,
}

impl Facts {
    pub fn of(m: &Mesh) -> Facts {
        let counts = reference::counts_sound(m);
        let topology = if counts { reference::topology(m) } else { 0 };
        let leftmost = if counts && topology == 0 { reference::leftmost(m) } else { Vec::new() };
        Facts { counts, coordinates: reference::coordinates_sound(&m.sites), topology, leftmost }
    }
    pub fn accepted(&self) -> bool {
        self.counts && self.coordinates && self.topology == 0
    }
}

/// The arguments beside the mesh that 2, 3, 4 and 5 concern; one that a call does not have is left sound.
#[derive(Clone, Copy, Debug)]
pub struct Beside<'a> {
    pub room: bool,
    pub area: Option<&'a Area>,
    pub site: Option<u32>,
    pub to: Option<Pt>,
}

/// The first of 1 to 10 that holds, in the order they are tried.
pub fn mesh_number(m: &Mesh, f: &Facts, b: &Beside) -> u32 {
    if !f.counts {
        1
    } else if !b.room {
        2
    } else if b.area.is_some_and(|a| !reference::box_sound(a)) {
        3
    } else if b.site.is_some_and(|s| s as usize >= m.count()) {
        4
    } else if b.to.is_some_and(|p| !(reference::ordinary(p.x) && reference::ordinary(p.y))) {
        5
    } else if !f.coordinates {
        6
    } else {
        f.topology
    }
}

/// A work slice at exit.
pub fn work_after(number: u32, before: &[u32], leftmost: &[u32]) -> Vec<u32> {
    match number {
        0 => padded(leftmost, before.len()),
        1..=6 => before.to_vec(),
        _ => vec![EMPTY; before.len()],
    }
}

pub fn padded(list: &[u32], length: usize) -> Vec<u32> {
    let mut out = list.to_vec();
    out.resize(length, EMPTY);
    out
}

/// A list handed out into a slice whose length is its allowance.
#[derive(Clone, Debug, PartialEq)]
pub struct Handed {
    pub number: u32,
    pub count: u32,
    pub ended: u32,
    pub work: Vec<u32>,
    pub out: Vec<u32>,
}

pub fn handed(number: u32, whole: &[u32], work: &[u32], leftmost: &[u32], out: &[u32]) -> Handed {
    let work = work_after(number, work, leftmost);
    match number {
        0 => {
            let count = whole.len().min(out.len());
            let mut filled = out.to_vec();
            filled[..count].copy_from_slice(&whole[..count]);
            Handed { number, count: count as u32, ended: (count == whole.len()) as u32, work, out: filled }
        }
        1..=6 | 16 => Handed { number, count: 0, ended: 0, work, out: out.to_vec() },
        _ => Handed { number, count: 0, ended: 0, work, out: vec![EMPTY; out.len()] },
    }
}

/// Rule 16 on a whole offset list.
pub fn offsets_sound(offsets: &[u32], entries: usize) -> bool {
    offsets.first() == Some(&0)
        && offsets.windows(2).all(|w| w[0] <= w[1])
        && offsets.iter().all(|&o| o as usize <= entries)
}

/// A question on cells alone about one or two sites.
pub fn cell_number(offsets: &[u32], entries: usize, sites: &[u32]) -> u32 {
    let count = offsets.len().saturating_sub(1);
    if sites.iter().any(|&s| s as usize >= count) {
        4
    } else if !offsets_sound(offsets, entries) {
        16
    } else {
        0
    }
}

/// How many vertices after the circumcenters the library can chain in an index list so long.
pub fn links(m: &Mesh, indexes: usize) -> usize {
    let (t, h) = (m.triangle_count(), m.hull.len());
    3 * ((indexes.saturating_sub(10 * t + 7 * h + 6)).min(1 << 20) / 4)
}

/// The lengths of what a build is lent.
#[derive(Clone, Copy, Debug)]
pub struct Lengths {
    pub work: usize,
    pub floats: usize,
    pub indexes: usize,
    pub offsets: usize,
    pub counts: usize,
}

/// Places of the lent count slice: vertices, the four owners, lost corners, the three kinds of reused points.
pub const PLACES: usize = 9;

impl Lengths {
    pub fn exact(m: &Mesh) -> Lengths {
        Lengths {
            work: m.count(),
            floats: 2 * vertex_room(m),
            indexes: index_room(m),
            offsets: m.count() + 1,
            counts: PLACES,
        }
    }
    /// What a cutting is lent; it has no counts.
    pub fn cutting(m: &Mesh) -> Lengths {
        Lengths { floats: 2 * cut_vertex_room(m), indexes: cut_index_room(m), counts: 0, ..Lengths::exact(m) }
    }
    pub fn suffice(&self, m: &Mesh) -> bool {
        let e = Lengths::exact(m);
        self.work >= e.work
            && self.floats / 2 >= e.floats / 2
            && self.indexes >= e.indexes
            && self.offsets >= e.offsets
            && self.counts >= e.counts
    }
}

/// All that a build is lent, at entry or at exit.
#[derive(Clone, Debug)]
pub struct Slices {
    pub work: Vec<u32>,
    pub floats: Vec<f64>,
    pub indexes: Vec<u32>,
    pub offsets: Vec<u32>,
    pub counts: Vec<u32>,
}

impl Slices {
    /// Slices full of what no call writes.
    pub fn fresh(l: &Lengths) -> Slices {
        Slices {
            work: vec![0xa5a5a5a5; l.work],
            floats: vec![-1234.5; l.floats],
            indexes: vec![0x5a5a5a5a; l.indexes],
            offsets: vec![0xb6b6b6b6; l.offsets],
            counts: vec![0xc7c7c7c7; l.counts],
        }
    }
    fn cleared(&self) -> Slices {
        Slices {
            work: vec![EMPTY; self.work.len()],
            floats: vec![0.0; self.floats.len()],
            indexes: vec![EMPTY; self.indexes.len()],
            offsets: vec![EMPTY; self.offsets.len()],
            counts: vec![EMPTY; self.counts.len()],
        }
    }
    pub fn same(&self, other: &Slices) -> bool {
        let bits = |l: &[f64]| l.iter().map(|x| x.to_bits()).collect::<Vec<_>>();
        self.work == other.work
            && self.indexes == other.indexes
            && self.offsets == other.offsets
            && self.counts == other.counts
            && bits(&self.floats) == bits(&other.floats)
    }
}

/// What a build leaves in the slices it was lent; the outcome is the Rust's wherever that was asked.
pub fn built(number: u32, outcome: Option<&Outcome>, entry: &Slices) -> Slices {
    match (number, outcome) {
        (0, Some(Ok(b))) => {
            let mut exit = entry.cleared();
            exit.work[..b.leftmost.len()].copy_from_slice(&b.leftmost);
            for (i, v) in b.vertices.iter().enumerate() {
                (exit.floats[2 * i], exit.floats[2 * i + 1]) = (v.x, v.y);
            }
            let mut at = 0;
            exit.offsets[0] = 0;
            for (s, cell) in b.plain().iter().enumerate() {
                exit.indexes[at..at + cell.len()].copy_from_slice(cell);
                at += cell.len();
                exit.offsets[s + 1] = at as u32;
            }
            exit.counts[0] = b.vertices.len() as u32;
            exit.counts[1..1 + b.owners.len()].copy_from_slice(&b.owners);
            exit.counts[5] = b.lost;
            exit.counts[6..PLACES].copy_from_slice(&b.reused);
            exit
        }
        (0, _) => unreachable!("an accepted build has an answer"),
        (1..=6, _) => entry.clone(),
        _ => entry.cleared(),
    }
}
