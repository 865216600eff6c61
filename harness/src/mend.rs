//! Mending (request 2026-05): a second program for a hand-edited mesh, from the request's text, and what the call owes.

use crate::bench;
use crate::expect::padded;
use crate::form;
use crate::generate::edits;
use crate::generate::rng::Rng;
use crate::generate::{meshes, topology};
use crate::library::{Call, Difference, Library};
use crate::mesh::{Mesh, EMPTY};
use crate::reference;
use crate::tally;
use std::collections::{BTreeMap, HashMap, HashSet};

/// A place with its old and its new value, `EMPTY` where a side has none.
pub type Change = [u32; 3];

#[derive(Clone, Debug)]
pub struct Mended {
    pub mesh: Mesh,
    pub pair_changes: Vec<Change>,
    pub hull_changes: Vec<Change>,
}

/// The lengths of the four slices that are lent: work, pairs, hull, changes.
type Lengths = [usize; 4];

fn exact(m: &Mesh) -> Lengths {
    let (n, e) = (m.count(), m.triangles.len());
    [n, e, n, 3 * (e + n)]
}

/// The changes' room counts changes, three numbers each.
fn suffice(l: &Lengths, m: &Mesh) -> bool {
    let need = exact(m);
    (0..3).all(|i| l[i] >= need[i]) && l[3] / 3 >= need[3] / 3
}

/// Each half-edge with the one that runs the other way between the same sites; 19 where two run the same way.
fn pairs(m: &Mesh) -> Result<Vec<u32>, u32> {
    let mut runs = HashMap::new();
    for e in 0..m.triangles.len() {
        if runs.insert(m.run(e), e as u32).is_some() {
            return Err(19);
        }
    }
    let other_way = |e: usize| {
        let (a, b) = m.run(e);
        runs.get(&(b, a)).copied().unwrap_or(EMPTY)
    };
    Ok((0..m.triangles.len()).map(other_way).collect())
}

/// The loop of the unpaired half-edges, from the old first site if it is on it, else from the lowest; 9 where they form no
/// single loop of at least three distinct sites.
fn hull(m: &Mesh, pairs: &[u32]) -> Result<Vec<u32>, u32> {
    let mut after = BTreeMap::new();
    for e in (0..pairs.len()).filter(|&e| pairs[e] == EMPTY) {
        let (a, b) = m.run(e);
        if after.insert(a, b).is_some() {
            return Err(9);
        }
    }
    let lowest = *after.keys().next().ok_or(9u32)?;
    let first = if after.contains_key(&m.hull[0]) { m.hull[0] } else { lowest };
    let mut list = vec![first];
    let mut seen = HashSet::from([first]);
    loop {
        let b = *after.get(list.last().unwrap()).ok_or(9u32)?;
        if b == first {
            break;
        }
        if !seen.insert(b) {
            return Err(9);
        }
        list.push(b);
    }
    if list.len() == after.len() && list.len() >= 3 {
        Ok(list)
    } else {
        Err(9)
    }
}

/// The places where two lists differ, one that a single side has too.
fn changes(old: &[u32], new: &[u32]) -> Vec<Change> {
    let value = |l: &[u32], i: usize| l.get(i).copied().unwrap_or(EMPTY);
    let differ = |&i: &usize| old.get(i) != new.get(i);
    (0..old.len().max(new.len())).filter(differ).map(|i| [i as u32, value(old, i), value(new, i)]).collect()
}

/// 1, 2, 6, 7, 19, 9, 10, or the mended mesh with its changes. The outer error tells what must not be.
pub fn mend(m: &Mesh, room: bool) -> Result<Result<Mended, u32>, String> {
    if !reference::counts_sound(m) {
        return Ok(Err(1));
    }
    if !room {
        return Ok(Err(2));
    }
    if !reference::coordinates_sound(&m.sites) {
        return Ok(Err(6));
    }
    let names_three = |t: &[u32]| t.iter().all(|&s| (s as usize) < m.count()) && t.iter().collect::<HashSet<_>>().len() == 3;
    if !m.triangles.chunks_exact(3).all(names_three) {
        return Ok(Err(7));
    }
    let (pairs, hull) = match pairs(m).and_then(|p| hull(m, &p).map(|h| (p, h))) {
        Ok(both) => both,
        Err(number) => return Ok(Err(number)),
    };
    let (pair_changes, hull_changes) = (changes(&m.halfedges, &pairs), changes(&m.hull, &hull));
    let mesh = Mesh { sites: m.sites.clone(), triangles: m.triangles.clone(), halfedges: pairs, hull };
    match reference::topology(&mesh) {
        0 => Ok(Ok(Mended { mesh, pair_changes, hull_changes })),
        10 => Ok(Err(10)),
        n => Err(format!("the mended mesh is refused by {n}")),
    }
}

/// What the program prints: a line for each change and the counts, or the refusal.
pub fn lines(m: &Mesh) -> Result<Vec<String>, String> {
    if !form::fits(m) {
        return Ok(vec!["refused 17".to_string()]);
    }
    let word = |x: u32| if x == EMPTY { "none".to_string() } else { x.to_string() };
    let line = |what: &str, c: &Change| format!("{what} {}: {} {}", c[0], word(c[1]), word(c[2]));
    Ok(match mend(m, true)? {
        Err(number) => vec![format!("refused {number}")],
        Ok(d) => {
            let mut list: Vec<String> = d.pair_changes.iter().map(|c| line("pair", c)).collect();
            list.extend(d.hull_changes.iter().map(|c| line("hull", c)));
            list.push(format!("pairs {} hull {}", d.pair_changes.len(), d.hull_changes.len()));
            list
        }
    })
}

/// A mesh as it was left, and how much is lent.
#[derive(Clone, Debug)]
pub struct Case {
    pub mesh: Mesh,
    pub lengths: Lengths,
}

impl Case {
    pub fn random(seed: u64, index: u64) -> Case {
        let r = &mut Rng::new(seed ^ 0x6d65_6e64, index);
        let mesh = edits::edited(r);
        let mut l = exact(&mesh);
        match r.below(10) {
            0 => {
                let i = r.below(4);
                let less = if r.chance(1, 4) { l[i] } else { 1 + r.below(3) };
                l[i] = l[i].saturating_sub(less);
            }
            1 | 2 => l.iter_mut().for_each(|p| *p += r.below(5)),
            _ => {}
        }
        Case { mesh, lengths: l }
    }

    /// The largest meshes, with nothing known but the triangles: a rectangle, one site amid all others, many triangles.
    pub fn limits(seed: u64) -> Vec<(&'static str, Case)> {
        let r = &mut Rng::new(seed, u64::MAX);
        let forgotten = |mut m: Mesh| {
            m.halfedges.fill(EMPTY);
            m.hull = vec![1, 2, EMPTY];
            let lengths = exact(&m);
            Case { mesh: m, lengths }
        };
        let rectangle = meshes::large(r, 256, 256);
        let hub = bench::hub(65_536);
        let (t, _, n) = topology::with_handles(261, 261, 2064);
        let handles = Mesh { sites: vec![0.5; 2 * n], triangles: t.triangles, halfedges: t.halfedges, hull: t.hull };
        vec![
            ("65,536 sites", forgotten(rectangle)),
            ("a site with 65,535 neighbours", forgotten(hub)),
            ("131,072 triangles", forgotten(handles)),
        ]
    }
}

/// What must come up in a run.
const SEEN: [&str; 15] = [
    "nothing changed", "pairs changed", "hull changed", "a hull place of the old side alone", "of the new side alone",
    "an old entry EMPTY against none", "begun at the old first site", "begun at the lowest", "more room than needed",
    "an accepted mesh, nothing changed", "an accepted mesh with doubled edges", "9: no unpaired half-edge",
    "9: two start at a site", "9: more than one loop", "8 broken before",
];

pub const NUMBERS: [u32; 8] = [0, 1, 2, 6, 7, 19, 9, 10];

#[derive(Default)]
pub struct Seen {
    numbers: [u64; NUMBERS.len()],
    seen: [u64; SEEN.len()],
}

impl Seen {
    fn at(&mut self, what: &str) {
        self.seen[SEEN.iter().position(|s| *s == what).unwrap()] += 1;
    }

    /// Prints what came up and gives what did not.
    pub fn report(&self) -> Vec<String> {
        let names = NUMBERS.iter().map(|n| format!("mend {n}")).chain(SEEN.iter().map(|s| s.to_string()));
        let counts = self.numbers.iter().chain(&self.seen).copied();
        tally::report("How often mending answered each number, and what came up", "mending", names.zip(counts))
    }
}

/// What is noted of a case, and what the request says of every mesh: checked here on the second program itself.
fn note(c: &Case, answer: &Result<Mended, u32>, seen: &mut Seen) -> Result<(), String> {
    let m = &c.mesh;
    let number = *answer.as_ref().err().unwrap_or(&0);
    seen.numbers[NUMBERS.iter().position(|&n| n == number).unwrap()] += 1;
    if !matches!(number, 0 | 9 | 10 | 19) {
        return Ok(());
    }
    let before = reference::topology(m);
    if before == 8 {
        seen.at("8 broken before");
    }
    match answer {
        Ok(d) => {
            let (old, new) = (&m.hull, &d.mesh.hull);
            let none = d.pair_changes.is_empty() && d.hull_changes.is_empty();
            for (holds, what) in [
                (none, "nothing changed"),
                (!d.pair_changes.is_empty(), "pairs changed"),
                (!d.hull_changes.is_empty(), "hull changed"),
                (old.len() > new.len(), "a hull place of the old side alone"),
                (new.len() > old.len(), "of the new side alone"),
                (d.hull_changes.iter().any(|c| c[1] == EMPTY && c[2] == EMPTY), "an old entry EMPTY against none"),
                (old[0] == new[0], "begun at the old first site"),
                (old[0] != new[0], "begun at the lowest"),
                (c.lengths[0] > m.count(), "more room than needed"),
                (before == 0, "an accepted mesh, nothing changed"),
            ] {
                if holds {
                    seen.at(what);
                }
            }
            if before == 0 && !none {
                return Err(format!("an accepted mesh with no doubled edge is changed: {:?} {:?}", d.pair_changes, d.hull_changes));
            }
            match mend(&d.mesh, true)? {
                Ok(again) if again.pair_changes.is_empty() && again.hull_changes.is_empty() => {}
                again => return Err(format!("mended again: {again:?}")),
            }
        }
        Err(19) if before == 0 => seen.at("an accepted mesh with doubled edges"),
        Err(9) => {
            let pairs = pairs(m).unwrap();
            let starts: Vec<u32> = (0..pairs.len()).filter(|&e| pairs[e] == EMPTY).map(|e| m.triangles[e]).collect();
            let distinct = starts.iter().collect::<HashSet<_>>().len();
            seen.at(match starts.len() {
                0 => "9: no unpaired half-edge",
                k if distinct < k => "9: two start at a site",
                _ => "9: more than one loop",
            });
        }
        Err(n) if before == 0 => return Err(format!("an accepted mesh is refused by {n}")),
        Err(_) => {}
    }
    Ok(())
}

/// The call on a case: every output to its last element, and the three numbers.
fn call(c: &Case, answer: &Result<Mended, u32>) -> Call {
    let held = [0xa5a5a5a5, 0x5a5a5a5a, 0xb6b6b6b6, 0xc7c7c7c7];
    let entry = [0, 1, 2, 3].map(|i| vec![held[i]; c.lengths[i]]);
    let (number, exit, counts) = match answer {
        Ok(d) => {
            let list: Vec<u32> = d.pair_changes.iter().chain(&d.hull_changes).flatten().copied().collect();
            let out = [&reference::leftmost(&d.mesh), &d.mesh.halfedges, &d.mesh.hull, &list];
            let exit = [0, 1, 2, 3].map(|i| padded(out[i], entry[i].len()));
            (0, exit, [d.mesh.hull.len(), d.pair_changes.len(), d.hull_changes.len()].map(|n| n as u32))
        }
        Err(number @ (1 | 2 | 6)) => (*number, entry.clone(), [0; 3]),
        Err(number) => (*number, entry.clone().map(|s| vec![EMPTY; s.len()]), [0; 3]),
    };
    let slices = Call::new("mend").gives(number).mesh(&c.mesh);
    let slices = (0..4).fold(slices, |call, i| call.lent_indexes(&entry[i], &exit[i]));
    counts.into_iter().fold(slices, Call::gives)
}

/// One case put to both programs.
pub fn run_one(index: u64, c: &Case, library: &mut Library, seen: &mut Seen) -> Result<(), Difference> {
    let told = |words| Difference { case: index, words };
    let answer = mend(&c.mesh, suffice(&c.lengths, &c.mesh)).map_err(told)?;
    note(c, &answer, seen).map_err(told)?;
    if library.has("mend") {
        library.put(index, call(c, &answer))?;
    }
    Ok(())
}
