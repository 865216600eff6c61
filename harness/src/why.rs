//! Why (request 2026-03): the place of every refusal and the answer to what was asked, read a second time from the rules and
//! the request; and what the call owes. The number is found here by the places, and must be the build's own.

use crate::cases::Case;
use crate::compare::build_both;
use crate::expect::{self, Beside, Facts, Lengths, Slices};
use crate::fans;
use crate::form;
use crate::generate::damage;
use crate::generate::rng::Rng;
use crate::library::Call;
use crate::mesh::{next, Area, Mesh, EMPTY};
use crate::reference::{self, Outcome};
use crate::rust;
use crate::tally::Tally;
use std::collections::{HashMap, HashSet};

/// What a reason names.
#[derive(Clone, Copy, Debug, PartialEq)]
pub enum What {
    NoFault,
    Alone,
    Site(u32),
    Triangle(u32),
    HalfEdge(u32),
    HullPlace(u32),
    /// A cell and the ring edge's two vertices in the order walked.
    Edge(u32, u32, u32),
    /// The cell of a site in no triangle.
    Unused(u32),
    /// A cell for which every clipping try gave nothing.
    Nothing(u32),
    /// A neighbour that shares so many entries, and is dropped.
    Dropped(u32),
}

#[derive(Clone, Copy, Debug, PartialEq)]
pub struct Reason {
    pub number: u32,
    pub what: What,
}

impl Reason {
    /// The four lent numbers: kind, place, from, to.
    pub fn numbers(&self) -> [u32; 4] {
        match self.what {
            What::NoFault => [0, EMPTY, EMPTY, EMPTY],
            What::Alone => [1, EMPTY, EMPTY, EMPTY],
            What::Site(s) => [2, s, EMPTY, EMPTY],
            What::Triangle(t) => [3, t, EMPTY, EMPTY],
            What::HalfEdge(e) => [4, e, EMPTY, EMPTY],
            What::HullPlace(i) => [5, i, EMPTY, EMPTY],
            What::Edge(cell, from, to) => [6, cell, from, to],
            What::Unused(s) => [7, s, EMPTY, EMPTY],
            What::Nothing(s) => [8, s, EMPTY, EMPTY],
            What::Dropped(k) => [9, k, EMPTY, EMPTY],
        }
    }

    /// The line that the program `why` prints, without its end; the sites are those asked about.
    pub fn line(&self, q: &Question) -> String {
        let refused = format!("refused {}", self.number);
        match self.what {
            What::NoFault => "no fault".to_string(),
            What::Alone => refused,
            What::Site(s) => format!("{refused}: site {s}"),
            What::Triangle(t) => format!("{refused}: triangle {t}"),
            What::HalfEdge(e) => format!("{refused}: half-edge {e}"),
            What::HullPlace(i) => format!("{refused}: hull place {i}"),
            What::Edge(cell, from, to) => format!("{refused}: cell {cell} from {from} to {to}"),
            What::Unused(s) => format!("empty {s}: in no triangle"),
            What::Nothing(s) => format!("empty {s}: every try gave nothing"),
            What::Dropped(k) => format!("dropped {} {}: {k} shared", q.first, q.second),
        }
    }

    /// The row of the tally that it counts in.
    fn row(&self) -> String {
        match self.what {
            What::NoFault => "no fault".to_string(),
            What::Alone => format!("{} alone", self.number),
            What::Site(_) => format!("{} site", self.number),
            What::Triangle(_) => format!("{} triangle", self.number),
            What::HalfEdge(_) => format!("{} half-edge", self.number),
            What::HullPlace(_) => format!("{} hull place", self.number),
            What::Edge(..) => format!("{} cell and edge", self.number),
            What::Unused(_) => "empty, in no triangle".to_string(),
            What::Nothing(_) => "empty, every try".to_string(),
            What::Dropped(k) => format!("dropped, {k} shared"),
        }
    }
}

/// All reasons that must come up in a run, by their rows.
pub const ROWS: &[&str] = &[
    "no fault", "1 alone", "2 alone", "3 alone", "4 alone", "6 site", "7 triangle", "8 half-edge", "9 hull place",
    "9 half-edge", "10 site", "11 triangle", "12 hull place", "13 cell and edge", "14 cell and edge",
    "empty, in no triangle", "empty, every try", "dropped, 0 shared", "dropped, 1 shared",
];

/// What is asked: 0 nothing, 1 about the first site, 2 or more about the pair.
#[derive(Clone, Copy, Debug)]
pub struct Question {
    pub asked: u32,
    pub first: u32,
    pub second: u32,
}

impl Question {
    /// About no site, one, or two.
    pub fn about(sites: &[u32]) -> Question {
        let at = |i: usize| sites.get(i).copied().unwrap_or(EMPTY);
        Question { asked: sites.len() as u32, first: at(0), second: at(1) }
    }
    fn sites(&self) -> &'static [usize] {
        match self.asked {
            0 => &[],
            1 => &[0],
            _ => &[0, 1],
        }
    }
    pub fn out_of_range(&self, m: &Mesh) -> bool {
        self.sites().iter().any(|&i| [self.first, self.second][i] as usize >= m.count())
    }
}

fn lowest(mut range: std::ops::Range<usize>, offends: impl Fn(usize) -> bool) -> Option<u32> {
    range.find(|&i| offends(i)).map(|i| i as u32)
}

/// Rule 6: the lowest site with a coordinate that is not finite or above 2^100.
fn coordinate(m: &Mesh) -> Option<u32> {
    lowest(0..m.count(), |s| !(reference::ordinary(m.sites[2 * s]) && reference::ordinary(m.sites[2 * s + 1])))
}

/// Rule 7: the lowest triangle that names no site, or one twice.
fn triangle(m: &Mesh) -> Option<u32> {
    lowest(0..m.triangle_count(), |t| {
        let named: HashSet<u32> = m.triangles[3 * t..3 * t + 3].iter().copied().filter(|&s| (s as usize) < m.count()).collect();
        named.len() < 3
    })
}

/// Rule 8: the lowest half-edge that is neither unpaired nor names one that names it back and runs the other way.
fn pairing(m: &Mesh) -> Option<u32> {
    lowest(0..m.halfedges.len(), |e| {
        let f = m.halfedges[e];
        let (a, b) = m.run(e);
        f != EMPTY && !(m.halfedges.get(f as usize) == Some(&(e as u32)) && m.run(f as usize) == (b, a))
    })
}

/// Rule 9: the lowest hull place whose site is none, stands earlier too, or has no unpaired half-edge to the next; where
/// all are sound the lowest unpaired half-edge that lies on no hull pair or shares a lower one's.
fn hull(m: &Mesh) -> Option<What> {
    let unpaired: Vec<usize> = (0..m.halfedges.len()).filter(|&e| m.halfedges[e] == EMPTY).collect();
    let runs: HashSet<(u32, u32)> = unpaired.iter().map(|&e| m.run(e)).collect();
    let h = m.hull.len();
    let mut earlier = HashSet::new();
    for i in 0..h {
        let s = m.hull[i];
        if s as usize >= m.count() || !earlier.insert(s) || !runs.contains(&(s, m.hull[(i + 1) % h])) {
            return Some(What::HullPlace(i as u32));
        }
    }
    let mut free: HashSet<(u32, u32)> = (0..h).map(|i| (m.hull[i], m.hull[(i + 1) % h])).collect();
    unpaired.into_iter().find(|&e| !free.remove(&m.run(e))).map(|e| What::HalfEdge(e as u32))
}

/// Rule 10: the lowest site with a half-edge ending there that is not reached from its leftmost one.
fn fan(m: &Mesh) -> Option<u32> {
    let ends = |e: usize| m.run(e).1;
    let mut leftmost: HashMap<u32, usize> = HashMap::new();
    for e in 0..m.triangles.len() {
        // Of a mesh that passed 9 at most one unpaired half-edge ends at a site.
        let kept = leftmost.entry(ends(e)).or_insert(e);
        if m.halfedges[e] == EMPTY {
            *kept = e;
        }
    }
    let mut reached = vec![false; m.triangles.len()];
    for &first in leftmost.values() {
        let mut e = first;
        while !reached[e] {
            reached[e] = true;
            match m.halfedges[next(e)] {
                EMPTY => break,
                f => e = f as usize,
            }
        }
    }
    (0..m.triangles.len()).filter(|&e| !reached[e]).map(ends).min()
}

/// The one reason, in the order that the request gives; `boxed` says that a box, where there is one, is sound, `outcome` is the build's where the mesh and the box are sound.
pub fn reason(m: &Mesh, boxed: bool, room: bool, q: &Question, outcome: Option<&Outcome>) -> Reason {
    let refused = |number, what| Reason { number, what };
    let alone = |number| refused(number, What::Alone);
    if !reference::counts_sound(m) {
        return alone(1);
    }
    if !room {
        return alone(2);
    }
    if !boxed {
        return alone(3);
    }
    if q.out_of_range(m) {
        return alone(4);
    }
    if let Some(s) = coordinate(m) {
        return refused(6, What::Site(s));
    }
    if let Some(t) = triangle(m) {
        return refused(7, What::Triangle(t));
    }
    if let Some(e) = pairing(m) {
        return refused(8, What::HalfEdge(e));
    }
    if let Some(what) = hull(m) {
        return refused(9, what);
    }
    if let Some(s) = fan(m) {
        return refused(10, What::Site(s));
    }
    match outcome.expect("a sound mesh is built, or refused by the builder") {
        Err(f) => match f.number {
            11 => refused(11, What::Triangle(f.place)),
            12 => refused(12, What::HullPlace(f.place)),
            n => refused(n, What::Edge(f.place, f.from, f.to)),
        },
        Ok(b) => Reason { number: 0, what: answer(m, b, q) },
    }
}

/// What was asked, of a mesh that builds.
fn answer(m: &Mesh, b: &reference::Build, q: &Question) -> What {
    let cells = b.plain();
    let first = q.first as usize;
    match q.asked {
        0 => What::NoFault,
        1 if !cells[first].is_empty() => What::NoFault,
        1 if m.triangles.contains(&q.first) => What::Nothing(q.first),
        1 => What::Unused(q.first),
        _ => {
            let neighbour = reference::neighbours(m, &b.leftmost, first).contains(&q.second);
            let listed = reference::clipped_neighbours(m, &b.leftmost, &cells, first).contains(&q.second);
            if neighbour && !listed {
                What::Dropped(reference::shared_entries(&cells[first], &cells[q.second as usize]) as u32)
            } else {
                What::NoFault
            }
        }
    }
}

/// A site and one of its neighbours, mostly the first or the last.
fn outer(r: &mut Rng, m: &Mesh, b: &reference::Build, s: u32) -> (u32, u32) {
    let list = reference::neighbours(m, &b.leftmost, s as usize);
    match list.len() {
        0 => (s, s),
        k if r.chance(2, 3) => (s, r.pick(&[list[0], list[k - 1]])),
        _ => (s, r.pick(&list)),
    }
}

/// Hull sites and their outer neighbours that share exactly one entry; the given pair where there are none.
fn nearly(m: &Mesh, b: &reference::Build, given: (u32, u32)) -> Vec<(u32, u32)> {
    let cells = b.plain();
    let mut list = Vec::new();
    for &s in &m.hull {
        let all = reference::neighbours(m, &b.leftmost, s as usize);
        for &o in [all.first(), all.last()].into_iter().flatten() {
            if reference::shared_entries(&cells[s as usize], &cells[o as usize]) == 1 {
                list.push((s, o));
            }
        }
    }
    if list.is_empty() {
        list.push(given);
    }
    list
}

/// A question of any kind; where the mesh builds often one whose answer is not "no fault".
pub fn question(r: &mut Rng, m: &Mesh, outcome: Option<&Outcome>) -> Question {
    let n = m.count().max(1);
    let any = |r: &mut Rng| r.below(n) as u32;
    let none = |r: &mut Rng| r.pick(&[n as u32, n as u32 + 1, EMPTY, EMPTY - 1]);
    let more = r.word() as u32;
    let asked = r.pick(&[0, 1, 1, 1, 2, 2, 2, 3, EMPTY, more]);
    let (mut first, mut second) = (any(r), any(r));
    if let Some(Ok(b)) = outcome {
        if asked == 1 && r.chance(1, 2) {
            let empty: Vec<usize> = (0..b.cells.len()).filter(|&s| b.cells[s].is_empty()).collect();
            if !empty.is_empty() {
                first = r.pick(&empty) as u32;
            }
        } else if asked > 1 {
            (first, second) = match r.below(8) {
                0 | 1 => (first, second),
                2 => r.pick(&nearly(m, b, (first, second))),
                3 | 4 => outer(r, m, b, first),
                _ => {
                    let s = r.pick(&m.hull);
                    outer(r, m, b, s)
                }
            };
        }
    }
    // A number that is no site: refused only where it is asked about.
    match r.below(20) {
        0 => first = none(r),
        1 => second = none(r),
        2 if asked == 0 => (first, second) = (none(r), none(r)),
        3 => second = first,
        _ => {}
    }
    Question { asked, first, second }
}

/// The reason for a mesh alone, as the program gives it; the Rust must agree with the build.
pub fn told(m: &Mesh, clip: Option<&Area>, q: &Question) -> Result<Reason, String> {
    let Some(area) = clip else {
        return Ok(Reason { number: 20, what: What::Alone });
    };
    if !form::fits(m) {
        return Ok(Reason { number: 17, what: What::Alone });
    }
    let boxed = reference::box_sound(area);
    let outcome = if boxed && Facts::of(m).accepted() { Some(build_both(m, &rust::Lent::new(m), area, &mut Tally::new())?) } else { None };
    Ok(reason(m, boxed, true, q, outcome.as_ref()))
}

/// The mesh of a case with several offenders of one rule, for one case in four.
pub fn worse(index: u64, c: &Case) -> Option<Mesh> {
    let r = &mut Rng::new(0x776f727365, index);
    let mut m = c.mesh.clone();
    (reference::counts_sound(&m) && r.chance(1, 4)).then(|| {
        damage::several(r, &mut m);
        m
    })
}

/// The call on a case and on what is worse, each with a question of its own.
pub fn ask(
    index: u64, c: &Case, facts: &Facts, outcome: Option<&Outcome>, calls: &mut Vec<Call>, tally: &mut Tally,
) -> Result<(), String> {
    let r = &mut Rng::new(0x776879, index);
    put(r, c, facts, outcome, calls, tally)?;
    let Some(mesh) = worse(index, c) else { return Ok(()) };
    let facts = Facts::of(&mesh);
    let built = facts.accepted() && reference::box_sound(&c.area);
    let outcome = if built { Some(build_both(&mesh, &rust::Lent::new(&mesh), &c.area, tally)?) } else { None };
    put(r, &Case { lengths: Lengths::exact(&mesh), mesh, ..c.clone() }, &facts, outcome.as_ref(), calls, tally)
}

pub fn put(
    r: &mut Rng, c: &Case, facts: &Facts, outcome: Option<&Outcome>, calls: &mut Vec<Call>, tally: &mut Tally,
) -> Result<(), String> {
    let m = &c.mesh;
    let q = question(r, m, outcome);
    let room = c.lengths.suffice(m);
    let reason = reason(m, reference::box_sound(&c.area), room, &q, outcome);

    // The number by the other reading, which knows no places; and what the words of the request say of an empty cell.
    let beside = Beside { room, area: Some(&c.area), site: None, to: None };
    let number = match (expect::mesh_number(m, facts, &beside), outcome) {
        (n @ 1..=3, _) => n,
        _ if q.out_of_range(m) => 4,
        (0, Some(Err(f))) => f.number,
        (n, _) => n,
    };
    if number != reason.number {
        return Err(format!("why: the number is {number}, the place says {reason:?} (asked {q:?})"));
    }
    if let (Some(Ok(b)), What::Unused(s) | What::Nothing(s)) = (outcome, reason.what) {
        if (b.tries[s as usize] > 0) != (reason.what == What::Nothing(s)) {
            return Err(format!("why: {reason:?} after {} tries", b.tries[s as usize]));
        }
    }
    tally.number("why", reason.number);
    if reason.number == 10 {
        tally.fan("why", fans::built_without(m, &reference::edges(&c.area)));
    }
    tally.reason(reason.row(), q.asked);
    let entry = Slices::fresh(&c.lengths);
    let exit = expect::built(reason.number, outcome, &entry);
    let call = Call::new("why").gives(reason.number).area(&c.area).mesh(m).number(q.asked).number(q.first).number(q.second);
    calls.push(reason.numbers().into_iter().fold(call.lent_slices(&entry, &exit), Call::gives));
    Ok(())
}
