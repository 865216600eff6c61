//! The certificate (docs/use/RULES.md, "Certificate"): a second reading of its words, with dictionaries of places and sides and with all pairs, and what the two calls owe.
//! generate/sheets.rs has the pieces that are asked about.

use crate::audit::{cuts, Case as Pieces, Given};
use crate::library::{Call, Difference, Library};
use crate::mesh::{Pt, EMPTY};
use crate::reference::{self, Edges};
use crate::tally;
use crate::text::power;
use std::collections::HashMap;

/// What is lent: pieces without lists of others, and so many words of work.
#[derive(Clone, Debug)]
pub struct Case {
    pub pieces: Pieces,
    pub work: usize,
}

/// The four numbers.
#[derive(Clone, Copy, Debug)]
pub struct Verdict {
    pub kind: u32,
    pub site: u32,
    pub vertex: u32,
    pub other: u32,
}

/// Beside a refusal, and where a kind names nothing.
const NONE: Verdict = Verdict { kind: EMPTY, site: EMPTY, vertex: EMPTY, other: EMPTY };

/// What work holds before the call.
const HELD: u32 = 0xc3c3_c3c3;

/// Equal coordinates are one place, and −0 is 0.
type Place = (u64, u64);
fn place(p: Pt) -> Place {
    ((p.x + 0.0).to_bits(), (p.y + 0.0).to_bits())
}

/// Whether both ends lie on the same edge of the box.
fn along(e: &Edges, p: Pt, q: Pt) -> bool {
    let both = |a: f64, b: f64, edge: f64| a == edge && b == edge;
    both(p.x, q.x, e.left) || both(p.x, q.x, e.right) || both(p.y, q.y, e.top) || both(p.y, q.y, e.bottom)
}

/// The room in words for N sites and a list of M entries.
pub fn room(sites: usize, entries: usize) -> usize {
    3 * entries + 2 * sites + 64
}

/// The sides of a piece: the vertex where each starts, and its two places.
fn sides(c: &Pieces, s: u32) -> Vec<(u32, Pt, Pt)> {
    let ring = c.piece(s);
    (0..ring.len()).map(|i| (ring[i], c.corner(ring[i]), c.corner(ring[(i + 1) % ring.len()]))).collect()
}

/// How often each side that is not along an edge comes, over all pieces.
fn counts(c: &Pieces, e: &Edges) -> HashMap<(Place, Place), u64> {
    let mut often = HashMap::new();
    for (_, p, q) in (0..c.count() as u32).flat_map(|s| sides(c, s)) {
        if !along(e, p, q) && place(p) != place(q) {
            *often.entry((place(p), place(q))).or_insert(0) += 1;
        }
    }
    often
}

/// The number of kind 3: sides along the top that start at the top right corner less those that end there.
fn leaving(c: &Pieces, e: &Edges) -> i64 {
    let top: Vec<(u32, Pt, Pt)> = (0..c.count() as u32).flat_map(|s| sides(c, s)).filter(|(_, p, q)| p.y == e.top && q.y == e.top).collect();
    let at = |x: f64| x == e.right;
    top.iter().filter(|(_, p, _)| at(p.x)).count() as i64 - top.iter().filter(|(_, _, q)| at(q.x)).count() as i64
}

/// Whether the corner v of the piece of s is nearer to o, in floats and in that order.
fn nearer(far: f64, s: Pt, v: Pt, o: Pt) -> bool {
    (o.x - s.x) * ((v.x - s.x) + (v.x - o.x)) + (o.y - s.y) * ((v.y - s.y) + (v.y - o.y)) > far * ((o.x - s.x).abs() + (o.y - s.y).abs())
}

/// The first fault of pieces that keep the rules.
pub fn verdict(c: &Pieces) -> Verdict {
    let e = c.given.edges();
    let sites = || 0..c.count() as u32;
    for site in sites() {
        if let Some(&vertex) = c.piece(site).iter().find(|&&v| !reference::inside(&e, c.corner(v))) {
            return Verdict { kind: 1, site, vertex, ..NONE };
        }
    }
    let often = counts(c, &e);
    let comes = |p: Pt, q: Pt| often.get(&(place(p), place(q))).copied().unwrap_or(0);
    for site in sites() {
        if let Some(&(vertex, _, _)) = sides(c, site).iter().find(|&&(_, p, q)| comes(p, q) > comes(q, p)) {
            return Verdict { kind: 2, site, vertex, ..NONE };
        }
    }
    if leaving(c, &e) != 1 {
        return Verdict { kind: 3, ..NONE };
    }
    let reach = [e.left, e.top, e.right, e.bottom].iter().fold(0.0, |most: f64, x| most.max(x.abs()));
    let far = reach * power(-(c.bits as i32));
    for site in sites() {
        for &vertex in c.piece(site) {
            if let Some(other) = sites().find(|&o| nearer(far, c.site(site), c.corner(vertex), c.site(o))) {
                return Verdict { kind: 4, site, vertex, other };
            }
        }
    }
    let mut first: HashMap<Place, u32> = HashMap::new();
    for site in sites() {
        let other = *first.entry(place(c.site(site))).or_insert(site);
        if other != site {
            return Verdict { kind: 5, site, other, ..NONE };
        }
    }
    Verdict { kind: 0, ..NONE }
}

impl Case {
    /// 1, 2, 3, 6, 16, 18, 24; 0 where all hold.
    pub fn number(&self) -> u32 {
        let c = &self.pieces;
        let n = c.count();
        if c.sites.len() % 2 != 0 || !(3..=65_536).contains(&n) || c.vertices.len() % 2 != 0 || c.bits > 52 || c.entries.len() > 1 << 24 {
            return 1;
        }
        if self.work < room(n, c.entries.len()) {
            return 2;
        }
        if !c.given.sound() {
            return 3;
        }
        if !reference::coordinates_sound(&c.sites) {
            return 6;
        }
        if !cuts(&c.offsets, n, c.entries.len()) {
            return 16;
        }
        let used = &c.entries[..c.offsets[n] as usize];
        if used.iter().any(|&v| v as usize >= c.vertices.len() / 2) {
            return 18;
        }
        let within = |x: f64| x.is_finite() && x.abs() <= power(400);
        if used.iter().map(|&v| c.corner(v)).all(|v| within(v.x) && within(v.y)) { 0 } else { 24 }
    }
}

const CALLS: [&str; 2] = ["certify", "certify_by_edges"];
const NUMBERS: [u32; 8] = [0, 1, 2, 3, 6, 16, 18, 24];
/// From and to how many bits there must be verdicts.
const BITS: [u32; 2] = [20, 52];

/// What must come up in a run, beside each number and each kind of each call, and each number of bits from 20 to 52.
const SEEN: [&str; 25] = [
    "pieces by cutting, certified", "pieces of a build, certified", "rectangles, certified", "a corner with two numbers, certified", "a corner at 0 and at -0, certified",
    "a side between equal places, certified", "a side twice each way, certified", "a piece of one or two entries, certified", "an entry past all pieces, certified",
    "a corner out of bounds that no entry names", "work longer than its room", "work one word short", "a refusal with the next one broken too", "1 and 2", "2 and 4", "3 and 4", "4 and 5",
    "3 with -1", "3 with 0", "3 with 2", "4 with another site that has no piece", "5 with three sites at one place", "5 with 0 and -0", "one step from 4 and another kind",
    "one step from 4 and another kind, 36 sites and more",
];
/// Likewise: one step of a coordinate away from a verdict of another kind.
const STEPS: [u32; 3] = [1, 2, 5];

/// How a case began.
#[derive(Clone, Copy, Debug, PartialEq)]
pub enum From {
    Cut,
    Build,
    Rectangles,
}

#[derive(Default)]
pub struct Seen {
    numbers: [[u64; NUMBERS.len()]; 2],
    kinds: [[u64; 6]; 2],
    seen: [u64; SEEN.len()],
    steps: [u64; STEPS.len()],
    bits: HashMap<u32, u64>,
}

impl Seen {
    fn at(&mut self, what: &str, holds: bool) {
        self.seen[SEEN.iter().position(|s| *s == what).unwrap()] += holds as u64;
    }

    fn refused(&mut self, case: &Case, number: u32) {
        let mut mended = case.clone();
        match number {
            1 => mended.pieces.bits = 32,
            2 => mended.work = room(case.pieces.count(), case.pieces.entries.len()),
            _ => return,
        }
        self.at("a refusal with the next one broken too", mended.number() > number);
        self.at("work one word short", number == 2 && case.work + 1 == mended.work);
    }

    fn note(&mut self, case: &Case, from: From, number: u32, v: &Verdict) {
        let c = &case.pieces;
        let call = c.given.call();
        self.numbers[call][NUMBERS.iter().position(|&k| k == number).unwrap()] += 1;
        if number != 0 {
            return self.refused(case, number);
        }
        self.kinds[call][v.kind as usize] += 1;
        *self.bits.entry(c.bits).or_insert(0) += 1;
        let e = c.given.edges();
        let used = &c.entries[..c.offsets[c.count()] as usize];
        let bare = |s: u32| c.piece(s).is_empty();
        for kind in c.edge.into_iter().flatten() {
            STEPS.iter().position(|&k| k == kind).into_iter().for_each(|k| self.steps[k] += 1);
            self.at("one step from 4 and another kind", kind == 4);
            self.at("one step from 4 and another kind, 36 sites and more", kind == 4 && c.count() >= 36);
        }
        self.at("a corner out of bounds that no entry names", c.vertices.iter().any(|x| !(x.abs() <= power(400))));
        self.at("work longer than its room", case.work > room(c.count(), c.entries.len()));
        match v.kind {
            0 => self.certified(c, from, used, &e),
            1 => self.at("1 and 2", counts(c, &e).iter().any(|(&(p, q), &k)| k > counts_of(c, &e, q, p))),
            2 => self.at("2 and 4", some_nearer(c, &e)),
            3 => {
                self.at("3 and 4", some_nearer(c, &e));
                [(-1, "3 with -1"), (0, "3 with 0"), (2, "3 with 2")].into_iter().for_each(|(k, name)| self.at(name, leaving(c, &e) == k));
            }
            4 => {
                self.at("4 with another site that has no piece", bare(v.other));
                let all: Vec<Place> = (0..c.count() as u32).map(|s| place(c.site(s))).collect();
                self.at("4 and 5", (1..all.len()).any(|s| all[..s].contains(&all[s])));
            }
            _ => {
                let (p, q) = (c.site(v.site), c.site(v.other));
                self.at("5 with three sites at one place", (0..c.count() as u32).filter(|&s| c.site(s) == p).count() > 2);
                self.at("5 with 0 and -0", p.x.to_bits() != q.x.to_bits() || p.y.to_bits() != q.y.to_bits());
            }
        }
    }

    fn certified(&mut self, c: &Pieces, from: From, used: &[u32], e: &Edges) {
        let mut of: HashMap<Place, Vec<u32>> = HashMap::new();
        used.iter().for_each(|&v| of.entry(place(c.corner(v))).or_default().push(v));
        let patterns = |v: &u32| (c.corner(*v).x.to_bits(), c.corner(*v).y.to_bits());
        self.at("pieces by cutting, certified", from == From::Cut);
        self.at("pieces of a build, certified", from == From::Build);
        self.at("rectangles, certified", from == From::Rectangles);
        self.at("a corner with two numbers, certified", of.values().any(|l| l.iter().any(|v| *v != l[0])));
        self.at("a corner at 0 and at -0, certified", of.values().any(|l| l.iter().any(|v| patterns(v) != patterns(&l[0]))));
        self.at("a side between equal places, certified", (0..c.count() as u32).any(|s| c.piece(s).len() > 1 && sides(c, s).iter().any(|(_, p, q)| place(*p) == place(*q))));
        self.at("a side twice each way, certified", counts(c, e).values().any(|&k| k > 1));
        self.at("a piece of one or two entries, certified", (0..c.count() as u32).any(|s| (1..3).contains(&c.piece(s).len())));
        self.at("an entry past all pieces, certified", used.len() < c.entries.len());
    }

    /// Prints what came up and gives what did not.
    pub fn report(&self) -> Vec<String> {
        let numbers = |call: usize| NUMBERS.iter().zip(self.numbers[call]).map(move |(n, count)| (format!("{} {n}", CALLS[call]), count));
        let kinds = |call: usize| self.kinds[call].iter().enumerate().map(move |(kind, &count)| (format!("{} kind {kind}", CALLS[call]), count));
        let rows = (0..CALLS.len()).flat_map(|call| numbers(call).chain(kinds(call)));
        let rows = rows.chain(SEEN.iter().zip(self.seen).map(|(name, count)| (name.to_string(), count)));
        let rows = rows.chain(STEPS.iter().zip(self.steps).map(|(kind, count)| (format!("one step from {kind} and another kind"), count)));
        let (count, least) = (BITS[0]..=BITS[1]).map(|b| (self.bits.get(&b).copied().unwrap_or(0), b)).min().unwrap();
        let rows = rows.chain([(format!("with {least} bits, the rarest of {} to {}", BITS[0], BITS[1]), count)]);
        tally::report("How often the certificates answered each number and each kind, and what came up", "the certificate", rows)
    }
}

fn counts_of(c: &Pieces, e: &Edges, p: Place, q: Place) -> u64 {
    counts(c, e).get(&(p, q)).copied().unwrap_or(0)
}

/// Whether a corner is nearer to another site by a tenth of the box, so that kind 4 would hold too.
fn some_nearer(c: &Pieces, e: &Edges) -> bool {
    let far = ((e.right - e.left) + (e.bottom - e.top)) / 10.0;
    (0..c.count() as u32).any(|s| c.piece(s).iter().any(|&v| (0..c.count() as u32).any(|o| nearer(far, c.site(s), c.corner(v), c.site(o)))))
}

/// One case put to the call that takes its box.
pub fn run_one(index: u64, case: &Case, from: From, library: &mut Library, seen: &mut Seen) -> Result<(), Difference> {
    let c = &case.pieces;
    let number = case.number();
    let v = if number == 0 { verdict(c) } else { NONE };
    seen.note(case, from, number, &v);
    let call = Call::new(CALLS[c.given.call()]).gives(number);
    let call = match &c.given {
        Given::Size(a) => call.area(a),
        Given::Edges(e) => call.edges(e),
    };
    let kept = matches!(number, 1 | 2 | 3 | 6);
    let (before, after) = (vec![HELD; case.work], vec![if kept { HELD } else { EMPTY }; case.work]);
    let call = call.floats(&c.sites).floats(&c.vertices).indexes(&c.offsets).indexes(&c.entries).number(c.bits).lent_indexes(&before, &after);
    library.put(index, [v.kind, v.site, v.vertex, v.other].into_iter().fold(call, Call::gives))
}

#[cfg(test)]
mod tests {
    use super::*;
    use crate::generate::pieces::rectangles;

    /// Four rectangles have kind 0; with two rings exchanged, turned, all turned, none, a corner outside, two sites at one place the kinds of the table.
    #[test]
    fn kinds() {
        let sound = rectangles(2, 2, 1.0);
        let of = |change: fn(&mut Pieces)| {
            let mut c = sound.clone();
            change(&mut c);
            let v = verdict(&c);
            (v.kind, v.site, v.vertex, v.other)
        };
        assert_eq!(of(|_| {}), (0, EMPTY, EMPTY, EMPTY));
        assert_eq!(of(|c| c.vertices[0] = -1.0), (1, 0, 0, EMPTY));
        assert_eq!(of(|c| c.entries[4..8].reverse()), (2, 0, 4, EMPTY));
        assert_eq!(of(|c| c.entries.chunks_mut(4).for_each(|ring| ring.reverse())), (3, EMPTY, EMPTY, EMPTY));
        assert_eq!(of(|c| c.offsets.fill(0)), (3, EMPTY, EMPTY, EMPTY));
        assert_eq!(of(|c| c.entries.rotate_left(4)), (4, 0, 5, 1));
        assert_eq!(of(|c| c.vertices[8] += 0.5), (4, 0, 4, 1));
        assert_eq!(of(|c| (c.sites.extend([1.0, 1.0]), c.offsets.push(16)).0), (5, 4, EMPTY, 0));
    }
}
