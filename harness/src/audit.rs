//! The audit (the request on it, and docs/use/RULES.md, "The audit"): a second reading from its words, and what the two calls owe. The areas are the exact ones of
//! src/areas.rs; nothing else is shared with it. generate/pieces.rs has the pieces that are asked about.

use crate::areas::Sum;
use crate::library::{Call, Difference, Library};
use crate::mesh::{pt, Area, Pt, EMPTY};
use crate::reference::{self, Edges};
use crate::tally;
use crate::text::power;
use std::collections::HashMap;

/// A box as it is given.
#[derive(Clone, Copy, Debug)]
pub enum Given {
    Size(Area),
    Edges(Edges),
}

impl Given {
    pub fn sound(&self) -> bool {
        match self {
            Given::Size(a) => reference::box_sound(a),
            Given::Edges(e) => reference::edges_sound(e),
        }
    }
    pub fn edges(&self) -> Edges {
        match self {
            Given::Size(a) => reference::edges(a),
            Given::Edges(e) => *e,
        }
    }
    pub fn call(&self) -> usize {
        matches!(self, Given::Edges(_)) as usize
    }
}

/// Everything that is lent to be read.
#[derive(Clone, Debug)]
pub struct Case {
    pub given: Given,
    pub sites: Vec<f64>,
    pub vertices: Vec<f64>,
    pub offsets: Vec<u32>,
    pub entries: Vec<u32>,
    pub starts: Vec<u32>,
    pub others: Vec<u32>,
    pub bits: u32,
    /// The kinds on either side of a number that stands where the verdict changes; `EMPTY` for a refusal.
    pub edge: Option<[u32; 2]>,
}

/// The five numbers.
#[derive(Clone, Copy, Debug)]
pub struct Verdict {
    pub kind: u32,
    pub site: u32,
    pub vertex: u32,
    pub other: u32,
    pub missing: f64,
}

/// Beside a refusal.
const REFUSED: Verdict = Verdict { kind: EMPTY, site: EMPTY, vertex: EMPTY, other: EMPTY, missing: 0.0 };

/// Rule 16: one more than sites, from 0, not falling, not past the list's end.
pub fn cuts(offsets: &[u32], sites: usize, list: usize) -> bool {
    offsets.len() == sites + 1 && offsets[0] == 0 && offsets.windows(2).all(|w| w[0] <= w[1]) && offsets[sites] as usize <= list
}

/// Twice the box's area times 2^times, exact: (r - l) (b - t) multiplied out.
fn add_box(sum: &mut Sum, e: &Edges, times: usize, off: bool) {
    sum.add(e.right, e.bottom, times + 1, off);
    sum.add(e.right, e.top, times + 1, !off);
    sum.add(e.left, e.bottom, times + 1, !off);
    sum.add(e.left, e.top, times + 1, off);
}

/// Whether the triangle's area is below minus the limit, the box's area over 2^bits.
fn turns_over(triangle: [Pt; 3], e: &Edges, bits: u32) -> bool {
    let mut sum = Sum::new();
    sum.ring(&triangle, bits as usize, false);
    add_box(&mut sum, e, 0, false);
    sum.sign() < 0
}

/// Whether the corner v of the piece of s is nearer to o, by more than the tolerance: in floats and in that order.
fn nearer(e: &Edges, bits: u32, s: Pt, v: Pt, o: Pt) -> bool {
    let beyond = (o.x - s.x) * ((v.x - s.x) + (v.x - o.x)) + (o.y - s.y) * ((v.y - s.y) + (v.y - o.y));
    let (across, down) = (e.right - e.left, e.bottom - e.top);
    beyond > ((across + down) * power(-(bits as i32))) * ((o.x - s.x).abs() + (o.y - s.y).abs())
}

impl Case {
    pub fn count(&self) -> usize {
        self.sites.len() / 2
    }
    pub fn site(&self, s: u32) -> Pt {
        pt(self.sites[2 * s as usize], self.sites[2 * s as usize + 1])
    }
    pub fn corner(&self, v: u32) -> Pt {
        pt(self.vertices[2 * v as usize], self.vertices[2 * v as usize + 1])
    }
    pub fn piece(&self, s: u32) -> &[u32] {
        &self.entries[self.offsets[s as usize] as usize..self.offsets[s as usize + 1] as usize]
    }
    fn ring(&self, s: u32) -> Vec<Pt> {
        self.piece(s).iter().map(|&v| self.corner(v)).collect()
    }
    fn listed(&self) -> bool {
        !(self.starts.is_empty() && self.others.is_empty())
    }
    /// The sites that the piece of s is held against.
    fn against(&self, s: u32) -> Vec<u32> {
        if self.listed() {
            self.others[self.starts[s as usize] as usize..self.starts[s as usize + 1] as usize].to_vec()
        } else {
            (0..self.count() as u32).collect()
        }
    }

    /// 1, 3, 6, 16 on the offsets and on the starts, 18 on the entries and on the others, 24; 0 where all hold.
    pub fn number(&self) -> u32 {
        let n = self.count();
        let named = |list: &[u32], cut: &[u32], below: usize| list[..cut[n] as usize].iter().all(|&i| (i as usize) < below);
        if self.sites.len() % 2 != 0 || !(3..=65_536).contains(&n) || self.vertices.len() % 2 != 0 || self.bits > 52 || self.entries.len() > 1 << 24 {
            return 1;
        }
        if !self.given.sound() {
            return 3;
        }
        if !reference::coordinates_sound(&self.sites) {
            return 6;
        }
        if !cuts(&self.offsets, n, self.entries.len()) || self.listed() && !cuts(&self.starts, n, self.others.len()) {
            return 16;
        }
        if !named(&self.entries, &self.offsets, self.vertices.len() / 2) || self.listed() && !named(&self.others, &self.starts, n) {
            return 18;
        }
        let within = |x: f64| x.is_finite() && x.abs() <= power(400);
        let all = self.entries[..self.offsets[n] as usize].iter().map(|&v| self.corner(v)).all(|v| within(v.x) && within(v.y));
        if all { 0 } else { 24 }
    }

    /// The five numbers where nothing is refused.
    pub fn verdict(&self) -> Verdict {
        let e = self.given.edges();
        let sites = || 0..self.count() as u32;
        let found = Verdict { missing: self.missing(&e), ..REFUSED };
        // 1: one of the triangles v0 vi vi+1 or v0 v1 vi+1
        for site in sites() {
            let v = self.ring(site);
            let folds = |i: usize| turns_over([v[0], v[i], v[i + 1]], &e, self.bits) || turns_over([v[0], v[1], v[i + 1]], &e, self.bits);
            if (1..v.len().max(2) - 1).any(folds) {
                return Verdict { kind: 1, site, ..found };
            }
        }
        // 2: a corner outside
        for site in sites() {
            if let Some(&vertex) = self.piece(site).iter().find(|&&v| !reference::inside(&e, self.corner(v))) {
                return Verdict { kind: 2, site, vertex, ..found };
            }
        }
        // 3: a corner nearer to another site
        for site in sites() {
            let against = self.against(site);
            for &vertex in self.piece(site) {
                let beyond = |o: &&u32| nearer(&e, self.bits, self.site(site), self.corner(vertex), self.site(**o));
                if let Some(&other) = against.iter().find(beyond) {
                    return Verdict { kind: 3, site, vertex, other, ..found };
                }
            }
        }
        // 4: the total
        if self.differs(&e) {
            return Verdict { kind: 4, ..found };
        }
        // 5: two sites at one place; -0 is 0
        let mut first: HashMap<(u64, u64), u32> = HashMap::new();
        for site in sites() {
            let p = self.site(site);
            let other = *first.entry(((p.x + 0.0).to_bits(), (p.y + 0.0).to_bits())).or_insert(site);
            if other != site {
                return Verdict { kind: 5, site, other, ..found };
            }
        }
        Verdict { kind: 0, ..found }
    }

    /// The box less the sum, rounded once, over the box rounded once.
    fn missing(&self, e: &Edges) -> f64 {
        let (mut left, mut whole) = (Sum::new(), Sum::new());
        add_box(&mut left, e, 0, false);
        add_box(&mut whole, e, 0, false);
        (0..self.count() as u32).for_each(|s| left.ring(&self.ring(s), 0, true));
        left.half() / whole.half()
    }

    /// Whether |box - sum| 2^bits is above the box: one of (box - sum) 2^bits - box and (sum - box) 2^bits - box is above 0.
    fn differs(&self, e: &Edges) -> bool {
        [false, true].into_iter().any(|off| {
            let mut sum = Sum::new();
            add_box(&mut sum, e, self.bits as usize, off);
            (0..self.count() as u32).for_each(|s| sum.ring(&self.ring(s), self.bits as usize, !off));
            add_box(&mut sum, e, 0, true);
            sum.sign() > 0
        })
    }
}

const CALLS: [&str; 2] = ["audit", "audit_by_edges"];
const NUMBERS: [u32; 7] = [0, 1, 3, 6, 16, 18, 24];

/// What must come up in a run, beside each number and each kind of each call.
const SEEN: [&str; 23] = [
    "16 by the starts alone", "18 by the others alone", "starts without others", "others without starts", "an entry past all pieces", "a corner out of bounds that no entry names",
    "a refusal with the next ones broken too", "held against all sites", "held against lists", "a kind with later ones too", "missing exactly 0, pieces there", "missing below 0",
    "missing by less than the tolerance, not 0", "missing that is no number or not finite", "a place shared by three sites", "0 and -0 at one place", "a piece of one or two entries", "bits 52",
    "one step from 1 and another kind", "one step from 2 and another kind", "one step from 3 and another kind", "one step from 4 and another kind", "one step from 5 and another kind",
];

#[derive(Default)]
pub struct Seen {
    numbers: [[u64; NUMBERS.len()]; 2],
    kinds: [[u64; 6]; 2],
    seen: [u64; SEEN.len()],
}

impl Seen {
    fn at(&mut self, what: &str, holds: bool) {
        self.seen[SEEN.iter().position(|s| *s == what).unwrap()] += holds as u64;
    }

    fn note(&mut self, c: &Case, number: u32, v: &Verdict) {
        let (n, call) = (c.count(), c.given.call());
        self.numbers[call][NUMBERS.iter().position(|&k| k == number).unwrap()] += 1;
        let counts = Case { bits: 0, ..c.clone() };
        match number {
            16 => self.at("16 by the starts alone", cuts(&c.offsets, n, c.entries.len())),
            18 => self.at("18 by the others alone", c.entries[..c.offsets[n] as usize].iter().all(|&e| (e as usize) < c.vertices.len() / 2)),
            1 => self.at("a refusal with the next ones broken too", c.bits > 52 && counts.number() != 0),
            _ => {}
        }
        self.at("starts without others", !c.starts.is_empty() && c.others.is_empty());
        self.at("others without starts", c.starts.is_empty() && !c.others.is_empty());
        if number != 0 {
            return;
        }
        self.kinds[call][v.kind as usize] += 1;
        self.at("an entry past all pieces", c.entries[c.offsets[n] as usize..].iter().any(|&e| e as usize >= c.vertices.len() / 2));
        self.at("a corner out of bounds that no entry names", c.vertices.iter().any(|x| !(x.abs() <= power(400))));
        self.at("held against all sites", !c.listed());
        self.at("held against lists", c.listed());
        self.at("missing exactly 0, pieces there", v.missing == 0.0 && !c.entries.is_empty());
        self.at("missing below 0", v.missing < 0.0);
        self.at("missing by less than the tolerance, not 0", v.kind == 0 && v.missing != 0.0);
        self.at("missing that is no number or not finite", !v.missing.is_finite());
        self.at("a piece of one or two entries", (0..n as u32).any(|s| (1..3).contains(&c.piece(s).len())));
        self.at("bits 52", c.bits == 52);
        for kind in c.edge.into_iter().flatten().filter(|kind| (1..=5).contains(kind)) {
            self.at(&format!("one step from {kind} and another kind"), true);
        }
        let differs = v.kind < 4 && v.kind > 0 && c.differs(&c.given.edges());
        self.at("a kind with later ones too", differs);
        if v.kind == 5 {
            let (p, q) = (c.site(v.site), c.site(v.other));
            self.at("a place shared by three sites", (0..n as u32).filter(|&s| c.site(s) == p).count() > 2);
            self.at("0 and -0 at one place", p.x.to_bits() != q.x.to_bits() || p.y.to_bits() != q.y.to_bits());
        }
    }

    /// Prints what came up and gives what did not.
    pub fn report(&self) -> Vec<String> {
        let numbers = |call: usize| NUMBERS.iter().zip(self.numbers[call]).map(move |(n, count)| (format!("{} {n}", CALLS[call]), count));
        let kinds = |call: usize| self.kinds[call].iter().enumerate().map(move |(kind, &count)| (format!("{} kind {kind}", CALLS[call]), count));
        let rows = (0..CALLS.len()).flat_map(|call| numbers(call).chain(kinds(call)));
        let rows = rows.chain(SEEN.iter().zip(self.seen).map(|(name, count)| (name.to_string(), count)));
        tally::report("How often the audits answered each number and each kind, and what came up", "the audit", rows)
    }
}

/// One case put to the call that takes its box.
pub fn run_one(index: u64, c: &Case, library: &mut Library, seen: &mut Seen) -> Result<(), Difference> {
    let number = c.number();
    let v = if number == 0 { c.verdict() } else { REFUSED };
    seen.note(c, number, &v);
    let call = Call::new(CALLS[c.given.call()]).gives(number);
    let call = match &c.given {
        Given::Size(a) => call.area(a),
        Given::Edges(e) => call.edges(e),
    };
    let call = call.floats(&c.sites).floats(&c.vertices).indexes(&c.offsets).indexes(&c.entries).indexes(&c.starts).indexes(&c.others).number(c.bits);
    library.put(index, [v.kind, v.site, v.vertex, v.other].into_iter().fold(call, Call::gives).gives_some_float(v.missing))
}
