//! Pieces to be audited: those of builds and of rectangles, sound ones and damaged ones, and such whose verdict is about to change.

use super::floats::{self, step};
use super::rng::Rng;
use super::{areas as boxes, meshes};
use crate::audit::{Case, Given};
use crate::edges;
use crate::mesh::{Area, Mesh, EMPTY};
use crate::reference::{self, Counts, Edges};
use crate::text::power;

/// Lists put together, with their offsets.
pub fn joined(lists: &[Vec<u32>]) -> (Vec<u32>, Vec<u32>) {
    let (mut offsets, mut all) = (vec![0], Vec::new());
    for list in lists {
        all.extend(list);
        offsets.push(all.len() as u32);
    }
    (offsets, all)
}

/// The pieces that the second reading of the rules builds (held to the Rust by the run on meshes), and each site's neighbours, before or after clipping.
pub fn built(r: &mut Rng) -> Option<Case> {
    let mesh = meshes::sound(r);
    let area = boxes::sound(r, &mesh);
    let given = if r.chance(1, 2) { Given::Size(area) } else { Given::Edges(edges::given(r, &area)) };
    if !given.sound() || !reference::coordinates_sound(&mesh.sites) {
        return None;
    }
    let build = reference::build_within(&mesh, given.edges(), &mut Counts::default()).ok()?;
    let cells = build.plain();
    let clipped = r.chance(1, 3);
    let around = |m: &Mesh, s: usize| match clipped {
        true => reference::clipped_neighbours(m, &build.leftmost, &cells, s),
        false => reference::neighbours(m, &build.leftmost, s),
    };
    let (starts, others) = joined(&(0..mesh.count()).map(|s| around(&mesh, s)).collect::<Vec<_>>());
    let (offsets, entries) = joined(&cells);
    let vertices = build.vertices.iter().flat_map(|p| [p.x, p.y]).collect();
    Some(Case { given, sites: mesh.sites, vertices, offsets, entries, starts, others, bits: 20, edge: None })
}

/// Rectangles that fill their box exactly, each round the site in its middle, held against those beside it; `unit` is half a rectangle's side.
pub fn rectangles(across: usize, down: usize, unit: f64) -> Case {
    let at = |x: usize, y: usize| (y * across + x) as u32;
    let (mut sites, mut cells, mut around) = (Vec::new(), Vec::new(), Vec::new());
    for (y, x) in (0..down).flat_map(|y| (0..across).map(move |x| (y, x))) {
        sites.extend([(2 * x + 1) as f64 * unit, (2 * y + 1) as f64 * unit]);
        let corner = |x: usize, y: usize| (y * (across + 1) + x) as u32;
        cells.push(vec![corner(x, y), corner(x, y + 1), corner(x + 1, y + 1), corner(x + 1, y)]);
        let beside = [(x.wrapping_sub(1), y), (x, y + 1), (x + 1, y), (x, y.wrapping_sub(1))];
        around.push(beside.into_iter().filter(|&(x, y)| x < across && y < down).map(|(x, y)| at(x, y)).collect::<Vec<u32>>());
    }
    let vertices = (0..=down).flat_map(|y| (0..=across).flat_map(move |x| [(2 * x) as f64 * unit, (2 * y) as f64 * unit])).collect();
    let (offsets, entries) = joined(&cells);
    let (starts, others) = joined(&around);
    let given = Given::Edges(Edges { left: 0.0, top: 0.0, right: (2 * across) as f64 * unit, bottom: (2 * down) as f64 * unit });
    Case { given, sites, vertices, offsets, entries, starts, others, bits: 20, edge: None }
}

/// Offsets or starts broken in one of the ways that rule 16 names, or merely moved.
fn broken(r: &mut Rng, offsets: &mut Vec<u32>, list: usize) {
    let place = r.below(offsets.len().max(1));
    match r.below(7) {
        0 => drop(offsets.pop()),
        1 => offsets.push(list as u32),
        2 => offsets.clear(),
        _ if offsets.is_empty() => {}
        3 => offsets[0] = 1,
        4 => offsets[place] = offsets[place].wrapping_sub(1),
        5 => offsets[place] = list as u32 + 1,
        _ => *offsets.last_mut().unwrap() = list as u32 + r.below(2) as u32,
    }
}

/// What is done to sound pieces, one thing.
pub fn damage(r: &mut Rng, c: &mut Case) {
    let n = c.count();
    let (some, any) = (r.below(n.max(1)), r.below(n.max(1)));
    let inner = |c: &Case, s: usize| match (c.offsets.get(s), c.offsets.get(s + 1)) {
        (Some(&a), Some(&b)) if a < b && b as usize <= c.entries.len() => a as usize..b as usize,
        _ => 0..0,
    };
    let ring = inner(c, some);
    let e = c.given.edges();
    match r.weighted(&[6, 3, 4, 3, 3, 3, 3, 2, 2, 2, 2, 2, 2, 2, 3, 3, 3, 2, 2]) {
        // a corner moved: by some steps, by some part of the box, anywhere in it, out of it
        0 if !c.vertices.is_empty() => {
            let named = if c.entries.is_empty() { 0 } else { c.entries[r.below(c.entries.len())] as usize };
            let k = (2 * named + r.below(2)).min(c.vertices.len() - 1);
            let (low, high) = if k % 2 == 0 { (e.left, e.right) } else { (e.top, e.bottom) };
            c.vertices[k] = match r.below(5) {
                0 => step(c.vertices[k], r.range(-3, 3)),
                1 => low + (high - low) * r.unit(),
                2 => high + (high - low) * power(-(r.below(56) as i32)),
                _ => c.vertices[k] + (high - low) * power(-(r.below(56) as i32)) * r.pick(&[1.0, -1.0]),
            };
        }
        // two entries exchanged, within a piece or between two
        1 if ring.len() > 1 => c.entries.swap(ring.start + r.below(ring.len()), ring.start + r.below(ring.len())),
        2 if c.entries.len() > 1 => {
            let (a, b) = (r.below(c.entries.len()), r.below(c.entries.len()));
            c.entries.swap(a, b);
        }
        3 => c.entries[ring].reverse(),
        // the first corner another one: no fault by itself
        4 if !ring.is_empty() => {
            let by = r.below(ring.len());
            c.entries[ring].rotate_left(by);
        }
        // a corner gone: the one before it stands there twice
        5 if ring.len() > 1 => c.entries[ring.start + 1] = c.entries[ring.start],
        // a piece gone: all its entries name one corner
        6 if !ring.is_empty() => {
            let first = c.entries[ring.start];
            c.entries[ring].fill(first);
        }
        // two rows of the list of sites exchanged
        7 if c.sites.len() > 1 => {
            c.sites.swap(2 * some, 2 * any);
            c.sites.swap(2 * some + 1, 2 * any + 1);
        }
        8 => {
            let list = c.entries.len();
            broken(r, &mut c.offsets, list);
        }
        9 => {
            let list = c.others.len();
            broken(r, &mut c.starts, list);
        }
        // an entry that names no vertex, at times past all pieces, where it is none
        10 => {
            let none = r.pick(&[c.vertices.len() as u32 / 2, c.vertices.len() as u32, EMPTY]);
            if c.entries.is_empty() || r.chance(1, 4) {
                c.entries.push(none);
            } else {
                let k = r.below(c.entries.len());
                c.entries[k] = none;
            }
        }
        11 => {
            let none = r.pick(&[n as u32, n as u32 + 1, EMPTY]);
            if c.others.is_empty() || r.chance(1, 4) {
                c.others.push(none);
            } else {
                let k = r.below(c.others.len());
                c.others[k] = none;
            }
        }
        // a corner out of bounds, at times one that no entry names
        12 if !c.vertices.is_empty() => {
            let k = r.below(c.vertices.len());
            c.vertices[k] = r.pick(&[f64::NAN, f64::INFINITY, f64::NEG_INFINITY, step(power(400), 1), -step(power(400), 1), power(400), -power(400), power(1023)]);
        }
        // counts: an odd list, too few sites, bits above 52
        13 => match r.below(5) {
            0 => c.sites.push(0.5),
            1 => c.vertices.push(0.5),
            2 => c.sites.truncate(r.below(7)),
            3 => c.vertices.truncate(r.below(c.vertices.len() + 1)),
            _ => c.bits = r.pick(&[53, 54, 60, 64, 1 << 20, EMPTY]),
        },
        // two sites at one place: one moved onto another
        14 if c.sites.len() > 1 => (c.sites[2 * some], c.sites[2 * some + 1]) = (c.sites[2 * any], c.sites[2 * any + 1]),
        // or one more, without a piece of its own, and at times another there too
        15 if c.sites.len() > 1 && c.sites.len() % 2 == 0 && c.offsets.len() == n + 1 => {
            for _ in 0..1 + r.below(2) {
                let same = |x: f64, r: &mut Rng| if x == 0.0 { r.pick(&[0.0, -0.0]) } else { x };
                let (x, y) = (same(c.sites[2 * some], r), same(c.sites[2 * some + 1], r));
                c.sites.extend([x, y]);
                c.offsets.push(*c.offsets.last().unwrap());
                if let Some(&last) = c.starts.last() {
                    c.starts.push(last);
                }
            }
        }
        // a site moved a little, or to where rule 6 refuses it
        16 if !c.sites.is_empty() => {
            let k = r.below(c.sites.len());
            c.sites[k] = match r.below(4) {
                0 => floats::refused(r),
                1 => floats::admitted(r),
                _ => c.sites[k] + (e.right - e.left) * power(-(r.below(40) as i32)),
            };
        }
        // a box that rule 3 refuses, or another sound one
        17 => {
            c.given = match r.below(4) {
                0 => Given::Size(boxes::refused(r)),
                1 => Given::Edges(Edges { right: r.pick(&[f64::NAN, e.left, step(2.0 * reference::LIMIT, 1)]), ..e }),
                2 => Given::Edges(Edges { left: step(e.left, r.range(-2, 2)), ..e }),
                _ => Given::Edges(Edges { bottom: e.bottom + (e.bottom - e.top) * power(-(r.below(56) as i32)), ..e }),
            };
        }
        // others of its own choice
        _ => c.others.iter_mut().for_each(|o| {
            if r.chance(1, 3) {
                *o = r.below(n.max(1)) as u32;
            }
        }),
    }
}

/// The place of a number in the order of the floats, and back.
fn order(x: f64) -> i64 {
    let magnitude = (x.to_bits() & !(1 << 63)) as i64;
    if x.is_sign_negative() { -magnitude } else { magnitude }
}
fn ordered(place: i64) -> f64 {
    let x = f64::from_bits(place.unsigned_abs());
    if place < 0 { -x } else { x }
}

/// A coordinate of a corner or of a site moved to where the verdict is about to change: of two neighbouring numbers, with another kind each, one. `told` has the
/// kind, `EMPTY` where it is refused; nothing is done where there are more than `most` sites.
pub fn to_an_edge(r: &mut Rng, c: &mut Case, most: usize, told: impl Fn(&Case) -> u32) {
    c.bits %= 53;
    if c.number() != 0 || c.entries.is_empty() || c.count() > most {
        return;
    }
    let corner = r.chance(2, 3);
    let k = if corner { 2 * c.entries[r.below(c.offsets[c.count()].max(1) as usize)] as usize + r.below(2) } else { r.below(c.sites.len()) };
    if corner && k >= c.vertices.len() {
        return;
    }
    let place = |c: &mut Case, x: f64| *(if corner { &mut c.vertices[k] } else { &mut c.sites[k] }) = x;
    let e = c.given.edges();
    let across = if k % 2 == 0 { e.right - e.left } else { e.bottom - e.top };
    let from = if corner { c.vertices[k] } else { c.sites[k] };
    let to = from + across * r.signed() * r.pick(&[1.0, 0.1, 4.0 * power(-(c.bits as i32))]);
    let mut kind = |x: f64| {
        place(c, x);
        told(c)
    };
    let mut ends = [(order(from), kind(from)), (order(to), kind(to))];
    if ends[0].1 == ends[1].1 || ends[0].1 == EMPTY || ends[1].1 == EMPTY {
        return;
    }
    while ends[0].0.abs_diff(ends[1].0) > 1 {
        let middle = ends[0].0 + (ends[1].0 - ends[0].0) / 2;
        let at = kind(ordered(middle));
        ends[if at == ends[0].1 { 0 } else { 1 }] = (middle, at);
    }
    place(c, ordered(ends[r.below(2)].0));
    c.edge = Some([ends[0].1, ends[1].1]);
}

impl Case {
    pub fn random(seed: u64, index: u64) -> Case {
        let r = &mut Rng::new(seed ^ 0x6175_6469_74, index);
        let unit = r.pick(&[1.0, 1.0, 1.0, 0.5, 10.0, 10.0, 0.1, 0.1, power(-538), power(-545), power(-1074), power(80)]);
        let built = if r.chance(1, 6) { None } else { built(r) };
        let mut c = built.unwrap_or_else(|| {
            let (across, down) = (1 + r.below(4), 3 + r.below(3));
            rectangles(across, down, unit)
        });
        c.bits = match r.below(4) {
            0 => 20,
            1 => r.below(61) as u32,
            _ => r.below(53) as u32,
        };
        match r.below(5) {
            0 | 1 => (c.starts, c.others) = (Vec::new(), Vec::new()),
            // all sites, listed
            2 => (c.starts, c.others) = joined(&vec![(0..c.count() as u32).collect(); c.count()]),
            _ => {}
        }
        for _ in 0..r.pick(&[0, 0, 1, 1, 1, 2, 2, 3, 5]) {
            damage(r, &mut c);
        }
        if r.chance(1, 6) {
            to_an_edge(r, &mut c, 16, |c| if c.number() == 0 { c.verdict().kind } else { EMPTY });
        }
        c
    }

    /// The limits of the counts, and the last site that stands where another does.
    pub fn limits() -> Vec<(&'static str, Case)> {
        let bare = |sites: usize, entries: usize| {
            let all = (0..2 * sites).map(|k| (k / 2 % 256 + k % 2 * (k / 512)) as f64).collect();
            let given = Given::Size(Area { x: 1.0, y: 1.0, width: 2.0, height: 2.0 });
            Case { given, sites: all, vertices: vec![0.0; 2], offsets: vec![0; sites + 1], entries: vec![0; entries], starts: Vec::new(), others: Vec::new(), bits: 0, edge: None }
        };
        let mut long = bare(3, 3);
        (long.starts, long.others) = (vec![0, 0, 0, (1 << 24) + 1], vec![2; (1 << 24) + 1]);
        let mut last = rectangles(128, 128, 1.0);
        let end = last.sites.len();
        last.sites[end - 2..].copy_from_slice(&[1.0, 1.0]);
        last.entries[16_383 * 4..].fill(0);
        last.bits = 10;
        vec![
            ("65,536 sites without a piece", bare(65_536, 0)),
            ("65,537 sites", bare(65_537, 0)),
            ("2 sites", bare(2, 0)),
            ("2^24 entries", bare(3, 1 << 24)),
            ("2^24 + 1 entries", bare(3, (1 << 24) + 1)),
            ("2^24 + 1 others", long),
            ("16,384 rectangles", rectangles(128, 128, 1.0)),
            ("16,384 rectangles, the last site where the first is", last),
        ]
    }
}
