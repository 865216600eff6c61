//! Pieces to be certified: by cutting, of builds and of rectangles; as they are, changed so that they stay the true ones, damaged, and such whose verdict is about to change.

use super::pieces::{built, damage, joined, rectangles, to_an_edge};
use super::rng::Rng;
use super::{areas as boxes, meshes};
use crate::audit::{Case as Pieces, Given};
use crate::certify::{room, verdict, Case, From};
use crate::mesh::{Area, EMPTY};
use crate::reference::{self, Edges};
use crate::text::power;
use crate::{cut, edges};

/// The pieces that the second reading of the rules cuts.
fn cut_pieces(r: &mut Rng) -> Option<Pieces> {
    let mesh = meshes::sound(r);
    let area = boxes::sound(r, &mesh);
    let given = if r.chance(1, 2) { Given::Size(area) } else { Given::Edges(edges::given(r, &area)) };
    if !given.sound() || !reference::coordinates_sound(&mesh.sites) || reference::topology(&mesh) != 0 {
        return None;
    }
    let made = cut::pieces(&mesh, &given.edges(), &reference::leftmost(&mesh)).ok()?;
    let (offsets, entries) = joined(&made.cells);
    let vertices = made.vertices.iter().flat_map(|p| [p.x, p.y]).collect();
    Some(Pieces { given, sites: mesh.sites, vertices, offsets, entries, starts: Vec::new(), others: Vec::new(), bits: 32, edge: None })
}

/// One thing done to sound rings.
fn change(r: &mut Rng, c: &mut Pieces) {
    let n = c.count();
    let mut rings: Vec<Vec<u32>> = (0..n as u32).map(|s| c.piece(s).to_vec()).collect();
    let (some, any) = (r.below(n), r.below(n));
    let corners = c.vertices.len() as u32 / 2;
    let at = r.below(rings[some].len().max(1));
    let named = !rings[some].is_empty();
    // a vertex of its own at the place of an entry; 0 and −0 are one
    let twin = |r: &mut Rng, c: &mut Pieces, v: u32| {
        let p = c.corner(v);
        let zero = |x: f64, r: &mut Rng| if x == 0.0 { r.pick(&[0.0, -0.0]) } else { x };
        let (x, y) = (zero(p.x, r), zero(p.y, r));
        c.vertices.extend([x, y]);
        c.vertices.len() as u32 / 2 - 1
    };
    match r.weighted(&[4, 3, 3, 3, 2, 2, 2, 2, 1, 1, 1, 3, 3, 2, 2, 2]) {
        // another number for the same place: still the true pieces
        0 if named => rings[some][at] = twin(r, c, rings[some][at]),
        // the same for every entry of a ring
        1 if named => rings[some] = rings[some].clone().into_iter().map(|v| twin(r, c, v)).collect(),
        // a corner named again: a side between equal places
        2 if named => {
            let again = rings[some][at];
            rings[some].insert(at, again);
        }
        // a spike from a corner to another and back, which cancels by itself
        3 if named => {
            let (v, w) = (rings[some][at], if r.chance(1, 2) { rings[some][r.below(rings[some].len())] } else { r.below(corners as usize) as u32 });
            rings[some].splice(at..at, [v, w]);
        }
        // another number for the same place, moved: that piece alone is another one
        4 if named => {
            let v = twin(r, c, rings[some][at]);
            let (e, k) = (c.given.edges(), 2 * v as usize + r.below(2));
            let across = if k % 2 == 0 { e.right - e.left } else { e.bottom - e.top };
            c.vertices[k] += across * power(-(r.below(60) as i32)) * r.pick(&[1.0, -1.0]);
            rings[some][at] = v;
        }
        5 => rings.swap(some, any),
        // a lap, and another piece gone; at times one of the same kind
        6 => {
            let again = rings[some].clone();
            rings[some].extend(again);
            if some != any {
                rings[any].clear();
            }
        }
        // one gets the other's ground too, as one list
        7 if some != any => {
            let more = std::mem::take(&mut rings[any]);
            let first = more.first().copied();
            rings[some].extend(more);
            rings[some].extend(first);
        }
        8 => rings.iter_mut().for_each(|ring| ring.reverse()),
        9 => rings.iter_mut().for_each(|ring| ring.extend(ring.clone())),
        10 => rings.iter_mut().for_each(Vec::clear),
        // a gauge more, without a piece
        11 => {
            let e = c.given.edges();
            c.sites.extend([e.left + (e.right - e.left) * (1.5 * r.unit() - 0.25), e.top + (e.bottom - e.top) * (1.5 * r.unit() - 0.25)]);
            rings.push(Vec::new());
        }
        // or far off, or at the place of another, which is no fault of the pieces
        12 => {
            let e = c.given.edges();
            let far = pick_far(r, e.right + 3.0 * (e.right - e.left));
            let at = if r.chance(1, 2) { [far, e.top] } else { [c.sites[2 * some], c.sites[2 * some + 1]] };
            c.sites.extend(at.map(|x| if x == 0.0 { r.pick(&[0.0, -0.0]) } else { x }));
            rings.push(Vec::new());
        }
        // a corner put on a side: in every ring that has the side, or in one alone
        13 if rings[some].len() > 1 => {
            let (v, w) = (rings[some][at], rings[some][(at + 1) % rings[some].len()]);
            let (p, q) = (c.corner(v), c.corner(w));
            c.vertices.extend([p.x + (q.x - p.x) / 2.0, p.y + (q.y - p.y) / 2.0]);
            let alone = r.chance(1, 3);
            for (s, ring) in rings.iter_mut().enumerate() {
                let ends = ring.clone();
                let side = (0..ends.len()).find(|&i| (ends[i], ends[(i + 1) % ends.len()]) == (v, w) || (ends[i], ends[(i + 1) % ends.len()]) == (w, v));
                if let (Some(i), true) = (side, !alone || s == some) {
                    ring.insert(i + 1, corners);
                }
            }
        }
        // an entry past all pieces: told below
        14 => c.entries.push(r.pick(&[0, corners, EMPTY])),
        // a gauge mirrored at a corner of a piece, which is as near to both, with that corner alone for a piece: no fault where it is a corner of the box
        15 if named => {
            let (e, p) = (c.given.edges(), c.site(some as u32));
            let of_box = |v: &&u32| reference::corners(&e).iter().any(|q| q.x == c.corner(**v).x && q.y == c.corner(**v).y);
            let v = *rings[some].iter().find(of_box).unwrap_or(&rings[some][at]);
            let q = c.corner(v);
            c.sites.extend([2.0 * q.x - p.x, 2.0 * q.y - p.y]);
            rings.push(vec![v; 1 + r.below(2)]);
        }
        _ => {}
    }
    let past = c.entries[c.offsets[n] as usize..].to_vec();
    (c.offsets, c.entries) = joined(&rings);
    c.entries.extend(past);
}

/// All moved, so that one of the sites has 0 for a coordinate.
fn shift(c: &mut Pieces, x: f64, y: f64) {
    for list in [&mut c.sites, &mut c.vertices] {
        list.chunks_mut(2).for_each(|p| (p[0], p[1]) = (p[0] - x, p[1] - y));
    }
    let e = c.given.edges();
    c.given = Given::Edges(Edges { left: e.left - x, top: e.top - y, right: e.right - x, bottom: e.bottom - y });
}

fn pick_far(r: &mut Rng, x: f64) -> f64 {
    if r.chance(1, 2) { x } else { power(99) }
}

impl Case {
    pub fn random(seed: u64, index: u64) -> (Case, From) {
        let r = &mut Rng::new(seed ^ 0x6365_7274_6966_79, index);
        let unit = r.pick(&[1.0, 1.0, 1.0, 0.5, 10.0, 10.0, 0.1, 0.1, power(-538), power(-545), power(-1074), power(80)]);
        let made = match r.below(10) {
            0..=4 => cut_pieces(r).map(|c| (c, From::Cut)),
            5 | 6 => built(r).map(|c| (c, From::Build)),
            _ => None,
        };
        let (mut c, from) = made.unwrap_or_else(|| {
            // a few, or so many that a search leaves most of them out
            let (across, down) = if r.chance(1, 8) { (6 + r.below(7), 6 + r.below(7)) } else { (1 + r.below(4), 3 + r.below(3)) };
            let mut c = rectangles(across, down, unit);
            if r.chance(1, 2) {
                shift(&mut c, (2 * r.below(across) + 1) as f64 * unit, (2 * r.below(down) + 1) as f64 * unit);
            }
            (c, From::Rectangles)
        });
        (c.starts, c.others) = (Vec::new(), Vec::new());
        c.bits = match r.below(8) {
            0 => 32,
            1 => r.below(61) as u32,
            _ => 20 + r.below(33) as u32,
        };
        let sound = |c: &Pieces| Case { pieces: c.clone(), work: usize::MAX }.number() == 0;
        for _ in 0..r.pick(&[0, 0, 1, 1, 2, 3]) {
            if sound(&c) {
                change(r, &mut c);
            }
        }
        for _ in 0..r.pick(&[0, 0, 0, 1, 1, 2]) {
            damage(r, &mut c);
            (c.starts, c.others) = (Vec::new(), Vec::new());
        }
        if r.chance(1, if c.count() > 32 { 2 } else { 6 }) {
            to_an_edge(r, &mut c, 160, |c| if sound(c) { verdict(c).kind } else { EMPTY });
        }
        let exact = room(c.count(), c.entries.len());
        let work = match r.below(24) {
            0 => exact - 1,
            1 => r.below(exact),
            2..=5 => exact + 1 + r.below(9),
            _ => exact,
        };
        (Case { pieces: c, work }, from)
    }

    /// The limits of the counts, and many pieces.
    pub fn limits() -> Vec<(&'static str, Case)> {
        let bare = |sites: usize, entries: usize, short: usize| {
            let all = (0..2 * sites).map(|k| (k / 2 % 256 + k % 2 * (k / 512)) as f64).collect();
            let given = Given::Size(Area { x: 1.0, y: 1.0, width: 2.0, height: 2.0 });
            let pieces = Pieces { given, sites: all, vertices: vec![0.0; 2], offsets: vec![0; sites + 1], entries: vec![0; entries], starts: Vec::new(), others: Vec::new(), bits: 0, edge: None };
            Case { pieces, work: room(sites, entries) - short }
        };
        let many = |moved: bool| {
            let mut pieces = rectangles(64, 64, 1.0);
            (pieces.starts, pieces.others) = (Vec::new(), Vec::new());
            if moved {
                let end = pieces.sites.len();
                pieces.sites[end - 2..].copy_from_slice(&[1.0, 1.0]);
            }
            Case { work: room(pieces.count(), pieces.entries.len()), pieces }
        };
        vec![
            ("65,536 sites without a piece", bare(65_536, 0, 0)),
            ("65,536 sites, a word short", bare(65_536, 0, 1)),
            ("65,537 sites", bare(65_537, 0, 0)),
            ("2 sites", bare(2, 0, 0)),
            ("2^24 + 1 entries", bare(3, (1 << 24) + 1, 3 << 24)),
            ("2^24 entries, short", bare(3, 1 << 24, 3 << 24)),
            ("4,096 rectangles", many(false)),
            ("4,096 rectangles, the last site where the first is", many(true)),
        ]
    }
}
