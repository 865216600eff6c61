//! Pieces by cutting: what the calls owe by the words of docs/use/RULES.md ("Pieces by cutting"), read a second time with whole lists. The Rust has no
//! such call; what is held here to the words alone is held to the box too: the exact areas of the pieces add up to the box's.

use crate::areas::Sum;
use crate::cases::Case;
use crate::edges;
use crate::expect::{self, Beside, Facts, Lengths, Slices};
use crate::fans;
use crate::generate::rng::Rng;
use crate::library::Call;
use crate::mesh::{cut_index_room, cut_vertex_room, next, pt, Mesh, Pt, EMPTY};
use crate::reference::{self, Edges};
use crate::tally::Tally;

#[derive(Clone, Copy, Debug, PartialEq)]
enum Side {
    Left,
    Top,
    Right,
    Bottom,
}
use Side::*;

impl Side {
    fn of(self, e: &Edges) -> f64 {
        match self {
            Left => e.left,
            Top => e.top,
            Right => e.right,
            Bottom => e.bottom,
        }
    }
    /// The coordinate along the side, and the one across it.
    fn split(self, p: Pt) -> (f64, f64) {
        match self {
            Left | Right => (p.y, p.x),
            Top | Bottom => (p.x, p.y),
        }
    }
    /// The place on the side that is t along it.
    fn place(self, e: &Edges, t: f64) -> Pt {
        match self {
            Left | Right => pt(self.of(e), t),
            Top | Bottom => pt(t, self.of(e)),
        }
    }
}

/// What the edge from a corner lies on.
#[derive(Clone, Copy, Debug)]
enum On {
    Bisector(u32, u32),
    Along(Side),
    Infinity,
}

#[derive(Clone, Copy, Debug)]
struct Corner {
    place: Pt,
    /// At infinity: the direction.
    toward: Option<Pt>,
    /// The triangle of a circumcenter, or `EMPTY`.
    number: u32,
    on: On,
}

fn within(e: &Edges, s: Side, p: &Corner) -> bool {
    let side = s.of(e);
    let low = s == Left || s == Top;
    let d = p.toward.map_or(0.0, |d| s.split(d).1);
    let x = s.split(p.place).1;
    if d != 0.0 {
        (d > 0.0) == low
    } else if low {
        side <= x
    } else {
        x <= side
    }
}

/// Whether the line at infinity from d to f passes the lower end of the left side.
fn passes_down(d: Pt, f: Pt) -> bool {
    if d.x == 0.0 {
        d.y > 0.0
    } else if f.x == 0.0 {
        f.y > 0.0
    } else if d.y >= 0.0 && f.y >= 0.0 {
        d.y > 0.0 || f.y > 0.0
    } else {
        f.x.abs() * d.y + d.x.abs() * f.y > 0.0
    }
}

/// How far along a side a corner lies; at infinity without end, but where its direction has nothing along the side.
fn reach(s: Side, p: &Corner) -> f64 {
    match p.toward.map_or(0.0, |d| s.split(d).0) {
        d if d > 0.0 => f64::INFINITY,
        d if d < 0.0 => f64::NEG_INFINITY,
        _ => s.split(p.place).0,
    }
}

/// Where the bisector of two sites crosses a side, between a corner within it and one that is not.
fn bisector(m: &Mesh, e: &Edges, s: Side, a: u32, b: u32, inner: &Corner, outer: &Corner) -> f64 {
    let (low, high) = (m.site(a.min(b) as usize), m.site(a.max(b) as usize));
    let ((la, lc), (ha, hc)) = (s.split(low), s.split(high));
    let t = if ha - la == 0.0 {
        s.split(if inner.toward.is_some() { outer.place } else { inner.place }).0
    } else {
        let middle = |x: f64, y: f64| x + (y - x) / 2.0;
        middle(la, ha) - (s.of(e) - middle(lc, hc)) * ((hc - lc) / (ha - la))
    };
    let (x, y) = (reach(s, inner), reach(s, outer));
    let (least, most) = if x < y { (x, y) } else { (y, x) };
    if !(t >= least) {
        least
    } else if t > most {
        most
    } else {
        t
    }
}

/// Where the edge from p to q crosses a side; the edge from there on lies on `on`.
fn crossing(m: &Mesh, e: &Edges, s: Side, p: &Corner, q: &Corner, on: On) -> Corner {
    let near = |t| Corner { place: s.place(e, t), toward: None, number: EMPTY, on };
    let far = |d| Corner { place: s.place(e, 0.0), toward: Some(d), number: EMPTY, on };
    match p.on {
        On::Bisector(a, b) if within(e, s, p) => near(bisector(m, e, s, a, b, p, q)),
        On::Bisector(a, b) => near(bisector(m, e, s, a, b, q, p)),
        On::Along(other) => near(other.of(e)),
        On::Infinity => far(match s {
            Left if !passes_down(p.toward.unwrap(), q.toward.unwrap()) => pt(0.0, -1.0),
            Left | Right => pt(0.0, 1.0),
            Top | Bottom => pt(1.0, 0.0),
        }),
    }
}

/// A ring cut by one side.
fn cut(m: &Mesh, e: &Edges, s: Side, ring: &[Corner]) -> Vec<Corner> {
    let mut out = Vec::new();
    for (p, q) in ring.iter().zip(ring.iter().cycle().skip(1)) {
        let (a, b) = (within(e, s, p), within(e, s, q));
        if a {
            out.push(*p);
        }
        if a != b {
            out.push(crossing(m, e, s, p, q, if a { On::Along(s) } else { p.on }));
        }
    }
    out
}

/// The corner at infinity of an unpaired half-edge.
fn end(m: &Mesh, centers: &[Pt], h: usize, on: On) -> Corner {
    let (a, z) = m.run(h);
    let (a, z) = (m.site(a as usize), m.site(z as usize));
    Corner { place: centers[h / 3], toward: Some(pt(a.y - z.y, z.x - a.x)), number: EMPTY, on }
}

/// The ring of a site along its walk.
fn ring(m: &Mesh, centers: &[Pt], left: &[u32], s: usize) -> Vec<Corner> {
    let walk = reference::walk(m, left, s);
    let site = s as u32;
    let mut out = Vec::new();
    for (k, &h) in walk.iter().enumerate() {
        let h = h as usize;
        if k == 0 && m.halfedges[h] == EMPTY {
            out.push(end(m, centers, h, On::Bisector(site, m.triangles[h])));
        }
        let leaves = next(h);
        let third = m.triangles[next(leaves)];
        out.push(Corner { place: centers[h / 3], toward: None, number: (h / 3) as u32, on: On::Bisector(site, third) });
        if k + 1 == walk.len() && m.halfedges[leaves] == EMPTY {
            out.push(end(m, centers, leaves, On::Infinity));
        }
    }
    out
}

/// How often the border comes in over the upper end of the left side less how often it goes out there; none where a hull edge has no direction.
fn turns(m: &Mesh, e: &Edges, centers: &[Pt], left: &[u32]) -> Option<i64> {
    let ends: Vec<Corner> = m.hull.iter().map(|&s| end(m, centers, left[s as usize] as usize, On::Infinity)).collect();
    if ends.iter().any(|c| c.toward.is_some_and(|d| !(d.x != 0.0 || d.y != 0.0))) {
        return None;
    }
    let mut sum = 0;
    for k in 0..ends.len() {
        // Along the hull the walks go from the half-edge that leaves a site to the one that arrives there.
        let (p, q) = (&ends[(k + 1) % ends.len()], &ends[k]);
        if !passes_down(p.toward.unwrap(), q.toward.unwrap()) {
            sum += within(e, Left, q) as i64 - within(e, Left, p) as i64;
        }
    }
    Some(sum)
}

#[derive(Clone, Debug)]
pub struct Pieces {
    pub vertices: Vec<Pt>,
    pub cells: Vec<Vec<u32>>,
}

fn same(a: Pt, b: Pt) -> bool {
    a.x == b.x && a.y == b.y
}

/// The pieces on a mesh that passed 1 to 10, in a sound box, or 11 or 25.
pub fn pieces(m: &Mesh, e: &Edges, left: &[u32]) -> Result<Pieces, u32> {
    let centers = reference::circumcenters(m);
    if centers.iter().any(|&c| !reference::sound_center(c)) {
        return Err(11);
    }
    if turns(m, e, &centers, left) != Some(1) {
        return Err(25);
    }
    let first = centers.len();
    let mut vertices = centers.clone();
    vertices.extend(reference::corners(e));
    let mut cells = Vec::new();
    for s in 0..m.count() {
        let mut list = ring(m, &centers, left, s);
        for side in [Left, Top, Right, Bottom] {
            list = cut(m, e, side, &list);
        }
        let mut cell: Vec<u32> = Vec::new();
        for c in list {
            if cell.last().is_some_and(|&k| same(vertices[k as usize], c.place)) {
                continue;
            }
            let number = match c.number {
                EMPTY => (first..first + 4).find(|&k| same(vertices[k], c.place)).unwrap_or_else(|| {
                    vertices.push(c.place);
                    vertices.len() - 1
                }) as u32,
                n => n,
            };
            cell.push(number);
        }
        while cell.len() > 1 && same(vertices[cell[0] as usize], vertices[cell[cell.len() - 1] as usize]) {
            cell.pop();
        }
        if cell.len() < 3 {
            cell.clear();
        }
        cell.reverse();
        cells.push(cell);
    }
    Ok(Pieces { vertices, cells })
}

/// Whether the exact areas of the pieces add up to the box's.
fn whole(e: &Edges, p: &Pieces) -> bool {
    let mut sum = Sum::new();
    for cell in &p.cells {
        let ring: Vec<Pt> = cell.iter().map(|&k| p.vertices[k as usize]).collect();
        sum.ring(&ring, 0, false);
    }
    sum.ring(&reference::corners(e), 0, true);
    sum.sign() == 0
}

fn lengths(r: &mut Rng, m: &Mesh) -> Lengths {
    let near = |r: &mut Rng, n: usize| match r.below(12) {
        0 => n.saturating_sub(1),
        1 => r.below(n + 1),
        2 | 3 => n + r.below(4),
        _ => n,
    };
    let exact = Lengths::cutting(m);
    Lengths {
        work: near(r, exact.work),
        floats: 2 * near(r, exact.floats / 2) + r.below(8) / 7,
        indexes: near(r, exact.indexes),
        offsets: near(r, exact.offsets),
        counts: 0,
    }
}

fn suffice(l: &Lengths, m: &Mesh) -> bool {
    let exact = Lengths::cutting(m);
    l.work >= exact.work && l.floats >= exact.floats && l.indexes >= exact.indexes && l.offsets >= exact.offsets
}

/// What a cutting leaves in the slices that it was lent.
fn left_behind(number: u32, made: Option<&Pieces>, leftmost: &[u32], entry: &Slices) -> Slices {
    let mut exit = expect::built(if number == 0 { 7 } else { number }, None, entry);
    if let (0, Some(p)) = (number, made) {
        exit.work[..leftmost.len()].copy_from_slice(leftmost);
        for (i, v) in p.vertices.iter().enumerate() {
            (exit.floats[2 * i], exit.floats[2 * i + 1]) = (v.x, v.y);
        }
        let mut at = 0;
        exit.offsets[0] = 0;
        for (s, cell) in p.cells.iter().enumerate() {
            exit.indexes[at..at + cell.len()].copy_from_slice(cell);
            at += cell.len();
            exit.offsets[s + 1] = at as u32;
        }
    }
    exit
}

/// The cutting by center and size, and by edges.
pub fn ask(index: u64, c: &Case, facts: &Facts, calls: &mut Vec<Call>, tally: &mut Tally) -> Result<(), String> {
    let r = &mut Rng::new(0x637574, index);
    let m = &c.mesh;
    let by_edges = edges::given(r, &c.area);
    let given = reference::edges(&c.area);
    for (name, e, boxed) in
        [("cut", given, reference::box_sound(&c.area)), ("cut_by_edges", by_edges, reference::edges_sound(&by_edges))]
    {
        let lent = lengths(r, m);
        let made = (boxed && facts.accepted()).then(|| pieces(m, &e, &facts.leftmost));
        let beside = Beside { room: suffice(&lent, m), area: None, site: None, to: None };
        let number = match expect::mesh_number(m, facts, &beside) {
            n @ (1 | 2) => n,
            _ if !boxed => 3,
            0 => made.as_ref().map_or(0, |p| p.as_ref().err().copied().unwrap_or(0)),
            n => n,
        };
        tally.number(name, number);
        if number == 10 {
            tally.fan(name, fans::cut_without(m, &e));
        }
        let made = made.and_then(Result::ok);
        if let (0, Some(p)) = (number, &made) {
            let (vertices, entries) = (cut_vertex_room(m), cut_index_room(m));
            let used: usize = p.cells.iter().map(Vec::len).sum();
            tally.most_cut[0] = tally.most_cut[0].max(p.vertices.len() as f64 / vertices as f64);
            tally.most_cut[1] = tally.most_cut[1].max(used as f64 / entries as f64);
            if p.vertices.len() > vertices || used > entries {
                return Err(format!("{name}: the room does not suffice"));
            }
            if !whole(&e, p) {
                return Err(format!("{name}: the pieces do not add up to the box"));
            }
        }
        let count = match (number, &made) {
            (0, Some(p)) => p.vertices.len() as u32,
            _ => 0,
        };
        let entry = Slices::fresh(&lent);
        let exit = left_behind(number, made.as_ref(), &facts.leftmost, &entry);
        let call = if name == "cut" { Call::new("cut").gives(number).area(&c.area) } else { Call::new("cut_by_edges").gives(number).edges(&e) };
        calls.push(
            call.mesh(m)
                .lent_indexes(&entry.work, &exit.work)
                .lent_floats(&entry.floats, &exit.floats)
                .lent_indexes(&entry.indexes, &exit.indexes)
                .lent_indexes(&entry.offsets, &exit.offsets)
                .gives(count),
        );
    }
    Ok(())
}

#[cfg(test)]
mod tests {
    use super::*;

    fn square(triangles: [u32; 6], hull: [u32; 4]) -> Mesh {
        let pair = |e: usize| {
            let run = |k: usize| (triangles[k], triangles[next(k)]);
            (0..6).find(|&f| run(f) == (run(e).1, run(e).0)).map_or(EMPTY, |f| f as u32)
        };
        Mesh { sites: vec![-1.0, -1.0, 1.0, -1.0, 1.0, 1.0, -1.0, 1.0], triangles: triangles.to_vec(), halfedges: (0..6).map(pair).collect(), hull: hull.to_vec() }
    }

    /// Four quarters of a box about the middle; turned the other way 25.
    #[test]
    fn quarters() {
        let e = Edges { left: -1.0, top: -1.0, right: 1.0, bottom: 1.0 };
        let areas = |m: &Mesh| -> Result<Vec<f64>, u32> {
            assert_eq!(reference::topology(m), 0);
            let p = pieces(m, &e, &reference::leftmost(m))?;
            Ok(p.cells.iter().map(|c| crate::areas::area(&c.iter().map(|&k| p.vertices[k as usize]).collect::<Vec<Pt>>())).collect())
        };
        let one = areas(&square([0, 1, 2, 0, 2, 3], [0, 1, 2, 3]));
        let other = areas(&square([0, 2, 1, 0, 3, 2], [0, 3, 2, 1]));
        assert!((one == Ok(vec![1.0; 4]) && other == Err(25)) || (other == Ok(vec![1.0; 4]) && one == Err(25)), "{one:?} {other:?}");
    }

    /// Every accepted mesh of the random cases is cut whole, or its border does not turn once.
    #[test]
    fn whole_on_cases() {
        let (mut cut, mut refused) = (0, 0);
        for index in 0..20_000 {
            let c = Case::random(5, index);
            let facts = Facts::of(&c.mesh);
            if facts.accepted() && reference::box_sound(&c.area) {
                let e = reference::edges(&c.area);
                match pieces(&c.mesh, &e, &facts.leftmost) {
                    Ok(p) => {
                        cut += 1;
                        assert!(whole(&e, &p), "case {index}");
                    }
                    Err(_) => refused += 1,
                }
            }
        }
        assert!(cut > 1000 && refused > 100, "{cut} cut, {refused} refused");
    }
}
