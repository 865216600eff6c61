//! The rules (docs/use/RULES.md) by themselves: the refusals in their order, and the build with the mark of the step that put each entry.
//! Written from them and the source's operations, not from the proved code; held against the Rust by every run.

use crate::mesh::{next, pt, Area, Mesh, Pt, EMPTY};

pub const LIMIT: f64 = 1267650600228229401496703205376.0; // 2^100
const TOLERANCE: f64 = 1.0 / 1125899906842624.0; // 2^-50

pub fn ordinary(x: f64) -> bool {
    x.is_finite() && x.abs() <= LIMIT
}

pub fn sound_center(p: Pt) -> bool {
    let limit = f64::from_bits((1023 + 400) << 52);
    p.x.is_finite() && p.y.is_finite() && p.x.abs() <= limit && p.y.abs() <= limit
}

/// A box by its edges.
#[derive(Clone, Copy, Debug)]
pub struct Edges {
    pub left: f64,
    pub top: f64,
    pub right: f64,
    pub bottom: f64,
}

pub fn edges(a: &Area) -> Edges {
    Edges {
        left: a.x - a.width / 2.0,
        top: a.y - a.height / 2.0,
        right: a.x + a.width / 2.0,
        bottom: a.y + a.height / 2.0,
    }
}

pub fn box_sound(a: &Area) -> bool {
    let e = edges(a);
    let size = |s: f64| s > 0.0 && s <= LIMIT;
    ordinary(a.x) && ordinary(a.y) && size(a.width) && size(a.height) && e.left < e.right && e.top < e.bottom
}

/// Rule 3 for a box that is given by its edges.
pub fn edges_sound(e: &Edges) -> bool {
    let fits = |x: f64| x.is_finite() && x.abs() <= 2.0 * LIMIT;
    fits(e.left) && fits(e.top) && fits(e.right) && fits(e.bottom) && e.left < e.right && e.top < e.bottom
}

/// The center of such a box.
pub fn center(e: &Edges) -> Pt {
    pt(e.left + (e.right - e.left) / 2.0, e.top + (e.bottom - e.top) / 2.0)
}

/// Rule 1.
pub fn counts_sound(m: &Mesh) -> bool {
    let (n, t, h) = (m.sites.len() / 2, m.triangles.len() / 3, m.hull.len());
    m.sites.len() % 2 == 0
        && m.triangles.len() % 3 == 0
        && m.halfedges.len() == m.triangles.len()
        && (3..=65_536).contains(&n)
        && (1..=131_072).contains(&t)
        && 3 <= h
        && h <= n
}

/// Rule 6 over a list of coordinates.
pub fn coordinates_sound(list: &[f64]) -> bool {
    list.iter().all(|&x| ordinary(x))
}

fn end(m: &Mesh, e: usize) -> u32 {
    m.triangles[next(e)]
}

/// The first of 7, 8, 9, 10 that is broken, or 0.
pub fn topology(m: &Mesh) -> u32 {
    let n = m.count();
    if m.triangles.iter().any(|&s| s as usize >= n) {
        return 7;
    }
    for t in m.triangles.chunks_exact(3) {
        if t[0] == t[1] || t[1] == t[2] || t[2] == t[0] {
            return 7;
        }
    }
    for e in 0..m.triangles.len() {
        let f = m.halfedges[e];
        if f != EMPTY {
            let f = f as usize;
            let sound = f < m.triangles.len()
                && m.halfedges[f] as usize == e
                && m.triangles[f] == end(m, e)
                && end(m, f) == m.triangles[e];
            if !sound {
                return 8;
            }
        }
    }
    let unpaired: Vec<usize> = (0..m.triangles.len()).filter(|&e| m.halfedges[e] == EMPTY).collect();
    let mut borders: Vec<(u32, u32)> = unpaired.iter().map(|&e| (m.triangles[e], end(m, e))).collect();
    borders.sort_unstable();
    let mut distinct = m.hull.clone();
    distinct.sort_unstable();
    distinct.dedup();
    if distinct.len() != m.hull.len() || m.hull.iter().any(|&s| s as usize >= n) || unpaired.len() != m.hull.len() {
        return 9;
    }
    for i in 0..m.hull.len() {
        let pair = (m.hull[i], m.hull[(i + 1) % m.hull.len()]);
        if borders.binary_search(&pair).is_err() {
            return 9;
        }
    }
    let left = leftmost(m);
    let mut ending = vec![0usize; n];
    for e in 0..m.triangles.len() {
        ending[end(m, e) as usize] += 1;
    }
    for s in 0..n {
        if ending[s] > 0 && ring(m, left[s] as usize).len() != ending[s] {
            return 10;
        }
    }
    0
}

/// The unpaired half-edge that ends at the site if there is one, else the lowest number; `EMPTY` for a site in no triangle.
pub fn leftmost(m: &Mesh) -> Vec<u32> {
    let mut table = vec![EMPTY; m.count()];
    for e in (0..m.triangles.len()).rev() {
        table[end(m, e) as usize] = e as u32;
    }
    for e in 0..m.triangles.len() {
        if m.halfedges[e] == EMPTY {
            table[end(m, e) as usize] = e as u32;
        }
    }
    table
}

/// The half-edges from `e` by "next, then its pair", until none or `e` again.
/// On a mesh that passed 7 and 8 the step is injective, so this ends.
pub fn ring(m: &Mesh, e: usize) -> Vec<u32> {
    let mut list = vec![e as u32];
    let mut at = m.halfedges[next(e)];
    while at != EMPTY && at as usize != e {
        list.push(at);
        at = m.halfedges[next(at as usize)];
    }
    list
}

pub fn walk(m: &Mesh, left: &[u32], s: usize) -> Vec<u32> {
    if left[s] == EMPTY {
        Vec::new()
    } else {
        ring(m, left[s] as usize)
    }
}

pub fn neighbours(m: &Mesh, left: &[u32], s: usize) -> Vec<u32> {
    let walk = walk(m, left, s);
    let mut list: Vec<u32> = walk.iter().map(|&e| m.triangles[e as usize]).collect();
    if let Some(&last) = walk.last() {
        let out = next(last as usize);
        if m.halfedges[out] == EMPTY {
            list.push(end(m, out));
        }
    }
    list
}

/// How many entries of the first cell stand in the second, repeats counted.
pub fn shared_entries(a: &[u32], b: &[u32]) -> usize {
    a.iter().filter(|v| b.contains(v)).count()
}

pub fn clipped_neighbours(m: &Mesh, left: &[u32], cells: &[Vec<u32>], s: usize) -> Vec<u32> {
    let list = neighbours(m, left, s);
    let on_hull = left[s] != EMPTY && m.halfedges[left[s] as usize] == EMPTY;
    let keep = |i: usize, o: u32| {
        let outer = on_hull && (i == 0 || i + 1 == list.len());
        !outer || shared_entries(&cells[s], &cells[o as usize]) >= 2
    };
    (0..list.len()).filter(|&i| keep(i, list[i])).map(|i| list[i]).collect()
}

pub fn dist2(a: Pt, b: Pt) -> f64 {
    let x = a.x - b.x;
    let y = a.y - b.y;
    (x * x) + (y * y)
}

pub fn path(m: &Mesh, left: &[u32], from: usize, to: Pt) -> Vec<u32> {
    let mut list = vec![from as u32];
    let mut at = from;
    let mut here = dist2(m.site(at), to);
    loop {
        let mut best = None;
        for o in neighbours(m, left, at) {
            let d = dist2(m.site(o as usize), to);
            if d < here {
                here = d;
                best = Some(o);
            }
        }
        match best {
            Some(o) => {
                list.push(o);
                at = o as usize;
            }
            None => return list,
        }
    }
}

pub fn shared_edge(m: &Mesh, a: u32, b: u32) -> u32 {
    let t = m.triangle_count();
    if (a as usize) < t && (b as usize) < t {
        for e in 3 * a..3 * a + 3 {
            for f in 3 * b..3 * b + 3 {
                if m.halfedges[f as usize] == e {
                    return e;
                }
            }
        }
    }
    EMPTY
}

pub fn circumcenter(a: Pt, b: Pt, c: Pt) -> Pt {
    let (bx, by) = (b.x - a.x, b.y - a.y);
    let (cx, cy) = (c.x - a.x, c.y - a.y);
    let bb = bx * bx + by * by;
    let cc = cx * cx + cy * cy;
    let d = 1.0 / (2.0 * (bx * cy - by * cx));
    pt(a.x + d * (cy * bb - by * cc), a.y + d * (bx * cc - cx * bb))
}

pub fn near(a: f64, b: f64) -> bool {
    (if a > b { a - b } else { b - a }) <= TOLERANCE
}

pub fn corners(e: &Edges) -> [Pt; 4] {
    [pt(e.left, e.top), pt(e.left, e.bottom), pt(e.right, e.bottom), pt(e.right, e.top)]
}

pub fn inside(e: &Edges, p: Pt) -> bool {
    e.left <= p.x && p.x <= e.right && e.top <= p.y && p.y <= e.bottom
}

pub fn side(e: &Edges, p: Pt) -> Option<usize> {
    let order = [(p.y, e.top, 0), (p.y, e.bottom, 2), (p.x, e.right, 3), (p.x, e.left, 1)];
    order.iter().find(|(a, b, _)| near(*a, *b)).map(|o| o.2)
}

#[derive(Clone, Copy, Debug, PartialEq)]
pub enum Crossing {
    None,
    One(Pt),
    Two(Pt, Pt),
}

fn from_options(a: Option<Pt>, b: Option<Pt>) -> Crossing {
    match (a, b) {
        (Some(a), Some(b)) => Crossing::Two(a, b),
        (Some(p), None) | (None, Some(p)) => Crossing::One(p),
        (None, None) => Crossing::None,
    }
}

/// Where a step of the build went; each place is counted.
#[derive(Clone, Copy, Debug, PartialEq, Eq)]
#[repr(usize)]
pub enum Branch {
    LineLeftRight,
    LineVerticalIn,
    LineVerticalOut,
    LineTopBottom,
    LineOneOfEach,
    LineLone,
    LineNone,
    RayNone,
    RayBothFirstNearer,
    RayBothSecondNearer,
    RayOnlyFirst,
    RayOnlySecond,
    RayNeither,
    RayLoneKept,
    RayLoneRefused,
    EdgeOneCrossing,
    EdgeTwoCrossings,
    EdgeBehind,
    StartInside,
    StartOutside,
    OutOutNone,
    OutOutClosed,
    OutOutOpen,
    OutIn,
    OutInSecondUnused,
    InOut,
    InOutSecondUnused,
    InIn,
    FirstRepeated,
    FirstPushed,
    WrapFirstNone,
    WrapFirstOne,
    WrapFirstTwo,
    WrapFirstThree,
    WrapSecondOne,
    WrapSecondTwo,
    WrapSecondThree,
    WrapNotOwned,
    ExtensionAdded,
    ExtensionOnCorner,
    ExtensionReused,
    FirstAdded,
    FirstOnCorner,
    FirstReused,
    SecondAdded,
    SecondOnCorner,
    SecondReused,
    EmptyHullCellTriedAgain,
    EmptyCellTriedAgain,
    HullCellFilledWithoutExtensions,
    CellStaysEmpty,
    SiteInNoTriangle,
    CornersLost,
    End,
}

pub const BRANCHES: usize = Branch::End as usize;

pub struct Counts(pub [u64; BRANCHES]);

impl Default for Counts {
    fn default() -> Counts {
        Counts([0; BRANCHES])
    }
}

impl Counts {
    fn at(&mut self, b: Branch) {
        self.0[b as usize] += 1;
    }
    pub fn name(i: usize) -> String {
        assert!(i < BRANCHES);
        let b: Branch = unsafe { std::mem::transmute(i) };
        format!("{b:?}")
    }
}

pub fn intersect_line(e: &Edges, a: Pt, b: Pt, n: &mut Counts) -> Crossing {
    let (dx, dy) = (b.x - a.x, b.y - a.y);
    let c = dy / dx;
    let d = a.y - (a.x * c);
    let (mut right, mut left, mut top, mut bottom) = (None, None, None, None);
    let across = |y: f64| y >= e.top && y <= e.bottom;
    let down = |x: f64| x <= e.right && x >= e.left;
    if dx.abs() > TOLERANCE {
        let ry = (e.right * c) + d;
        let ly = (e.left * c) + d;
        right = across(ry).then(|| pt(e.right, ry));
        left = across(ly).then(|| pt(e.left, ly));
        if let (Some(r), Some(l)) = (right, left) {
            n.at(Branch::LineLeftRight);
            return Crossing::Two(r, l);
        }
    }
    if dy.abs() > TOLERANCE {
        if dx.abs() < TOLERANCE {
            if down(a.x) {
                n.at(Branch::LineVerticalIn);
                return Crossing::Two(pt(a.x, e.top), pt(a.x, e.bottom));
            }
            n.at(Branch::LineVerticalOut);
            return Crossing::None;
        }
        let tx = (e.top - d) / c;
        let bx = (e.bottom - d) / c;
        top = down(tx).then(|| pt(tx, e.top));
        bottom = down(bx).then(|| pt(bx, e.bottom));
        if let (Some(t), Some(b)) = (top, bottom) {
            n.at(Branch::LineTopBottom);
            return Crossing::Two(t, b);
        }
    }
    let answer = from_options(right.or(left), top.or(bottom));
    n.at(match answer {
        Crossing::None => Branch::LineNone,
        Crossing::One(_) => Branch::LineLone,
        Crossing::Two(..) => Branch::LineOneOfEach,
    });
    answer
}

/// +1 for +0 and above, −1 for −0 and below; a NaN equals nothing.
fn same_sign(a: f64, b: f64) -> bool {
    !a.is_nan() && !b.is_nan() && a.is_sign_negative() == b.is_sign_negative()
}

pub fn order_points(from: Pt, direction: Pt, points: Crossing, n: &mut Counts) -> Crossing {
    match points {
        Crossing::None => {
            n.at(Branch::RayNone);
            Crossing::None
        }
        Crossing::One(p) => {
            if same_sign(direction.x, p.x) && same_sign(direction.y, p.y) {
                n.at(Branch::RayLoneKept);
                Crossing::One(p)
            } else {
                n.at(Branch::RayLoneRefused);
                Crossing::None
            }
        }
        Crossing::Two(a, b) => {
            let (d, da, db) = if direction.x.abs() > direction.y.abs() {
                (direction.x, a.x - from.x, b.x - from.x)
            } else {
                (direction.y, a.y - from.y, b.y - from.y)
            };
            match (same_sign(d, da), same_sign(d, db)) {
                (true, true) if da.abs() > db.abs() => {
                    n.at(Branch::RayBothSecondNearer);
                    Crossing::Two(b, a)
                }
                (true, true) => {
                    n.at(Branch::RayBothFirstNearer);
                    Crossing::Two(a, b)
                }
                (true, false) => {
                    n.at(Branch::RayOnlyFirst);
                    Crossing::One(a)
                }
                (false, true) => {
                    n.at(Branch::RayOnlySecond);
                    Crossing::One(b)
                }
                (false, false) => {
                    n.at(Branch::RayNeither);
                    Crossing::None
                }
            }
        }
    }
}

pub fn project_ray(e: &Edges, from: Pt, direction: Pt, n: &mut Counts) -> Crossing {
    let b = pt(from.x + direction.x, from.y + direction.y);
    let points = intersect_line(e, from, b, n);
    order_points(from, direction, points, n)
}

/// The step that put an entry into a cell.
#[derive(Clone, Copy, Debug, PartialEq, Eq)]
pub enum Mark {
    Circumcenter,
    Crossing,
    Wrapped,
}

#[derive(Clone, Copy, Debug, PartialEq, Eq)]
pub struct Entry {
    pub vertex: u32,
    pub mark: Mark,
}

/// What a point was to be added for.
#[derive(Clone, Copy, PartialEq)]
enum Kind {
    Extension,
    First,
    Second,
}

#[derive(Clone, Debug, Default)]
pub struct Build {
    pub leftmost: Vec<u32>,
    pub owners: Vec<u32>,
    pub lost: u32,
    pub vertices: Vec<Pt>,
    pub cells: Vec<Vec<Entry>>,
    /// How often a cell was clipped for each site.
    pub tries: Vec<u32>,
    /// How many extensions, first crossings and second crossings were a point that was there before.
    pub reused: [u32; 3],
    /// The vertices that were taken again, each with whether another cell of the library's grid was the point's own.
    pub again: Vec<(u32, bool)>,
    /// The edges, from vertex to vertex, whose meeting with the box was asked for, one after the other.
    pub met: Vec<(u32, u32)>,
}

/// The cell of the library's grid that x is inserted in, and the one that it is searched for in (docs/work/ARCHITECTURE.md, the vertex store's part of the index list):
/// where they differ, a search in that cell alone would miss a vertex that is there.
fn inserted_in(x: f64) -> f64 {
    x.abs() + 2f64.powi(-49) + 2f64.powi(21)
}

fn searched_in(x: f64) -> f64 {
    x.abs() + 2f64.powi(21)
}

/// Where a build stopped: the triangle of 11, the first hull place of 12's edge, the cell of 13 and 14 with the ring
/// edge's two vertices in the order walked; `EMPTY` where a number has none.
#[derive(Clone, Copy, Debug, PartialEq)]
pub struct Fault {
    pub number: u32,
    pub place: u32,
    pub from: u32,
    pub to: u32,
}

/// A build, or where it stopped.
pub type Outcome = Result<Build, Fault>;

impl Fault {
    fn at(number: u32, place: usize) -> Fault {
        Fault { number, place: place as u32, from: EMPTY, to: EMPTY }
    }
}

impl Build {
    pub fn plain(&self) -> Vec<Vec<u32>> {
        self.cells.iter().map(|c| c.iter().map(|e| e.vertex).collect()).collect()
    }

    /// How many corners of a clipped build are not lost although no cell took them by wrapping.
    pub fn met_alone(&self) -> u64 {
        let wrapped = self.cells.iter().flatten().filter(|e| e.mark == Mark::Wrapped).count() as u64;
        4 - wrapped - self.lost as u64
    }
}

pub fn circumcenters(m: &Mesh) -> Vec<Pt> {
    m.triangles
        .chunks_exact(3)
        .map(|t| circumcenter(m.site(t[0] as usize), m.site(t[1] as usize), m.site(t[2] as usize)))
        .collect()
}

/// The point 1e10 beyond a circumcenter, at right angles to its hull edge.
pub fn extension(m: &Mesh, edge: usize, center: Pt) -> Pt {
    let a = m.site(m.triangles[edge] as usize);
    let b = m.site(end(m, edge) as usize);
    let (mut x, mut y) = (a.y - b.y, b.x - a.x);
    let length = (x * x + y * y).sqrt();
    x *= 1.0 / length;
    y *= 1.0 / length;
    pt(center.x + x * 1e10, center.y + y * 1e10)
}

struct Builder<'a> {
    area: Edges,
    first_corner: usize,
    vertices: Vec<Pt>,
    left_to_wrap: [u32; 4],
    reused: [u32; 3],
    again: Vec<(u32, bool)>,
    met: Vec<(u32, u32)>,
    counts: &'a mut Counts,
}

/// Builds on a mesh that passed 1 to 10, or gives 11 to 14 and where.
pub fn build(m: &Mesh, area: &Area, counts: &mut Counts) -> Outcome {
    build_within(m, edges(area), counts)
}

/// The same by the edges of the box.
pub fn build_within(m: &Mesh, area: Edges, counts: &mut Counts) -> Outcome {
    let vertices = circumcenters(m);
    if let Some(t) = vertices.iter().position(|&c| !sound_center(c)) {
        return Err(Fault::at(11, t));
    }
    clipped(m, area, vertices, counts)
}

fn clipped(m: &Mesh, area: Edges, vertices: Vec<Pt>, counts: &mut Counts) -> Outcome {
    let left = leftmost(m);
    let mut owners = [EMPTY; 4];
    let mut from = m.hull[0] as usize;
    for (i, &corner) in corners(&area).iter().enumerate() {
        owners[i] = *path(m, &left, from, corner).last().unwrap();
        from = owners[i] as usize;
    }

    let first_corner = vertices.len();
    let mut b = Builder { area, first_corner, vertices, left_to_wrap: owners, reused: [0; 3], again: Vec::new(), met: Vec::new(), counts };
    b.vertices.extend(corners(&area));

    // Hull place i's edge runs from its site to the next one's.
    let h = m.hull.len();
    let mut extensions = Vec::with_capacity(h);
    for i in 0..h {
        let edge = left[m.hull[(i + 1) % h] as usize] as usize;
        let p = extension(m, edge, b.vertices[edge / 3]);
        if !(p.x.is_finite() && p.y.is_finite()) {
            return Err(Fault::at(12, i));
        }
        extensions.push(b.add(p, Kind::Extension));
    }

    let triangles = |ring: Vec<u32>| ring.into_iter().map(|e| e / 3);
    let mut cells: Vec<Vec<Entry>> = vec![Vec::new(); m.count()];
    let mut tries = vec![0u32; m.count()];
    let mut hull_site = vec![false; m.count()];
    for i in 0..h {
        let site = m.hull[i] as usize;
        tries[site] += 1;
        hull_site[site] = true;
        // The extension of the edge that ends here comes first and that of the edge that starts here last;
        // only for the first hull site, whose starting edge is taken before its ending one, it leads them all.
        let mut ring = vec![extensions[(i + h - 1) % h]];
        ring.extend(triangles(walk(m, &left, site)));
        if i == 0 {
            ring.insert(0, extensions[0]);
        } else {
            ring.push(extensions[i]);
        }
        cells[site] = b.clip(&ring, site as u32)?;
    }
    for e in 0..m.triangles.len() {
        let site = end(m, e) as usize;
        if cells[site].is_empty() {
            if hull_site[site] {
                b.counts.at(Branch::EmptyHullCellTriedAgain);
            } else if tries[site] > 0 {
                b.counts.at(Branch::EmptyCellTriedAgain);
            }
            tries[site] += 1;
            let ring: Vec<u32> = triangles(ring(m, e)).collect();
            cells[site] = b.clip(&ring, site as u32)?;
            if hull_site[site] && !cells[site].is_empty() {
                b.counts.at(Branch::HullCellFilledWithoutExtensions);
            }
        }
    }
    for s in 0..m.count() {
        if left[s] == EMPTY {
            b.counts.at(Branch::SiteInNoTriangle);
        } else if cells[s].is_empty() {
            b.counts.at(Branch::CellStaysEmpty);
        }
    }
    // A corner is lost exactly if its vertex number stands in no cell's list.
    let stands = |corner: usize| cells.iter().flatten().any(|e| e.vertex as usize == corner);
    let lost = (first_corner..first_corner + 4).filter(|&corner| !stands(corner)).count() as u32;
    if lost > 0 {
        b.counts.at(Branch::CornersLost);
    }
    Ok(Build { leftmost: left, owners: owners.to_vec(), lost, vertices: b.vertices, cells, tries, reused: b.reused, again: b.again, met: b.met })
}

impl Builder<'_> {
    fn add(&mut self, p: Pt, kind: Kind) -> u32 {
        let found = (self.first_corner..self.vertices.len())
            .find(|&i| near(self.vertices[i].x, p.x) && near(self.vertices[i].y, p.y));
        let how = match found {
            None => 0,
            Some(i) if i < self.first_corner + 4 => 1,
            Some(_) => 2,
        };
        self.counts.at(match (kind, how) {
            (Kind::Extension, 0) => Branch::ExtensionAdded,
            (Kind::Extension, 1) => Branch::ExtensionOnCorner,
            (Kind::Extension, _) => Branch::ExtensionReused,
            (Kind::First, 0) => Branch::FirstAdded,
            (Kind::First, 1) => Branch::FirstOnCorner,
            (Kind::First, _) => Branch::FirstReused,
            (Kind::Second, 0) => Branch::SecondAdded,
            (Kind::Second, 1) => Branch::SecondOnCorner,
            (Kind::Second, _) => Branch::SecondReused,
        });
        match found {
            Some(i) => {
                self.reused[kind as usize] += 1;
                let v = self.vertices[i];
                self.again.push((i as u32, inserted_in(v.x) != searched_in(p.x) || inserted_in(v.y) != searched_in(p.y)));
                i as u32
            }
            None => {
                self.vertices.push(p);
                self.vertices.len() as u32 - 1
            }
        }
    }

    fn is_inside(&self, v: u32) -> bool {
        (v as usize) < self.first_corner && inside(&self.area, self.vertices[v as usize])
    }

    /// The vertices where the edge from a to b meets the box.
    fn clip_edge(&mut self, a: u32, b: u32) -> (Option<u32>, Option<u32>) {
        self.met.push((a, b));
        let (p, q) = (self.vertices[a as usize], self.vertices[b as usize]);
        let direction = pt(q.x - p.x, q.y - p.y);
        match project_ray(&self.area, p, direction, self.counts) {
            Crossing::None => (None, None),
            Crossing::One(c) => {
                self.counts.at(Branch::EdgeOneCrossing);
                (Some(self.add(c, Kind::First)), None)
            }
            Crossing::Two(c, d) => {
                let mut unused = Counts::default();
                let before = match order_points(p, direction, Crossing::Two(q, c), &mut unused) {
                    Crossing::None => false,
                    Crossing::One(w) | Crossing::Two(w, _) => w == c,
                };
                if before {
                    self.counts.at(Branch::EdgeTwoCrossings);
                    let first = self.add(c, Kind::First);
                    (Some(first), Some(self.add(d, Kind::Second)))
                } else {
                    self.counts.at(Branch::EdgeBehind);
                    (None, None)
                }
            }
        }
    }

    /// Puts the edge from vertex a to vertex c of the box into the cell, and the corners on the way that its site owns.
    fn insert(&mut self, cell: &mut Vec<Entry>, site: u32, a: u32, c: u32) {
        let crossing = |vertex| Entry { vertex, mark: Mark::Crossing };
        if cell.last().map(|e| e.vertex) == Some(a) {
            self.counts.at(Branch::FirstRepeated);
        } else {
            self.counts.at(Branch::FirstPushed);
            cell.push(crossing(a));
        }
        let first = side(&self.area, self.vertices[a as usize]).expect("a clipped vertex is on a side");
        let second = side(&self.area, self.vertices[c as usize]).expect("a clipped vertex is on a side");
        if self.left_to_wrap[first] == site {
            let n = self.wrap(cell, site, first, second);
            self.counts.at([Branch::WrapFirstNone, Branch::WrapFirstOne, Branch::WrapFirstTwo, Branch::WrapFirstThree][n]);
            cell.push(crossing(c));
        } else if self.left_to_wrap[second] == site {
            cell.push(crossing(c));
            let n = self.wrap(cell, site, second, first);
            // Never 0: the second side is not the first here.
            self.counts.at([Branch::WrapSecondOne, Branch::WrapSecondTwo, Branch::WrapSecondThree][n - 1]);
        } else {
            self.counts.at(Branch::WrapNotOwned);
            cell.push(crossing(c));
        }
    }

    fn wrap(&mut self, cell: &mut Vec<Entry>, site: u32, from: usize, to: usize) -> usize {
        let mut n = 0;
        let mut at = from;
        while at != to && self.left_to_wrap[at] == site {
            cell.push(Entry { vertex: (self.first_corner + at) as u32, mark: Mark::Wrapped });
            self.left_to_wrap[at] = EMPTY;
            at = (at + 1) % 4;
            n += 1;
        }
        n
    }

    fn clip(&mut self, ring: &[u32], site: u32) -> Result<Vec<Entry>, Fault> {
        let mut cell: Vec<Entry> = Vec::new();
        let start = ring.iter().position(|&v| self.is_inside(v));
        self.counts.at(if start.is_some() { Branch::StartInside } else { Branch::StartOutside });
        let at = start.unwrap_or(0);
        let mut open = false;
        for k in 0..ring.len() {
            // Backwards round the ring from the start.
            let from = ring[(at + ring.len() - k) % ring.len()];
            let to = ring[(at + 2 * ring.len() - k - 1) % ring.len()];
            self.pass(&mut cell, &mut open, site, from, to).map_err(|number| Fault { number, place: site, from, to })?;
        }
        Ok(cell)
    }

    /// One edge of the ring, from prev to next.
    fn pass(&mut self, cell: &mut Vec<Entry>, open: &mut bool, site: u32, prev: u32, next: u32) -> Result<(), u32> {
        let own = Entry { vertex: prev, mark: Mark::Circumcenter };
        match (self.is_inside(prev), self.is_inside(next)) {
            (true, true) => {
                self.counts.at(Branch::InIn);
                cell.push(own);
            }
            (true, false) => {
                let (first, second) = self.clip_edge(prev, next);
                let first = first.ok_or(13u32)?;
                self.counts.at(if second.is_some() { Branch::InOutSecondUnused } else { Branch::InOut });
                cell.push(own);
                cell.push(Entry { vertex: first, mark: Mark::Crossing });
                *open = true;
            }
            (false, true) => {
                let (first, second) = self.clip_edge(next, prev);
                let first = first.ok_or(13u32)?;
                self.counts.at(if second.is_some() { Branch::OutInSecondUnused } else { Branch::OutIn });
                let last = cell.last().expect("an open cell is never empty").vertex;
                self.insert(cell, site, last, first);
                *open = false;
            }
            (false, false) => {
                let (first, second) = self.clip_edge(prev, next);
                match first {
                    None => self.counts.at(Branch::OutOutNone),
                    Some(first) => {
                        if *open {
                            let last = cell.last().expect("an open cell is never empty").vertex;
                            self.insert(cell, site, last, first);
                        }
                        let second = second.ok_or(14u32)?;
                        self.counts.at(if *open { Branch::OutOutOpen } else { Branch::OutOutClosed });
                        self.insert(cell, site, first, second);
                    }
                }
            }
        }
        Ok(())
    }
}
