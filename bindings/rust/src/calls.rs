//! The library's calls over slices: here, and only here, a pointer is lent, one call in each function.
//!
//! What the library asks of every call: each pointer is good for as many elements as its length says, none is null, and no two lent slices
//! overlap where one is written. A slice of Rust has a pointer and a length that go together, not null at length 0 either, and what is
//! borrowed `&mut` overlaps nothing else; a [Point] is two numbers in turn (`repr(C)`). There is no other precondition.

use crate::bounding_box::Given;
use crate::{sys, BoundingBox, Point, Refusal};

/// A mesh as it is lent.
#[derive(Clone, Copy)]
pub(crate) struct Mesh<'a> {
    pub sites: &'a [Point],
    pub triangles: &'a [u32],
    pub halfedges: &'a [u32],
    pub hull: &'a [u32],
}

/// Cells as they are lent: where each begins, and the one after the last ends, in the list of entries.
#[derive(Clone, Copy)]
pub(crate) struct Cells<'a> {
    pub offsets: &'a [u32],
    pub indexes: &'a [u32],
}

/// What a build writes.
pub(crate) struct Slices<'a> {
    pub work: &'a mut [u32],
    pub vertices: &'a mut [Point],
    pub indexes: &'a mut [u32],
    pub offsets: &'a mut [u32],
    pub counts: &'a mut [u32],
}

/// What an audit writes: the kind, the site, vertex and other site that it names, the share that is missing.
pub(crate) struct Audited {
    pub kind: usize,
    pub named: [u32; 3],
    pub missing: f64,
}

// the calls that take a box: by its center and size and by its edges they have the same arguments
type Corners = unsafe extern "C" fn(f64, f64, f64, f64, *mut f64, usize) -> u32;
type Inside = unsafe extern "C" fn(f64, f64, f64, f64, f64, f64, *mut u32) -> u32;
type Build = unsafe extern "C" fn(
    f64, f64, f64, f64, *const f64, usize, *const u32, usize, *const u32, usize, *const u32, usize,
    *mut u32, usize, *mut f64, usize, *mut u32, usize, *mut u32, usize, *mut u32, usize,
) -> u32;
type Why = unsafe extern "C" fn(
    f64, f64, f64, f64, *const f64, usize, *const u32, usize, *const u32, usize, *const u32, usize, u32, u32, u32,
    *mut u32, usize, *mut f64, usize, *mut u32, usize, *mut u32, usize, *mut u32, usize, *mut u32, *mut u32, *mut u32, *mut u32,
) -> u32;
#[cfg(voronoi_cut)]
type Cut = unsafe extern "C" fn(
    f64, f64, f64, f64, *const f64, usize, *const u32, usize, *const u32, usize, *const u32, usize,
    *mut u32, usize, *mut f64, usize, *mut u32, usize, *mut u32, usize, *mut u32,
) -> u32;
type Audits = unsafe extern "C" fn(
    f64, f64, f64, f64, *const f64, usize, *const f64, usize, *const u32, usize, *const u32, usize, *const u32, usize, *const u32, usize,
    u32, *mut u32, *mut u32, *mut u32, *mut u32, *mut f64,
) -> u32;
type Certifies = unsafe extern "C" fn(
    f64, f64, f64, f64, *const f64, usize, *const f64, usize, *const u32, usize, *const u32, usize,
    u32, *mut u32, usize, *mut u32, *mut u32, *mut u32, *mut u32,
) -> u32;

pub(crate) fn centroid(points: &[Point]) -> Result<Point, Refusal> {
    let mut mean = Point::default();
    // SAFETY: the points are two numbers each; the two written are places of one local value.
    Refusal::of(unsafe { sys::voronoi_centroid(points.as_ptr().cast(), 2 * points.len(), &mut mean.x, &mut mean.y) })?;
    Ok(mean)
}

/// Left, top, right, bottom, width, height.
pub(crate) fn edges(b: &BoundingBox) -> Result<[f64; 6], Refusal> {
    match b.given {
        Given::Sized([cx, cy, width, height]) => {
            let [mut left, mut top, mut right, mut bottom, mut across, mut down] = [0.0; 6];
            // SAFETY: the six written are local values, each by itself.
            Refusal::of(unsafe {
                sys::voronoi_box(cx, cy, width, height, &mut left, &mut top, &mut right, &mut bottom, &mut across, &mut down)
            })?;
            Ok([left, top, right, bottom, across, down])
        }
        Given::Edges([left, top, right, bottom]) => {
            let [mut x, mut y, mut across, mut down] = [0.0; 4];
            // SAFETY: the four written are local values, each by itself.
            Refusal::of(unsafe { sys::voronoi_box_by_edges(left, top, right, bottom, &mut x, &mut y, &mut across, &mut down) })?;
            Ok([left, top, right, bottom, across, down])
        }
    }
}

/// The four numbers of a box, and of two calls that differ in how they take it the one that takes it so.
fn taking<C>(b: &BoundingBox, sized: C, by_edges: C) -> ([f64; 4], C) {
    match b.given {
        Given::Sized(numbers) => (numbers, sized),
        Given::Edges(numbers) => (numbers, by_edges),
    }
}

pub(crate) fn corners(b: &BoundingBox) -> Result<[Point; 4], Refusal> {
    let mut out = [Point::default(); 4];
    let ([p, q, r, s], call): (_, Corners) = taking(b, sys::voronoi_corners, sys::voronoi_corners_by_edges);
    // SAFETY: `out` is four points, eight numbers.
    Refusal::of(unsafe { call(p, q, r, s, out.as_mut_ptr().cast(), 2 * out.len()) })?;
    Ok(out)
}

pub(crate) fn is_inside(b: &BoundingBox, p: &Point) -> Result<bool, Refusal> {
    inside(taking(b, sys::voronoi_is_inside, sys::voronoi_is_inside_by_edges), p)
}

pub(crate) fn is_exclusively_inside(b: &BoundingBox, p: &Point) -> Result<bool, Refusal> {
    inside(taking(b, sys::voronoi_is_exclusively_inside, sys::voronoi_is_exclusively_inside_by_edges), p)
}

fn inside(([a, b, c, d], call): ([f64; 4], Inside), p: &Point) -> Result<bool, Refusal> {
    let mut inside = 0;
    // SAFETY: the one written is a local value.
    Refusal::of(unsafe { call(a, b, c, d, p.x, p.y, &mut inside) })?;
    Ok(inside == 1)
}

pub(crate) fn build(b: &BoundingBox, m: Mesh<'_>, s: &mut Slices<'_>) -> Result<(), Refusal> {
    let ([cx, cy, width, height], call): (_, Build) = taking(b, sys::voronoi_build, sys::voronoi_build_by_edges);
    // SAFETY: each slice with its own length, that of points in numbers; the five written are borrowed `&mut`.
    Refusal::of(unsafe {
        call(
            cx, cy, width, height,
            m.sites.as_ptr().cast(), 2 * m.sites.len(), m.triangles.as_ptr(), m.triangles.len(),
            m.halfedges.as_ptr(), m.halfedges.len(), m.hull.as_ptr(), m.hull.len(),
            s.work.as_mut_ptr(), s.work.len(), s.vertices.as_mut_ptr().cast(), 2 * s.vertices.len(),
            s.indexes.as_mut_ptr(), s.indexes.len(), s.offsets.as_mut_ptr(), s.offsets.len(),
            s.counts.as_mut_ptr(), s.counts.len(),
        )
    })
}

/// The number that a build is refused with, the kind of the one reason, and the three numbers that it names.
pub(crate) fn why(b: &BoundingBox, m: Mesh<'_>, s: &mut Slices<'_>) -> (u32, usize, [usize; 3]) {
    let ([cx, cy, width, height], call): (_, Why) = taking(b, sys::voronoi_why, sys::voronoi_why_by_edges);
    let [mut kind, mut place, mut from, mut to] = [0; 4];
    // SAFETY: each slice with its own length, that of points in numbers; five of those written are borrowed `&mut`, four are local values.
    let number = unsafe {
        call(
            cx, cy, width, height,
            m.sites.as_ptr().cast(), 2 * m.sites.len(), m.triangles.as_ptr(), m.triangles.len(),
            m.halfedges.as_ptr(), m.halfedges.len(), m.hull.as_ptr(), m.hull.len(), 0, 0, 0,
            s.work.as_mut_ptr(), s.work.len(), s.vertices.as_mut_ptr().cast(), 2 * s.vertices.len(),
            s.indexes.as_mut_ptr(), s.indexes.len(), s.offsets.as_mut_ptr(), s.offsets.len(),
            s.counts.as_mut_ptr(), s.counts.len(), &mut kind, &mut place, &mut from, &mut to,
        )
    };
    (number, kind as usize, [place, from, to].map(|number| number as usize))
}

/// Pieces cut so that they add up; the vertices that were made. The last of the slices is not looked at.
#[cfg(voronoi_cut)]
pub(crate) fn cut(b: &BoundingBox, m: Mesh<'_>, s: &mut Slices<'_>) -> Result<u32, Refusal> {
    let ([cx, cy, width, height], call): (_, Cut) = taking(b, sys::voronoi_cut, sys::voronoi_cut_by_edges);
    let mut count = 0;
    // SAFETY: each slice with its own length, that of points in numbers; four of those written are borrowed `&mut`, one is a local value.
    Refusal::of(unsafe {
        call(
            cx, cy, width, height,
            m.sites.as_ptr().cast(), 2 * m.sites.len(), m.triangles.as_ptr(), m.triangles.len(),
            m.halfedges.as_ptr(), m.halfedges.len(), m.hull.as_ptr(), m.hull.len(),
            s.work.as_mut_ptr(), s.work.len(), s.vertices.as_mut_ptr().cast(), 2 * s.vertices.len(),
            s.indexes.as_mut_ptr(), s.indexes.len(), s.offsets.as_mut_ptr(), s.offsets.len(), &mut count,
        )
    })?;
    Ok(count)
}

pub(crate) fn all_neighbours(m: Mesh<'_>, c: Cells<'_>, work: &mut [u32], starts: &mut [u32], out: &mut [u32]) -> Result<(), Refusal> {
    // SAFETY: each slice with its own length, that of points in numbers; the three written are borrowed `&mut`.
    Refusal::of(unsafe {
        sys::voronoi_all_neighbours(
            m.sites.as_ptr().cast(), 2 * m.sites.len(), m.triangles.as_ptr(), m.triangles.len(),
            m.halfedges.as_ptr(), m.halfedges.len(), m.hull.as_ptr(), m.hull.len(),
            c.offsets.as_ptr(), c.offsets.len(), c.indexes.as_ptr(), c.indexes.len(),
            work.as_mut_ptr(), work.len(), starts.as_mut_ptr(), starts.len(), out.as_mut_ptr(), out.len(),
        )
    })
}

/// How many entries of `out` were written, and whether the last one ends the path.
pub(crate) fn path(m: Mesh<'_>, site: u32, to: Point, work: &mut [u32], out: &mut [u32]) -> Result<(usize, bool), Refusal> {
    let [mut count, mut ended] = [0; 2];
    // SAFETY: each slice with its own length, that of points in numbers; two of those written are borrowed `&mut`, two are local values.
    Refusal::of(unsafe {
        sys::voronoi_path(
            m.sites.as_ptr().cast(), 2 * m.sites.len(), m.triangles.as_ptr(), m.triangles.len(),
            m.halfedges.as_ptr(), m.halfedges.len(), m.hull.as_ptr(), m.hull.len(),
            site, to.x, to.y, work.as_mut_ptr(), work.len(), out.as_mut_ptr(), out.len(), &mut count, &mut ended,
        )
    })?;
    Ok((count as usize, ended == 1))
}

pub(crate) fn ends(m: Mesh<'_>, site: u32, points: &[Point], work: &mut [u32], out: &mut [u32]) -> Result<(), Refusal> {
    // SAFETY: each slice with its own length, that of points in numbers; the two written are borrowed `&mut`.
    Refusal::of(unsafe {
        sys::voronoi_ends(
            m.sites.as_ptr().cast(), 2 * m.sites.len(), m.triangles.as_ptr(), m.triangles.len(),
            m.halfedges.as_ptr(), m.halfedges.len(), m.hull.as_ptr(), m.hull.len(),
            site, points.as_ptr().cast(), 2 * points.len(), work.as_mut_ptr(), work.len(), out.as_mut_ptr(), out.len(),
        )
    })
}

pub(crate) fn areas(vertices: &[Point], c: Cells<'_>, areas: &mut [f64]) -> Result<(), Refusal> {
    // SAFETY: each slice with its own length, that of points in numbers; the one written is borrowed `&mut`.
    Refusal::of(unsafe {
        sys::voronoi_areas(
            vertices.as_ptr().cast(), 2 * vertices.len(), c.offsets.as_ptr(), c.offsets.len(),
            c.indexes.as_ptr(), c.indexes.len(), areas.as_mut_ptr(), areas.len(),
        )
    })
}

/// The bytes of one polygon: how many were written.
pub(crate) fn cell_wkb(vertices: &[Point], c: Cells<'_>, site: u32, out: &mut [u8]) -> Result<usize, Refusal> {
    let mut written = 0;
    // SAFETY: each slice with its own length, that of points in numbers; one of those written is borrowed `&mut`, one is a local value.
    Refusal::of(unsafe {
        sys::voronoi_cell_wkb(
            vertices.as_ptr().cast(), 2 * vertices.len(), c.offsets.as_ptr(), c.offsets.len(),
            c.indexes.as_ptr(), c.indexes.len(), site, out.as_mut_ptr(), out.len(), &mut written,
        )
    })?;
    Ok(written)
}

/// Those of all, one after the other, and where each begins.
pub(crate) fn all_wkb(vertices: &[Point], c: Cells<'_>, starts: &mut [u64], out: &mut [u8]) -> Result<usize, Refusal> {
    let mut written = 0;
    // SAFETY: each slice with its own length, that of points in numbers; two of those written are borrowed `&mut`, one is a local value.
    Refusal::of(unsafe {
        sys::voronoi_all_wkb(
            vertices.as_ptr().cast(), 2 * vertices.len(), c.offsets.as_ptr(), c.offsets.len(),
            c.indexes.as_ptr(), c.indexes.len(), starts.as_mut_ptr(), starts.len(), out.as_mut_ptr(), out.len(), &mut written,
        )
    })?;
    Ok(written)
}

pub(crate) fn audit(
    b: &BoundingBox, sites: &[Point], vertices: &[Point], cells: Cells<'_>, others: Cells<'_>, bits: u32,
) -> Result<Audited, Refusal> {
    let ([cx, cy, width, height], call): (_, Audits) = taking(b, sys::voronoi_audit, sys::voronoi_audit_by_edges);
    let ([mut kind, mut site, mut vertex, mut other], mut missing) = ([0; 4], 0.0);
    // SAFETY: each slice with its own length, that of points in numbers; the five written are local values, each by itself.
    Refusal::of(unsafe {
        call(
            cx, cy, width, height, sites.as_ptr().cast(), 2 * sites.len(), vertices.as_ptr().cast(), 2 * vertices.len(),
            cells.offsets.as_ptr(), cells.offsets.len(), cells.indexes.as_ptr(), cells.indexes.len(),
            others.offsets.as_ptr(), others.offsets.len(), others.indexes.as_ptr(), others.indexes.len(),
            bits, &mut kind, &mut site, &mut vertex, &mut other, &mut missing,
        )
    })?;
    Ok(Audited { kind: kind as usize, named: [site, vertex, other], missing })
}

/// The kind, and the site, vertex and other site that it names.
pub(crate) fn certify(
    b: &BoundingBox, sites: &[Point], vertices: &[Point], cells: Cells<'_>, bits: u32, work: &mut [u32],
) -> Result<(usize, [u32; 3]), Refusal> {
    let ([cx, cy, width, height], call): (_, Certifies) = taking(b, sys::voronoi_certify, sys::voronoi_certify_by_edges);
    let [mut kind, mut site, mut vertex, mut other] = [0; 4];
    // SAFETY: each slice with its own length, that of points in numbers; one of those written is borrowed `&mut`, four are local values.
    Refusal::of(unsafe {
        call(
            cx, cy, width, height, sites.as_ptr().cast(), 2 * sites.len(), vertices.as_ptr().cast(), 2 * vertices.len(),
            cells.offsets.as_ptr(), cells.offsets.len(), cells.indexes.as_ptr(), cells.indexes.len(),
            bits, work.as_mut_ptr(), work.len(), &mut kind, &mut site, &mut vertex, &mut other,
        )
    })?;
    Ok((kind as usize, [site, vertex, other]))
}
