//! include/voronoi.h: the calls that this crate makes, and its numbers. tests/header.rs holds them to the header.

/// Half-edges that have no pair, sites in no triangle.
pub const EMPTY: u32 = u32::MAX;
/// The most sites and triangles that are accepted.
pub const MOST_SITES: usize = 65536;
pub const MOST_TRIANGLES: usize = 131072;
/// How many counts a build writes, and the places of those that are read here.
pub const COUNTS: usize = 9;
pub const COUNT_VERTICES: usize = 0;
pub const COUNT_OWNERS: usize = 1;
pub const COUNT_LOST: usize = 5;
/// An audit's usual tolerance, and its kinds but the last.
pub const AUDIT_BITS: usize = 20;
pub const AUDIT_SOUND: usize = 0;
pub const AUDIT_RING: usize = 1;
pub const AUDIT_OUTSIDE: usize = 2;
pub const AUDIT_NEARER: usize = 3;
pub const AUDIT_TOTAL: usize = 4;
/// A certificate's usual tolerance, and its kinds but the last.
pub const CERTIFY_BITS: usize = 32;
pub const CERTIFY_SOUND: usize = 0;
pub const CERTIFY_OUTSIDE: usize = 1;
pub const CERTIFY_SIDE: usize = 2;
pub const CERTIFY_BORDER: usize = 3;
pub const CERTIFY_NEARER: usize = 4;
/// What a reason names.
pub const WHY_SITE: usize = 2;
pub const WHY_TRIANGLE: usize = 3;
pub const WHY_HALFEDGE: usize = 4;
pub const WHY_HULL_PLACE: usize = 5;
pub const WHY_EDGE: usize = 6;

macro_rules! calls {
    ($(fn $name:ident($($argument:ident: $type:ty),* $(,)?);)*) => {
        extern "C" { $(pub fn $name($($argument: $type),*) -> u32;)* }
    };
}

calls! {
    fn voronoi_centroid(points: *const f64, length: usize, x: *mut f64, y: *mut f64);
    fn voronoi_box(cx: f64, cy: f64, width: f64, height: f64, left: *mut f64, top: *mut f64, right: *mut f64, bottom: *mut f64,
        across: *mut f64, down: *mut f64);
    fn voronoi_box_by_edges(left: f64, top: f64, right: f64, bottom: f64, cx: *mut f64, cy: *mut f64, across: *mut f64, down: *mut f64);
    fn voronoi_corners(cx: f64, cy: f64, width: f64, height: f64, out: *mut f64, length: usize);
    fn voronoi_corners_by_edges(left: f64, top: f64, right: f64, bottom: f64, out: *mut f64, length: usize);
    fn voronoi_is_inside(cx: f64, cy: f64, width: f64, height: f64, x: f64, y: f64, inside: *mut u32);
    fn voronoi_is_inside_by_edges(left: f64, top: f64, right: f64, bottom: f64, x: f64, y: f64, inside: *mut u32);
    fn voronoi_is_exclusively_inside(cx: f64, cy: f64, width: f64, height: f64, x: f64, y: f64, inside: *mut u32);
    fn voronoi_is_exclusively_inside_by_edges(left: f64, top: f64, right: f64, bottom: f64, x: f64, y: f64, inside: *mut u32);
    fn voronoi_build(cx: f64, cy: f64, width: f64, height: f64, sites: *const f64, sites_len: usize, triangles: *const u32,
        triangles_len: usize, halfedges: *const u32, halfedges_len: usize, hull: *const u32, hull_len: usize, work: *mut u32,
        work_len: usize, vertices: *mut f64, vertices_len: usize, indexes: *mut u32, indexes_len: usize, offsets: *mut u32,
        offsets_len: usize, counts: *mut u32, counts_len: usize);
    fn voronoi_build_by_edges(left: f64, top: f64, right: f64, bottom: f64, sites: *const f64, sites_len: usize, triangles: *const u32,
        triangles_len: usize, halfedges: *const u32, halfedges_len: usize, hull: *const u32, hull_len: usize, work: *mut u32,
        work_len: usize, vertices: *mut f64, vertices_len: usize, indexes: *mut u32, indexes_len: usize, offsets: *mut u32,
        offsets_len: usize, counts: *mut u32, counts_len: usize);
    fn voronoi_why(cx: f64, cy: f64, width: f64, height: f64, sites: *const f64, sites_len: usize, triangles: *const u32,
        triangles_len: usize, halfedges: *const u32, halfedges_len: usize, hull: *const u32, hull_len: usize, asked: u32, first: u32,
        second: u32, work: *mut u32, work_len: usize, vertices: *mut f64, vertices_len: usize, indexes: *mut u32, indexes_len: usize,
        offsets: *mut u32, offsets_len: usize, counts: *mut u32, counts_len: usize, kind: *mut u32, place: *mut u32, from: *mut u32,
        to: *mut u32);
    fn voronoi_why_by_edges(left: f64, top: f64, right: f64, bottom: f64, sites: *const f64, sites_len: usize, triangles: *const u32,
        triangles_len: usize, halfedges: *const u32, halfedges_len: usize, hull: *const u32, hull_len: usize, asked: u32, first: u32,
        second: u32, work: *mut u32, work_len: usize, vertices: *mut f64, vertices_len: usize, indexes: *mut u32, indexes_len: usize,
        offsets: *mut u32, offsets_len: usize, counts: *mut u32, counts_len: usize, kind: *mut u32, place: *mut u32, from: *mut u32,
        to: *mut u32);
    fn voronoi_all_neighbours(sites: *const f64, sites_len: usize, triangles: *const u32, triangles_len: usize,
        halfedges: *const u32, halfedges_len: usize, hull: *const u32, hull_len: usize, offsets: *const u32, offsets_len: usize,
        indexes: *const u32, indexes_len: usize, work: *mut u32, work_len: usize, starts: *mut u32, starts_len: usize, out: *mut u32,
        out_len: usize);
    fn voronoi_path(sites: *const f64, sites_len: usize, triangles: *const u32, triangles_len: usize, halfedges: *const u32,
        halfedges_len: usize, hull: *const u32, hull_len: usize, site: u32, x: f64, y: f64, work: *mut u32, work_len: usize,
        out: *mut u32, out_len: usize, count: *mut u32, ended: *mut u32);
    fn voronoi_ends(sites: *const f64, sites_len: usize, triangles: *const u32, triangles_len: usize, halfedges: *const u32,
        halfedges_len: usize, hull: *const u32, hull_len: usize, site: u32, points: *const f64, points_len: usize, work: *mut u32,
        work_len: usize, out: *mut u32, out_len: usize);
    fn voronoi_areas(vertices: *const f64, vertices_len: usize, offsets: *const u32, offsets_len: usize, indexes: *const u32,
        indexes_len: usize, areas: *mut f64, areas_len: usize);
    fn voronoi_cell_wkb(vertices: *const f64, vertices_len: usize, offsets: *const u32, offsets_len: usize, indexes: *const u32,
        indexes_len: usize, site: u32, out: *mut u8, out_len: usize, written: *mut usize);
    fn voronoi_all_wkb(vertices: *const f64, vertices_len: usize, offsets: *const u32, offsets_len: usize, indexes: *const u32,
        indexes_len: usize, starts: *mut u64, starts_len: usize, out: *mut u8, out_len: usize, written: *mut usize);
    fn voronoi_audit(cx: f64, cy: f64, width: f64, height: f64, sites: *const f64, sites_len: usize, vertices: *const f64,
        vertices_len: usize, offsets: *const u32, offsets_len: usize, indexes: *const u32, indexes_len: usize, starts: *const u32,
        starts_len: usize, others: *const u32, others_len: usize, bits: u32, kind: *mut u32, site: *mut u32, vertex: *mut u32,
        other: *mut u32, missing: *mut f64);
    fn voronoi_audit_by_edges(left: f64, top: f64, right: f64, bottom: f64, sites: *const f64, sites_len: usize, vertices: *const f64,
        vertices_len: usize, offsets: *const u32, offsets_len: usize, indexes: *const u32, indexes_len: usize, starts: *const u32,
        starts_len: usize, others: *const u32, others_len: usize, bits: u32, kind: *mut u32, site: *mut u32, vertex: *mut u32,
        other: *mut u32, missing: *mut f64);
    fn voronoi_certify(cx: f64, cy: f64, width: f64, height: f64, sites: *const f64, sites_len: usize, vertices: *const f64,
        vertices_len: usize, offsets: *const u32, offsets_len: usize, indexes: *const u32, indexes_len: usize, bits: u32, work: *mut u32,
        work_len: usize, kind: *mut u32, site: *mut u32, vertex: *mut u32, other: *mut u32);
    fn voronoi_certify_by_edges(left: f64, top: f64, right: f64, bottom: f64, sites: *const f64, sites_len: usize,
        vertices: *const f64, vertices_len: usize, offsets: *const u32, offsets_len: usize, indexes: *const u32, indexes_len: usize,
        bits: u32, work: *mut u32, work_len: usize, kind: *mut u32, site: *mut u32, vertex: *mut u32, other: *mut u32);
}

/// How many words a certificate works in, for n sites and m entries.
pub const fn certify_room(n: usize, m: usize) -> usize {
    3 * m + 2 * n + 64
}

#[cfg(voronoi_cut)]
calls! {
    fn voronoi_cut(cx: f64, cy: f64, width: f64, height: f64, sites: *const f64, sites_len: usize, triangles: *const u32,
        triangles_len: usize, halfedges: *const u32, halfedges_len: usize, hull: *const u32, hull_len: usize, work: *mut u32,
        work_len: usize, vertices: *mut f64, vertices_len: usize, indexes: *mut u32, indexes_len: usize, offsets: *mut u32,
        offsets_len: usize, count: *mut u32);
    fn voronoi_cut_by_edges(left: f64, top: f64, right: f64, bottom: f64, sites: *const f64, sites_len: usize, triangles: *const u32,
        triangles_len: usize, halfedges: *const u32, halfedges_len: usize, hull: *const u32, hull_len: usize, work: *mut u32,
        work_len: usize, vertices: *mut f64, vertices_len: usize, indexes: *mut u32, indexes_len: usize, offsets: *mut u32,
        offsets_len: usize, count: *mut u32);
}

/// The rooms of a cut for t triangles and h hull sites, vertices in vertices: build.rs takes them from the header.
#[cfg(voronoi_cut)]
mod rooms {
    include!(concat!(env!("OUT_DIR"), "/rooms.rs"));
}
#[cfg(voronoi_cut)]
pub use rooms::{cut_index_room, cut_vertex_room};
