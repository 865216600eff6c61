/* The C interface of libvoronoi.a (`./yelmuzard archive` makes it, for x86-64 Linux; with --native for the machine's own processor). README.md
 * shows a whole call, voronoi_pieces.h has structs over these calls, docs/use/RULES.md has the
 * meaning of every number, limit and term, docs/trust/PUBLIC.md what is promised of each call.
 *
 * A call that can refuse answers a number, 0 where it accepts. A slice is a pointer and a length in elements; one of length 0
 * may have any pointer but NULL. Lent slices must not overlap; numbers lent by pointer must be distinct, and none may be NULL. No call has
 * another precondition, and each ends on every input.
 * In C as in Rust, a slice must be as long as is said, and what a `const` pointer shows must not change during the call.
 *
 * Threads: a call reads and writes what it is lent and nothing else; it keeps no state, allocates nothing, and sets no flag or errno.
 * Calls may run at the same time wherever none is lent to be written what another is lent at all.
 * Stack: 19.4 kB for a build and for a reason (voronoi_why), 9.0 kB for an audit, 7.9 kB for cutting, 3.4 kB at most for any other call, by the
 * frames along the deepest chain of calls (x86-64); the audit's as measured
 * too, on four sites as on 65,536. Nothing recurses with the mesh.
 *
 * Cost, for N sites, T triangles and H hull sites: every call on a mesh checks the whole mesh first, N + T steps (some 2 ms at 65,536
 * sites), so ask for many things at once rather than often. On top of that, at worst:
 *
 *   roots, points, the box   a fixed number of steps; the centroid one for each point
 *   voronoi_check            none: it is the check
 *   walk, neighbours         the site's triangles
 *   clipped_neighbours       N, and twice the product of the lengths of two cells
 *   path                     the triangles at the sites that it passes, at most 3T
 *   shared_edge              a fixed number
 *   cells_share_edge         the offsets, and the product of the lengths of the two cells; no mesh, so no check
 *   cell                     the offsets; no mesh, so no check
 *   cell_wkb                 the offsets and the cell's entries; no mesh, so no check
 *   all_wkb                  the offsets and the entries; no mesh, so no check
 *   version                  none
 *   all_neighbours           3T + H; with cells N, and twice the product of the lengths of two cells for each site on the hull
 *   ends                     the triangles at the sites that the paths pass, at most 3T for each point; few where each point is near the last
 *   areas                    the offsets and the entries, some tenth of a microsecond to one for each entry; no mesh, so no check
 *   audit                    the offsets, some microseconds for each entry, the entries times the sites that each piece is held against, and for sites
 *                            at one place usually N times N / 1,024 look-ups, at worst N times N / 2; no mesh, so no check
 *   certify                  the offsets, some tenths of a microsecond for each entry and one to two microseconds for each site. At worst the entries
 *                            times the sites, where sites stand on a circle, and the square of the entries or of the sites, where all sides or all
 *                            sites fall into one slot of the search; no mesh, so no check
 *   mend                     N + T, the check of what was mended included; a site of any degree
 *   read_form, reader_feed   the bytes; no mesh is checked. reader_begin the words of the state, reader_end a fixed number
 *   grid_check               N + T, the check of the mesh included
 *   grid_nearest             N + T + H, the check of the mesh included
 *   grid_sites               the coordinates; no mesh, so no check
 *   flip                     T, to see whether the opposite sites are joined; the change itself the half-edges that end at two sites
 *   build                    usually N + T (0.1 to 0.4 microseconds a site), sites on a circle, in a strip or about a hub too. At worst the square
 *                            of N: where added points fall into one slot of the search for near ones, or between two, and where a hull site
 *                            without a cell, which is tried from each of its half-edges, has very many. docs/work/SPEED.md has the times.
 *   why                      as build; where the mesh is refused by 6 to 10 the check is made twice; for a pair the first site's neighbours, and the
 *                            product of the lengths of two cells for each of its first and last */
#ifndef VORONOI_H
#define VORONOI_H

#include <stddef.h>
#include <stdint.h>

#ifdef __cplusplus
extern "C" {
#endif

/* ---- the version (the file VERSION; CHANGELOG.md says what changed) */

#define VORONOI_VERSION "0.24.0"
#define VORONOI_VERSION_MAJOR 0
#define VORONOI_VERSION_MINOR 24
#define VORONOI_VERSION_PATCH 0
#define VORONOI_VERSION_NUMBER 2400 /* 10000 times the first, 100 times the second, and the third */

/* VORONOI_VERSION_NUMBER of the header that the archive was made with. Refuses nothing. A caller whose header has another one must not call further:
 * the arguments of a call may have changed. */
uint32_t voronoi_version(void);

/* ---- numbers */

/* An index that is none: an unpaired half-edge, a cleared entry. */
#define VORONOI_EMPTY UINT32_C(4294967295)

/* What is accepted. */
#define VORONOI_LEAST_SITES 3
#define VORONOI_MOST_SITES 65536
#define VORONOI_LEAST_TRIANGLES 1
#define VORONOI_MOST_TRIANGLES 131072

/* What a build must be lent, for T triangles, H hull sites and N sites. Vertices are counted in vertices; the slice of vertices has two
 * numbers for each, so its length is at least VORONOI_VERTEX_NUMBERS. Then indexes, offsets, work. */
#define VORONOI_VERTEX_ROOM(T, H) (7 * (size_t)(T) + 5 * (size_t)(H) + 4)
#define VORONOI_VERTEX_NUMBERS(T, H) (2 * VORONOI_VERTEX_ROOM(T, H))
#define VORONOI_INDEX_ROOM(T, H) (12 * (size_t)(T) + 8 * (size_t)(H) + 4)
#define VORONOI_OFFSET_ROOM(N) ((size_t)(N) + 1)
#define VORONOI_WORK_ROOM(N) ((size_t)(N))

/* What cutting must be lent: vertices and indexes; offsets and work as for a build. The rooms always suffice. */
#define VORONOI_CUT_VERTEX_ROOM(T, H) (7 * (size_t)(T) + 2 * (size_t)(H) + 4)
#define VORONOI_CUT_VERTEX_NUMBERS(T, H) (2 * VORONOI_CUT_VERTEX_ROOM(T, H))
#define VORONOI_CUT_INDEX_ROOM(T, H) (16 * (size_t)(T) + 11 * (size_t)(H))

/* What a certificate must be lent of work, for N sites and M entries, the length of indexes: three words to an entry, two to a site, and 64. */
#define VORONOI_CERTIFY_ROOM(N, M) (3 * (size_t)(M) + 2 * (size_t)(N) + 64)

/* What the neighbours of all sites must be lent, for T triangles, H hull sites and N sites: starts, out, and VORONOI_WORK_ROOM. The room of out always suffices. */
#define VORONOI_START_ROOM(N) ((size_t)(N) + 1)
#define VORONOI_NEIGHBOUR_ROOM(T, H) (3 * (size_t)(T) + (size_t)(H))

/* What the polygon of a cell of n entries takes in bytes. */
#define VORONOI_WKB_ROOM(n) ((n) < 3 ? 9 : 29 + 16 * (size_t)(n))

/* What the polygons of n cells with m entries together take in bytes at most, and their starts in numbers: VORONOI_START_ROOM. */
#define VORONOI_ALL_WKB_ROOM(n, m) (29 * (size_t)(n) + 16 * (size_t)(m))

/* What a MultiPoint of n sites takes in bytes. */
#define VORONOI_MULTIPOINT_ROOM(n) (9 + 21 * (size_t)(n))

/* What mending must be lent, for T triangles and N sites: pairs, hull, changes (three numbers each), and VORONOI_WORK_ROOM. */
#define VORONOI_PAIR_ROOM(T) (3 * (size_t)(T))
#define VORONOI_MENDED_ROOM(N) ((size_t)(N))
#define VORONOI_CHANGE_ROOM(T, N) (3 * (size_t)(T) + (size_t)(N))
#define VORONOI_CHANGE_NUMBERS(T, N) (3 * VORONOI_CHANGE_ROOM(T, N))

/* What reading a form must be lent: the words of a reader's state, and the numbers of each list. */
#define VORONOI_READER_WORDS 16
#define VORONOI_FORM_BOX 4
#define VORONOI_FORM_SITES 192
#define VORONOI_FORM_TRIANGLES 576
#define VORONOI_FORM_HALFEDGES 576
#define VORONOI_FORM_HULL 96

/* The places of a build's counts: the number of vertices, the owners of the four corners, the lost corners (those in no cell), the reused
 * points (three: extensions, first crossings, second crossings); how many they are. */
#define VORONOI_COUNT_VERTICES 0
#define VORONOI_COUNT_OWNERS 1
#define VORONOI_COUNT_LOST 5
#define VORONOI_COUNT_REUSED 6
#define VORONOI_COUNTS 9

/* ---- refusals, in the order in which they are tried (16 after 10, 17 first, 18 before 2, 19 after 7, 21 first, 22 in the place of 6, 23 after 10); docs/use/RULES.md says of each what to do about it */

#define VORONOI_ACCEPTED 0
#define VORONOI_REFUSED_COUNT 1         /* a count breaks its limit, an odd site list, triangles not in threes, half-edges not as many */
#define VORONOI_REFUSED_ROOM 2          /* a lent output or work slice is below its room */
#define VORONOI_REFUSED_BOX 3           /* the box breaks its rule */
#define VORONOI_REFUSED_SITE 4          /* a site number is not below the site count */
#define VORONOI_REFUSED_DESTINATION 5   /* the destination breaks its rule */
#define VORONOI_REFUSED_COORDINATE 6    /* a coordinate breaks its rule */
#define VORONOI_REFUSED_TRIANGLE 7      /* a triangle names no site, or one twice */
#define VORONOI_REFUSED_PAIRING 8       /* pairing broken */
#define VORONOI_REFUSED_HULL 9          /* hull broken */
#define VORONOI_REFUSED_FAN 10          /* fan broken */
#define VORONOI_REFUSED_CIRCUMCENTER 11 /* a circumcenter breaks its rule */
#define VORONOI_REFUSED_EXTENSION 12    /* an extended point is not finite */
#define VORONOI_REFUSED_NO_CROSSING 13  /* an edge with one end inside finds no crossing */
#define VORONOI_REFUSED_ONE_CROSSING 14 /* an edge with both ends outside finds exactly one crossing */
/* 15 is not given: it stood for a clipped vertex on no side, and it is proved that there is none (docs/DIFFERENCES.md) */
#define VORONOI_REFUSED_OFFSETS 16      /* cell offsets not one more than sites, not from 0, falling, or past the list's end */
#define VORONOI_REFUSED_FORM 17         /* the form is broken (where a form is read) */
#define VORONOI_REFUSED_ENTRY 18        /* an entry of the cell names no vertex */
#define VORONOI_REFUSED_TWICE 19        /* an ordered pair of sites has two half-edges (voronoi_mend alone) */
#define VORONOI_REFUSED_UNCLIPPED 20    /* the form has no box, kind 6: that mode is gone (where a form is read) */
#define VORONOI_REFUSED_POINTS 21       /* the bytes are no MultiPoint (voronoi_read_multipoint alone) */
#define VORONOI_REFUSED_GRID 22         /* a whole coordinate is beyond the profile (the calls on the grid alone) */
#define VORONOI_REFUSED_FLIP 23         /* the half-edge cannot be flipped, or the table is not the leftmost table (voronoi_flip alone) */
#define VORONOI_REFUSED_CORNER 24       /* a vertex that an entry names is not finite or above 2^400 (areas, audits, certificates) */
#define VORONOI_REFUSED_BORDER 25       /* the border does not turn exactly once, the right way (the calls that cut) */

/* A sentence for each number, with no full stop; "no such number" for any other. It is never NULL. */
static inline const char *voronoi_words(uint32_t number)
{
    switch (number) {
    case VORONOI_ACCEPTED: return "accepted";
    case VORONOI_REFUSED_COUNT: return "the sites, triangles or hull sites are too few or too many, or a list's length does not fit";
    case VORONOI_REFUSED_ROOM: return "a lent slice is shorter than its room";
    case VORONOI_REFUSED_BOX: return "the box has a size that is not above 0, edges out of order, or a number that is too large or not finite";
    case VORONOI_REFUSED_SITE: return "there is no site of that number";
    case VORONOI_REFUSED_DESTINATION: return "the destination has a coordinate above 2^100 or not finite";
    case VORONOI_REFUSED_COORDINATE: return "a point has a coordinate above 2^100 or not finite";
    case VORONOI_REFUSED_TRIANGLE: return "a triangle names a site that is not there, or one site twice";
    case VORONOI_REFUSED_PAIRING: return "two half-edges that should be each other's pair are not";
    case VORONOI_REFUSED_HULL: return "the hull is not the round of all unpaired half-edges";
    case VORONOI_REFUSED_FAN: return "the triangles at a site are not one connected fan";
    case VORONOI_REFUSED_CIRCUMCENTER: return "a triangle is so flat that its circumcenter is not finite or is above 2^400";
    case VORONOI_REFUSED_EXTENSION: return "a hull edge is so short that it has no direction";
    case VORONOI_REFUSED_NO_CROSSING: return "an edge that leaves the box was not found to cross it";
    case VORONOI_REFUSED_ONE_CROSSING: return "an edge with both ends outside the box was found to cross it once";
    case VORONOI_REFUSED_OFFSETS: return "the cells' offsets do not cut the list of indexes";
    case VORONOI_REFUSED_FORM: return "the form is broken: a record cut, out of order, or one too many";
    case VORONOI_REFUSED_ENTRY: return "a cell names a vertex that is not there";
    case VORONOI_REFUSED_TWICE: return "two half-edges run the same way between the same two sites";
    case VORONOI_REFUSED_UNCLIPPED: return "the form has no box: the unclipped mode is gone";
    case VORONOI_REFUSED_POINTS: return "the file is no MultiPoint in Well-Known Binary: a wrong mark or type, an early end, or bytes left over";
    case VORONOI_REFUSED_GRID: return "a site has a whole coordinate below -8,192 or above 8,192";
    case VORONOI_REFUSED_FLIP: return "the half-edge cannot be flipped, or the table is not the leftmost table";
    case VORONOI_REFUSED_CORNER: return "a vertex that a cell names has a coordinate above 2^400 or not finite";
    case VORONOI_REFUSED_BORDER: return "the border does not turn exactly once, the right way";
    default: return "no such number";
    }
}

/* ---- roots: none refuses
 * On patterns (`_bits`): the 64 bits of an f64. A NaN is answered as 0x7FF8000000000000, and every answer is one pattern only.
 * On f64: the same values. That a NaN has that pattern too is tested on the archive and not proved. */

/* The square root, to the nearest f64, ties to even: IEEE 754-2019's squareRoot. Of -0 it is -0, of a NaN or below 0 a NaN. */
uint64_t voronoi_root_bits(uint64_t b);
double voronoi_root(double x);

/* The sign bit cleared. On patterns a NaN keeps its other bits. */
uint64_t voronoi_magnitude_bits(uint64_t b);
double voronoi_magnitude(double x);

/* 1 with the sign of the argument: 1 for +0, -1 for -0. Of a NaN it is a NaN. */
uint64_t voronoi_signum_bits(uint64_t b);
double voronoi_signum(double x);

/* ---- points and the box
 * y points down: the top of a box is its least y. A box is its centre (cx, cy), width and height. 3 is tried on it first, then 6 on each
 * point, a ray's direction included. A number lent by pointer is always written: 0 where the call refuses, EMPTY for a side. */

/* Whether a and b are within 2^-50, by the computed difference: 1 or 0. Refuses nothing; a NaN is within no tolerance. */
uint32_t voronoi_abs_diff_eq(double a, double b);

/* The squared distance of (ax, ay) and (bx, by). 6. */
uint32_t voronoi_dist2(double ax, double ay, double bx, double by, double *d);

/* The circumcenter of three points. 6, then 11. */
uint32_t voronoi_circumcenter(double ax, double ay, double bx, double by, double cx, double cy, double *x, double *y);

/* The centroid of 1 to 65,536 points, x and y in turn: `length` counts numbers. 1 (also for an odd length), then 6. */
uint32_t voronoi_centroid(const double *points, size_t length, double *x, double *y);

/* The box's edges, then its width and height recomputed from them. 3. */
uint32_t voronoi_box(double cx, double cy, double width, double height,
    double *left, double *top, double *right, double *bottom, double *across, double *down);

/* Its corners, x and y each: top left, bottom left, bottom right, top right. 2 below 8 numbers of room, then 3; both leave the
 * slice as it was. What is past the corners is cleared. */
uint32_t voronoi_corners(double cx, double cy, double width, double height, double *out, size_t length);

/* Whether (x, y) is inside the box or on its edges, and whether it is inside and on no side: 1 or 0. 3, then 6. */
uint32_t voronoi_is_inside(double cx, double cy, double width, double height, double x, double y, uint32_t *inside);
uint32_t voronoi_is_exclusively_inside(double cx, double cy, double width, double height, double x, double y, uint32_t *inside);

/* The side whose line (x, y) is on within 2^-50, the first of top 0, bottom 2, right 3, left 1; EMPTY for none. 3, then 6. */
uint32_t voronoi_which_edge(double cx, double cy, double width, double height, double x, double y, uint32_t *side);

/* Where the line through (px, py) and (qx, qy) meets the box, or the ray from (px, py) in the direction (dx, dy), the nearer point
 * first: how many points, 0 to 2, then the first's and the second's coordinates, 0 where there is none. 3, then 6. */
uint32_t voronoi_intersect_line(double cx, double cy, double width, double height, double px, double py, double qx, double qy,
    uint32_t *count, double *x, double *y, double *u, double *v);
uint32_t voronoi_project_ray(double cx, double cy, double width, double height, double px, double py, double dx, double dy,
    uint32_t *count, double *x, double *y, double *u, double *v);

/* ---- a box by its four edges
 * Each call that takes a box can be asked with left, top, right and bottom in place of the centre and the size: its name ends with _by_edges,
 * and all else is as it was. (voronoi_build_by_edges and voronoi_why_by_edges stand with the builds and with why.) The box then has these
 * edges bit for bit: two boxes that share an edge meet there, where by centre and size an edge can move by a last bit. 3: each edge is
 * finite and at most 2^101 in magnitude, left < right and top < bottom (-0 is not below +0); nothing is asked of the centre. */

/* The box's centre, left + (right - left) / 2 and top + (bottom - top) / 2, each operation rounded, then its width and height. 3. */
uint32_t voronoi_box_by_edges(double left, double top, double right, double bottom, double *cx, double *cy, double *across, double *down);

uint32_t voronoi_corners_by_edges(double left, double top, double right, double bottom, double *out, size_t length);
uint32_t voronoi_is_inside_by_edges(double left, double top, double right, double bottom, double x, double y, uint32_t *inside);
uint32_t voronoi_is_exclusively_inside_by_edges(double left, double top, double right, double bottom, double x, double y, uint32_t *inside);
uint32_t voronoi_which_edge_by_edges(double left, double top, double right, double bottom, double x, double y, uint32_t *side);
uint32_t voronoi_intersect_line_by_edges(double left, double top, double right, double bottom, double px, double py, double qx, double qy,
    uint32_t *count, double *x, double *y, double *u, double *v);
uint32_t voronoi_project_ray_by_edges(double left, double top, double right, double bottom, double px, double py, double dx, double dy,
    uint32_t *count, double *x, double *y, double *u, double *v);

/* ---- the check of a mesh
 * sites: x and y of each, in turn. triangles: three sites each. halfedges: the pair of each half-edge, or VORONOI_EMPTY; half-edge e runs
 * from triangles[e] to the next site of its triangle. hull: the sites round the border, in order. work: room for as many entries as sites.
 *
 * Winding: triangles and hull run counter-clockwise as seen with y downward, so that for each triangle a, b, c
 * (bx - ax) * (cy - ay) - (by - ay) * (cx - ax) is below 0. The arrays of delaunator (Rust, JavaScript) are so and fit as they are. Where y
 * points up this is clockwise: the triangles of SciPy, CGAL and others that run counter-clockwise there must be turned, or y be negated.
 * THE WINDING IS NOT CHECKED. A mesh wound the other way is accepted, and a clipped build of it answers 0 with wrong cells, often with no
 * corner lost. `tools/mesh` warns of it; docs/use/RULES.md, "Terms", shows how to turn a mesh.
 *
 * Answers 0, or the first of 1, 2, 6, 7, 8, 9, 10 whose rule is broken. After 0, work holds for each site its leftmost half-edge (of those
 * that end there the unpaired one if there is one, else the lowest; VORONOI_EMPTY where none ends), then VORONOI_EMPTY to its end. After 1,
 * 2 and 6 work is unchanged; after 7 to 10 it holds VORONOI_EMPTY over its whole length. */
uint32_t voronoi_check(const double *sites, size_t sites_len, const uint32_t *triangles, size_t triangles_len, const uint32_t *halfedges,
                       size_t halfedges_len, const uint32_t *hull, size_t hull_len, uint32_t *work, size_t work_len);

/* ---- walks, neighbours, paths, and what triangles and cells share
 * Every mesh query tries 1, 2, then its own arguments (4 on a site, 5 on a destination), 6, 7 to 10, and 16 where it takes cells.
 * `work` holds at least one entry for each site: after 0 the leftmost table and then EMPTY, after 1 to 6 what it held, after 7 to 10
 * and after 16 EMPTY throughout. A list is written into `out` up to its length, which is its allowance: *count says how many entries
 * were written, *ended is 1 where the last one written ends the list (an empty list is ended, also at length 0; a path is never
 * empty), and further entries stay as they were. After 7 to 10 `out` is EMPTY throughout, after every other refusal as it was; then
 * *count and *ended are 0. A site in no triangle has an empty walk, no neighbours and a path of itself alone. */

/* The half-edges that end at the site, from its leftmost one on: each exactly once. */
uint32_t voronoi_walk(const double *sites, size_t sites_len, const uint32_t *triangles, size_t triangles_len, const uint32_t *halfedges,
                      size_t halfedges_len, const uint32_t *hull, size_t hull_len, uint32_t site, uint32_t *work, size_t work_len,
                      uint32_t *out, size_t out_len, uint32_t *count, uint32_t *ended);

/* The sites where they start, in that order; a site on the hull adds the last end. */
uint32_t voronoi_neighbours(const double *sites, size_t sites_len, const uint32_t *triangles, size_t triangles_len,
                            const uint32_t *halfedges, size_t halfedges_len, const uint32_t *hull, size_t hull_len, uint32_t site,
                            uint32_t *work, size_t work_len, uint32_t *out, size_t out_len, uint32_t *count, uint32_t *ended);

/* The same, but on the hull the first and the last count only where the two cells share at least two vertices, counted per entry of
 * the site's cell. The cells: `offsets`, one more than sites, cut `indexes`. */
uint32_t voronoi_clipped_neighbours(const double *sites, size_t sites_len, const uint32_t *triangles, size_t triangles_len,
                                    const uint32_t *halfedges, size_t halfedges_len, const uint32_t *hull, size_t hull_len,
                                    const uint32_t *offsets, size_t offsets_len, const uint32_t *indexes, size_t indexes_len,
                                    uint32_t site, uint32_t *work, size_t work_len, uint32_t *out, size_t out_len, uint32_t *count,
                                    uint32_t *ended);

/* The path from the site towards (x, y): each hop to the first of the neighbours nearest by squared distance, while that is strictly
 * nearer; so it stops exactly where no neighbour is strictly nearer, lists no site twice and has no more entries than sites in use. */
/* A path that was cut may be asked for again from its last site: the answers joined without that site are the undivided path, or its beginning. */
uint32_t voronoi_path(const double *sites, size_t sites_len, const uint32_t *triangles, size_t triangles_len, const uint32_t *halfedges,
                      size_t halfedges_len, const uint32_t *hull, size_t hull_len, uint32_t site, double x, double y, uint32_t *work,
                      size_t work_len, uint32_t *out, size_t out_len, uint32_t *count, uint32_t *ended);

/* The first half-edge of triangle a that a half-edge of triangle b names as its pair, or EMPTY; so too where there is no such triangle.
 * *edge is EMPTY after a refusal. */
uint32_t voronoi_shared_edge(const double *sites, size_t sites_len, const uint32_t *triangles, size_t triangles_len,
                             const uint32_t *halfedges, size_t halfedges_len, const uint32_t *hull, size_t hull_len, uint32_t a,
                             uint32_t b, uint32_t *work, size_t work_len, uint32_t *edge);

/* Whether the cells of sites a and b share at least two entries, counted per entry of a's: *yes is 1 or 0, and 0 after a refusal.
 * There is a site less than offsets, at least none. 4 on either site, then 16. */
uint32_t voronoi_cells_share_edge(const uint32_t *offsets, size_t offsets_len, const uint32_t *indexes, size_t indexes_len, uint32_t a,
                                  uint32_t b, uint32_t *yes);

/* ---- all gauges at once
 * Each call checks the mesh once, where the single calls check it each time. `work` is as after a query. */

/* The neighbours of every site: those of site s are out[starts[s]] up to out[starts[s + 1] - 1], the list of voronoi_clipped_neighbours to its end; where
 * `offsets` and `indexes` both have length 0, that of voronoi_neighbours. starts[N] is where the last list ends. Room: VORONOI_WORK_ROOM,
 * VORONOI_START_ROOM, VORONOI_NEIGHBOUR_ROOM; no list is ever cut. Tries 1, 2, 6, 7 to 10, 16. After 0 `starts` and `out` hold VORONOI_EMPTY past what is
 * written; after 7 to 10 throughout; after every other refusal they are as they were. */
uint32_t voronoi_all_neighbours(const double *sites, size_t sites_len, const uint32_t *triangles, size_t triangles_len,
                                const uint32_t *halfedges, size_t halfedges_len, const uint32_t *hull, size_t hull_len,
                                const uint32_t *offsets, size_t offsets_len, const uint32_t *indexes, size_t indexes_len, uint32_t *work,
                                size_t work_len, uint32_t *starts, size_t starts_len, uint32_t *out, size_t out_len);

/* Where the path to each point ends: out[k] is the last site of voronoi_path to point k with room for all, from `site` for the first point and from
 * out[k - 1] for each next. `points`: x and y of each in turn. On a Delaunay mesh that is the nearest gauge; this is no part of what is promised.
 * Room: VORONOI_WORK_ROOM, and an entry of out for each point, of which there may be none. Tries 1 (also on an odd list of points), 2, 4, 5 on every point,
 * 6, 7 to 10. After 0 further entries of `out` stay as they were; after 7 to 10 `out` is VORONOI_EMPTY throughout, after every other refusal as it was. */
uint32_t voronoi_ends(const double *sites, size_t sites_len, const uint32_t *triangles, size_t triangles_len, const uint32_t *halfedges,
                      size_t halfedges_len, const uint32_t *hull, size_t hull_len, uint32_t site, const double *points, size_t points_len,
                      uint32_t *work, size_t work_len, uint32_t *out, size_t out_len);

/* ---- the builds
 * work, vertices, indexes, offsets and counts are lent; what each must be long at least is above (vertices_len counts numbers, two for
 * each vertex; VORONOI_COUNTS for counts). After 1 to 6 all five are as they were. After 7 to 14 all five are cleared over their whole
 * lengths: VORONOI_EMPTY, and +0 in vertices. After 0 each holds what follows, then VORONOI_EMPTY or +0 to its end:
 *
 *   work      the leftmost half-edge of each site, as after voronoi_check
 *   vertices  x and y of each vertex: the circumcenters in the triangles' order; then the four corners (top left,
 *             bottom left, bottom right, top right) and the points added
 *   indexes   the cells of all sites one after the other, each by its vertices' numbers
 *   offsets   where each site's cell begins in indexes, and where the last one ends
 *   counts    the number of vertices; the owners of the four corners as they were found; how many corners are lost: corner c is vertex
 *             T + c of T triangles, and is lost exactly if that number stands in no cell. Areas that do not add up to the box may come
 *             with none lost, and now and then a total is right with one lost (docs/use/RULES.md, "Lost corners"). Then how many points were
 *             reused: extensions, first crossings and second crossings that are a corner or a point added before (docs/use/RULES.md,
 *             "Reused points"). The number of vertices is T + 4 and the points added; added and reused points are all that the build
 *             was to add */

/* The cells clipped to the box of centre (cx, cy), width and height. Tries 1, 2, 3, 6, 7 to 10, 11, and 12 to 14 as the builder meets them. */
uint32_t voronoi_build(double cx, double cy, double width, double height, const double *sites, size_t sites_len,
                       const uint32_t *triangles, size_t triangles_len, const uint32_t *halfedges, size_t halfedges_len,
                       const uint32_t *hull, size_t hull_len, uint32_t *work, size_t work_len, double *vertices, size_t vertices_len,
                       uint32_t *indexes, size_t indexes_len, uint32_t *offsets, size_t offsets_len, uint32_t *counts,
                       size_t counts_len);

/* The same in the box of these edges. */
uint32_t voronoi_build_by_edges(double left, double top, double right, double bottom, const double *sites, size_t sites_len,
                                const uint32_t *triangles, size_t triangles_len, const uint32_t *halfedges, size_t halfedges_len,
                                const uint32_t *hull, size_t hull_len, uint32_t *work, size_t work_len, double *vertices,
                                size_t vertices_len, uint32_t *indexes, size_t indexes_len, uint32_t *offsets, size_t offsets_len,
                                uint32_t *counts, size_t counts_len);

/* ---- pieces by cutting
 * The ring of each site, its triangles' circumcenters and on the hull two ends at infinity, cut by the four sides of the box in turn (docs/use/RULES.md,
 * "Pieces by cutting"). Slices as a build's: vertices (circumcenters, the four corners, then points), indexes and offsets, so that voronoi_areas,
 * voronoi_audit, voronoi_cell and voronoi_cell_wkb take them as they are; *count vertices, 0 when refused. A point on the box's side between two pieces
 * may have a number in each. Tries 1, 2, 3, 6, 7 to 10, 11, 25; 12 to 14 cannot come. After 1 to 6 nothing lent changes; after 7 to 11 and 25 every lent
 * slice is cleared. One pass over the sites and their walks; nothing is searched. */

/* The pieces in the box of centre (cx, cy), width and height. */
uint32_t voronoi_cut(double cx, double cy, double width, double height, const double *sites, size_t sites_len, const uint32_t *triangles,
                     size_t triangles_len, const uint32_t *halfedges, size_t halfedges_len, const uint32_t *hull, size_t hull_len,
                     uint32_t *work, size_t work_len, double *vertices, size_t vertices_len, uint32_t *indexes, size_t indexes_len,
                     uint32_t *offsets, size_t offsets_len, uint32_t *count);

/* The same in the box of these edges. */
uint32_t voronoi_cut_by_edges(double left, double top, double right, double bottom, const double *sites, size_t sites_len,
                              const uint32_t *triangles, size_t triangles_len, const uint32_t *halfedges, size_t halfedges_len,
                              const uint32_t *hull, size_t hull_len, uint32_t *work, size_t work_len, double *vertices,
                              size_t vertices_len, uint32_t *indexes, size_t indexes_len, uint32_t *offsets, size_t offsets_len,
                              uint32_t *count);

/* The cell of a site: indexes[*start] and the *length - 1 entries after it. There is a site less than offsets, at least none: lend the
 * offsets of a build without their cleared tail. 4, then 16 on all of them. Refused, *start and *length are 0. */
uint32_t voronoi_cell(const uint32_t *offsets, size_t offsets_len, const uint32_t *indexes, size_t indexes_len, uint32_t site,
                      uint32_t *start, uint32_t *length);

/* ---- cells for map tools
 * The cell of a site as a Polygon in Well-Known Binary (OGC 06-103r4, 8.2), little-endian: a ring of the cell's vertices in their order, the
 * first repeated at the end; a cell of fewer than three entries is a Polygon of no rings, nine bytes. No vertex is left out, and the ring
 * runs as the cell does: counter-clockwise with y downward. `vertices`: x and y of each, as a build leaves them; lend the offsets of a
 * build without their cleared tail. Coordinates are the vertices' 64 bits: those of floats too, but that a NaN is written as
 * 0x7FF8000000000000 (a build that answers 0 has none). *written: how many bytes, VORONOI_WKB_ROOM of the cell's length; 0 when refused.
 * Tries 1 on an odd list of vertices, 4, 16, 18 on the entries of this cell alone, 2. Refused, `out` is as it was; past the image it
 * always is. A cell of 2^32 - 1 entries has no polygon: 2. */
uint32_t voronoi_cell_wkb(const double *vertices, size_t vertices_len, const uint32_t *offsets, size_t offsets_len,
                          const uint32_t *indexes, size_t indexes_len, uint32_t site, uint8_t *out, size_t out_len, size_t *written);
uint32_t voronoi_cell_wkb_bits(const uint64_t *vertices, size_t vertices_len, const uint32_t *offsets, size_t offsets_len,
                               const uint32_t *indexes, size_t indexes_len, uint32_t site, uint8_t *out, size_t out_len, size_t *written);

/* The polygons of all cells, one after the other, each as voronoi_cell_wkb writes it: that of cell s is out[starts[s]] and what follows up to
 * starts[s + 1]; starts[cells] is where the last one ends. Room: VORONOI_START_ROOM of the cells, VORONOI_ALL_WKB_ROOM at most.
 * Tries 1 on an odd list of vertices and on more than 2^24 indexes, 16, 18 on the entries of all cells, 2 on `starts` and on `out`. Refused, both are
 * as they were; past what is written `out` always is, and `starts` is UINT64_MAX. *written: how many bytes, 0 when refused. */
uint32_t voronoi_all_wkb(const double *vertices, size_t vertices_len, const uint32_t *offsets, size_t offsets_len, const uint32_t *indexes,
                         size_t indexes_len, uint64_t *starts, size_t starts_len, uint8_t *out, size_t out_len, size_t *written);

/* ---- areas
 * areas[s]: the area of the ring of the vertices that the entries of cell s name, in their order and back to the first: half the sum, over
 * its sides (x, y) to (u, v), of y u - x v. The sum is exact, and rounded once to the nearest f64, ties to even; so the sign is the truth.
 * Positive where the ring turns as a sound piece does, counter-clockwise with y downward, negative the other way; a ring that crosses
 * itself has the sum of its loops, each with its sign. Fewer than three entries, or a sum of exactly 0: +0. At most 2^824, never a NaN.
 * Of at most 2^-1075 in magnitude an area is 0, with the sign of the sum. Lend the offsets of a build without their cleared tail; there are
 * as many cells as offsets less one, with no limit. Triangles are rings too: `vertices` the sites, `offsets` 0 3 6 .., `indexes` the
 * triangles; on a sound mesh every area is above 0.
 * Tries 1 on an odd list of vertices and on more than 2^24 entries in the index list, 16, 18 on the entries of all cells, 24 on the
 * vertices that they name, 2 on fewer areas than cells. Refused, `areas` is as it was; after 0 what is past the areas is +0. */
uint32_t voronoi_areas(const double *vertices, size_t vertices_len, const uint32_t *offsets, size_t offsets_len, const uint32_t *indexes,
                       size_t indexes_len, double *areas, size_t areas_len);

/* ---- the audit
 * Five tests of pieces, from the pieces alone; the certificate is voronoi_certify: this one passes some wrong sheets (docs/use/AUDIT.md). vertices, offsets
 * and indexes are as a build leaves them (the offsets without their cleared tail), or as any other program makes them. 2^-bits is the tolerance, bits at most 52; VORONOI_AUDIT_BITS suits builds. *kind
 * is the first of these that holds, of the box with the edges l, t, r, b and limit = (r - l) (b - t) / 2^bits, exact:
 *
 *   VORONOI_AUDIT_RING      a ring does not run once round, the right way: with its corners v0, v1, .., one of the triangles v0 vi vi+1 or
 *                           v0 v1 vi+1 has an exact area, signed as in voronoi_areas, below -limit; *site the lowest such site
 *   VORONOI_AUDIT_OUTSIDE   a corner of a piece is outside the box; *site the lowest, *vertex its first such
 *   VORONOI_AUDIT_NEARER    a corner v of the piece of s is nearer to another site o: (ox - sx) ((vx - sx) + (vx - ox)) + (oy - sy) ((vy -
 *                           sy) + (vy - oy)), in floats and in that order, is above (across + down) 2^-bits (|ox - sx| + |oy - sy|); *site
 *                           the lowest, *vertex its first such, *other the first such o
 *   VORONOI_AUDIT_TOTAL     the exact sum of the exact areas differs from the box's by more than 2^-bits of it
 *   VORONOI_AUDIT_TWIN      two sites stand at one place; *site the lowest that has one before it, *other the first before it
 *   VORONOI_AUDIT_SOUND     none of these
 *
 * starts and others: the sites that each piece is held against in VORONOI_AUDIT_NEARER, others cut by starts (one more than sites) as
 * indexes are by offsets. Both of length 0: every piece against all sites. *missing is the box less the sum, rounded once, over the box
 * rounded once: the uncovered share, below 0 where pieces overlap. Numbers that a kind does not name are VORONOI_EMPTY.
 * Tries 1 on the number of sites, odd lists, bits above 52 and more than 2^24 entries, 3, 6, 16 on the offsets, then on the starts, 18 on
 * the entries, then on the others, 24. The five numbers are always written, VORONOI_EMPTY and 0 where it is refused. */
#define VORONOI_AUDIT_BITS 20
#define VORONOI_AUDIT_SOUND 0
#define VORONOI_AUDIT_RING 1
#define VORONOI_AUDIT_OUTSIDE 2
#define VORONOI_AUDIT_NEARER 3
#define VORONOI_AUDIT_TOTAL 4
#define VORONOI_AUDIT_TWIN 5
uint32_t voronoi_audit(double cx, double cy, double width, double height, const double *sites, size_t sites_len, const double *vertices,
                       size_t vertices_len, const uint32_t *offsets, size_t offsets_len, const uint32_t *indexes, size_t indexes_len,
                       const uint32_t *starts, size_t starts_len, const uint32_t *others, size_t others_len, uint32_t bits,
                       uint32_t *kind, uint32_t *site, uint32_t *vertex, uint32_t *other, double *missing);
uint32_t voronoi_audit_by_edges(double left, double top, double right, double bottom, const double *sites, size_t sites_len,
                                const double *vertices, size_t vertices_len, const uint32_t *offsets, size_t offsets_len,
                                const uint32_t *indexes, size_t indexes_len, const uint32_t *starts, size_t starts_len,
                                const uint32_t *others, size_t others_len, uint32_t bits, uint32_t *kind, uint32_t *site,
                                uint32_t *vertex, uint32_t *other, double *missing);

/* ---- the certificate
 * Whether pieces are the true ones, from the box, the sites and the pieces alone: vertices, offsets and indexes as cutting or a build leaves them, or as
 * any other program makes them (offsets without their cleared tail; indexes too, as VORONOI_CERTIFY_ROOM grows with their length). Corners are places:
 * vertices of equal coordinates are one, and -0 is 0. A side is two corners of a ring one after the other, the last and the first included. It is along
 * an edge where both its ends lie on the same edge of the box. far is 2^-bits of the largest magnitude of the four edges, in floats; bits at most 52;
 * VORONOI_CERTIFY_BITS suits pieces by cutting. *kind is the first of these that holds:
 *
 *   VORONOI_CERTIFY_OUTSIDE  a corner of a piece is outside the box; *site the lowest, *vertex its first such
 *   VORONOI_CERTIFY_SIDE     a side that is not along an edge comes more often, over all rings, than the same side back; *site the lowest that has
 *                            one, *vertex where its first such side starts
 *   VORONOI_CERTIFY_BORDER   the sides along the top edge that start at the top right corner, less those that end there, are not exactly one
 *   VORONOI_CERTIFY_NEARER   a corner v of the piece of s is nearer to another site o: the test of VORONOI_AUDIT_NEARER, against all sites and above
 *                            far (|ox - sx| + |oy - sy|); *site the lowest, *vertex its first such, *other the first such o
 *   VORONOI_CERTIFY_TWIN     two sites stand at one place; *site the lowest that has one before it, *other the first before it
 *   VORONOI_CERTIFY_SOUND    none of these: every place of the box that is nearer to one site than to any other by more than the tolerance lies in the
 *                            piece of that site, exactly once, and in no other piece (docs/trust/PUBLIC.md, `certified`)
 *
 * Numbers that a kind does not name are VORONOI_EMPTY. Tries 1 on the number of sites, odd lists, bits above 52 and more than 2^24 entries, 2 on the
 * work, 3, 6, 16, 18, 24. The four numbers are always written, VORONOI_EMPTY where it is refused. After 0, 16, 18 and 24 `work` is VORONOI_EMPTY
 * throughout, after 1 to 6 as it was. */
#define VORONOI_CERTIFY_BITS 32
#define VORONOI_CERTIFY_SOUND 0
#define VORONOI_CERTIFY_OUTSIDE 1
#define VORONOI_CERTIFY_SIDE 2
#define VORONOI_CERTIFY_BORDER 3
#define VORONOI_CERTIFY_NEARER 4
#define VORONOI_CERTIFY_TWIN 5
uint32_t voronoi_certify(double cx, double cy, double width, double height, const double *sites, size_t sites_len, const double *vertices,
                         size_t vertices_len, const uint32_t *offsets, size_t offsets_len, const uint32_t *indexes, size_t indexes_len,
                         uint32_t bits, uint32_t *work, size_t work_len, uint32_t *kind, uint32_t *site, uint32_t *vertex, uint32_t *other);
uint32_t voronoi_certify_by_edges(double left, double top, double right, double bottom, const double *sites, size_t sites_len,
                                  const double *vertices, size_t vertices_len, const uint32_t *offsets, size_t offsets_len,
                                  const uint32_t *indexes, size_t indexes_len, uint32_t bits, uint32_t *work, size_t work_len,
                                  uint32_t *kind, uint32_t *site, uint32_t *vertex, uint32_t *other);

/* ---- why
 * The one reason: what is wrong, and nothing that stands earlier in the order is. Tries 1, 2, 3, 4 on each site asked about, 6, 7 to 10, 11, and 12
 * to 14 as the builder meets them; on a mesh that builds it answers what was asked: 0 nothing, 1 about the cell of `first`, 2 or more about
 * `second` as a neighbour of `first`. The answer is the refusal's number, 0 where nothing is refused; the five slices are as after a build.
 * *kind, *place, *from and *to are written after every answer, VORONOI_EMPTY where the kind has no such number:
 *
 *   VORONOI_WHY_NO_FAULT    nothing is wrong
 *   VORONOI_WHY_NUMBER      the number says it all: 1, 2, 3, 4
 *   VORONOI_WHY_SITE        *place is the lowest site that breaks 6 or 10
 *   VORONOI_WHY_TRIANGLE    *place is the lowest triangle that breaks 7 or 11
 *   VORONOI_WHY_HALFEDGE    *place is the lowest half-edge that breaks 8; for 9 the lowest unpaired one that lies on no hull pair or shares a lower one's
 *   VORONOI_WHY_HULL_PLACE  *place is the lowest hull place that breaks 9, or the first place of the hull edge of 12
 *   VORONOI_WHY_EDGE        13 and 14: the cell is *place, the edge of its ring runs from vertex *from to vertex *to
 *   VORONOI_WHY_UNUSED      the cell of site *place is empty: the site is in no triangle
 *   VORONOI_WHY_TRIES       it is empty: every clipping try gave nothing
 *   VORONOI_WHY_DROPPED     the second is a neighbour of the first and stands nowhere among its neighbours after clipping; *place entries of the first
 *                           one's cell, 0 or 1, stand in the second's */
#define VORONOI_WHY_NO_FAULT 0
#define VORONOI_WHY_NUMBER 1
#define VORONOI_WHY_SITE 2
#define VORONOI_WHY_TRIANGLE 3
#define VORONOI_WHY_HALFEDGE 4
#define VORONOI_WHY_HULL_PLACE 5
#define VORONOI_WHY_EDGE 6
#define VORONOI_WHY_UNUSED 7
#define VORONOI_WHY_TRIES 8
#define VORONOI_WHY_DROPPED 9

uint32_t voronoi_why(double cx, double cy, double width, double height, const double *sites, size_t sites_len,
                     const uint32_t *triangles, size_t triangles_len, const uint32_t *halfedges, size_t halfedges_len,
                     const uint32_t *hull, size_t hull_len, uint32_t asked, uint32_t first, uint32_t second, uint32_t *work,
                     size_t work_len, double *vertices, size_t vertices_len, uint32_t *indexes, size_t indexes_len, uint32_t *offsets,
                     size_t offsets_len, uint32_t *counts, size_t counts_len, uint32_t *kind, uint32_t *place, uint32_t *from,
                     uint32_t *to);

/* The same in the box of these edges. */
uint32_t voronoi_why_by_edges(double left, double top, double right, double bottom, const double *sites, size_t sites_len,
                              const uint32_t *triangles, size_t triangles_len, const uint32_t *halfedges, size_t halfedges_len,
                              const uint32_t *hull, size_t hull_len, uint32_t asked, uint32_t first, uint32_t second, uint32_t *work,
                              size_t work_len, double *vertices, size_t vertices_len, uint32_t *indexes, size_t indexes_len,
                              uint32_t *offsets, size_t offsets_len, uint32_t *counts, size_t counts_len, uint32_t *kind,
                              uint32_t *place, uint32_t *from, uint32_t *to);

/* ---- mending
 * Sites and triangles are kept; pairs and hull are worked out afresh, and what has changed is listed. `halfedges` and `hull` are the old
 * ones: only their lengths are tried. A half-edge is paired with the one that runs the other way between the same sites, if there is one.
 * The hull is the loop of the unpaired half-edges, from the old first hull site if an unpaired half-edge starts there, else from the
 * lowest site where one does. A change is three numbers: place, old value, new value; changes of pairs before those of the hull, places
 * rising, only entries that changed. VORONOI_EMPTY stands where one side has no such place; such a place is always listed.
 * Room: VORONOI_PAIR_ROOM, VORONOI_MENDED_ROOM, VORONOI_CHANGE_NUMBERS, VORONOI_WORK_ROOM.
 * Tries 1 on all counts, 2, 6, 7, 19, 9 where there is no hull of at least three sites, 10; never 8. After 1, 2 and 6 no slice changes, after
 * the others each is VORONOI_EMPTY throughout. After 0 `pairs`, `mended` and `changes` hold what was worked out, `work` the leftmost
 * half-edges of the mended mesh, each then VORONOI_EMPTY. *hull_length, *pair_changes, *hull_changes: how many hull sites there are, and
 * how many changes of each kind; 0 when refused. */
uint32_t voronoi_mend(const double *sites, size_t sites_len, const uint32_t *triangles, size_t triangles_len, const uint32_t *halfedges,
                      size_t halfedges_len, const uint32_t *hull, size_t hull_len, uint32_t *work, size_t work_len, uint32_t *pairs,
                      size_t pairs_len, uint32_t *mended, size_t mended_len, uint32_t *changes, size_t changes_len,
                      uint32_t *hull_length, uint32_t *pair_changes, uint32_t *hull_changes);

/* ---- forms that arrive in parts
 * A reader is begun, fed the form in blocks cut anywhere (0 bytes too), and ended; between the calls the caller keeps its state, and nobody
 * else. However a form is cut, number, byte, counts and lists are those that voronoi_read_form gives of the whole. docs/use/RULES.md, "The
 * form", says what a form is; the box is not tried, nor is the mesh: what was read is lent to voronoi_build or voronoi_check.
 * state: VORONOI_READER_WORDS words or more; begin sets the others to 0, no other call touches them. Lists: VORONOI_FORM_BOX (centre x, y, width,
 * height; by edges left, top, right, bottom), VORONOI_FORM_SITES (x, y, ..), VORONOI_FORM_TRIANGLES, VORONOI_FORM_HALFEDGES,
 * VORONOI_FORM_HULL. After each block they hold exactly the numbers whose last byte has come, from the beginning of each; the rest stays.
 * Tries 2 before all else: it changes nothing, and comes where a refusal stands too. Then 17, or 20 at a 6 that stands as a kind before
 * the end. *at: its byte, counted from 0 at the form's first: the first after which no sound form can follow, or the length of a form that
 * has not ended, which only the end refuses; UINT64_MAX where the answer is 0 or 2. A refusal stays: each further block and end get the same
 * number and byte until the reader is begun anew, also one that the end gave. A sound end may be asked again; a byte after it is refused. A
 * state that no reading leaves is refused by 17 at byte 0. *clip: the kind that opened the form (1 box, 7 box by its edges). Refused, it and
 * the counts are 0. */
uint32_t voronoi_reader_begin(uint64_t *state, size_t state_len);
uint32_t voronoi_reader_feed(uint64_t *state, size_t state_len, const uint8_t *block, size_t block_len, double *box, size_t box_len,
                             double *sites, size_t sites_len, uint32_t *triangles, size_t triangles_len, uint32_t *halfedges,
                             size_t halfedges_len, uint32_t *hull, size_t hull_len, uint64_t *at);
uint32_t voronoi_reader_end(uint64_t *state, size_t state_len, uint32_t *clip, uint32_t *site_count, uint32_t *triangle_count,
                            uint32_t *hull_count, uint64_t *at);
uint32_t voronoi_read_form(const uint8_t *form, size_t form_len, double *box, size_t box_len, double *sites, size_t sites_len,
                           uint32_t *triangles, size_t triangles_len, uint32_t *halfedges, size_t halfedges_len, uint32_t *hull,
                           size_t hull_len, uint32_t *clip, uint32_t *site_count, uint32_t *triangle_count, uint32_t *hull_count,
                           uint64_t *at);

/* ---- gauges from files: MultiPoints in Well-Known Binary (OGC 06-103r4, 8.2)
 * A mark (0 big-endian, 1 little-endian), type 4, a count; then so many points, each with its own mark, type 1, x and y in its own order;
 * nothing after. Types with Z, M or an SRID are none of these. Both calls cost a pass over the bytes for each rule.
 * Reading tries 21 over the whole file, 1 (3 to 65,536 points), 2 (two numbers a site), 6. After 0 `sites` holds x and y of each point in
 * file order, bits untouched, then +0; refused, what it held. *count: the points, 0 when refused. */
uint32_t voronoi_read_multipoint(const uint8_t *file, size_t file_len, double *sites, size_t sites_len, uint32_t *count);

/* Writing is little-endian throughout and tries 1 (an odd length too), 2, 6. `out` past the file is as it was, and all of it when refused.
 * *written: VORONOI_MULTIPOINT_ROOM(sites_len / 2), 0 when refused. What is written is read as the same sites, to the bit. */
uint32_t voronoi_write_multipoint(const double *sites, size_t sites_len, uint8_t *out, size_t out_len, size_t *written);

/* ---- the grid
 * Sites of whole coordinates, x and y of each in turn, of magnitude at most VORONOI_GRID_LIMIT. With integers alone, so exactly: each triangle
 * a, b, c turns counter-clockwise with Y downward, (b - a) x (c - a) below 0; across each paired half-edge the far site, the third one of the
 * pair's triangle, is not strictly inside the circle through the half-edge's triangle. A flat triangle offends, a site on the circle does not.
 * Tries 1 on all counts, 2, 22 in the place of 6, 7 to 10. After 1, 2 and 22 `work` is unchanged, after 7 to 10 VORONOI_EMPTY throughout, after 0 it
 * has the leftmost half-edges, then VORONOI_EMPTY. *kind and *place are always written, VORONOI_EMPTY when refused:
 *
 *   VORONOI_GRID_YES        both hold everywhere; *place is VORONOI_EMPTY
 *   VORONOI_GRID_TRIANGLE   *place is the lowest triangle that offends
 *   VORONOI_GRID_HALFEDGE   all triangles turn as they must; *place is the lowest half-edge whose far site is inside */
#define VORONOI_GRID_LIMIT 8192
#define VORONOI_GRID_YES 0
#define VORONOI_GRID_TRIANGLE 1
#define VORONOI_GRID_HALFEDGE 2

uint32_t voronoi_grid_check(const int32_t *grid, size_t grid_len, const uint32_t *triangles, size_t triangles_len,
                            const uint32_t *halfedges, size_t halfedges_len, const uint32_t *hull, size_t hull_len, uint32_t *work,
                            size_t work_len, uint32_t *kind, uint32_t *place);

/* The same with one question more, of the hull: with up = 32768 dy + dx of an edge from a hull site to the next, exactly one hull place has an edge up
 * (above 0) after an edge down, and no place whose two edges go both up or both down turns right; straight places do. Such a hull is convex.
 * *kind has one value more, and `yes` then says: every path towards a destination of whole or half-whole coordinates up to 33,546,239 (or of multiples
 * of 2^-11 up to 24,575), from a site in use such as hull[0], ends at a site of least distance over all sites in use, and each corner of a box of such edges is owned by one.
 *
 *   VORONOI_GRID_HULL       turns and circles hold; *place is the lowest hull place inside a run that turns right, or where there is none the second
 *                           with an edge up after an edge down
 *
 * *unused is the lowest site in no triangle, which no path reaches and which may be nearer; VORONOI_EMPTY where there is none, and when refused.
 * All else as voronoi_grid_check. */
#define VORONOI_GRID_HULL 3

uint32_t voronoi_grid_nearest(const int32_t *grid, size_t grid_len, const uint32_t *triangles, size_t triangles_len,
                              const uint32_t *halfedges, size_t halfedges_len, const uint32_t *hull, size_t hull_len, uint32_t *work,
                              size_t work_len, uint32_t *kind, uint32_t *place, uint32_t *unused);

/* The same sites as floats, for every other call: equal numbers, nothing lost. Room: as many numbers. Tries 1 (an odd length, the limits on the
 * count of sites), 2, 22; `sites` is unchanged by each. After 0 it has the floats, then +0. */
uint32_t voronoi_grid_sites(const int32_t *grid, size_t grid_len, double *sites, size_t sites_len);

/* ---- flipping
 * The diagonal of two neighbouring triangles is swapped in the lent lists. With b the pair of `halfedge`, r the half-edge before it in its triangle
 * and l the one before b: `halfedge` then starts at the site where l starts and takes l's pair, b starts where r starts and takes r's pair (an outer
 * pair that is there names them back), r and l become a pair. The hull does not change. What comes out is accepted again, and `table` is
 * its leftmost table. Flipping at b is the same.
 * `site_count` sites; `table`: the leftmost table as voronoi_check leaves it in `work`, which this call keeps right from then on. Room for `table`
 * and `work`: VORONOI_WORK_ROOM; past the sites `table` is neither looked at nor changed.
 * Tries 1, 2, 7 to 10, then 23: `halfedge` is out of range or unpaired; the two opposite sites are the same, or a half-edge joins them in
 * either direction; or the table's first entries, one for each site, are not the leftmost table. Refused, `triangles`, `halfedges` and `table` are
 * unchanged; `work` is unchanged after 1 and 2, VORONOI_EMPTY throughout after the others, and after 0 the new table, then VORONOI_EMPTY. */
uint32_t voronoi_flip(uint32_t site_count, uint32_t *triangles, size_t triangles_len, uint32_t *halfedges, size_t halfedges_len,
                      const uint32_t *hull, size_t hull_len, uint32_t *table, size_t table_len, uint32_t *work, size_t work_len,
                      uint32_t halfedge);

#ifdef __cplusplus
}
#endif

#endif
