/* Structs over voronoi.h, for callers in C99 or C++17: a mesh, a box, and the pieces with their memory in one block. Header only: each function is a
 * call of voronoi.h with the lists and their lengths in the right places. examples/plan.c shows a whole use.
 *
 * Sizes: a mesh above the library's limits (VORONOI_MOST_SITES sites or hull sites, VORONOI_MOST_TRIANGLES triangles) takes 0 bytes, and every function
 * here refuses it with VORONOI_REFUSED_COUNT before any length is multiplied, so that no size overflows. */
#ifndef VORONOI_PIECES_H
#define VORONOI_PIECES_H

#include "voronoi.h"

/* A box by its centre and size, or by its edges: by edges two boxes that share one meet there to the bit (docs/use/SHELL.md, "Neighbouring boxes"). */
typedef struct {
    double cx, cy, width, height;
} voronoi_frame;

typedef struct {
    double left, top, right, bottom; /* y points down: the top is the lesser y */
} voronoi_edges;

/* A mesh: x and y of each site in turn, three sites to a triangle, the pair of each half-edge (three to a triangle) or VORONOI_EMPTY, the hull. */
typedef struct {
    const double *sites;
    size_t site_count;
    const uint32_t *triangles, *halfedges;
    size_t triangle_count;
    const uint32_t *hull;
    size_t hull_count;
} voronoi_mesh;

/* The pieces: the slices that a build writes (voronoi.h, "the builds"), each with its room, and the counts. */
typedef struct {
    double *vertices;
    uint32_t *indexes, *offsets, *work;
    size_t site_count, vertex_room, index_room; /* vertex_room in vertices, two numbers each */
    uint32_t counts[VORONOI_COUNTS];
} voronoi_pieces;

/* Whether a mesh is within the limits of the library: 1 or 0. */
static inline int voronoi_mesh_fits(const voronoi_mesh *mesh)
{
    return mesh->site_count <= VORONOI_MOST_SITES && mesh->triangle_count <= VORONOI_MOST_TRIANGLES && mesh->hull_count <= VORONOI_MOST_SITES;
}

/* Whether pieces were laid out for so many sites as the mesh has. */
static inline int voronoi_pieces_fit(const voronoi_mesh *mesh, const voronoi_pieces *pieces)
{
    return voronoi_mesh_fits(mesh) && pieces->site_count == mesh->site_count;
}

/* ---- memory: a block of so many bytes, aligned for a double, as malloc's blocks are */

static inline size_t voronoi_block_bytes(const voronoi_mesh *mesh, size_t vertex_room, size_t index_room)
{
    return sizeof(double) * 2 * vertex_room +
           sizeof(uint32_t) * (index_room + VORONOI_OFFSET_ROOM(mesh->site_count) + VORONOI_WORK_ROOM(mesh->site_count));
}

static inline voronoi_pieces voronoi_block_pieces(const voronoi_mesh *mesh, size_t vertex_room, size_t index_room, void *block)
{
    voronoi_pieces pieces;
    const int fits = voronoi_mesh_fits(mesh);
    pieces.site_count = fits ? mesh->site_count : 0;
    pieces.vertex_room = fits ? vertex_room : 0;
    pieces.index_room = fits ? index_room : 0;
    pieces.vertices = (double *)block;
    pieces.indexes = (uint32_t *)(void *)(pieces.vertices + 2 * pieces.vertex_room);
    pieces.offsets = pieces.indexes + pieces.index_room;
    pieces.work = pieces.offsets + VORONOI_OFFSET_ROOM(pieces.site_count);
    for (size_t i = 0; i < VORONOI_COUNTS; i++)
        pieces.counts[i] = VORONOI_EMPTY;
    return pieces;
}

/* How many bytes the pieces of a mesh take; 0 above the limits. */
static inline size_t voronoi_pieces_bytes(const voronoi_mesh *mesh)
{
    return voronoi_mesh_fits(mesh) ? voronoi_block_bytes(mesh, VORONOI_VERTEX_ROOM(mesh->triangle_count, mesh->hull_count),
                                         VORONOI_INDEX_ROOM(mesh->triangle_count, mesh->hull_count))
                                   : 0;
}

/* The pieces laid into a block of so many bytes. Nothing is built yet, nothing written. */
static inline voronoi_pieces voronoi_pieces_in(const voronoi_mesh *mesh, void *block)
{
    return voronoi_block_pieces(mesh, VORONOI_VERTEX_ROOM(mesh->triangle_count, mesh->hull_count),
        VORONOI_INDEX_ROOM(mesh->triangle_count, mesh->hull_count), block);
}

/* ---- building: 0, or the refusal's number */

#define VORONOI_MESH_OF(mesh)                                                                                                             \
    (mesh)->sites, 2 * (mesh)->site_count, (mesh)->triangles, 3 * (mesh)->triangle_count, (mesh)->halfedges, 3 * (mesh)->triangle_count, \
        (mesh)->hull, (mesh)->hull_count
#define VORONOI_SLICES_OF(pieces)                                                                                                       \
    (pieces)->work, VORONOI_WORK_ROOM((pieces)->site_count), (pieces)->vertices, 2 * (pieces)->vertex_room, (pieces)->indexes,         \
        (pieces)->index_room, (pieces)->offsets, VORONOI_OFFSET_ROOM((pieces)->site_count)
/* the vertices, offsets and indexes in use, without their tails */
#define VORONOI_CELLS_OF(pieces)                                                                                                      \
    (pieces)->vertices, 2 * (size_t)(pieces)->counts[VORONOI_COUNT_VERTICES], (pieces)->offsets, (pieces)->site_count + 1,           \
        (pieces)->indexes, (size_t)(pieces)->offsets[(pieces)->site_count]

/* voronoi_build. */
static inline uint32_t voronoi_build_pieces(voronoi_frame frame, const voronoi_mesh *mesh, voronoi_pieces *pieces)
{
    if (!voronoi_pieces_fit(mesh, pieces))
        return VORONOI_REFUSED_COUNT;
    return voronoi_build(frame.cx, frame.cy, frame.width, frame.height, VORONOI_MESH_OF(mesh), VORONOI_SLICES_OF(pieces), pieces->counts,
        VORONOI_COUNTS);
}

/* voronoi_build_by_edges. */
static inline uint32_t voronoi_build_pieces_by_edges(voronoi_edges edges, const voronoi_mesh *mesh, voronoi_pieces *pieces)
{
    if (!voronoi_pieces_fit(mesh, pieces))
        return VORONOI_REFUSED_COUNT;
    return voronoi_build_by_edges(edges.left, edges.top, edges.right, edges.bottom, VORONOI_MESH_OF(mesh), VORONOI_SLICES_OF(pieces),
        pieces->counts, VORONOI_COUNTS);
}

/* ---- cutting: pieces that add up to the box. The block has rooms of its own; of the counts only that of the vertices is written. */

static inline size_t voronoi_cut_pieces_bytes(const voronoi_mesh *mesh)
{
    return voronoi_mesh_fits(mesh) ? voronoi_block_bytes(mesh, VORONOI_CUT_VERTEX_ROOM(mesh->triangle_count, mesh->hull_count),
                                         VORONOI_CUT_INDEX_ROOM(mesh->triangle_count, mesh->hull_count))
                                   : 0;
}

static inline voronoi_pieces voronoi_cut_pieces_in(const voronoi_mesh *mesh, void *block)
{
    return voronoi_block_pieces(mesh, VORONOI_CUT_VERTEX_ROOM(mesh->triangle_count, mesh->hull_count),
        VORONOI_CUT_INDEX_ROOM(mesh->triangle_count, mesh->hull_count), block);
}

/* voronoi_cut. */
static inline uint32_t voronoi_cut_pieces(voronoi_frame frame, const voronoi_mesh *mesh, voronoi_pieces *pieces)
{
    if (!voronoi_pieces_fit(mesh, pieces))
        return VORONOI_REFUSED_COUNT;
    return voronoi_cut(frame.cx, frame.cy, frame.width, frame.height, VORONOI_MESH_OF(mesh), VORONOI_SLICES_OF(pieces),
        &pieces->counts[VORONOI_COUNT_VERTICES]);
}

/* voronoi_cut_by_edges. */
static inline uint32_t voronoi_cut_pieces_by_edges(voronoi_edges edges, const voronoi_mesh *mesh, voronoi_pieces *pieces)
{
    if (!voronoi_pieces_fit(mesh, pieces))
        return VORONOI_REFUSED_COUNT;
    return voronoi_cut_by_edges(edges.left, edges.top, edges.right, edges.bottom, VORONOI_MESH_OF(mesh), VORONOI_SLICES_OF(pieces),
        &pieces->counts[VORONOI_COUNT_VERTICES]);
}

/* ---- of pieces that were built or cut */

/* How many corners the piece of a site has, and x and y of one of them; the corners go round it. */
static inline size_t voronoi_corner_count(const voronoi_pieces *pieces, size_t site)
{
    return pieces->offsets[site + 1] - pieces->offsets[site];
}

static inline const double *voronoi_corner(const voronoi_pieces *pieces, size_t site, size_t corner)
{
    return pieces->vertices + 2 * (size_t)pieces->indexes[pieces->offsets[site] + corner];
}

/* voronoi_areas: the area of each, into as many numbers as sites. */
static inline uint32_t voronoi_piece_areas(const voronoi_pieces *pieces, double *areas)
{
    return voronoi_areas(VORONOI_CELLS_OF(pieces), areas, pieces->site_count);
}

/* voronoi_all_neighbours after clipping: others[starts[s]] and what follows up to starts[s + 1]. Room: VORONOI_START_ROOM of the sites,
 * VORONOI_NEIGHBOUR_ROOM of triangles and hull sites. The pieces' work slice is written. */
static inline uint32_t voronoi_piece_neighbours(const voronoi_mesh *mesh, voronoi_pieces *pieces, uint32_t *starts, uint32_t *others)
{
    if (!voronoi_pieces_fit(mesh, pieces))
        return VORONOI_REFUSED_COUNT;
    return voronoi_all_neighbours(VORONOI_MESH_OF(mesh), pieces->offsets, pieces->site_count + 1, pieces->indexes,
        (size_t)pieces->offsets[pieces->site_count], pieces->work, VORONOI_WORK_ROOM(pieces->site_count), starts,
        VORONOI_START_ROOM(mesh->site_count), others, VORONOI_NEIGHBOUR_ROOM(mesh->triangle_count, mesh->hull_count));
}

/* voronoi_all_wkb: how many bytes the polygons of all pieces take, and the polygons; starts has VORONOI_START_ROOM of the sites. */
static inline size_t voronoi_polygon_bytes(const voronoi_pieces *pieces)
{
    size_t bytes = 0;
    for (size_t site = 0; site < pieces->site_count; site++)
        bytes += VORONOI_WKB_ROOM(voronoi_corner_count(pieces, site));
    return bytes;
}

static inline uint32_t voronoi_piece_polygons(const voronoi_pieces *pieces, uint64_t *starts, uint8_t *out, size_t out_len)
{
    size_t written;
    return voronoi_all_wkb(VORONOI_CELLS_OF(pieces), starts, VORONOI_START_ROOM(pieces->site_count), out, out_len, &written);
}

/* ---- the certificate: whether pieces are the true ones, by theorem. kind VORONOI_CERTIFY_SOUND, or the first fault with what it names. */

typedef struct {
    uint32_t kind, site, vertex, other;
} voronoi_verdict;

/* How many words voronoi_certify needs to be lent; 0 of pieces that were refused, whose certificate is refused with VORONOI_REFUSED_COUNT. */
static inline size_t voronoi_certify_words(const voronoi_pieces *pieces)
{
    const size_t entries = pieces->offsets[pieces->site_count];
    return entries <= pieces->index_room ? VORONOI_CERTIFY_ROOM(pieces->site_count, entries) : 0;
}

/* voronoi_certify. */
static inline uint32_t voronoi_certify_pieces(voronoi_frame frame, const voronoi_mesh *mesh, const voronoi_pieces *pieces, uint32_t bits,
    uint32_t *work, voronoi_verdict *verdict)
{
    if (!voronoi_pieces_fit(mesh, pieces))
        return VORONOI_REFUSED_COUNT;
    return voronoi_certify(frame.cx, frame.cy, frame.width, frame.height, mesh->sites, 2 * mesh->site_count, VORONOI_CELLS_OF(pieces), bits,
        work, voronoi_certify_words(pieces), &verdict->kind, &verdict->site, &verdict->vertex, &verdict->other);
}

/* voronoi_certify_by_edges. */
static inline uint32_t voronoi_certify_pieces_by_edges(voronoi_edges edges, const voronoi_mesh *mesh, const voronoi_pieces *pieces,
    uint32_t bits, uint32_t *work, voronoi_verdict *verdict)
{
    if (!voronoi_pieces_fit(mesh, pieces))
        return VORONOI_REFUSED_COUNT;
    return voronoi_certify_by_edges(edges.left, edges.top, edges.right, edges.bottom, mesh->sites, 2 * mesh->site_count,
        VORONOI_CELLS_OF(pieces), bits, work, voronoi_certify_words(pieces), &verdict->kind, &verdict->site, &verdict->vertex,
        &verdict->other);
}

#endif
