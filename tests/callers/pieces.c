/* include/voronoi_pieces.h over the archive, in C99 and in C++17: "square" built into a block of exactly so many bytes, with marks behind it; by its edges;
 * by cutting; the certificate; neighbours and polygons of all pieces; meshes above the limits; neighbouring boxes on tenths of a metre, 100,000 pairs, each with an edge in common. */
#include "voronoi_pieces.h"
#include <stdio.h>
#include <stdlib.h>
#include <string.h>

enum { MARKS = 64 };

static int wrong(const char *what)
{
    printf("pieces: %s\n", what);
    return 1;
}

/* What the structs leave of each call, to the byte: the pieces by edges are those by center and size, where both have the same edges. */
static int by_edges(const voronoi_mesh *mesh, const voronoi_pieces *pieces, size_t bytes)
{
    const voronoi_edges edges = { -1, -1, 1, 1 };
    void *block = malloc(bytes);
    if (!block)
        return 2;
    voronoi_pieces same = voronoi_pieces_in(mesh, block);
    if (voronoi_build_pieces_by_edges(edges, mesh, &same) != VORONOI_ACCEPTED)
        return wrong("square by its edges is refused");
    if (memcmp(block, pieces->vertices, bytes) != 0 || memcmp(same.counts, pieces->counts, sizeof same.counts) != 0)
        return wrong("by its edges the pieces are others");
    free(block);
    return 0;
}

/* By cutting, in a block of its own: by edges to the byte the same; and a box within one piece, of which a build makes no piece at all. */
static int cutting(const voronoi_mesh *mesh)
{
    const voronoi_frame box = { 0, 0, 2, 2 }, within = { -.5, -.5, .125, .125 };
    const voronoi_edges edges = { -1, -1, 1, 1 };
    const size_t bytes = voronoi_cut_pieces_bytes(mesh);
    double areas[4];
    unsigned char *block = (unsigned char *)malloc(bytes + MARKS), *other = (unsigned char *)malloc(bytes);
    if (!block || !other)
        return 2;
    memset(block, 0xe9, bytes + MARKS);
    voronoi_pieces pieces = voronoi_cut_pieces_in(mesh, block), same = voronoi_cut_pieces_in(mesh, other);
    if ((unsigned char *)(pieces.work + 4) != block + bytes || block[0] != 0xe9)
        return wrong("laying cut pieces out wrote into the block, or does not fill it");
    if (voronoi_cut_pieces(box, mesh, &pieces) != VORONOI_ACCEPTED || voronoi_cut_pieces_by_edges(edges, mesh, &same) != VORONOI_ACCEPTED)
        return wrong("square is not cut");
    for (size_t i = bytes; i < bytes + MARKS; i++)
        if (block[i] != 0xe9)
            return wrong("cutting wrote past the block");
    if (memcmp(block, other, bytes) != 0 || memcmp(pieces.counts, same.counts, sizeof same.counts) != 0)
        return wrong("by its edges the cut pieces are others");
    if (pieces.counts[VORONOI_COUNT_LOST] != VORONOI_EMPTY || voronoi_piece_areas(&pieces, areas) != VORONOI_ACCEPTED)
        return wrong("cutting wrote another count, or the areas of its pieces are refused");
    for (size_t s = 0; s < 4; s++)
        if (areas[s] < 1 || areas[s] > 1)
            return wrong("a cut piece of square has another area");
    if (voronoi_cut_pieces(within, mesh, &pieces) != VORONOI_ACCEPTED || voronoi_piece_areas(&pieces, areas) != VORONOI_ACCEPTED || areas[0] < .015625 ||
        areas[0] > .015625 || voronoi_corner_count(&pieces, 0) != 4 || voronoi_corner_count(&pieces, 3) != 0)
        return wrong("a box within one piece is not that gauge's");
    free(block);
    free(other);
    return 0;
}

/* The certificate by both boxes, its faults, its refusals; the words that are lent are all used and no more. */
static int certificate(const voronoi_mesh *mesh)
{
    const voronoi_frame box = { 0, 0, 2, 2 }, wide = { 0, 0, 4, 4 };
    const voronoi_edges edges = { -1, -1, 1, 1 };
    voronoi_verdict verdict;
    voronoi_mesh broken = *mesh;
    void *block = malloc(voronoi_cut_pieces_bytes(mesh));
    if (!block)
        return 2;
    voronoi_pieces pieces = voronoi_cut_pieces_in(mesh, block);
    if (voronoi_cut_pieces(box, mesh, &pieces) != VORONOI_ACCEPTED)
        return wrong("square is not cut");
    const size_t words = voronoi_certify_words(&pieces);
    uint32_t *work = (uint32_t *)malloc(sizeof *work * (words + 1));
    if (!work || words != VORONOI_CERTIFY_ROOM(4, pieces.offsets[4]))
        return wrong("a certificate has another room");
    work[words] = 7;
    if (voronoi_certify_pieces(box, mesh, &pieces, VORONOI_CERTIFY_BITS, work, &verdict) != VORONOI_ACCEPTED || verdict.kind != VORONOI_CERTIFY_SOUND ||
        verdict.site != VORONOI_EMPTY || verdict.vertex != VORONOI_EMPTY || verdict.other != VORONOI_EMPTY)
        return wrong("square is not certified");
    if (voronoi_certify_pieces_by_edges(edges, mesh, &pieces, 52, work, &verdict) != VORONOI_ACCEPTED || verdict.kind != VORONOI_CERTIFY_SOUND || work[words] != 7)
        return wrong("square is not certified by its edges, or a word too many was written");
    if (voronoi_certify_pieces(wide, mesh, &pieces, VORONOI_CERTIFY_BITS, work, &verdict) != VORONOI_ACCEPTED || verdict.kind != VORONOI_CERTIFY_SIDE)
        return wrong("the pieces of another box are certified");
    if (voronoi_certify_pieces(box, mesh, &pieces, 53, work, &verdict) != VORONOI_REFUSED_COUNT || verdict.kind != VORONOI_EMPTY)
        return wrong("53 bits are not refused");
    broken.hull_count = 3;
    if (voronoi_cut_pieces(box, &broken, &pieces) != VORONOI_REFUSED_HULL || voronoi_certify_words(&pieces) != 0 ||
        voronoi_certify_pieces(box, &broken, &pieces, VORONOI_CERTIFY_BITS, work, &verdict) != VORONOI_REFUSED_COUNT)
        return wrong("pieces that were refused have a room, or are certified");
    broken.site_count = VORONOI_MOST_SITES + 1;
    if (voronoi_certify_pieces(box, &broken, &pieces, VORONOI_CERTIFY_BITS, work, &verdict) != VORONOI_REFUSED_COUNT ||
        voronoi_certify_pieces_by_edges(edges, &broken, &pieces, VORONOI_CERTIFY_BITS, work, &verdict) != VORONOI_REFUSED_COUNT)
        return wrong("a mesh above the limits is certified");
    free(work);
    free(block);
    return 0;
}

static int neighbours(const voronoi_mesh *mesh, voronoi_pieces *pieces)
{
    static const uint32_t cuts[] = { 0, 3, 5, 8, 10 }, lists[] = { 3, 2, 1, 0, 2, 1, 0, 3, 2, 0 };
    uint32_t starts[VORONOI_START_ROOM(4)], others[VORONOI_NEIGHBOUR_ROOM(2, 4)];
    if (voronoi_piece_neighbours(mesh, pieces, starts, others) != VORONOI_ACCEPTED)
        return wrong("the neighbours are refused");
    return memcmp(starts, cuts, sizeof cuts) != 0 || memcmp(others, lists, sizeof lists) != 0 ? wrong("a gauge has other neighbours") : 0;
}

static int polygons(const voronoi_pieces *pieces)
{
    uint64_t starts[VORONOI_START_ROOM(4)];
    uint8_t out[1000], one[1000];
    const size_t bytes = voronoi_polygon_bytes(pieces);
    if (bytes > sizeof out || voronoi_piece_polygons(pieces, starts, out, bytes) != VORONOI_ACCEPTED || starts[0] != 0 || starts[4] != bytes)
        return wrong("the polygons are refused, or are not as long as is said");
    if (voronoi_piece_polygons(pieces, starts, out, bytes - 1) != VORONOI_REFUSED_ROOM)
        return wrong("a byte too few is enough for the polygons");
    for (uint32_t s = 0; s < 4; s++) {
        size_t written;
        if (voronoi_cell_wkb(VORONOI_CELLS_OF(pieces), s, one, sizeof one, &written) != VORONOI_ACCEPTED || written != starts[s + 1] - starts[s] ||
            memcmp(one, out + starts[s], written) != 0)
            return wrong("a polygon is another than voronoi_cell_wkb's");
    }
    return 0;
}

/* Above the limits: no bytes, and a refusal before a length is multiplied. */
static int limits(const voronoi_frame *box)
{
    const size_t none = 0, most = ~none;
    const size_t counts[][3] = { { VORONOI_MOST_SITES + 1, 2, 4 }, { 4, VORONOI_MOST_TRIANGLES + 1, 4 }, { 4, 2, VORONOI_MOST_SITES + 1 },
        { most, 2, 4 }, { 4, most, 4 }, { 4, 2, most }, { most / 2 + 3, most / 3 + 2, 4 } };
    double site = 0;
    uint32_t entry = 0;
    for (size_t i = 0; i < sizeof counts / sizeof counts[0]; i++) {
        const voronoi_mesh mesh = { &site, counts[i][0], &entry, &entry, counts[i][1], &entry, counts[i][2] };
        double block[4] = { 7, 7, 7, 7 };
        voronoi_pieces pieces = voronoi_pieces_in(&mesh, block);
        const voronoi_edges edges = { -1, -1, 1, 1 };
        if (voronoi_pieces_bytes(&mesh) != 0 || voronoi_build_pieces(*box, &mesh, &pieces) != VORONOI_REFUSED_COUNT ||
            voronoi_build_pieces_by_edges(edges, &mesh, &pieces) != VORONOI_REFUSED_COUNT ||
            voronoi_piece_neighbours(&mesh, &pieces, &entry, &entry) != VORONOI_REFUSED_COUNT || voronoi_cut_pieces_bytes(&mesh) != 0)
            return wrong("a mesh above the limits has a size, or is not refused with 1");
        pieces = voronoi_cut_pieces_in(&mesh, block);
        if (voronoi_cut_pieces(*box, &mesh, &pieces) != VORONOI_REFUSED_COUNT || voronoi_cut_pieces_by_edges(edges, &mesh, &pieces) != VORONOI_REFUSED_COUNT)
            return wrong("a mesh above the limits is cut");
    }
    return 0;
}

/* Two boxes that share an edge on a tenth of a metre: the vertices of the one that are right of all others stand where the left ones of the other do. */
static int meet(const voronoi_mesh *mesh, voronoi_pieces *first, voronoi_pieces *second, unsigned long pairs)
{
    uint64_t state = 1;
    unsigned long apart = 0;
    for (unsigned long k = 0; k < pairs; k++) {
        double at[3]; /* left, middle, right, each a tenth as a text would give it */
        long tenths = 0;
        for (int i = 0; i < 3; i++) {
            state = state * UINT64_C(6364136223846793005) + UINT64_C(1442695040888963407);
            tenths += 1 + (long)(state >> 33) % 100000;
            at[i] = (double)tenths / 10;
        }
        const voronoi_edges left = { at[0], -1, at[1], 1 }, right = { at[1], -1, at[2], 1 };
        const voronoi_frame frame = { (at[1] + at[2]) / 2, 0, at[2] - at[1], 2 };
        if (voronoi_build_pieces_by_edges(left, mesh, first) != VORONOI_ACCEPTED || voronoi_build_pieces_by_edges(right, mesh, second) != VORONOI_ACCEPTED)
            return wrong("a box on tenths is refused");
        /* the box's corners stand after the two triangles: top left, bottom left, bottom right, top right */
        const double *a = first->vertices + 2 * 2, *b = second->vertices + 2 * 2;
        if (memcmp(&a[4], &b[0], sizeof *a) != 0 || memcmp(&a[6], &b[2], sizeof *a) != 0)
            return wrong("two neighbouring boxes by their edges do not meet");
        if (voronoi_build_pieces(frame, mesh, second) != VORONOI_ACCEPTED)
            return wrong("a box on tenths is refused by its center and size");
        apart += memcmp(&a[4], &b[0], sizeof *a) != 0;
    }
    if (pairs >= 1000 && apart == 0)
        return wrong("by center and size all boxes meet too: this test shows nothing");
    printf("pieces: %lu pairs of boxes on tenths meet by their edges; by center and size %lu do not\n", pairs, apart);
    return 0;
}

int main(void)
{
    const uint32_t E = VORONOI_EMPTY, triangles[] = { 0, 1, 2, 0, 2, 3 }, halfedges[] = { E, E, 3, 2, E, E }, hull[] = { 0, 1, 2, 3 };
    const double sites[] = { -.5, -.5, -.5, .5, .5, .5, .5, -.5 };
    voronoi_mesh mesh = { sites, 4, triangles, halfedges, 2, hull, 4 };
    const voronoi_frame box = { 0, 0, 2, 2 };
    const size_t bytes = voronoi_pieces_bytes(&mesh);
    if (bytes != 8 * VORONOI_VERTEX_NUMBERS(2, 4) + 4 * (VORONOI_INDEX_ROOM(2, 4) + VORONOI_OFFSET_ROOM(4) + VORONOI_WORK_ROOM(4)))
        return wrong("the block is not as long as its parts");
    unsigned char *block = (unsigned char *)malloc(bytes + MARKS);
    if (!block)
        return 2;
    memset(block, 0xe9, bytes + MARKS);
    voronoi_pieces pieces = voronoi_pieces_in(&mesh, block);
    if (block[0] != 0xe9 || block[bytes - 1] != 0xe9 || (unsigned char *)(pieces.work + 4) != block + bytes)
        return wrong("laying the pieces out wrote into the block, or does not fill it");
    if (voronoi_build_pieces(box, &mesh, &pieces) != VORONOI_ACCEPTED)
        return wrong("square is refused");
    for (size_t i = bytes; i < bytes + MARKS; i++)
        if (block[i] != 0xe9)
            return wrong("the build wrote past the block");

    /* the cells of README, and the four corners of the box where they are in them */
    static const uint32_t cells[4][5] = { { 1, 10, 2, 11, 0 }, { 0, 11, 3, 12, 0 }, { 0, 12, 4, 13, 1 }, { 1, 13, 5, 10, 0 } };
    static const size_t lengths[4] = { 5, 4, 5, 4 };
    static const double corners[4][2] = { { -1, -1 }, { -1, 1 }, { 1, 1 }, { 1, -1 } };
    for (size_t s = 0; s < 4; s++) {
        if (voronoi_corner_count(&pieces, s) != lengths[s])
            return wrong("a piece has not its corners");
        for (size_t c = 0; c < lengths[s]; c++) {
            const double *at = voronoi_corner(&pieces, s, c);
            const uint32_t vertex = cells[s][c];
            if (at != pieces.vertices + 2 * (size_t)vertex)
                return wrong("a corner is another vertex");
            if (vertex >= 2 && vertex < 6 && (at[0] < corners[vertex - 2][0] || at[0] > corners[vertex - 2][0] || at[1] < corners[vertex - 2][1] || at[1] > corners[vertex - 2][1]))
                return wrong("a corner of the box stands elsewhere");
        }
    }
    if (pieces.counts[VORONOI_COUNT_VERTICES] != 14 || pieces.counts[VORONOI_COUNT_OWNERS + 3] != 3 || pieces.counts[VORONOI_COUNT_LOST] != 0)
        return wrong("the counts are others");
    double areas[5] = { 0, 0, 0, 0, -7 };
    if (voronoi_piece_areas(&pieces, areas) != VORONOI_ACCEPTED)
        return wrong("the areas are refused");
    for (size_t s = 0; s < 5; s++)
        if (areas[s] < (s < 4 ? 1 : -7) || areas[s] > (s < 4 ? 1 : -7))
            return wrong("an area is another, or one too many was written");

    if (by_edges(&mesh, &pieces, bytes) || cutting(&mesh) || certificate(&mesh) || neighbours(&mesh, &pieces) || polygons(&pieces) || limits(&box))
        return 1;
    void *other = malloc(bytes);
    if (!other)
        return 2;
    voronoi_pieces second = voronoi_pieces_in(&mesh, other);
    if (meet(&mesh, &pieces, &second, 100000))
        return 1;
    free(other);

    mesh.hull_count = 3;
    if (voronoi_build_pieces(box, &mesh, &pieces) != VORONOI_REFUSED_HULL)
        return wrong("a hull that is too short is not refused");
    free(block);
    printf("pieces: as many bytes as are needed, by center and size and by edges; cut; certified; corners, areas, neighbours, polygons; refusals\n");
    return 0;
}
