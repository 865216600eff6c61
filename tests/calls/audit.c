/* The audit through the C interface.
 *
 *   audit rows              rows by name, and every refusal with the next ones also broken; exit status 1 where something differs
 *   audit mesh [WORD]       reads a mesh as text (examples/thirty.txt), builds it, and prints the verdict against all sites and against the mesh's
 *                           neighbours; turned: each triangle and the hull the other way round; swapped: two rows of sites exchanged after the
 *                           build; flipped HALFEDGE: one edge flipped before it
 *   audit times COUNT [all] a grid of at most COUNT cells, with neighbours and without them, in seconds; above 10,000 without only where all is said.
 *                           Last the same with neighbours where the total is off, so without the search for sites at one place
 *
 * The C library's headers are not used (tests/archive.sh says why). */
#include "../lent.h"
#include "../number.h"

void *memcpy(void *to, const void *from, size_t bytes);

enum { N = 1000, T = 2000, H = 1000, SIDE = 256 };
#define MANY (((size_t)1 << 24) + 1)
static int failures;

static uint64_t pattern(double x)
{
    uint64_t b;
    memcpy(&b, &x, sizeof b);
    return b;
}

/* ---- rows: four sites of "square" with their pieces in the box from -1 to 1, changed */

typedef struct {
    double box[4]; /* left, top, right, bottom */
    double sites[8], vertices[18];
    size_t sites_len, vertices_len, offsets_len, indexes_len, starts_len, others_len;
    uint32_t offsets[5], indexes[17], starts[5], others[8], bits;
} Input;

/*  0 1 2
 *  3 4 5
 *  6 7 8   the vertices; the pieces turn counter-clockwise with y downward */
static const Input square = {
    {-1, -1, 1, 1},
    {-.5, -.5, -.5, .5, .5, .5, .5, -.5},
    {-1, -1, 0, -1, 1, -1, -1, 0, 0, 0, 1, 0, -1, 1, 0, 1, 1, 1},
    8, 18, 5, 16, 0, 0,
    {0, 4, 8, 12, 16},
    {0, 3, 4, 1, 3, 6, 7, 4, 4, 7, 8, 5, 1, 4, 5, 2},
    {0, 2, 4, 6, 8}, {1, 3, 0, 2, 1, 3, 0, 2}, 20,
};

static uint32_t kind, site, vertex, other;
static double missing;

static uint32_t ask(const Input *i)
{
    kind = site = vertex = other = 7, missing = 7;
    return voronoi_audit_by_edges(i->box[0], i->box[1], i->box[2], i->box[3], i->sites, i->sites_len, i->vertices, i->vertices_len, i->offsets,
        i->offsets_len, i->indexes, i->indexes_len, i->starts, i->starts_len, i->others, i->others_len, i->bits, &kind, &site, &vertex, &other,
        &missing);
}

static void told(const char *name, uint32_t number, uint32_t n, uint32_t k, uint32_t s, uint32_t v, uint32_t o, double m)
{
    if (number != n || kind != k || site != s || vertex != v || other != o || pattern(missing) != pattern(m)) {
        printf("%s: answered %u with %u %u %u %u %a, must be %u with %u %u %u %u %a\n", name, number, kind, site, vertex, other, missing, n, k, s, v, o, m);
        failures++;
    }
}

static void is(const char *name, const Input *i, uint32_t k, uint32_t s, uint32_t v, uint32_t o, double m)
{
    told(name, ask(i), 0, k, s, v, o, m);
}

static void refused(const char *name, const Input *i, uint32_t number)
{
    told(name, ask(i), number, E, E, E, E, 0);
}

static void sound_rows(void)
{
    Input i = square;
    is("square", &i, 0, E, E, E, 0);
    i.starts_len = 5, i.others_len = 8;
    is("square against neighbours", &i, 0, E, E, E, 0);
    told("by center and size", voronoi_audit(0, 0, 2, 2, i.sites, 8, i.vertices, 18, i.offsets, 5, i.indexes, 16, i.starts, 5, i.others, 8, 52, &kind, &site,
        &vertex, &other, &missing), 0, 0, E, E, E, 0);
    i = square;
    i.bits = 0;
    is("no tolerance to speak of", &i, 0, E, E, E, 0);
}

static void faults(void)
{
    Input i = square;
    uint32_t turned[4] = {5, 8, 7, 4};
    memcpy(&i.indexes[8], turned, sizeof turned);
    is("a ring turned", &i, 1, 2, E, E, 0.5);
    i = square, i.indexes[10] = 7, i.indexes[9] = 8; /* 4 8 7 5: crosses itself */
    is("a ring that folds", &i, 1, 2, E, E, 0.25);
    i = square, i.offsets[4] = 15, i.indexes[13] = 2, i.indexes[14] = 4; /* one triangle only, turned: 1 2 4 */
    is("the last triangle", &i, 1, 3, E, E, 0.375);
    i = square, i.vertices[16] = 1.5;
    is("a corner outside", &i, 2, 2, 8, E, -0x1p-4);
    i = square, i.vertices[16] = 1.5, i.vertices[0] = -1.25;
    is("the lowest site outside", &i, 2, 0, 0, E, -0x1.8p-4);
    i = square, i.vertices[8] = 0.25; /* the middle to the right: nearer to 3 and 2 than to 0 and 1 */
    is("a corner nearer", &i, 3, 0, 4, 2, 0);
    i.starts_len = 5, i.others_len = 8; /* neighbours 1 3 of 0: 3 is told, 2 is not looked at */
    is("a corner nearer to a neighbour", &i, 3, 0, 4, 3, 0);
    i.others[1] = 0; /* 0 is held against 1 and itself, 1 against 0 and 2 */
    is("others of the site itself", &i, 3, 1, 4, 2, 0);
    i = square, i.offsets[4] = 12;
    is("a piece gone", &i, 4, E, E, E, 0.25);
    i = square, i.vertices[8] = 0.25, i.offsets[3] = i.offsets[4] = 8;
    is("3 before 4", &i, 3, 0, 4, 2, 0.4375);
    i = square;
    i.sites[0] = -.5, i.sites[1] = 0, i.sites[2] = -.5, i.sites[3] = -0.0, i.sites[4] = .5, i.sites[5] = 0, i.sites[6] = .5, i.sites[7] = 0;
    i.offsets[0] = 0, i.offsets[1] = 4, i.offsets[2] = 4, i.offsets[3] = 8, i.offsets[4] = 8;
    uint32_t halves[8] = {0, 6, 7, 1, 1, 7, 8, 2};
    memcpy(i.indexes, halves, sizeof halves);
    is("two at one place", &i, 5, 1, E, 0, 0);
    i.sites[2] = 40; /* elsewhere, its piece is empty: the others stand at one place still */
    is("the first before it", &i, 5, 3, E, 2, 0);
    i = square, i.box[0] = -0x1p60; /* the rest of a long box is missing, and told */
    is("a long box", &i, 4, E, E, E, (0x1p61 + 2 - 4) / (0x1p61 + 2));
}

/* what the audit cannot see (docs/use/AUDIT.md): a ring walked twice that comes back through its first corner, where another piece of its size is gone */
static void twice(void)
{
    Input i = square;
    const uint32_t again[8] = {0, 3, 4, 1, 0, 3, 4, 1}, straight[17] = {3, 6, 4, 1, 0, 6, 4, 1, 0, 4, 7, 8, 5, 1, 4, 5, 2};
    i.offsets[1] = i.offsets[2] = 8;
    memcpy(i.indexes, again, sizeof again);
    is("walked twice, the first corner named again", &i, 0, E, E, E, 0);
    i.indexes[4] = 4; /* 0 3 4 1, then 4 3 4 1: back over what was walked */
    is("walked back", &i, 1, 0, E, E, 0.25);
    i = square, i.vertices[7] = -.5, i.vertices[13] = 0; /* 3 lies on the straight side from 0 to 6 */
    memcpy(i.indexes, straight, sizeof straight), i.indexes_len = 17;
    i.offsets[1] = i.offsets[2] = 9, i.offsets[3] = 13, i.offsets[4] = 17;
    is("walked twice, from a straight side", &i, 0, E, E, E, 0);
}

/* the tolerance at its edge: the middle moved by d is beyond the bisector by 2 d of the sites' distance 1, and may be by 4 2^-bits */
static void edges(void)
{
    Input i = square;
    i.vertices[8] = 0x1p-19, i.bits = 20;
    is("within the tolerance", &i, 0, E, E, E, 0);
    i.vertices[8] = 0x1p-18; /* 2 is twice as far in the measure of the right side: 3 is the first */
    is("beyond it", &i, 3, 0, 4, 3, 0);
    i = square, i.vertices[0] = -1 + 0x1p-20, i.bits = 20; /* 2^-21 of 4 uncovered: a corner cut off by 2^-20 times 1/2 */
    is("2^-23 uncovered", &i, 0, E, E, E, 0x1p-23);
    i.bits = 24;
    is("2^-23 uncovered, 24 bits", &i, 4, E, E, E, 0x1p-23);
    i = square, i.vertices[0] = -1 + 0x1p-52, i.bits = 52;
    is("the last place", &i, 0, E, E, E, 0x1p-55);
}

static uint32_t entries[MANY];

static void refusals(void)
{
    Input i = square;
    double none = 0.0 / 0.0;
    i.starts_len = 5, i.others_len = 8;
    /* from the last rule back: what was broken stays broken */
    i.vertices[16] = none;
    refused("24", &i, 24);
    i.vertices[16] = 0x1.0000000000001p400;
    refused("24, too large", &i, 24);
    i.others[7] = 4;
    refused("18, an other", &i, 18);
    i.indexes[15] = 9;
    refused("18, an entry", &i, 18);
    i.starts[1] = 5;
    refused("16, starts", &i, 16);
    i.starts[1] = 2, i.starts_len = 4;
    refused("16, starts too short", &i, 16);
    i.starts_len = 0;
    refused("16, others without starts", &i, 16);
    i.offsets[4] = 17;
    refused("16, offsets", &i, 16);
    i.sites[7] = 0x1.0000000000001p100;
    refused("6", &i, 6);
    i.box[2] = -1;
    refused("3", &i, 3);
    i.bits = 53;
    refused("1, bits", &i, 1);
    i.bits = 20, i.sites_len = 4;
    refused("1, sites", &i, 1);
    i.sites_len = 7;
    refused("1, an odd list of sites", &i, 1);
    i.sites_len = 8, i.vertices_len = 17;
    refused("1, an odd list of vertices", &i, 1);
    kind = site = vertex = other = 7, missing = 7;
    told("1, entries", voronoi_audit_by_edges(1, 1, -1, -1, square.sites, 8, square.vertices, 18, square.offsets, 5, entries, MANY, 0, 0, 0, 0, 20,
        &kind, &site, &vertex, &other, &missing), 1, E, E, E, E, 0);
}

/* a box of 1 by 1e27 round gauges of size 1, with a piece's corners exchanged between them */
static void far_box(void)
{
    Input i = square;
    i.box[1] = -5e26, i.box[3] = 5e26, i.box[0] = -.5, i.box[2] = .5;
    for (int k = 0; k < 9; k++)
        i.vertices[2 * k] /= 2, i.vertices[2 * k + 1] *= 5e26;
    for (int k = 0; k < 8; k++)
        i.sites[k] /= 2;
    is("a box of 1 by 1e27", &i, 0, E, E, E, 0);
    for (int k = 0; k < 8; k++) { /* 0 and 1 exchanged, 2 and 3 too */
        uint32_t e = i.indexes[k % 4 + 8 * (k / 4)];
        i.indexes[k % 4 + 8 * (k / 4)] = i.indexes[k % 4 + 8 * (k / 4) + 4], i.indexes[k % 4 + 8 * (k / 4) + 4] = e;
    }
    is("a box of 1 by 1e27, exchanged", &i, 3, 0, 6, 1, 0);
}

static int rows(void)
{
    sound_rows(), faults(), twice(), edges(), refusals(), far_box();
    printf("audit: rows, %d wrong\n", failures);
    return failures > 0;
}

/* ---- a mesh */

#include "../mesh_text.h"

static double vertices[VORONOI_VERTEX_NUMBERS(T, H)];
static uint32_t work[VORONOI_WORK_ROOM(N)], indexes[VORONOI_INDEX_ROOM(T, H)], offsets[N + 1], counts[VORONOI_COUNTS], starts[N + 1], others[6 * T + N];

static void verdict(const char *against, size_t s, size_t o)
{
    uint32_t number = voronoi_audit(box[0], box[1], box[2], box[3], sites, 2 * n, vertices, 2 * (size_t)counts[VORONOI_COUNT_VERTICES], offsets, n + 1,
        indexes, offsets[n], starts, s, others, o, VORONOI_AUDIT_BITS, &kind, &site, &vertex, &other, &missing);
    printf("%s: %u, kind %u, site %d, vertex %d, other %d, missing %.10g\n", against, number, kind, (int)site, (int)vertex, (int)other, missing);
}

static int mesh(const char *word, uint64_t halfedge)
{
    read_mesh();
    if (word[0] == 't')
        turn();
    if (word[0] == 'f') {
        static uint32_t table[N];
        voronoi_check(sites, 2 * n, triangles, 3 * t, halfedges, 3 * t, hull, h, table, n);
        printf("flip: %u\n", voronoi_flip((uint32_t)n, triangles, 3 * t, halfedges, 3 * t, hull, h, table, n, work, n, (uint32_t)halfedge));
    }
    uint32_t number = voronoi_build(box[0], box[1], box[2], box[3], sites, 2 * n, triangles, 3 * t, halfedges, 3 * t, hull, h, work, n, vertices,
        VORONOI_VERTEX_NUMBERS(t, h), indexes, VORONOI_INDEX_ROOM(t, h), offsets, n + 1, counts, VORONOI_COUNTS);
    if (number)
        return printf("build: %u\n", number), 0;
    uint32_t end = 0;
    for (size_t s = 0; s < n; s++) {
        uint32_t length, ended;
        starts[s] = end;
        voronoi_neighbours(sites, 2 * n, triangles, 3 * t, halfedges, 3 * t, hull, h, (uint32_t)s, work, n, others + end, sizeof others / 4 - end, &length,
            &ended);
        end += length;
    }
    starts[n] = end;
    if (word[0] == 's')
        for (int k = 0; k < 2; k++) {
            double x = sites[k];
            sites[k] = sites[2 * (n - 1) + k], sites[2 * (n - 1) + k] = x;
        }
    verdict("all sites", 0, 0);
    verdict("neighbours", n + 1, end);
    return 0;
}

/* ---- times: a grid of side by side cells, whose sites stand in their middles */

static double places[2 * SIDE * SIDE], corners[2 * (SIDE + 1) * (SIDE + 1)];
static uint32_t cut[SIDE * SIDE + 1], ring[4 * SIDE * SIDE], from[SIDE * SIDE + 1], near[4 * SIDE * SIDE];

static double timed(uint32_t side, size_t s, size_t o, uint32_t want)
{
    long start = clock();
    uint32_t number = voronoi_audit_by_edges(0, 0, side, side, places, 2 * (size_t)side * side, corners, 2 * (size_t)(side + 1) * (side + 1), cut,
        (size_t)side * side + 1, ring, 4 * (size_t)side * side, from, s, near, o, VORONOI_AUDIT_BITS, &kind, &site, &vertex, &other, &missing);
    if (number || kind != want)
        printf("a grid of %u: %u, kind %u, site %u\n", side * side, number, kind, site), failures++;
    return (double)(clock() - start) / 1e6;
}

static int times(uint64_t most, int all)
{
    uint32_t side = 2;
    while ((uint64_t)(side + 1) * (side + 1) <= most && side < SIDE)
        side++;
    uint32_t count = 0;
    for (uint32_t y = 0; y <= side; y++)
        for (uint32_t x = 0; x <= side; x++)
            corners[2 * (y * (side + 1) + x)] = x, corners[2 * (y * (side + 1) + x) + 1] = y;
    for (uint32_t y = 0; y < side; y++)
        for (uint32_t x = 0; x < side; x++) {
            uint32_t s = y * side + x, c = y * (side + 1) + x, four[4] = {c, c + side + 1, c + side + 2, c + 1};
            places[2 * s] = x + .5, places[2 * s + 1] = y + .5;
            cut[s] = 4 * s, from[s] = count;
            memcpy(&ring[4 * s], four, sizeof four);
            if (x)
                near[count++] = s - 1;
            if (x + 1 < side)
                near[count++] = s + 1;
            if (y)
                near[count++] = s - side;
            if (y + 1 < side)
                near[count++] = s + side;
        }
    cut[side * side] = 4 * side * side, from[side * side] = count;
    double with = timed(side, (size_t)side * side + 1, count, VORONOI_AUDIT_SOUND);
    printf("%u sites: %.3f s with neighbours, ", side * side, with);
    if (side <= 100 || all)
        printf("%.3f s without, ", timed(side, 0, 0, VORONOI_AUDIT_SOUND));
    for (uint32_t *last = &ring[4 * side * side - 4], k = 1; k < 4; k++)
        last[k] = last[0]; /* the last piece is a point: the total is off, and no place is looked at */
    printf("%.3f s with neighbours up to the total\n", timed(side, (size_t)side * side + 1, count, VORONOI_AUDIT_TOTAL));
    return failures > 0;
}

int main(int argc, char **argv)
{
    uint64_t count = 0;
    if (argc == 2 && argv[1][0] == 'r')
        return rows();
    if (argc >= 2 && argv[1][0] == 'm' && (argc < 4 || number_of(argv[3], &count)))
        return mesh(argc > 2 ? argv[2] : "", count);
    if ((argc == 3 || (argc == 4 && argv[3][0] == 'a')) && argv[1][0] == 't' && number_of(argv[2], &count))
        return times(count, argc == 4);
    return printf("audit rows | mesh [turned | swapped | flipped HALFEDGE] | times COUNT [all]\n"), 2;
}
