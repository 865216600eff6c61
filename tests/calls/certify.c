/* The certificate through the C interface.
 *
 *   certify rows      rows by name: each kind, what it names, the tolerance at its edge, every refusal with the next ones also broken, `work` to its last word;
 *                     sheets that the audit calls sound and the certificate does not: laps, overlaps that pay for gaps, exchanged halves of a thin box;
 *                     exit status 1 where something differs
 *   certify mesh      reads a mesh as text (examples/ear.txt), and prints what the audit says of its build, against all sites and against the mesh's neighbours,
 *                     and what the certificate says of its pieces by the build and by cutting, with the first areas
 *
 * The C library's headers are not used (tests/archive.sh says why). */
#include "../lent.h"

void *memcpy(void *to, const void *from, size_t bytes);

enum { N = 1000, T = 2000, H = 1000, SIDE = 100 };
#define MANY (((size_t)1 << 24) + 1)
#define HELD 0xc3c3c3c3u
static int failures;

static uint32_t kind, site, vertex, other;
static uint32_t work[VORONOI_CERTIFY_ROOM(SIDE *SIDE, 8 * SIDE * SIDE) + 8];

static void hold(void)
{
    kind = site = vertex = other = 7;
    for (size_t i = 0; i < LENGTH(work); i++)
        work[i] = HELD;
}

/* whether `work` is EMPTY over the length that was lent, or as it was, and as it was after that */
static int left(size_t length, int cleared)
{
    for (size_t i = 0; i < LENGTH(work); i++)
        if (work[i] != (cleared && i < length ? E : HELD))
            return 0;
    return 1;
}

/* ---- rows: four sites of "square" with their pieces in the box from -1 to 1, changed */

typedef struct {
    double box[4]; /* left, top, right, bottom */
    double sites[10], vertices[22];
    size_t sites_len, vertices_len, offsets_len, indexes_len, work_len;
    uint32_t offsets[6], indexes[33], bits;
} Input;

/*  0 1 2
 *  3 4 5
 *  6 7 8   the vertices; the pieces turn counter-clockwise with y downward */
static const Input square = {
    {-1, -1, 1, 1},
    {-.5, -.5, -.5, .5, .5, .5, .5, -.5, 9, 9},
    {-1, -1, 0, -1, 1, -1, -1, 0, 0, 0, 1, 0, -1, 1, 0, 1, 1, 1, 0, 0, 0, 0},
    8, 18, 5, 16, VORONOI_CERTIFY_ROOM(4, 16),
    {0, 4, 8, 12, 16, 16},
    {0, 3, 4, 1, 3, 6, 7, 4, 4, 7, 8, 5, 1, 4, 5, 2}, 32,
};

static uint32_t ask(const Input *i)
{
    hold();
    return voronoi_certify_by_edges(i->box[0], i->box[1], i->box[2], i->box[3], i->sites, i->sites_len, i->vertices, i->vertices_len, i->offsets,
        i->offsets_len, i->indexes, i->indexes_len, i->bits, work, i->work_len, &kind, &site, &vertex, &other);
}

static void told(const char *name, uint32_t number, size_t length, uint32_t n, uint32_t k, uint32_t s, uint32_t v, uint32_t o)
{
    if (number != n || kind != k || site != s || vertex != v || other != o) {
        printf("%s: answered %u with %d %d %d %d, must be %u with %d %d %d %d\n", name, number, (int)kind, (int)site, (int)vertex, (int)other, n, (int)k,
            (int)s, (int)v, (int)o);
        failures++;
    }
    if (!left(length, n == 0 || n == 16 || n == 18 || n == 24))
        printf("%s: work is not as it must be\n", name), failures++;
}

static void is(const char *name, const Input *i, uint32_t k, uint32_t s, uint32_t v, uint32_t o) { told(name, ask(i), i->work_len, 0, k, s, v, o); }

static void refused(const char *name, const Input *i, uint32_t number) { told(name, ask(i), i->work_len, number, E, E, E, E); }

/* what the audit says of the same pieces, held against all sites: the same kind 0, with nothing missing */
static void audit_passes(const char *name, const Input *i)
{
    uint32_t k, s, v, o;
    double missing;
    uint32_t number = voronoi_audit_by_edges(i->box[0], i->box[1], i->box[2], i->box[3], i->sites, i->sites_len, i->vertices, i->vertices_len, i->offsets,
        i->offsets_len, i->indexes, i->indexes_len, 0, 0, 0, 0, VORONOI_AUDIT_BITS, &k, &s, &v, &o, &missing);
    if (number || k || missing != 0)
        printf("%s: the audit answers %u, kind %u, missing %g, and this row is of sheets that it passes\n", name, number, k, missing), failures++;
}

static void rings(Input *i, const uint32_t *list, const uint32_t *offsets)
{
    memcpy(i->offsets, offsets, 5 * sizeof *offsets);
    memcpy(i->indexes, list, offsets[4] * sizeof *list);
    i->indexes_len = offsets[4], i->work_len = VORONOI_CERTIFY_ROOM(i->sites_len / 2, i->indexes_len);
}

static void sound_rows(void)
{
    Input i = square;
    is("square", &i, 0, E, E, E);
    i.bits = 52;
    is("square, 52 bits", &i, 0, E, E, E);
    i.bits = 0;
    is("square, 0 bits", &i, 0, E, E, E);
    hold();
    told("by center and size", voronoi_certify(0, 0, 2, 2, i.sites, 8, i.vertices, 18, i.offsets, 5, i.indexes, 16, 52, work, i.work_len, &kind, &site,
        &vertex, &other), i.work_len, 0, 0, E, E, E);
    i = square, i.work_len += 8;
    is("more work than the room", &i, 0, E, E, E);
    i = square, i.vertices_len = 22, i.vertices[18] = 0, i.vertices[19] = -0.0, i.vertices[20] = -0.0, i.indexes[2] = 9, i.indexes[7] = 10;
    is("a corner with three numbers, 0 and -0", &i, 0, E, E, E);
    i = square;
    const uint32_t list[22] = {0, 0, 3, 4, 4, 1, 3, 6, 7, 4, 7, 4, 4, 7, 8, 5, 1, 4, 5, 2}, cut[5] = {0, 6, 12, 16, 20};
    rings(&i, list, cut);
    is("corners named twice, a side walked back", &i, 0, E, E, E);
    i = square, i.indexes_len = 18, i.indexes[16] = 99, i.indexes[17] = E, i.work_len = VORONOI_CERTIFY_ROOM(4, 18);
    is("entries past all pieces", &i, 0, E, E, E);
    i = square, i.sites_len = 10, i.offsets_len = 6, i.work_len = VORONOI_CERTIFY_ROOM(5, 16);
    is("a fifth gauge, far off and without a piece", &i, 0, E, E, E);
    i.vertices_len = 22, i.vertices[18] = 0.0 / 0.0;
    is("a vertex that is no number, and that no entry names", &i, 0, E, E, E);
}

static void faults(void)
{
    Input i = square;
    i.vertices[16] = 1 + 0x1p-52;
    is("a corner outside", &i, 1, 2, 8, E);
    i.vertices[0] = -1.25;
    is("the lowest site outside", &i, 1, 0, 0, E);
    i = square;
    const uint32_t first[4] = {1, 4, 3, 0}, turned[4] = {5, 8, 7, 4}, pieces[4] = {0, 1, 2, 3};
    memcpy(i.indexes, first, sizeof first);
    is("the first ring turned", &i, 2, 0, 1, E);
    i = square;
    memcpy(&i.indexes[8], turned, sizeof turned);
    is("a ring turned", &i, 2, 1, 7, E); /* 7 to 4 now comes twice, and 4 to 7 never */
    i = square, i.indexes[10] = 7, i.indexes[9] = 8; /* 4 8 7 5: crosses itself */
    is("a ring that folds", &i, 2, 1, 7, E);
    i = square, i.vertices_len = 20, i.vertices[18] = 0x1p-1074, i.vertices[19] = 0, i.indexes[2] = 9;
    is("a corner off by the least number there is", &i, 2, 0, 3, E);
    i = square, i.offsets[4] = 12;
    is("a piece gone", &i, 2, 0, 4, E); /* its side from 4 to 1 has no partner */
    i = square, i.sites[6] = -.5, i.sites[7] = -.5, i.offsets[4] = 12;
    is("2 before 4 and 5", &i, 2, 0, 4, E);
    i = square, i.vertices[7] = .25, i.vertices[11] = .25, i.vertices_len = 22;
    i.vertices[18] = -1, i.vertices[19] = -.25, i.vertices[20] = 1, i.vertices[21] = -.25;
    const uint32_t strips[8] = {0, 3, 5, 2, 9, 6, 8, 10}, three[5] = {0, 4, 8, 8, 8};
    rings(&i, strips, three);
    is("two strips that overlap, each straight across the box", &i, 2, 0, 3, E);
    i = square;
    for (int s = 0; s < 4; s++)
        for (int k = 0; k < 4; k++)
            i.indexes[4 * s + k] = square.indexes[4 * s + 3 - k];
    is("all turned", &i, 3, E, E, E);
    i = square, i.offsets[1] = i.offsets[2] = i.offsets[3] = i.offsets[4] = 0;
    is("nothing at all", &i, 3, E, E, E);
    i = square;
    uint32_t twice[32], cut[5];
    for (uint32_t s = 0; s < 4; s++)
        for (uint32_t k = 0; k < 8; k++)
            twice[8 * s + k] = square.indexes[4 * s + k % 4], cut[pieces[s] + 1] = 8 * s + 8;
    cut[0] = 0, rings(&i, twice, cut);
    is("everything twice", &i, 3, E, E, E);
    i = square, i.vertices[8] = 0.25; /* the middle to the right: nearer to 3 and 2 than to 0 and 1 */
    is("a corner nearer", &i, 4, 0, 4, 2);
    i = square, i.sites_len = 10, i.offsets_len = 6, i.work_len = VORONOI_CERTIFY_ROOM(5, 16), i.sites[8] = .5, i.sites[9] = .25;
    is("a fifth gauge in the box, without a piece", &i, 4, 0, 4, 4); /* the middle is nearer to it than to site 0 */
    i = square;
    for (int k = 0; k < 4; k++)
        i.indexes[k] = square.indexes[4 + k], i.indexes[4 + k] = square.indexes[k];
    is("two pieces exchanged", &i, 4, 0, 6, 1);
    i = square;
    for (int k = 0; k < 2; k++)
        i.sites[k] = square.sites[2 + k], i.sites[2 + k] = square.sites[k];
    is("two gauges exchanged", &i, 4, 0, 0, 1);
    i = square;
    const uint32_t one[4] = {0, 6, 8, 2}, all[5] = {0, 4, 4, 4, 4};
    rings(&i, one, all);
    is("the box to one gauge", &i, 4, 0, 6, 1);
    i = square;
    i.sites[0] = -.5, i.sites[1] = 0, i.sites[2] = -.5, i.sites[3] = -0.0, i.sites[4] = .5, i.sites[5] = 0, i.sites[6] = .5, i.sites[7] = 0;
    const uint32_t halves[8] = {0, 6, 7, 1, 1, 7, 8, 2}, two[5] = {0, 4, 4, 8, 8};
    rings(&i, halves, two);
    is("two at one place", &i, 5, 1, E, 0);
    i.sites[2] = 40;
    is("the first before it", &i, 5, 3, E, 2);
    i.sites[2] = .5;
    is("three at one place", &i, 5, 2, E, 1);
}

/* the tolerance at its edge: the middle moved by d is beyond the bisector of 0 and 3 by 2 d of their distance 1, and may be by reach 2^-bits = 2^-bits */
static void edges(void)
{
    Input i = square;
    i.vertices[8] = 0x1p-33;
    is("within the tolerance", &i, 0, E, E, E);
    i.vertices[8] = 0x1.00002p-33; /* by 2^-52, the last bit of .5 + d; 2 is as far off as 3 and its measure twice that, so 3 is the first that is told */
    is("beyond it by the last bit", &i, 4, 0, 4, 3);
    i.vertices[8] = 0x1p-53, i.bits = 52;
    is("within the tolerance of 52 bits", &i, 0, E, E, E);
    i.vertices[8] = 0x1p-52;
    is("beyond that of 52 bits", &i, 4, 0, 4, 3);
    i = square; /* moved to map coordinates the reach is 2^23 and the tolerance 2^-9, whatever the size of the sheet */
    for (int k = 0; k < 4; k++)
        i.box[k] += 0x1p23 - 1;
    for (int k = 0; k < 8; k++)
        i.sites[k] += 0x1p23 - 1;
    for (int k = 0; k < 18; k++)
        i.vertices[k] += 0x1p23 - 1;
    i.vertices[8] += 0x1p-10;
    is("within the tolerance of the reach", &i, 0, E, E, E);
    i.vertices[8] += 0x1p-29;
    is("beyond that of the reach", &i, 4, 0, 4, 3);
}

/* sheets that the audit passes against all sites */
static void passed_by_the_audit(void)
{
    Input i = square;
    uint32_t list[32], cut[5] = {0, 16, 16, 16, 16};
    for (uint32_t k = 0; k < 32; k++)
        list[k] = square.indexes[k % 4];
    rings(&i, list, cut);
    audit_passes("four laps", &i);
    is("four laps, and three gauges without a piece", &i, 2, 0, 3, E);
    cut[1] = 12, cut[2] = 12, cut[3] = 12, cut[4] = 16;
    memcpy(list + 12, square.indexes + 12, 4 * sizeof *list), rings(&i, list, cut);
    audit_passes("three laps", &i);
    is("three laps, and two gauges without a piece", &i, 2, 0, 3, E);
    i = square, i.vertices[7] = -.5, i.vertices[13] = 0; /* 3 lies on the straight side from 0 to 6 */
    const uint32_t straight[17] = {3, 6, 4, 1, 0, 6, 4, 1, 0, 4, 7, 8, 5, 1, 4, 5, 2}, ends[5] = {0, 9, 9, 13, 17};
    rings(&i, straight, ends);
    audit_passes("a lap from a straight side", &i);
    is("a lap from a straight side", &i, 2, 0, 6, E);
    /* a box of 1 by 2^20: the audit's tolerance is a part of its height */
    i = square;
    const double box[4] = {0, 0, 1, 0x1p20}, gauges[8] = {.75, 0x1p19, .25, 0x1p19, .5, -0x1p30, .5, 0x1p30};
    const double corners[12] = {0, 0, 0, 0x1p20, .5, 0x1p20, .5, 0, 1, 0x1p20, 1, 0};
    const uint32_t halves[8] = {0, 1, 2, 3, 3, 2, 4, 5}, two[5] = {0, 4, 8, 8, 8};
    memcpy(i.box, box, sizeof box), memcpy(i.sites, gauges, sizeof gauges), memcpy(i.vertices, corners, sizeof corners), i.vertices_len = 12;
    rings(&i, halves, two);
    audit_passes("exchanged halves of a thin box", &i);
    is("exchanged halves of a thin box", &i, 4, 0, 0, 1);
    i.sites[0] = .25, i.sites[2] = .75;
    is("the halves of a thin box", &i, 0, E, E, E);
}

/* ---- overlaps that pay for gaps: side by side cells, each larger by `by` towards the others, and `gaps` of them without a piece: within the audit's tolerance */

static double places[2 * SIDE * SIDE], corners[8 * SIDE * SIDE];
static uint32_t cells[SIDE * SIDE + 1], list[4 * SIDE * SIDE];

static double laid(uint32_t side, uint32_t gaps, double by) /* the areas' sum */
{
    double sum = 0;
    for (uint32_t s = 0, k = 0; s <= side * side; s++) {
        cells[s] = 4 * k;
        if (s == side * side)
            break;
        uint32_t x = s % side, y = s / side;
        double l = x ? x - by : x, r = x + 1 < side ? x + 1 + by : x + 1, t = y ? y - by : y, b = y + 1 < side ? y + 1 + by : y + 1;
        places[2 * s] = x + .5, places[2 * s + 1] = y + .5;
        if (s % side == side / 2 && s / side >= side / 3 && s / side < side / 3 + 2 * gaps && (s / side - side / 3) % 2 == 0)
            continue;
        const double four[8] = {l, t, l, b, r, b, r, t};
        memcpy(&corners[8 * k], four, sizeof four);
        for (uint32_t c = 0; c < 4; c++)
            list[4 * k + c] = 4 * k + c;
        sum += (r - l) * (b - t), k++;
    }
    return sum;
}

static void overlaps(uint32_t side, uint32_t gaps)
{
    double low = 0, high = .5, missing;
    uint32_t k, s, v, o, gauges = side * side;
    for (int turn = 0; turn < 60; turn++) {
        double middle = (low + high) / 2;
        *(laid(side, gaps, middle) < gauges ? &low : &high) = middle;
    }
    laid(side, gaps, low);
    uint32_t number = voronoi_audit_by_edges(0, 0, side, side, places, 2 * (size_t)gauges, corners, 2 * (size_t)cells[gauges], cells, gauges + 1, list,
        cells[gauges], 0, 0, 0, 0, VORONOI_AUDIT_BITS, &k, &s, &v, &o, &missing);
    if (number || k || gauges - cells[gauges] / 4 != gaps)
        printf("overlaps that pay for %u gaps of %u: the audit answers %u, kind %u at %u\n", gaps, gauges, number, k, s), failures++;
    size_t length = VORONOI_CERTIFY_ROOM(gauges, cells[gauges]);
    hold();
    number = voronoi_certify_by_edges(0, 0, side, side, places, 2 * (size_t)gauges, corners, 2 * (size_t)cells[gauges], cells, gauges + 1, list, cells[gauges],
        VORONOI_CERTIFY_BITS, work, length, &kind, &site, &vertex, &other);
    told("overlaps that pay for gaps", number, length, 0, 2, 0, 1, E);
}

/* ---- from the last rule back: what was broken stays broken */

static uint32_t entries[MANY];

static void refusals(void)
{
    Input i = square;
    i.vertices[16] = 0.0 / 0.0;
    refused("24", &i, 24);
    i.vertices[16] = 0x1.0000000000001p400;
    refused("24, too large", &i, 24);
    i.indexes[15] = 9;
    refused("18", &i, 18);
    i.offsets[4] = 17;
    refused("16, past the end", &i, 16);
    i.offsets[4] = 16, i.offsets[1] = 9;
    refused("16, falling", &i, 16);
    i.offsets_len = 4;
    refused("16, too short", &i, 16);
    i.offsets_len = 0;
    refused("16, none", &i, 16);
    i.sites[7] = 0x1.0000000000001p100;
    refused("6", &i, 6);
    i.box[2] = -1;
    refused("3", &i, 3);
    i.work_len--;
    refused("2, a word", &i, 2);
    i.work_len = 0;
    refused("2, none", &i, 2);
    i.bits = 53;
    refused("1, bits", &i, 1);
    i.bits = 32, i.sites_len = 4;
    refused("1, sites", &i, 1);
    i.sites_len = 7;
    refused("1, an odd list of sites", &i, 1);
    i.sites_len = 8, i.vertices_len = 17;
    refused("1, an odd list of vertices", &i, 1);
    hold();
    told("1, entries", voronoi_certify_by_edges(1, 1, -1, -1, square.sites, 8, square.vertices, 18, square.offsets, 5, entries, MANY, 32, work, 0, &kind, &site,
        &vertex, &other), 0, 1, E, E, E, E);
    hold();
    told("2 for 2^24 entries", voronoi_certify(0, 0, 0, 2, square.sites, 8, square.vertices, 18, square.offsets, 5, entries, MANY - 1, 52, work,
        LENGTH(work), &kind, &site, &vertex, &other), 0, 2, E, E, E, E);
}

static int rows(void)
{
    sound_rows(), faults(), edges(), passed_by_the_audit(), overlaps(66, 1), overlaps(100, 3), refusals();
    printf("certify: rows, %d wrong\n", failures);
    return failures > 0;
}

/* ---- a mesh */

#include "../mesh_text.h"

static double vertices[VORONOI_CUT_VERTEX_NUMBERS(T, H) + VORONOI_VERTEX_NUMBERS(T, H)], areas[N];
static uint32_t table[N], indexes[VORONOI_CUT_INDEX_ROOM(T, H)], offsets[N + 1], counts[VORONOI_COUNTS], starts[N + 1], others[VORONOI_NEIGHBOUR_ROOM(T, H)];

static void audited(const char *against, uint32_t count, size_t s, size_t o)
{
    double missing;
    uint32_t number = voronoi_audit(box[0], box[1], box[2], box[3], sites, 2 * n, vertices, 2 * (size_t)count, offsets, n + 1, indexes, offsets[n], starts, s,
        others, o, VORONOI_AUDIT_BITS, &kind, &site, &vertex, &other, &missing);
    printf("%s: %u, kind %u, site %d, vertex %d, other %d, missing %.10g\n", against, number, kind, (int)site, (int)vertex, (int)other, missing);
}

static void certified(const char *of, uint32_t count)
{
    hold();
    uint32_t number = voronoi_certify(box[0], box[1], box[2], box[3], sites, 2 * n, vertices, 2 * (size_t)count, offsets, n + 1, indexes, offsets[n],
        VORONOI_CERTIFY_BITS, work, VORONOI_CERTIFY_ROOM(n, offsets[n]), &kind, &site, &vertex, &other);
    printf("certificate, %s: %u, kind %u, site %d, vertex %d, other %d; areas", of, number, kind, (int)site, (int)vertex, (int)other);
    if (voronoi_areas(vertices, 2 * (size_t)count, offsets, n + 1, indexes, offsets[n], areas, n) == 0)
        for (size_t s = 0; s < n && s < 8; s++)
            printf(" %.6g", areas[s]);
    printf("\n");
}

static int mesh(void)
{
    uint32_t count;
    read_mesh();
    uint32_t number = voronoi_all_neighbours(sites, 2 * n, triangles, 3 * t, halfedges, 3 * t, hull, h, 0, 0, 0, 0, table, n, starts, n + 1, others,
        VORONOI_NEIGHBOUR_ROOM(t, h));
    if (number)
        return printf("neighbours: %u\n", number), 1;
    number = voronoi_build(box[0], box[1], box[2], box[3], sites, 2 * n, triangles, 3 * t, halfedges, 3 * t, hull, h, table, n, vertices,
        VORONOI_VERTEX_NUMBERS(t, h), indexes, VORONOI_INDEX_ROOM(t, h), offsets, n + 1, counts, VORONOI_COUNTS);
    if (number)
        return printf("build: %u\n", number), 1;
    count = counts[VORONOI_COUNT_VERTICES];
    audited("audit, neighbours", count, n + 1, starts[n]);
    audited("audit, all sites", count, 0, 0);
    certified("build", count);
    number = voronoi_cut(box[0], box[1], box[2], box[3], sites, 2 * n, triangles, 3 * t, halfedges, 3 * t, hull, h, table, n, vertices,
        VORONOI_CUT_VERTEX_NUMBERS(t, h), indexes, VORONOI_CUT_INDEX_ROOM(t, h), offsets, n + 1, &count);
    if (number)
        return printf("cut: %u\n", number), 0;
    audited("audit of the cut, neighbours", count, n + 1, starts[n]);
    certified("cut", count);
    return 0;
}

int main(int argc, char **argv)
{
    if (argc == 2 && argv[1][0] == 'r')
        return rows();
    if (argc == 2 && argv[1][0] == 'm')
        return mesh();
    return printf("certify rows | mesh\n"), 2;
}
