/* The builds and the cell query through the C interface: the listing of "square" (docs/use/RULES.md), its rooms, every number from 1 to 14 and 16, and each lent slice
 * to its last element and beyond. Exit status 1 where something differs.
 *
 * The inputs of 11 to 14 are those of harness/meshes. The C library's headers are not used (tests/archive.sh says why). */
#include "../lent.h"

#define HELD UINT32_C(77)
#define SPARE 3

/* ---- a mesh, a box, and what is lent; each slice has SPARE elements past its length that no call may touch */

static double coordinates[64], box[4];
static uint32_t triangles[64], halfedges[64], hull[64];
static size_t coordinate_count, entry_count, halfedge_count, hull_count;

static uint32_t work[64], indexes[256], offsets[64], counts[64], table[64];
static double vertices[256];
static size_t work_count, vertex_numbers, index_count, offset_count, count_count;

static int failures;

static uint32_t sites(void) { return (uint32_t)(coordinate_count / 2); }

/* rooms as asked, and two elements more */
static void lend(void)
{
    work_count = VORONOI_WORK_ROOM(sites()) + 2;
    vertex_numbers = 2 * VORONOI_VERTEX_ROOM(entry_count / 3, hull_count) + 2;
    index_count = VORONOI_INDEX_ROOM(entry_count / 3, hull_count) + 2;
    offset_count = VORONOI_OFFSET_ROOM(sites()) + 2;
    count_count = VORONOI_COUNTS + 2;
}

static void set(size_t numbers, const double *points, size_t entries, const uint32_t *sites_of, const uint32_t *pairs, size_t h,
                const uint32_t *round)
{
    coordinate_count = numbers;
    entry_count = halfedge_count = entries;
    hull_count = h;
    for (size_t i = 0; i < numbers; i++)
        coordinates[i] = points[i];
    for (size_t i = 0; i < entries; i++) {
        triangles[i] = sites_of[i];
        halfedges[i] = pairs[i];
    }
    for (size_t i = 0; i < h; i++)
        hull[i] = round[i];
    lend();
}

static void set_box(double x, double y, double width, double height)
{
    box[0] = x, box[1] = y, box[2] = width, box[3] = height;
}

#define MESH(points, sites_of, pairs, round) set(LENGTH(points), points, LENGTH(sites_of), sites_of, pairs, LENGTH(round), round)

static const double square_points[] = {-.5, -.5, -.5, .5, .5, .5, .5, -.5};
static const uint32_t square[] = {0, 1, 2, 0, 2, 3}, square_pairs[] = {E, E, 3, 2, E, E}, square_hull[] = {0, 1, 2, 3};
static const uint32_t one[] = {0, 1, 2}, none[] = {E, E, E};

static void set_square(void)
{
    MESH(square_points, square, square_pairs, square_hull);
    set_box(0, 0, 2, 2);
}

/* one triangle whose sites are the hull, from its first site on */
static void set_triangle(double ax, double ay, double bx, double by, double cx, double cy)
{
    const double points[] = {ax, ay, bx, by, cx, cy};
    MESH(points, one, none, one);
    set_box(0, 0, 2, 2);
}

/* ---- a run, and what the slices must hold after it */

static void hold(uint32_t *slice, size_t length)
{
    for (size_t i = 0; i < length + SPARE; i++)
        slice[i] = HELD;
}

static uint32_t run(void)
{
    hold(work, work_count);
    hold(indexes, index_count);
    hold(offsets, offset_count);
    hold(counts, count_count);
    for (size_t i = 0; i < vertex_numbers + SPARE; i++)
        vertices[i] = HELD;
    return voronoi_build(box[0], box[1], box[2], box[3], coordinates, coordinate_count, triangles, entry_count, halfedges,
                         halfedge_count, hull, hull_count, work, work_count, vertices, vertex_numbers, indexes, index_count, offsets,
                         offset_count, counts, count_count);
}

/* `value` from `from` on, and past the end what was held */
static int rest_is(const uint32_t *slice, size_t from, size_t length, uint32_t value)
{
    for (size_t i = from; i < length; i++)
        if (slice[i] != value)
            return 0;
    for (size_t i = length; i < length + SPARE; i++)
        if (slice[i] != HELD)
            return 0;
    return 1;
}

static int same_bits(double a, double b)
{
    uint64_t x, y;
    __builtin_memcpy(&x, &a, sizeof x);
    __builtin_memcpy(&y, &b, sizeof y);
    return x == y;
}

static int vertices_rest(size_t from, int cleared)
{
    for (size_t i = from; i < vertex_numbers; i++)
        if (!same_bits(vertices[i], cleared ? 0.0 : HELD))
            return 0;
    for (size_t i = vertex_numbers; i < vertex_numbers + SPARE; i++)
        if (vertices[i] != HELD)
            return 0;
    return 1;
}

static int begins(const uint32_t *slice, const uint32_t *with, size_t length)
{
    for (size_t i = 0; i < length; i++)
        if (slice[i] != with[i])
            return 0;
    return 1;
}

static int slices_hold(uint32_t number)
{
    uint32_t value = number < 7 ? HELD : E, n = sites();
    if (number != 0)
        return rest_is(work, 0, work_count, value) && rest_is(indexes, 0, index_count, value) &&
               rest_is(offsets, 0, offset_count, value) && rest_is(counts, 0, count_count, value) && vertices_rest(0, number > 6);
    voronoi_check(coordinates, coordinate_count, triangles, entry_count, halfedges, halfedge_count, hull, hull_count, table, n);
    return begins(work, table, n) && rest_is(work, n, work_count, E) && rest_is(indexes, offsets[n], index_count, E) &&
           rest_is(offsets, n + 1, offset_count, E) && rest_is(counts, VORONOI_COUNTS, count_count, E) &&
           vertices_rest(2 * (size_t)counts[VORONOI_COUNT_VERTICES], 1);
}

static void tell(const char *what, uint32_t got, uint32_t number, int right)
{
    if (got != number || !right) {
        printf("FAILED: %s: %u, must be %u%s\n", what, got, number, right ? "" : ", a lent value or slice wrong");
        failures++;
    } else
        printf("  %2u  %s\n", got, what);
}

static void must(const char *what, uint32_t number)
{
    uint32_t got = run();
    tell(what, got, number, slices_hold(number));
}

/* an accepted build: its offsets, entries, counts and vertices in full */
static void must_build(const char *what, const uint32_t *starts, const uint32_t *entries, const uint32_t *numbers, const double *points)
{
    uint32_t got = run(), n = sites();
    int right = got == 0 && slices_hold(0) && begins(offsets, starts, n + 1) && begins(indexes, entries, starts[n]) &&
                begins(counts, numbers, VORONOI_COUNTS);
    for (size_t i = 0; i < 2 * (size_t)numbers[VORONOI_COUNT_VERTICES]; i++)
        right &= same_bits(vertices[i], points[i]);
    tell(what, got, 0, right);
}

/* ---- accepted: the listing of docs/use/RULES.md, a fifth site, lost corners, empty cells, reused points */

static const double five_points[] = {-.5, -.5, -.5, .5, .5, .5, .5, -.5, 7, 7};

static void listings(void)
{
    static const uint32_t starts[] = {0, 5, 9, 14, 18, 18}, owners[] = {14, 0, 1, 2, 3, 0, 0, 4, 0};
    static const uint32_t entries[] = {1, 10, 2, 11, 0, 0, 11, 3, 12, 0, 12, 4, 13, 1, 1, 13, 5, 10};
    static const double points[] = {0, 0, 0, 0, -1, -1, -1, 1, 1, 1, 1, -1, -1e10, 0, 0, 1e10, 1e10, 0, 0, -1e10, 0, -1, -1, 0, 0, 1, 1, 0};
    set_square();
    must_build("square", starts, entries, owners, points);
    MESH(five_points, square, square_pairs, square_hull);
    must_build("a fifth, unused site", starts, entries, owners, points);

    static const uint32_t lost_starts[] = {0, 3, 7, 11}, lost_entries[] = {0, 1, 9, 0, 9, 3, 8, 0, 8, 4, 1}, lost[] = {10, 2, 0, 1, 2, 1, 0, 4, 0};
    static const double lost_points[] = {.25, .25, -1, -1, -1, 1, 1, 1, 1, -1, -0x1.a577eea39d8fcp32, -0x1.a577eea39d8fcp32,
                                         .25, 0x1.2a05f2002p33, 0x1.2a05f2002p33, .25, 1, .25, .25, 1};
    set_triangle(0, .5, .5, .5, .5, 0);
    hull[0] = 2, hull[1] = 0, hull[2] = 1;
    must_build("one corner lost, one met as a crossing", lost_starts, lost_entries, lost, lost_points);

    static const uint32_t met_starts[] = {0, 4, 9, 12}, met_entries[] = {0, 8, 2, 3, 0, 9, 4, 1, 8, 0, 3, 9}, met[] = {10, 1, 0, 0, 1, 0, 0, 4, 0};
    static const double met_points[] = {1, -.5, -1, -1, -1, 1, 1, 1, 1, -1, 1, 9999999999.5,
                                        0x1.0a8f61137fe47p33, -0x1.0a8f61137fe47p32, -9999999999., -.5, -1, -.5, 1, -.5};
    set_triangle(.5, .5, .5, -1.5, 1.5, .5);
    triangles[1] = hull[1] = 2, triangles[2] = hull[2] = 1;
    must_build("a corner met as a crossing alone, none lost", met_starts, met_entries, met, met_points);

    static const uint32_t covered[] = {10, 0, 0, 0, 0, 4, 0, 0, 0}, no_entries[] = {0, 0, 0, 0, 0};
    static const double covered_points[] = {0, 0, 0, 0, -.5625, -.5625, -.5625, -.4375, -.4375, -.4375, -.4375, -.5625, -1e10, 0, 0, 1e10, 1e10, 0, 0, -1e10};
    set_square();
    set_box(-.5, -.5, .125, .125);
    must_build("four empty cells, four corners lost", no_entries, no_entries, covered, covered_points);

    static const uint32_t far[] = {6, 0, 1, 0, 0, 4, 2, 0, 0};
    static const double far_points[] = {-0x1.ffffffffffffep98, -0x1.5555555555555p97, -1, -1, -1, 1, 1, 1, 1, -1, -0x1.ffffffffffffep98, -0x1.5555555555555p97};
    set_triangle(1.5, .5, 1, 2, -1.2676506002282293e30, -1.5);
    hull[0] = 1, hull[1] = 2, hull[2] = 0;
    must_build("two of three extensions reused", no_entries, no_entries, far, far_points);

    static const uint32_t kind_starts[] = {0, 2, 4, 4}, kind_entries[] = {1, 3, 1, 4}, kinds[] = {7, 2, 2, 2, 2, 1, 1, 2, 2};
    static const double kind_points[] = {1.5, 1, 10000000001.5, 1, 10000000001.5, 1025, 10000001025.5, 1025, 10000001025.5, 1,
                                         -0x1.0a8f61123fe47p33, 0x1.0a8f6113ffe47p32, 1.5, -9999999999.};
    set_triangle(1, 2, 1, 0, 2, 2);
    set_box(10000000513.5, 513, 1024, 1024);
    triangles[0] = 2, triangles[1] = 0, triangles[2] = 1;
    must_build("an extension, two first and two second crossings reused", kind_starts, kind_entries, kinds, kind_points);
}

/* ---- rooms: exactly enough, and one short */

#define LENT(what, change, number) \
    do { \
        set_square(); \
        work_count = 4, vertex_numbers = 76, index_count = 60, offset_count = 5, count_count = 9; \
        change; \
        must(what, number); \
    } while (0)

static void rooms(void)
{
    printf("rooms\n");
    LENT("38 vertices, 60 indexes, 5 offsets, 4 work entries, 9 counts", (void)0, 0);
    LENT("half a vertex more", vertex_numbers++, 0);
    LENT("37 vertices", vertex_numbers -= 2, 2);
    LENT("37 vertices and half a one", vertex_numbers--, 2);
    LENT("59 indexes", index_count--, 2);
    LENT("4 offsets", offset_count--, 2);
    LENT("3 work entries", work_count--, 2);
    LENT("8 counts", count_count--, 2);
    LENT("nothing lent", work_count = vertex_numbers = index_count = offset_count = count_count = 0, 2);
    LENT("59 indexes, for two sites", coordinate_count = 4; index_count--, 1);
}

/* ---- refused builds, by number */

static void refusals(void)
{
    set_square();
    coordinate_count = 4;
    must("two sites", 1);
    set_square();
    set_box(0, 0, 0, 2);
    must("a box of width 0", 3);
    index_count = 59;
    must("the same with room for 59 indexes", 2);
    set_square();
    set_box(0, 0, 2, 0.0 / box[0]);
    must("a NaN for the box's height", 3);
    set_square();
    coordinates[7] = 0x1.0000000000001p100;
    must("a coordinate above 2^100", 6);
    set_box(0, 0x1p101, 2, 2);
    must("the same in a box that breaks its rule", 3);
    set_square();
    triangles[2] = 0;
    must("a first triangle 0 1 0", 7);
    set_square();
    halfedges[3] = E;
    must("pairs E E 3, E E E", 8);
    set_square();
    hull_count = 3;
    must("hull 0 1 2", 9);

    static const uint32_t sharing[] = {0, 1, 2, 0, 3, 4, 0, 4, 3}, sharing_pairs[] = {E, E, E, 8, 7, 6, 5, 4, 3};
    MESH(five_points, sharing, sharing_pairs, one);
    must("a closed part that shares one site", 10);

    set_triangle(0, 0, 1, 0, 2, 0);
    must("three sites on a line", 11);
    set_triangle(0, 0, 0x1p-540, 0, 0, 1);
    must("a hull edge of 2^-540", 12);
    set_triangle(0, 0, 0x1p-537, 0, 0, 1);
    must("a hull edge of 2^-537", 0);
    set_triangle(-.5, 0, .5, .5, .75, .5);
    must("a circumcenter on the top side", 13);
    set_square();
    set_box(0, 0, 2e10, 2e10);
    must("extensions inside the box", 14);
}

/* ---- 5 by a path; cells by 4 and 16 */

static void path(void)
{
    uint32_t out[6], count = HELD, ended = HELD;
    set_square();
    hold(work, 6);
    hold(out, 3);
    uint32_t got = voronoi_path(coordinates, coordinate_count, triangles, entry_count, halfedges, halfedge_count, hull, hull_count, 0,
                                0x1p101, 0, work, 6, out, 3, &count, &ended);
    tell("a path to (2^101, 0)", got, 5, count == 0 && ended == 0 && rest_is(work, 0, 6, HELD) && rest_is(out, 0, 3, HELD));
}

static void cell(const char *what, const uint32_t *cut, size_t cuts, size_t length, uint32_t site, uint32_t number, uint32_t start,
                 uint32_t entries)
{
    uint32_t from = HELD, many = HELD;
    uint32_t got = voronoi_cell(cut, cuts, indexes, length, site, &from, &many);
    tell(what, got, number, from == start && many == entries);
}

static void cells(void)
{
    MESH(five_points, square, square_pairs, square_hull);
    set_box(0, 0, 2, 2);
    run();
    cell("cell 0 of square with a fifth site", offsets, 6, index_count, 0, 0, 0, 5);
    cell("cell 3", offsets, 6, index_count, 3, 0, 14, 4);
    cell("cell 4, of the unused site", offsets, 6, index_count, 4, 0, 18, 0);
    cell("cell 3, the list cut to its end", offsets, 6, 18, 3, 0, 14, 4);
    cell("cell 5: no such site", offsets, 6, index_count, 5, 4, 0, 0);
    cell("cell 4294967295", offsets, 6, index_count, E, 4, 0, 0);
    cell("cell 0, the list cut before its end", offsets, 6, 17, 0, 16, 0, 0);
    cell("cell 0, the offsets with their cleared tail", offsets, offset_count, index_count, 0, 16, 0, 0);
    cell("cell 0 of one offset", offsets, 1, index_count, 0, 4, 0, 0);
    cell("cell 0 of no offset", offsets, 0, index_count, 0, 4, 0, 0);
    static const uint32_t falling[] = {0, 3, 2, 5}, late[] = {1, 3, 5};
    cell("cell 0 of falling offsets", falling, 4, 5, 0, 16, 0, 0);
    cell("cell 3 of falling offsets: no such site", falling, 4, 5, 3, 4, 0, 0);
    cell("cell 0 of offsets that start at 1", late, 3, 5, 0, 16, 0, 0);
}

int main(void)
{
    listings();
    rooms();
    refusals();
    path();
    cells();
    printf(failures ? "builds: %d failed\n" : "builds: all as it must be\n", failures);
    return failures != 0;
}
