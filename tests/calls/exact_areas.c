/* Areas through the C interface.
 *
 *   exact_areas rows            rows by name, and every refusal with those after it broken too; exit status 1 where something differs
 *   exact_areas rings           reads rings, each a count and so many pairs of patterns in hexadecimal, and prints the pattern of each ring's area
 *   exact_areas mesh [turned]   reads a mesh as text (examples/thirty.txt), builds it, and prints the cells, the areas' patterns and those of the
 *                               triangles; turned: with each triangle and the hull the other way round
 *   exact_areas times COUNT     areas of COUNT rings of six corners, 10 times over
 *
 * What must come out of `rings` and `mesh` is worked out by tests/calls/exact_areas.py. The C library's headers are not used (tests/archive.sh says why). */
#include "../lent.h"
#include "../number.h"

int scanf(const char *format, ...);

enum { N = 1000, T = 2000, H = 1000, MOST = 65536, CORNERS = 64 };
#define MANY (((size_t)1 << 24) + 1)
#define HELD 77.0
static int failures;

/* ---- rows */

typedef struct {
    const char *name;
    size_t vertices, offsets, indexes, areas; /* lengths */
    double v[12];
    uint32_t off[6], ix[16];
    uint32_t number;
    double out[5];
} Row;

#define LARGE 0x1p400
#define ABOVE 0x1.0000000000001p400
#define NOT_FINITE (1.0 / 0.0)
#define NO_NUMBER (0.0 / 0.0)

static const Row rows[] = {
    /* cell 1 of "square", the other way round, a ring of two, and an empty one */
    {"square", 8, 5, 10, 4, {0, 0, -1, 0, -1, 1, 0, 1}, {0, 4, 8, 10, 10}, {0, 1, 2, 3, 3, 2, 1, 0, 1, 2}, 0, {1, -1, 0, 0}},
    {"past the areas", 8, 2, 4, 3, {0, 0, -1, 0, -1, 1, 0, 1}, {0, 4}, {0, 1, 2, 3}, 0, {1, 0, 0}},
    {"no offsets less one", 0, 1, 0, 2, {0}, {0}, {0}, 0, {0, 0}},
    {"no offsets", 0, 0, 0, 2, {0}, {0}, {0}, 16, {0}},
    {"nearly flat", 6, 2, 3, 1, {0.1, 0.1, 0.2, 0.2, 0.3, 0.30000000000000004}, {0, 3}, {0, 1, 2}, 0, {-0x1.999999999999ap-59}},
    {"flat", 6, 2, 3, 1, {0.1, 0.1, 0.2, 0.2, 0.3, 0.3}, {0, 3}, {0, 1, 2}, 0, {0}},
    {"a corner twice", 8, 2, 5, 1, {0, 0, -1, 0, -1, 1, 0, 1}, {0, 5}, {0, 1, 1, 2, 3}, 0, {1}},
    {"crossing itself", 8, 2, 4, 1, {0, 0, 1, 1, 1, 0, 0, 1}, {0, 4}, {0, 1, 2, 3}, 0, {0}},
    {"smallest", 6, 2, 3, 1, {0, 0, 0, 0x1p-537, 0x1p-537, 0}, {0, 3}, {0, 1, 2}, 0, {0x0p0}},
    {"more than half of the smallest", 6, 2, 3, 1, {0, 0, 0, 0x1p-537, 0x1.0000000000001p-537, 0}, {0, 3}, {0, 1, 2}, 0, {0x1p-1074}},
    {"largest", 6, 2, 3, 1, {LARGE, LARGE, -LARGE, LARGE, -LARGE, -LARGE}, {0, 3}, {0, 1, 2}, 0, {-0x1p801}},
    /* refusals, each with those after it broken too */
    {"1: odd", 7, 2, 4, 0, {0, 0, 1, 0, NO_NUMBER}, {0, 9}, {0, 1, 9, 3}, 1, {0}},
    {"16: past the end", 6, 2, 4, 0, {0, 0, 1, 0, NO_NUMBER}, {0, 9}, {0, 1, 9, 2}, 16, {0}},
    {"16: not from 0", 6, 2, 4, 0, {0, 0, 1, 0, NO_NUMBER}, {1, 4}, {0, 1, 9, 2}, 16, {0}},
    {"16: falling", 6, 3, 4, 1, {0, 0, 1, 0, NO_NUMBER}, {0, 4, 3}, {0, 1, 9, 2}, 16, {0}},
    {"18: no vertex", 6, 2, 4, 0, {0, 0, 1, 0, NO_NUMBER}, {0, 4}, {0, 1, 2, 3}, 18, {0}},
    {"18: in a cell of one", 6, 3, 4, 0, {0, 0, 1, 0, NO_NUMBER}, {0, 3, 4}, {0, 1, 2, 3}, 18, {0}},
    {"24: NaN", 6, 2, 3, 0, {0, 0, 1, 0, NO_NUMBER}, {0, 3}, {0, 1, 2}, 24, {0}},
    {"24: infinite", 6, 2, 3, 0, {0, 0, 1, 0, 0, NOT_FINITE}, {0, 3}, {0, 1, 2}, 24, {0}},
    {"24: above 2^400", 6, 2, 3, 0, {0, 0, 1, 0, 0, -ABOVE}, {0, 3}, {0, 1, 2}, 24, {0}},
    {"24: in a cell of one", 6, 2, 1, 0, {0, 0, 1, 0, 0, -ABOVE}, {0, 1}, {2}, 24, {0}},
    {"2: an area too few", 6, 3, 6, 1, {0, 0, 1, 0, 0, 1}, {0, 3, 6}, {0, 1, 2, 0, 2, 1}, 2, {0}},
    /* what no cell names is not looked at */
    {"entries past the last offset", 6, 2, 4, 1, {0, 0, 1, 0, 0, 1}, {0, 3}, {0, 1, 2, 9}, 0, {-0.5}},
    {"vertices that are not named", 8, 2, 3, 1, {0, 0, 1, 0, 0, 1, NO_NUMBER, ABOVE}, {0, 3}, {0, 1, 2}, 0, {-0.5}},
};

static void row(const Row *r)
{
    double areas[8];
    for (size_t i = 0; i < 8; i++)
        areas[i] = HELD;
    uint32_t number = voronoi_areas(r->v, r->vertices, r->off, r->offsets, r->ix, r->indexes, areas, r->areas);
    int right = number == r->number;
    for (size_t i = 0; i < 8; i++)
        right &= bits(areas[i]) == bits(number || i >= r->areas ? HELD : r->out[i]);
    if (!right) {
        printf("%s: answered %u with %a %a, must be %u with %a %a\n", r->name, number, areas[0], areas[1], r->number, r->out[0], r->out[1]);
        failures++;
    }
}

/* an index list of 2^24 entries is admitted, and one more is not */
static void many(void)
{
    static uint32_t indexes[MANY], offsets[2];
    double vertices[7] = {0, 0, 1, 0, 0, 1, 0}, area = HELD;
    for (size_t i = 0; i < MANY; i++)
        indexes[i] = i % 3;
    offsets[1] = (uint32_t)MANY - 2;
    uint32_t full = voronoi_areas(vertices, 6, offsets, 2, indexes, MANY - 1, &area, 1);
    if (full != 0 || area != -0.5 * (double)((MANY - 2) / 3)) {
        printf("2^24 entries: answered %u with %a\n", full, area);
        failures++;
    }
    area = HELD, offsets[0] = 1;
    uint32_t more = voronoi_areas(vertices, 6, offsets, 2, indexes, MANY, &area, 0);
    if (more != 1 || area != HELD) {
        printf("2^24 + 1 entries: answered %u with %a\n", more, area);
        failures++;
    }
}

static int all_rows(void)
{
    for (size_t i = 0; i < sizeof rows / sizeof rows[0]; i++)
        row(&rows[i]);
    many();
    printf("areas: %u rows, %d wrong\n", (unsigned)(sizeof rows / sizeof rows[0]) + 2, failures);
    return failures != 0;
}

/* ---- rings */

static int all_rings(void)
{
    static double vertices[2 * CORNERS];
    static uint32_t indexes[CORNERS];
    unsigned count;
    for (uint32_t i = 0; i < CORNERS; i++)
        indexes[i] = i;
    while (scanf("%u", &count) == 1 && count <= CORNERS) {
        for (unsigned i = 0; i < 2 * count; i++) {
            unsigned long b;
            if (scanf("%lx", &b) != 1)
                return 1;
            vertices[i] = value(b);
        }
        uint32_t offsets[2] = {0, count};
        double area[2] = {HELD, HELD};
        uint32_t number = voronoi_areas(vertices, 2 * (size_t)count, offsets, 2, indexes, count, area, 1);
        if (bits(area[1]) != bits(HELD))
            return 1;
        printf("%u %lx\n", number, (unsigned long)bits(area[0]));
    }
    return 0;
}

/* ---- a mesh */

#include "../mesh_text.h"

static double vertices[VORONOI_VERTEX_NUMBERS(T, H)], areas[T];
static uint32_t work[VORONOI_WORK_ROOM(N)], indexes[VORONOI_INDEX_ROOM(T, H)], offsets[3 * T + 1], counts[VORONOI_COUNTS];

static int mesh(int turned)
{
    read_mesh();
    if (turned)
        turn();
    uint32_t refused = voronoi_build(box[0], box[1], box[2], box[3], sites, 2 * n, triangles, 3 * t, halfedges, 3 * t, hull, h, work, n,
        vertices, VORONOI_VERTEX_NUMBERS(t, h), indexes, VORONOI_INDEX_ROOM(t, h), offsets, n + 1, counts, VORONOI_COUNTS);
    printf("box %lx %lx\nbuild %u\n", (unsigned long)bits(box[2]), (unsigned long)bits(box[3]), refused);
    if (refused)
        return 0;
    size_t numbers = 2 * (size_t)counts[VORONOI_COUNT_VERTICES];
    for (size_t i = 0; i < numbers; i += 2)
        printf("vertex %lx %lx\n", (unsigned long)bits(vertices[i]), (unsigned long)bits(vertices[i + 1]));
    uint32_t number = voronoi_areas(vertices, numbers, offsets, n + 1, indexes, offsets[n], areas, n);
    printf("cells %u\n", number);
    for (size_t s = 0; s < n; s++) {
        printf("cell %lx", (unsigned long)bits(areas[s]));
        for (uint32_t i = offsets[s]; i < offsets[s + 1]; i++)
            printf(" %u", indexes[i]);
        printf("\n");
    }
    for (size_t i = 0; i <= t; i++)
        offsets[i] = (uint32_t)(3 * i);
    printf("triangles %u\n", voronoi_areas(sites, 2 * n, offsets, t + 1, triangles, 3 * t, areas, t));
    for (size_t i = 0; i < t; i++)
        printf("triangle %lx %lx %lx %lx %lx %lx %lx\n", (unsigned long)bits(areas[i]), (unsigned long)bits(sites[2 * triangles[3 * i]]),
            (unsigned long)bits(sites[2 * triangles[3 * i] + 1]), (unsigned long)bits(sites[2 * triangles[3 * i + 1]]),
            (unsigned long)bits(sites[2 * triangles[3 * i + 1] + 1]), (unsigned long)bits(sites[2 * triangles[3 * i + 2]]),
            (unsigned long)bits(sites[2 * triangles[3 * i + 2] + 1]));
    return 0;
}

/* ---- times */

static int times(uint64_t count)
{
    static double at[12 * MOST], out[MOST];
    static uint32_t ix[6 * MOST], off[MOST + 1];
    static const double ring[12] = {1, 0, .5, -.87, -.5, -.87, -1, 0, -.5, .87, .5, .87};
    if (count > MOST)
        return 2;
    for (size_t s = 0; s < count; s++)
        for (size_t k = 0; k < 6; k++) {
            ix[6 * s + k] = (uint32_t)(6 * s + k), off[s + 1] = (uint32_t)(6 * s + 6);
            at[12 * s + 2 * k] = ring[2 * k] + (double)(s % 251) / 7, at[12 * s + 2 * k + 1] = ring[2 * k + 1] + (double)(s / 251) / 11;
        }
    long began = clock();
    for (int i = 0; i < 10; i++)
        if (voronoi_areas(at, 12 * count, off, count + 1, ix, 6 * count, out, count))
            return 1;
    printf("%lu rings of six corners: %ld ns a ring\n", (unsigned long)count, (clock() - began) * 100 / (long)count);
    return 0;
}

int main(int words, char **word)
{
    uint64_t count;
    if (words == 2 && word[1][0] == 'r' && word[1][1] == 'o')
        return all_rows();
    if (words == 2 && word[1][0] == 'r')
        return all_rings();
    if (words >= 2 && word[1][0] == 'm')
        return mesh(words == 3);
    if (words == 3 && word[1][0] == 't' && number_of(word[2], &count))
        return times(count);
    return printf("exact_areas rows | rings | mesh [turned] | times COUNT\n"), 2;
}
