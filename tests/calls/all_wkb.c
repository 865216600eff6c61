/* The polygons of all cells at once, byte for byte those of voronoi_cell_wkb, through the C interface: both slices to their last element and beyond, and every refusal
 * with those after it broken too. Then the version. Exit status 1 where something differs.
 *
 *   all_wkb [BUILDS [SEED]]
 *   all_wkb times SIDE        the processor time of the call for all cells of SIDE by SIDE sites, and of one call for each of some of them
 *
 * The C library's headers are not used (tests/archive.sh says why). */
#include "../number.h"
#include "../rows.h"
#include "voronoi.h"

int printf(const char *format, ...);
struct instant {
    int64_t seconds, nanoseconds;
};
int clock_gettime(int clock, struct instant *now);

enum { MOST = 256, SITES = MOST * MOST, TRIANGLES = 2 * MOST * MOST, HULL = 4 * MOST, SPARE = 3 };
#define MANY ((size_t)16777217)
#define HELD UINT64_C(0xA5A5A5A5A5A5A5A5)

static double sites[2 * SITES], vertices[VORONOI_VERTEX_NUMBERS(TRIANGLES, HULL)];
static uint32_t triangles[3 * TRIANGLES], pairs[3 * TRIANGLES], hull[HULL], work[SITES], changes[3 * (3 * TRIANGLES + SITES)], mended[SITES];
static uint32_t indexes[MANY], offsets[SITES + 1], counts[VORONOI_COUNTS];
static uint64_t starts[SITES + 1 + SPARE];
static uint8_t out[VORONOI_ALL_WKB_ROOM(SITES, 4 * TRIANGLES) + SPARE], one[VORONOI_WKB_ROOM(4 * TRIANGLES)];
static uint32_t n, entries, hull_count;
static unsigned long failures, cells, empty, refusals;
#define CELLS vertices, 2 * (size_t)counts[VORONOI_COUNT_VERTICES], offsets, n + 1, indexes, offsets[n]

static void same(const char *what, uint64_t where, uint64_t got, uint64_t must)
{
    if (got != must && failures++ < 20)
        printf("FAILED: %s, at %lu: %lu, must be %lu\n", what, (unsigned long)where, (unsigned long)got, (unsigned long)must);
}

/* a by b sites in rows, moved a little, and their pieces in a box by chance; what the build answers */
static uint32_t build(uint32_t a, uint32_t b, int chance)
{
    uint32_t hull_length, changed, moved;
    n = a * b, entries = rows_triangles(a, b, chance, triangles), hull_count = rows_hull(a, b, hull);
    for (uint32_t i = 0; i < n; i++) {
        sites[2 * i] = i % a + (chance ? random_below(64) / 256.0 : 0.003 * (i % 7));
        sites[2 * i + 1] = i / a + (chance ? random_below(64) / 256.0 : 0.003 * (i % 5));
    }
    for (uint32_t i = 0; i < entries; i++)
        pairs[i] = VORONOI_EMPTY;
    uint32_t number = voronoi_mend(sites, 2 * (size_t)n, triangles, entries, pairs, entries, hull, hull_count, work, n, indexes, entries, mended, n, changes,
        VORONOI_CHANGE_NUMBERS(entries / 3, n), &hull_length, &changed, &moved);
    same("the mesh is not mended", a, number, 0);
    for (uint32_t i = 0; i < entries; i++)
        pairs[i] = indexes[i];
    double wide = chance ? 0.7 + random_below(8) : a + 0.37, high = chance ? 0.6 + random_below(8) : b + 0.37;
    return voronoi_build(a / 2.0, b / 2.0, wide, high, sites, 2 * (size_t)n, triangles, entries, pairs, entries, mended, hull_length, work, n, vertices,
        VORONOI_VERTEX_NUMBERS(entries / 3, hull_length), indexes, VORONOI_INDEX_ROOM(entries / 3, hull_length), offsets, n + 1, counts, VORONOI_COUNTS);
}

static void hold(size_t bytes, size_t cuts)
{
    for (size_t i = 0; i < bytes; i++)
        out[i] = (uint8_t)(0x90 ^ i);
    for (size_t i = 0; i < cuts; i++)
        starts[i] = HELD;
}

static void held(const char *what, size_t from, size_t bytes, size_t cut, size_t cuts)
{
    for (size_t i = from; i < bytes; i++)
        same(what, i, out[i], (uint8_t)(0x90 ^ i));
    for (size_t i = cut; i < cuts; i++)
        same(what, i, starts[i], HELD);
}

/* All cells of the build against one call for each. */
static void compare(size_t more_starts, size_t more_out)
{
    size_t room = 0, written = 77, at = 0, single;
    for (uint32_t s = 0; s < n; s++)
        room += VORONOI_WKB_ROOM(offsets[s + 1] - offsets[s]);
    if (room > VORONOI_ALL_WKB_ROOM(n, offsets[n]))
        same("VORONOI_ALL_WKB_ROOM is too little", n, room, VORONOI_ALL_WKB_ROOM(n, offsets[n]));
    hold(room + SPARE, n + 1 + SPARE);
    same("all polygons", n, voronoi_all_wkb(CELLS, starts, n + 1 + more_starts, out, room + more_out, &written), 0);
    same("bytes written", n, written, room);
    same("the first start", 0, starts[0], 0);
    for (uint32_t s = 0; s < n; s++, cells++) {
        same("one polygon", s, voronoi_cell_wkb(CELLS, s, one, sizeof one, &single), 0);
        for (size_t i = 0; i < single; i++)
            same("a byte", at + i, out[at + i], one[i]);
        at += single, empty += single == 9;
        same("a start", s + 1, starts[s + 1], at);
    }
    for (size_t i = n + 1; i < n + 1 + more_starts; i++)
        same("behind the starts", i, starts[i], UINT64_MAX);
    held("past the polygons or the starts", room, room + SPARE, n + 1 + more_starts, n + 1 + SPARE);
}

/* `written` by its address: arguments are evaluated in any order, and the call is one of them */
static void refused(const char *what, uint32_t must, uint32_t number, const size_t *written)
{
    same(what, 0, number, must), same(what, 1, *written, 0);
    held(what, 0, 500, 0, 9), refusals++;
}

/* Four rings over five vertices, each refusal with what comes after it broken too. */
static void refuse(void)
{
    static const double five[] = {0, 0, 1, 0, 1, 1, 0, 1, 2, 2, 7};
    static const uint32_t good[] = {0, 3, 3, 5, 9}, late[] = {1, 3, 3, 5, 9}, falling[] = {0, 3, 2, 5, 9}, long_ones[] = {0, 3, 3, 5, 10};
    static const uint32_t rings[] = {0, 1, 2, 3, 4, 0, 1, 2, 3}, past[] = {0, 1, 2, 3, 5, 0, 1, 2, 3};
    size_t w;
    hold(500, 9);
#define ASK(v, vn, o, i, in, sn, on) voronoi_all_wkb(v, vn, o, 5, i, in, starts, sn, out, on, &w)
    w = 77, refused("an odd list", 1, ASK(five, 11, late, past, 9, 0, 0), &w);
    w = 77, refused("more than 2^24 entries", 1, ASK(five, 10, late, indexes, MANY, 0, 0), &w);
    w = 77, refused("offsets from 1", 16, ASK(five, 10, late, past, 9, 0, 0), &w);
    w = 77, refused("falling offsets", 16, ASK(five, 10, falling, past, 9, 0, 0), &w);
    w = 77, refused("offsets past the list", 16, ASK(five, 10, long_ones, past, 9, 0, 0), &w);
    w = 77, refused("no offsets", 16, voronoi_all_wkb(five, 10, good, 0, past, 9, starts, 0, out, 0, &w), &w);
    w = 77, refused("an entry at the count", 18, ASK(five, 10, good, past, 9, 0, 0), &w);
    w = 77, refused("starts too short", 2, ASK(five, 10, good, rings, 9, 4, 188), &w);
    w = 77, refused("an output too short", 2, ASK(five, 10, good, rings, 9, 5, 187), &w);
    w = 77, refused("no output", 2, ASK(five, 10, good, rings, 9, 5, 0), &w);
    /* 77, 9, 9 and 93 bytes: the exact room is enough, and what is behind the last offset is not looked at */
    w = 77, same("exact room", 0, ASK(five, 10, good, rings, 9, 5, 188), 0), same("exact room, bytes", 0, w, 188);
    hold(500, 9);
    w = 77, same("no cells", 0, voronoi_all_wkb(five, 10, good, 1, past, 9, starts, 2, out, 0, &w), 0);
    same("no cells, bytes", 0, w, 0), same("no cells, start", 0, starts[0], 0), same("no cells, behind", 1, starts[1], UINT64_MAX);
    starts[0] = starts[1] = HELD;
    held("no cells", 0, 500, 0, 9);
}

static uint64_t now(void)
{
    struct instant t;
    clock_gettime(2, &t);
    return (uint64_t)t.seconds * 1000000000 + (uint64_t)t.nanoseconds;
}

static void times(uint32_t side)
{
    const uint32_t asked = 1000;
    size_t written, bytes = 0;
    same("the build", side, build(side, side, 0), 0);
    uint64_t begin = now();
    for (int k = 0; k < 10; k++)
        same("all polygons", side, voronoi_all_wkb(CELLS, starts, n + 1, out, sizeof out, &written), 0);
    uint64_t all = (now() - begin) / 10;
    begin = now();
    for (uint32_t s = 0; s < asked && s < n; s++)
        voronoi_cell_wkb(CELLS, s, one, sizeof one, &bytes);
    uint64_t each = (now() - begin) / asked;
    printf("all_wkb: %u sites, %lu bytes: all at once %lu us; one call %lu ns, so %lu ms for each by itself\n", n, (unsigned long)written,
        (unsigned long)(all / 1000), (unsigned long)each, (unsigned long)(each * n / 1000000));
}

int main(int words, char **word)
{
    uint64_t builds = 10000, seed = 1, side;
    if (words == 3 && word[1][0] == 't' && number_of(word[2], &side) && side >= 2 && side <= MOST) {
        state = 1;
        times((uint32_t)side);
        return failures != 0;
    }
    if (!count_and_seed(words, word, &builds, &seed))
        return printf("all_wkb [BUILDS [SEED]] | times SIDE\n"), 2;
    state = 2 * seed + 1;
    same("the version", 0, voronoi_version(), VORONOI_VERSION_NUMBER);
    refuse();
    unsigned long done = 0, not_built = 0;
    while (done < builds) {
        if (build(2 + random_below(9), 2 + random_below(9), 1) != 0) {
            not_built++;
            continue;
        }
        compare(random_below(SPARE + 1), random_below(SPARE + 1));
        done++;
    }
    if (builds >= 1000 && empty == 0)
        same("no empty cell came up", 0, 0, 1);
    printf("all_wkb: %lu builds (%lu refused ones left out), %lu polygons byte for byte those of voronoi_cell_wkb, %lu of them empty; %lu refusals; version %u; %lu failures\n", done, not_built,
        cells, empty, refusals, (unsigned)voronoi_version(), failures);
    return failures != 0;
}
