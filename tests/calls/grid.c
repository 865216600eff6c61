/* The calls on the grid through the C interface: rows by name, every refusal with those after it broken too, random meshes beside exact numbers of 128
 * bits, every whole number of the profile as a float, and the time of 65,536 sites beside the check's.
 *
 *   grid COUNT [SEED]    compares COUNT random meshes; exit status 1 where something differs, or an answer never came up
 *
 * What must come out is written from docs/use/RULES.md ("The grid"). The work slice is compared to its last entry and beyond. The C library's headers are
 * not used (tests/archive.sh says why). */
#include "../exact_grid.h"
#include "../number.h"

static uint32_t triangles[ENTRIES], halfedges[ENTRIES], hull[SITES];
static size_t coordinate_count, entry_count, halfedge_count, hull_count, room;
static uint32_t work[SITES + SPARE], right[SITES + SPARE], kind, place;
static double floats[2 * SITES + SPARE];
static int failures;

static uint32_t count(void) { return (uint32_t)(coordinate_count / 2); }

/* ---- what must come out */

static int beyond(void)
{
    for (size_t i = 0; i < coordinate_count; i++)
        if (grid[i] < -8192 || grid[i] > 8192)
            return 1;
    return 0;
}

/* 7 to 10 and the table are asked of voronoi_check, with places that are all sound */
static uint32_t checked(void)
{
    static double sound[2 * SITES];
    return voronoi_check(sound, coordinate_count, triangles, entry_count, halfedges, halfedge_count, hull, hull_count, right, room);
}

static uint32_t expected(uint32_t *must_kind, uint32_t *must_place)
{
    for (size_t i = 0; i < room + SPARE; i++)
        right[i] = HELD;
    *must_kind = *must_place = E;
    uint32_t number = checked();
    if (number == VORONOI_REFUSED_COUNT || number == VORONOI_REFUSED_ROOM)
        return number;
    if (beyond()) {
        for (size_t i = 0; i < room; i++)
            right[i] = HELD;
        return VORONOI_REFUSED_GRID;
    }
    if (number)
        return number;
    for (uint32_t t = 0; t < entry_count / 3; t++)
        if (cross(triangles[3 * t], triangles[3 * t + 1], triangles[3 * t + 2]) >= 0) {
            *must_kind = VORONOI_GRID_TRIANGLE, *must_place = t;
            return 0;
        }
    for (uint32_t e = 0; e < entry_count; e++)
        if (halfedges[e] != E &&
            against_the_circle(triangles[e], triangles[next(e)], triangles[next(next(e))], triangles[next(next(halfedges[e]))]) < 0) {
            *must_kind = VORONOI_GRID_HALFEDGE, *must_place = e;
            return 0;
        }
    *must_kind = VORONOI_GRID_YES;
    return 0;
}

static uint32_t run(void)
{
    for (size_t i = 0; i < room + SPARE; i++)
        work[i] = HELD;
    kind = place = HELD;
    return voronoi_grid_check(grid, coordinate_count, triangles, entry_count, halfedges, halfedge_count, hull, hull_count, work, room, &kind, &place);
}

static uint32_t compare(const char *what, uint64_t which)
{
    uint32_t must_kind, must_place, must = expected(&must_kind, &must_place), got = run();
    const char *wrong = got != must ? "the number" : kind != must_kind ? "the kind" : place != must_place ? "the place" : 0;
    for (size_t i = 0; i < room + SPARE; i++)
        if (work[i] != right[i])
            wrong = "work";
    if (wrong) {
        printf("FAILED: %s %llu: %u kind %u place %u, must be %u kind %u place %u; %s differs\n", what, (unsigned long long)which, got, kind, place, must,
               must_kind, must_place, wrong);
        failures++;
    }
    return must;
}

/* ---- rows by name */

static void must(const char *what, uint32_t number, uint32_t k, uint32_t p)
{
    if (compare(what, 0) != number || kind != k || place != p) {
        printf("FAILED: %s: %u kind %u place %u, must be %u kind %u place %u\n", what, number, kind, place, number, k, p);
        failures++;
    }
}

static void set_square(int32_t size)
{
    static const uint32_t t[] = {0, 1, 2, 0, 2, 3}, p[] = {E, E, 3, 2, E, E};
    const int32_t g[] = {-size, -size, -size, size, size, size, size, -size};
    coordinate_count = LENGTH(g), entry_count = halfedge_count = LENGTH(t), hull_count = 4, room = 4;
    for (size_t i = 0; i < LENGTH(g); i++)
        grid[i] = g[i];
    for (uint32_t i = 0; i < LENGTH(t); i++)
        triangles[i] = t[i], halfedges[i] = p[i];
    for (uint32_t i = 0; i < 4; i++)
        hull[i] = i;
}

static void set_site(uint32_t s, int32_t at_x, int32_t at_y) { grid[2 * s] = at_x, grid[2 * s + 1] = at_y; }

static void rows(void)
{
    set_square(1);
    must("square, all four on one circle", 0, VORONOI_GRID_YES, E);
    set_site(2, 2, 2);
    must("site 2 at (2,2)", 0, VORONOI_GRID_HALFEDGE, 2);
    set_square(1);
    for (size_t i = 0; i < coordinate_count; i += 2)
        grid[i] = -grid[i];
    must("all sites mirrored", 0, VORONOI_GRID_TRIANGLE, 0);
    set_site(2, 0, 0);
    must("mirrored, and a far site inside", 0, VORONOI_GRID_TRIANGLE, 0);
    set_square(1);
    set_site(1, 0, 0);
    must("three sites on a line", 0, VORONOI_GRID_TRIANGLE, 0);
    set_square(1);
    set_site(3, 0, 0);
    must("three sites on a line in triangle 1", 0, VORONOI_GRID_TRIANGLE, 1);
    set_square(1);
    set_site(1, -1, -1);
    must("two sites on one place", 0, VORONOI_GRID_TRIANGLE, 0);
    set_square(8192);
    must("all corners at the limit", 0, VORONOI_GRID_YES, E);
    for (size_t i = 0; i < coordinate_count; i++) {
        static const int32_t far[] = {8193, -8193, INT32_MAX, INT32_MIN};
        for (size_t k = 0; k < LENGTH(far); k++) {
            set_square(8192);
            grid[i] = far[k];
            must("a coordinate beyond the profile", VORONOI_REFUSED_GRID, E, E);
            triangles[0] = 9;
            must("and a broken triangle", VORONOI_REFUSED_GRID, E, E);
        }
    }
}

/* ---- refusals, those that come later broken too */

static void refusals(void)
{
    for (int k = 0; k < 7; k++) {
        set_square(1);
        triangles[0] = 9, grid[1] = 8193, room = 3;
        if (k == 0)
            coordinate_count--;
        else if (k == 1)
            coordinate_count = 4;
        else if (k == 2)
            entry_count--;
        else if (k == 3)
            halfedge_count--;
        else if (k == 4)
            hull_count = 2;
        else if (k == 5)
            hull_count = 5;
        else
            entry_count = halfedge_count = 0;
        must("a count", VORONOI_REFUSED_COUNT, E, E);
    }
    set_square(1);
    triangles[0] = 9, grid[1] = 8193, room = 3;
    must("a work slice that is one too short", VORONOI_REFUSED_ROOM, E, E);
    set_square(1);
    triangles[0] = 9;
    must("a triangle", VORONOI_REFUSED_TRIANGLE, E, E);
    set_square(1);
    halfedges[3] = E, hull_count = 3, set_site(2, 2, 2);
    must("a pair", VORONOI_REFUSED_PAIRING, E, E);
    set_square(1);
    hull_count = 3, set_site(2, 2, 2);
    must("the hull", VORONOI_REFUSED_HULL, E, E);
    set_square(1);
    room = 9;
    must("a work slice that is longer", 0, VORONOI_GRID_YES, E);
    triangles[0] = 9;
    must("the same, refused", VORONOI_REFUSED_TRIANGLE, E, E);
}

/* ---- the sites as floats */

static void must_floats(const char *what, uint32_t number, size_t length)
{
    for (size_t i = 0; i < length + SPARE; i++)
        floats[i] = 77;
    uint32_t got = voronoi_grid_sites(grid, coordinate_count, floats, length);
    int wrong = got != number;
    for (size_t i = 0; i < length + SPARE; i++) {
        union {
            double d;
            uint64_t b;
        } is = {floats[i]}, owed = {number || i >= length ? 77 : i < coordinate_count ? (double)grid[i] : 0};
        wrong |= is.b != owed.b || (!number && i < coordinate_count && (int32_t)floats[i] != grid[i]);
    }
    if (wrong) {
        printf("FAILED: %s: %u, must be %u, or a float differs\n", what, got, number);
        failures++;
    }
}

static void sites(void)
{
    set_square(8192);
    must_floats("the square's sites", 0, 8);
    must_floats("a longer slice", 0, 11);
    must_floats("a slice that is one too short", VORONOI_REFUSED_ROOM, 7);
    grid[5] = INT32_MIN;
    must_floats("a coordinate beyond", VORONOI_REFUSED_GRID, 8);
    must_floats("and too short", VORONOI_REFUSED_ROOM, 7);
    coordinate_count = 7;
    must_floats("an odd number of coordinates", VORONOI_REFUSED_COUNT, 0);
    coordinate_count = 4;
    must_floats("two sites", VORONOI_REFUSED_COUNT, 4);
    coordinate_count = 2 * 65537;
    must_floats("too many sites", VORONOI_REFUSED_COUNT, 0);
    for (int32_t v = -8192; v <= 8192; v += 6) { /* every whole number of the profile */
        coordinate_count = 6;
        for (int32_t i = 0; i < 6; i++)
            grid[i] = v + i > 8192 ? 8192 : v + i;
        must_floats("a whole number", 0, 6);
    }
    set_square(1);
    must_floats("the square's sites", 0, 8);
    if (voronoi_check(floats, 8, triangles, 6, halfedges, 6, hull, 4, work, 4)) {
        printf("FAILED: the floats are refused\n");
        failures++;
    }
}

/* ---- random meshes */

/* a by b sites in rows, `apart` from one another, two triangles for each square; the diagonal as chance has it */
static void set_rows(uint32_t a, uint32_t b, int32_t apart, int chance)
{
    static uint32_t last[SITES]; /* of the row above, the half-edge along its lower side */
    coordinate_count = 2 * (size_t)(a * b), entry_count = 0, room = a * b;
    for (uint32_t s = 0; s < a * b; s++)
        set_site(s, (int32_t)(s % a) * apart, (int32_t)(s / a) * apart);
    for (uint32_t r = 0; r + 1 < b; r++) {
        uint32_t before = E;
        for (uint32_t c = 0; c + 1 < a; c++) {
            uint32_t p = r * a + c, q = p + 1, o = p + a, n = o + 1, e = (uint32_t)entry_count, above = r ? last[c] : E;
            int other = chance && random_below(2);
            /* p o n, p n q with the sides p-o, o-n, n-p, p-n, n-q, q-p; or p o q, q o n with p-o, o-q, q-p, q-o, o-n, n-q */
            const uint32_t t[] = {p, o, other ? q : n, other ? q : p, other ? o : n, other ? n : q};
            const uint32_t side[] = {before, other ? e + 3 : E, other ? above : e + 3, other ? e + 1 : e + 2, E, other ? E : above};
            for (uint32_t k = 0; k < 6; k++) {
                triangles[entry_count] = t[k], halfedges[entry_count++] = side[k];
                if (side[k] != E && side[k] < e)
                    halfedges[side[k]] = e + k;
            }
            before = other ? e + 5 : e + 4, last[c] = other ? e + 4 : e + 1;
        }
    }
    halfedge_count = entry_count, hull_count = rows_hull(a, b, hull);
}

static void damage(void)
{
    uint32_t e = random_below((uint32_t)entry_count), s = random_below(count());
    switch (random_below(12)) {
    case 0: triangles[e] = random_below(count() + 2); break;
    case 1: halfedges[e] = random_below((uint32_t)entry_count + 2); break;
    case 2: hull[random_below((uint32_t)hull_count)] = random_below(count() + 1); break;
    case 3: room -= random_below(2); break;
    case 4: room += random_below(3); break;
    case 5: grid[random_below((uint32_t)coordinate_count)] = random_below(2) ? 8193 : INT32_MIN; break;
    case 6: coordinate_count -= random_below(2); break;
    case 7: set_site(s, (int32_t)random_below(16385) - 8192, (int32_t)random_below(16385) - 8192); break;
    case 8: grid[2 * s] = -grid[2 * s]; break;
    case 9: /* a triangle back to back with one that is there, on a site of its own: a fan more */
        for (uint32_t k = 0; k < 6; k++)
            triangles[entry_count + k] = k % 3 == 0 ? s : count() + (k == 1 || k == 5 ? 0 : 1), halfedges[entry_count + k] = (uint32_t)entry_count + 5 - k;
        set_site(count(), 8000, 0), set_site(count() + 1, 8000, 1);
        coordinate_count += 4, entry_count += 6, halfedge_count += 6, room += 2;
        break;
    default: grid[2 * s] += (int32_t)random_below(3) - 1, grid[2 * s + 1] += (int32_t)random_below(3) - 1; break;
    }
}

static void random_meshes(uint64_t cases)
{
    static const uint32_t answers[] = {0, 1, 2, 22, 7, 8, 9, 10};
    uint64_t seen[23] = {0}, kinds[3] = {0};
    for (uint64_t i = 0; i < cases && failures < 20; i++) {
        set_rows(2 + random_below(3), 2 + random_below(3), 1 + (int32_t)random_below(9), 1);
        for (uint32_t k = random_below(4); k > 0; k--)
            damage();
        uint32_t number = compare("random mesh", i);
        seen[number]++;
        if (!number)
            kinds[kind]++;
    }
    printf("random meshes: %llu; yes %llu, a triangle %llu, a half-edge %llu; by number:", (unsigned long long)cases, (unsigned long long)kinds[0],
           (unsigned long long)kinds[1], (unsigned long long)kinds[2]);
    for (size_t k = 0; k < LENGTH(answers); k++) {
        printf(" %u: %llu", answers[k], (unsigned long long)seen[answers[k]]);
        if (seen[answers[k]] == 0) {
            printf(" (FAILED: never came up)");
            failures++;
        }
    }
    printf("\n");
    if (!kinds[0] || !kinds[1] || !kinds[2]) {
        printf("FAILED: a kind never came up\n");
        failures++;
    }
}

/* ---- 65,536 sites */

static void largest(void)
{
    set_rows(256, 256, 32, 0);
    must("65,536 sites", 0, VORONOI_GRID_YES, E);
    must_floats("65,536 sites", 0, coordinate_count);
    long start = clock();
    for (int k = 0; k < 5; k++)
        failures += run() != 0;
    long grid_time = (clock() - start) / 5;
    start = clock();
    for (int k = 0; k < 5; k++)
        failures += voronoi_check(floats, coordinate_count, triangles, entry_count, halfedges, halfedge_count, hull, hull_count, work, room) != 0;
    long check_time = (clock() - start) / 5;
    printf("65,536 sites, %lu triangles: %ld.%ld ms, the check alone %ld.%ld ms\n", (unsigned long)(entry_count / 3), grid_time / 1000, grid_time / 100 % 10,
           check_time / 1000, check_time / 100 % 10);
    set_site(65535, 255 * 32 + 1, 255 * 32 + 1);
    must("65,536 sites, the last one moved out", 0, VORONOI_GRID_HALFEDGE, (uint32_t)entry_count - 4);
    set_site(65535, 255 * 32 - 1, 255 * 32 - 1);
    must("65,536 sites, the last one moved in", 0, VORONOI_GRID_YES, E);
}

int main(int words, char **word)
{
    uint64_t cases = 20000, seed = 1;
    if (!count_and_seed(words, word, &cases, &seed)) {
        printf("usage: grid [COUNT [SEED]]\n");
        return 2;
    }
    state = seed * UINT64_C(0x9e3779b97f4a7c15) + 1;
    rows();
    refusals();
    sites();
    random_meshes(cases);
    largest();
    printf(failures ? "grid: %d failed\n" : "grid: all as it must be\n", failures);
    return failures != 0;
}
