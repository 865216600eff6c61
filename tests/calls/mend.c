/* Mending a mesh through the C interface: rows by name, every refusal with those after it broken too, a mending of its own beside it on damaged meshes,
 * and the time of the largest meshes beside the check's.
 *
 *   mend COUNT [SEED]    compares COUNT damaged meshes; exit status 1 where something differs, or a number never came up
 *
 * What must come out is written from docs/use/RULES.md ("Mending") with no regard to cost; rule 10 and the table are asked of voronoi_check on what was mended.
 * Every slice is compared to its last entry and beyond. The C library's headers are not used (tests/archive.sh says why). */
#include "../largest.h"
#include "../number.h"

static double coordinates[2 * SITES];
static uint32_t triangles[ENTRIES], halfedges[ENTRIES], hull[SITES];
static size_t coordinate_count, entry_count, halfedge_count, hull_count;
/* work, pairs, mended, changes: lent, and as they must be */
enum { WORK, PAIRS, MENDED, CHANGES, SLICES };
static uint32_t lent[SLICES][3 * (ENTRIES + SITES) + SPARE], right[SLICES][3 * (ENTRIES + SITES) + SPARE];
static size_t room[SLICES];
static uint32_t numbers[3], right_numbers[3]; /* the hull's length, changes of pairs, changes of the hull */
static const char *const names[] = {"work", "pairs", "mended", "changes"};
static int failures;

static uint32_t start(uint32_t e) { return triangles[e]; }
static uint32_t end(uint32_t e) { return triangles[next(e)]; }
static uint32_t count(void) { return (uint32_t)(coordinate_count / 2); }
static int sound_coordinate(double x) { return x >= -0x1p100 && x <= 0x1p100; }

static void set_rooms(void)
{
    room[WORK] = VORONOI_WORK_ROOM(count()), room[MENDED] = VORONOI_MENDED_ROOM(count());
    room[PAIRS] = VORONOI_PAIR_ROOM(entry_count / 3), room[CHANGES] = VORONOI_CHANGE_NUMBERS(entry_count / 3, count());
}

/* ---- what must come out */

static void all_slices(uint32_t value)
{
    for (int s = 0; s < SLICES; s++)
        for (size_t i = 0; i < room[s]; i++)
            right[s][i] = value;
}

/* the loop of the unpaired half-edges from site s, into right[MENDED]; its length, 0 where it is no single loop of at least three distinct sites */
static uint32_t loop_from(uint32_t s)
{
    uint32_t open = 0, n = 0, at = s;
    for (uint32_t e = 0; e < entry_count; e++)
        open += right[PAIRS][e] == E;
    do {
        uint32_t starts = 0, to = 0;
        for (uint32_t e = 0; e < entry_count; e++)
            if (right[PAIRS][e] == E && start(e) == at)
                starts++, to = end(e);
        if (starts != 1 || n == open)
            return 0;
        right[MENDED][n++] = at;
        at = to;
    } while (at != s);
    return n == open && n >= 3 ? n : 0;
}

static uint32_t changes_of(const uint32_t *old, size_t olds, const uint32_t *new, size_t news, uint32_t from)
{
    uint32_t found = 0;
    for (uint32_t i = 0; i < olds || i < news; i++)
        if (i >= olds || i >= news || old[i] != new[i]) {
            uint32_t *change = right[CHANGES] + 3 * (size_t)(from + found++);
            change[0] = i, change[1] = i < olds ? old[i] : E, change[2] = i < news ? new[i] : E;
        }
    return found;
}

static int starts_at(uint32_t s)
{
    for (uint32_t e = 0; e < entry_count; e++)
        if (right[PAIRS][e] == E && start(e) == s)
            return 1;
    return 0;
}

static uint32_t expected(void)
{
    for (int s = 0; s < SLICES; s++)
        for (size_t i = 0; i < room[s] + SPARE; i++)
            right[s][i] = HELD;
    right_numbers[0] = right_numbers[1] = right_numbers[2] = 0;
    if (coordinate_count % 2 || count() < 3 || count() > 65536 || entry_count % 3 || entry_count / 3 < 1 || entry_count / 3 > 131072 ||
        halfedge_count != entry_count || hull_count < 3 || hull_count > count())
        return VORONOI_REFUSED_COUNT;
    if (room[WORK] < count() || room[PAIRS] < entry_count || room[MENDED] < count() || room[CHANGES] / 3 < entry_count + count())
        return VORONOI_REFUSED_ROOM;
    for (size_t i = 0; i < coordinate_count; i++)
        if (!sound_coordinate(coordinates[i]))
            return VORONOI_REFUSED_COORDINATE;
    all_slices(E);
    for (uint32_t t = 0; t < entry_count; t += 3) {
        uint32_t a = triangles[t], b = triangles[t + 1], c = triangles[t + 2];
        if (a >= count() || b >= count() || c >= count() || a == b || b == c || c == a)
            return VORONOI_REFUSED_TRIANGLE;
    }
    for (uint32_t e = 0; e < entry_count; e++)
        for (uint32_t d = 0; d < e; d++)
            if (start(d) == start(e) && end(d) == end(e))
                return VORONOI_REFUSED_TWICE;
    for (uint32_t e = 0; e < entry_count; e++)
        for (uint32_t d = 0; d < entry_count; d++)
            if (start(d) == end(e) && end(d) == start(e))
                right[PAIRS][e] = d;
    uint32_t begin = hull[0], number = VORONOI_REFUSED_HULL, length = 0;
    if (!starts_at(begin))
        for (begin = 0; begin < count() && !starts_at(begin); begin++)
            ;
    if (begin < count())
        length = loop_from(begin);
    if (length)
        number = voronoi_check(coordinates, coordinate_count, triangles, entry_count, right[PAIRS], entry_count, right[MENDED], length, right[WORK], room[WORK]);
    if (number) {
        all_slices(E);
        return number;
    }
    right_numbers[0] = length;
    right_numbers[1] = changes_of(halfedges, entry_count, right[PAIRS], entry_count, 0);
    right_numbers[2] = changes_of(hull, hull_count, right[MENDED], length, right_numbers[1]);
    return 0;
}

static uint32_t run(void)
{
    for (int s = 0; s < SLICES; s++)
        for (size_t i = 0; i < room[s] + SPARE; i++)
            lent[s][i] = HELD;
    numbers[0] = numbers[1] = numbers[2] = HELD;
    return voronoi_mend(coordinates, coordinate_count, triangles, entry_count, halfedges, halfedge_count, hull, hull_count, lent[WORK], room[WORK],
                        lent[PAIRS], room[PAIRS], lent[MENDED], room[MENDED], lent[CHANGES], room[CHANGES], &numbers[0], &numbers[1], &numbers[2]);
}

static int compare(const char *what, uint64_t which)
{
    uint32_t must = expected(), got = run();
    const char *wrong = got != must ? "the number" : 0;
    for (int k = 0; k < 3; k++)
        if (numbers[k] != right_numbers[k])
            wrong = "one of the three numbers";
    for (int s = 0; s < SLICES; s++)
        for (size_t i = 0; i < room[s] + SPARE; i++)
            if (lent[s][i] != right[s][i])
                wrong = names[s];
    if (wrong) {
        printf("FAILED: %s %llu: %u, must be %u; %s differs\n", what, (unsigned long long)which, got, must, wrong);
        failures++;
    }
    return (int)must;
}

/* ---- rows by name */

static void set_sites(uint32_t n)
{
    coordinate_count = 2 * (size_t)n;
    for (uint32_t i = 0; i < n; i++)
        coordinates[2 * i] = i % 256, coordinates[2 * i + 1] = i / 256;
}

static void set_mesh(uint32_t sites, const uint32_t *t, const uint32_t *p, size_t n, const uint32_t *h, size_t m)
{
    set_sites(sites);
    entry_count = halfedge_count = n, hull_count = m;
    for (size_t i = 0; i < n; i++)
        triangles[i] = t[i], halfedges[i] = p[i];
    for (size_t i = 0; i < m; i++)
        hull[i] = h[i];
    set_rooms();
}
#define MESH(sites, t, p, h) set_mesh(sites, t, p, LENGTH(t), h, LENGTH(h))

static void must(const char *what, uint32_t number, uint32_t pairs, uint32_t places, const uint32_t *list)
{
    int wrong = compare(what, 0) != (int)number || run() != number || numbers[1] != pairs || numbers[2] != places;
    for (uint32_t i = 0; !wrong && i < 3 * (pairs + places); i++)
        wrong = lent[CHANGES][i] != list[i];
    if (wrong) {
        printf("FAILED: %s: %u, pairs %u hull %u, or the list of changes\n", what, number, numbers[1], numbers[2]);
        failures++;
    }
}

static const uint32_t square[] = {0, 1, 2, 0, 2, 3}, square_pairs[] = {E, E, 3, 2, E, E}, square_hull[] = {0, 1, 2, 3};
static const uint32_t none[] = {E, E, E, E, E, E, E, E, E, E, E, E, E, E, E};

static void set_square(void) { MESH(4, square, square_pairs, square_hull); }

static void rows(void)
{
    set_square();
    must("square, unchanged", 0, 0, 0, 0);
    MESH(4, square, none, square_hull);
    must("square, all pairs E", 0, 2, 0, (uint32_t[]){2, E, 3, 3, E, 2});
    MESH(4, square, square_pairs, ((uint32_t[]){1, 2, 0}));
    must("square, hull 1 2 0", 0, 0, 2, (uint32_t[]){2, 0, 3, 3, E, 0});
    MESH(4, square, square_pairs, ((uint32_t[]){9, 1, 2, 3}));
    must("square, hull 9 1 2 3", 0, 0, 1, (uint32_t[]){0, 9, 0});
    MESH(4, square, none, ((uint32_t[]){1, 2, 0}));
    must("square, all pairs E, hull 1 2 0", 0, 2, 2, (uint32_t[]){2, E, 3, 3, E, 2, 2, 0, 3, 3, E, 0});
    static const uint32_t one[] = {0, 1, 2};
    MESH(4, one, none, ((uint32_t[]){0, 1, 2, E}));
    must("a hull place that the old side alone has, none", 0, 0, 1, (uint32_t[]){3, E, E});
    MESH(4, one, none, ((uint32_t[]){3, 1, 2}));
    must("an old first hull site in no triangle", 0, 0, 1, (uint32_t[]){0, 3, 0});
    MESH(5, ((uint32_t[]){0, 1, 2, 0, 1, 3}), none, ((uint32_t[]){0, 1, 2}));
    must("triangles 0 1 2, 0 1 3", VORONOI_REFUSED_TWICE, 0, 0, 0);
    MESH(5, ((uint32_t[]){0, 1, 2, 0, 2, 1}), none, ((uint32_t[]){0, 1, 2}));
    must("a closed surface", VORONOI_REFUSED_HULL, 0, 0, 0);
    MESH(5, ((uint32_t[]){0, 1, 2, 0, 3, 4}), none, ((uint32_t[]){0, 1, 2}));
    must("a bow-tie", VORONOI_REFUSED_HULL, 0, 0, 0);
    MESH(6, ((uint32_t[]){0, 1, 2, 3, 4, 5}), none, ((uint32_t[]){0, 1, 2}));
    must("two discs", VORONOI_REFUSED_HULL, 0, 0, 0);
    MESH(6, ((uint32_t[]){0, 1, 2, 0, 3, 4, 0, 4, 5, 0, 5, 3, 3, 5, 4}), none, ((uint32_t[]){0, 1, 2}));
    must("a closed part that shares one site", VORONOI_REFUSED_FAN, 0, 0, 0);
    MESH(4, ((uint32_t[]){0, 1, 0}), none, ((uint32_t[]){0, 1, 2}));
    must("a triangle that names a site twice", VORONOI_REFUSED_TRIANGLE, 0, 0, 0);
}

/* ---- refusals, those that come later broken too */

static void refusals(void)
{
    for (int k = 0; k < 7; k++) {
        set_square();
        triangles[0] = 9, coordinates[1] = 1.0 / 0.0;
        for (int s = 0; s < SLICES; s++)
            room[s]--;
        if (k == 0)
            coordinate_count--;
        else if (k == 1)
            coordinate_count = 4;
        else if (k == 2)
            entry_count--;
        else if (k == 3)
            halfedge_count--;
        else if (k == 4)
            hull_count = 2;
        else if (k == 5)
            hull_count = 5;
        else
            entry_count = halfedge_count = 0;
        must("a count", VORONOI_REFUSED_COUNT, 0, 0, 0);
    }
    for (int s = 0; s < SLICES; s++) {
        set_square();
        triangles[0] = 9, coordinates[1] = 1.0 / 0.0;
        room[s]--;
        must("a slice that is one too short", VORONOI_REFUSED_ROOM, 0, 0, 0);
    }
    set_square();
    room[CHANGES] += 2;
    must("two numbers more for the changes", 0, 0, 0, 0);
    room[CHANGES] -= 3;
    must("one number less", VORONOI_REFUSED_ROOM, 0, 0, 0);
    set_square();
    triangles[0] = 9, coordinates[1] = 1.0 / 0.0;
    must("a coordinate", VORONOI_REFUSED_COORDINATE, 0, 0, 0);
    set_square();
    triangles[0] = 9;
    must("a triangle", VORONOI_REFUSED_TRIANGLE, 0, 0, 0);
    for (int s = 0; s < SLICES; s++) {
        set_square();
        room[s] += 7;
        must("a slice that is longer", 0, 0, 0, 0);
        triangles[4] = 1, triangles[5] = 3;
        must("the same, refused", VORONOI_REFUSED_TWICE, 0, 0, 0);
    }
}

/* ---- damaged meshes */

/* a by b sites in rows, two triangles for each square, the diagonal as chance has it; the hull round it */
static void set_grid(uint32_t a, uint32_t b, int chance)
{
    set_sites(a * b);
    entry_count = rows_triangles(a, b, chance, triangles), hull_count = rows_hull(a, b, hull);
    for (size_t e = 0; e < entry_count; e++)
        halfedges[e] = E;
    halfedge_count = entry_count;
    set_rooms();
}

static void add_triangle(uint32_t a, uint32_t b, uint32_t c)
{
    triangles[entry_count] = a, triangles[entry_count + 1] = b, triangles[entry_count + 2] = c;
    for (int k = 0; k < 3; k++)
        halfedges[entry_count++] = E;
    halfedge_count = entry_count;
    set_rooms();
}

static void damage(void)
{
    uint32_t n = count(), any = random_below(n + 2), e = random_below((uint32_t)entry_count);
    switch (random_below(13)) {
    case 0: triangles[e] = any; break;
    case 1: halfedges[e] = random_below(3) ? random_below((uint32_t)entry_count + 2) : HELD; break;
    case 2: hull[random_below((uint32_t)hull_count)] = random_below(4) ? any : E; break;
    case 3: hull_count -= hull_count > 2 ? random_below(3) : 0; break;
    case 4: hull[hull_count++] = any; break;
    case 5: /* a triangle taken out */
        if (entry_count < 6)
            break;
        for (uint32_t k = 0; k < 3; k++)
            triangles[e - e % 3 + k] = triangles[entry_count - 3 + k];
        entry_count = halfedge_count = entry_count - 3;
        set_rooms();
        break;
    case 6: /* a triangle more */
        add_triangle(random_below(n), random_below(n), random_below(n));
        break;
    case 7: /* two triangles back to back on new sites, or on one old one */
        set_sites(n + 3);
        any = random_below(2) ? random_below(n) : n;
        add_triangle(any, n + 1, n + 2);
        add_triangle(any, n + 2, n + 1);
        break;
    case 8: room[random_below(SLICES)] -= 1; break;
    case 9: room[random_below(SLICES)] += random_below(4); break;
    case 10: coordinates[random_below((uint32_t)coordinate_count)] = random_below(2) ? -0x1.8p100 : 1.0 / 0.0; break;
    case 11: coordinate_count += random_below(2); break;
    default: set_sites(n + 1), set_rooms(); break;
    }
}

static void damaged(uint64_t cases)
{
    static const int answers[] = {0, 1, 2, 6, 7, 9, 10, 19};
    uint64_t seen[20] = {0};
    for (uint64_t i = 0; i < cases && failures < 20; i++) {
        set_grid(2 + random_below(3), 2 + random_below(3), 1);
        for (uint32_t k = random_below(4); k > 0; k--)
            damage();
        seen[compare("damaged mesh", i)]++;
    }
    printf("damaged meshes: %llu; by number:", (unsigned long long)cases);
    for (size_t k = 0; k < LENGTH(answers); k++) {
        printf(" %d: %llu", answers[k], (unsigned long long)seen[answers[k]]);
        if (seen[answers[k]] == 0) {
            printf(" (FAILED: never came up)");
            failures++;
        }
    }
    printf("\n");
}

/* ---- the largest meshes, and one site amid all others */

static void set_hub(uint32_t n)
{
    set_sites(n);
    entry_count = hull_count = 0;
    for (uint32_t i = 1; i < n; i++) {
        triangles[entry_count++] = 0, triangles[entry_count++] = i, triangles[entry_count++] = i + 1 < n ? i + 1 : 1;
        hull[hull_count++] = i;
    }
    for (size_t e = 0; e < entry_count; e++)
        halfedges[e] = E;
    halfedge_count = entry_count;
    set_rooms();
}

static void timed(const char *what)
{
    long best[2] = {1 << 30, 1 << 30};
    for (int k = 0; k < 5; k++) {
        long before = clock();
        uint32_t got = run();
        long between = clock();
        uint32_t checked = voronoi_check(coordinates, coordinate_count, triangles, entry_count, lent[PAIRS], entry_count, lent[MENDED], numbers[0],
                                         lent[WORK], room[WORK]);
        long after = clock();
        if (got || checked || numbers[2]) {
            printf("FAILED: %s: %u, and the check of it %u, hull %u\n", what, got, checked, numbers[2]);
            failures++;
            return;
        }
        best[0] = between - before < best[0] ? between - before : best[0];
        best[1] = after - between < best[1] ? after - between : best[1];
    }
    printf("65,536 sites, %lu triangles, %s: mended in %ld.%ld ms, checked in %ld.%ld ms\n", (unsigned long)(entry_count / 3), what, best[0] / 1000,
           best[0] / 100 % 10, best[1] / 1000, best[1] / 100 % 10);
    if (best[0] >= 300000) {
#ifdef EMULATED
        printf("note: 300 ms or more, under an emulator\n");
#else
        printf("FAILED: 300 ms or more\n");
        failures++;
#endif
    }
}

int main(int words, char **word)
{
    uint64_t cases = 20000, seed = 1;
    if (!count_and_seed(words, word, &cases, &seed)) {
        printf("usage: mend [COUNT [SEED]]\n");
        return 2;
    }
    state = seed * UINT64_C(0x9E3779B97F4A7C15) + 1;
    rows();
    refusals();
    damaged(cases);
    set_grid(256, 256, 0);
    timed("uniform");
    set_hub(65536);
    timed("one hub");
    printf(failures ? "mend: %d failed\n" : "mend: all as it must be\n", failures);
    return failures != 0;
}
