/* Flipping an edge through the C interface: the request's rows, every refusal with those after it broken too, every half-edge of meshes beside a flip of its
 * own, and the time of the largest mesh beside the check's.
 *
 *   flip COUNT [SEED]    every half-edge of COUNT meshes; exit status 1 where something differs, or a case never came up
 *
 * What must come out is written from docs/use/RULES.md ("Flipping") with no regard to cost: the flipped lists, and the table that voronoi_check leaves of them.
 * Every list is compared to its last entry and beyond. The C library's headers are not used (tests/archive.sh says why). */
#include "../largest.h"
#include "../number.h"

/* triangles, half-edges, table, work: the mesh as it is, as it is lent, and as it must be */
enum { TRIANGLES, HALFEDGES, TABLE, WORK, LISTS };
static uint32_t given[LISTS][ENTRIES + SPARE], lent[LISTS][ENTRIES + SPARE], right[LISTS][ENTRIES + SPARE], hull[SITES];
static size_t length[LISTS], hull_count;
static uint32_t site_count;
static double coordinates[2 * SITES];
static const char *const names[] = {"triangles", "half-edges", "table", "work"};
static int failures;
enum { GAIN_KEPT, GAIN_TAKEN, GAIN_OPEN, LOSS_OTHER, LOSS_OPEN, LOSS_ROUND, NO_OUTER, ONE_OUTER, TWO_OUTER, SEEN };
static uint64_t seen[SEEN], answered[24];
static const char *const kinds[] = {"gained, entry kept", "gained, entry lower", "gained, entry unpaired", "lost, another entry", "lost an unpaired entry",
                                    "lost a paired entry", "no outer pair", "one outer pair", "two outer pairs"};

static uint32_t check_of(uint32_t *const *lists, uint32_t *work, size_t room)
{
    return voronoi_check(coordinates, 2 * (size_t)site_count, lists[TRIANGLES], length[TRIANGLES], lists[HALFEDGES], length[HALFEDGES], hull, hull_count, work, room);
}

static uint32_t table_of(uint32_t *work)
{
    return check_of((uint32_t *const[]){given[TRIANGLES], given[HALFEDGES]}, work, site_count);
}

/* ---- what must come out */

static int flippable(uint32_t a)
{
    const uint32_t *t = given[TRIANGLES];
    if (a >= length[HALFEDGES] || given[HALFEDGES][a] == E)
        return 0;
    uint32_t x = t[next(next(a))], y = t[next(next(given[HALFEDGES][a]))];
    if (x == y)
        return 0;
    for (uint32_t e = 0; e < length[TRIANGLES]; e++)
        if ((t[e] == x && t[next(e)] == y) || (t[e] == y && t[next(e)] == x))
            return 0;
    return 1;
}

static uint32_t expected(uint32_t a)
{
    static uint32_t fresh[SITES];
    for (int l = 0; l < LISTS; l++)
        for (size_t i = 0; i < length[l] + SPARE; i++)
            right[l][i] = given[l][i];
    if (site_count < 3 || site_count > 65536 || length[TRIANGLES] % 3 || length[TRIANGLES] / 3 < 1 || length[TRIANGLES] / 3 > 131072 ||
        length[HALFEDGES] != length[TRIANGLES] || hull_count < 3 || hull_count > site_count)
        return VORONOI_REFUSED_COUNT;
    if (length[TABLE] < site_count || length[WORK] < site_count)
        return VORONOI_REFUSED_ROOM;
    for (size_t i = 0; i < length[WORK]; i++)
        right[WORK][i] = E;
    uint32_t number = table_of(fresh);
    if (number)
        return number;
    int same = flippable(a);
    for (size_t s = 0; same && s < site_count; s++)
        same = given[TABLE][s] == fresh[s];
    if (!same)
        return VORONOI_REFUSED_FLIP;
    uint32_t b = given[HALFEDGES][a], r = next(next(a)), l = next(next(b)), p = given[HALFEDGES][r], q = given[HALFEDGES][l];
    right[TRIANGLES][a] = given[TRIANGLES][l], right[TRIANGLES][b] = given[TRIANGLES][r];
    right[HALFEDGES][a] = q, right[HALFEDGES][b] = p, right[HALFEDGES][r] = l, right[HALFEDGES][l] = r;
    if (q != E)
        right[HALFEDGES][q] = a;
    if (p != E)
        right[HALFEDGES][p] = b;
    seen[p != E && q != E ? TWO_OUTER : p != E || q != E ? ONE_OUTER : NO_OUTER]++;
    for (int k = 0; k < 2; k++) {
        uint32_t lost = k ? l : r, from = given[TRIANGLES][next(lost)], to = given[TRIANGLES][k ? r : l], gained = fresh[to];
        seen[fresh[from] != lost ? LOSS_OTHER : given[HALFEDGES][lost] == E ? LOSS_OPEN : LOSS_ROUND]++;
        seen[given[HALFEDGES][gained] == E ? GAIN_OPEN : gained < lost ? GAIN_KEPT : GAIN_TAKEN]++;
    }
    number = check_of((uint32_t *const[]){right[TRIANGLES], right[HALFEDGES]}, fresh, site_count);
    if (number) {
        printf("FAILED: the flipped mesh is refused by %u\n", number);
        failures++;
    }
    for (size_t s = 0; s < site_count; s++)
        right[TABLE][s] = right[WORK][s] = fresh[s];
    return 0;
}

static uint32_t run(uint32_t a)
{
    for (int l = 0; l < LISTS; l++)
        for (size_t i = 0; i < length[l] + SPARE; i++)
            lent[l][i] = given[l][i];
    return voronoi_flip(site_count, lent[TRIANGLES], length[TRIANGLES], lent[HALFEDGES], length[HALFEDGES], hull, hull_count, lent[TABLE], length[TABLE],
                        lent[WORK], length[WORK], a);
}

static uint32_t compare(const char *what, uint64_t which, uint32_t a)
{
    uint32_t must = expected(a), got = run(a);
    const char *wrong = got != must ? "the number" : 0;
    for (int l = 0; l < LISTS; l++)
        for (size_t i = 0; i < length[l] + SPARE; i++)
            if (lent[l][i] != right[l][i])
                wrong = names[l];
    if (wrong && failures++ < 20)
        printf("FAILED: %s %llu, half-edge %u: %u, must be %u; %s\n", what, (unsigned long long)which, a, got, must, wrong);
    answered[must]++;
    return must;
}

/* ---- rows by name */

static void set_mesh(uint32_t sites, const uint32_t *t, const uint32_t *p, size_t n, const uint32_t *h, size_t m)
{
    site_count = sites, length[TRIANGLES] = length[HALFEDGES] = n, length[TABLE] = length[WORK] = sites, hull_count = m;
    for (int l = 0; l < LISTS; l++)
        for (size_t i = 0; i < length[l] + SPARE; i++)
            given[l][i] = HELD;
    for (size_t i = 0; i < n; i++)
        given[TRIANGLES][i] = t[i], given[HALFEDGES][i] = p[i];
    for (size_t i = 0; i < m; i++)
        hull[i] = h[i];
    for (size_t i = 0; i < 2 * (size_t)sites; i++)
        coordinates[i] = 0.5;
    static uint32_t fresh[SITES];
    if (table_of(fresh) == 0)
        for (size_t s = 0; s < sites; s++)
            given[TABLE][s] = fresh[s];
}
#define MESH(sites, t, p, h) set_mesh(sites, t, p, LENGTH(t), h, LENGTH(h))

static void must(const char *what, uint32_t a, uint32_t number)
{
    uint32_t got = compare(what, 0, a);
    if (got != number) {
        printf("FAILED: %s, half-edge %u: the number is %u by this program's own reading, %u by the row\n", what, a, got, number);
        failures++;
    }
}

static void holds(const char *what, int list, const uint32_t *entries, size_t n)
{
    for (size_t i = 0; i < n; i++)
        if (lent[list][i] != entries[i]) {
            printf("FAILED: %s: entry %u of the %s is %u\n", what, (unsigned)i, names[list], lent[list][i]);
            failures++;
        }
}
#define HOLDS(what, list, ...) holds(what, list, (uint32_t[]){__VA_ARGS__}, LENGTH(((uint32_t[]){__VA_ARGS__})))

static const uint32_t square[] = {0, 1, 2, 0, 2, 3}, square_pairs[] = {E, E, 3, 2, E, E}, square_hull[] = {0, 1, 2, 3};

static void set_square(void) { MESH(4, square, square_pairs, square_hull); }

static void rows(void)
{
    for (uint32_t a = 2; a < 4; a++) {
        set_square();
        must("square", a, 0);
        HOLDS("square", TRIANGLES, 0, 1, 3, 1, 2, 3);
        HOLDS("square", HALFEDGES, E, 5, E, E, E, 1);
        HOLDS("square", TABLE, 2, 0, 3, 4, HELD);
        HOLDS("square", WORK, 2, 0, 3, 4, HELD);
    }
    set_square();
    for (uint32_t k = 0; k < 6; k++)
        must("square", (uint32_t[]){0, 1, 4, 5, 6, E}[k], VORONOI_REFUSED_FLIP);
    for (uint32_t s = 0; s < 4; s++) {
        set_square();
        given[TABLE][s] ^= 1;
        must("square, an entry of the table wrong", 2, VORONOI_REFUSED_FLIP);
    }
    /* a site inside one triangle: the opposite sites of every inner edge are joined */
    MESH(4, ((uint32_t[]){0, 1, 3, 1, 2, 3, 2, 0, 3}), ((uint32_t[]){E, 5, 7, E, 8, 1, E, 2, 4}), ((uint32_t[]){0, 1, 2}));
    for (uint32_t a = 0; a < 9; a++)
        must("a site inside one triangle", a, VORONOI_REFUSED_FLIP);
    /* a closed part of two triangles beside one triangle: the opposite sites are the same */
    MESH(6, ((uint32_t[]){0, 1, 2, 3, 4, 5, 3, 5, 4}), ((uint32_t[]){E, E, E, 8, 7, 6, 5, 4, 3}), ((uint32_t[]){0, 1, 2}));
    for (uint32_t a = 0; a < 9; a++)
        must("a closed part of two triangles", a, VORONOI_REFUSED_FLIP);
}

/* ---- refusals, those that come later broken too */

static void refusals(void)
{
    for (int k = 0; k < 7; k++) {
        set_square();
        given[TABLE][0] = 9, given[TRIANGLES][0] = 9;
        length[TABLE]--;
        if (k == 0)
            site_count = 2;
        else if (k == 1)
            site_count = 65537;
        else if (k == 2)
            length[TRIANGLES]--;
        else if (k == 3)
            length[HALFEDGES]--;
        else if (k == 4)
            hull_count = 2;
        else if (k == 5)
            hull_count = 5;
        else
            length[TRIANGLES] = length[HALFEDGES] = 0;
        must("a count", 9, VORONOI_REFUSED_COUNT);
    }
    for (int l = TABLE; l <= WORK; l++) {
        set_square();
        given[TRIANGLES][0] = 9;
        length[l]--;
        must("a list that is one too short", 9, VORONOI_REFUSED_ROOM);
    }
    set_square();
    given[TRIANGLES][0] = 9, given[TABLE][0] = 9;
    must("a triangle", 9, VORONOI_REFUSED_TRIANGLE);
    set_square();
    given[HALFEDGES][0] = 2, given[TABLE][0] = 9;
    must("a pair", 9, VORONOI_REFUSED_PAIRING);
    set_square();
    hull[0] = 1, given[TABLE][0] = 9;
    must("the hull", 9, VORONOI_REFUSED_HULL);
    MESH(5, ((uint32_t[]){0, 1, 2, 0, 3, 4, 0, 4, 3}), ((uint32_t[]){E, E, E, 8, 7, 6, 5, 4, 3}), ((uint32_t[]){0, 1, 2}));
    must("a fan", 9, VORONOI_REFUSED_FAN);
    for (int l = TABLE; l <= WORK; l++) {
        set_square();
        length[l] += SPARE;
        must("a list that is longer", 2, 0);
        must("the same, refused", 0, VORONOI_REFUSED_FLIP);
        length[l] -= SPARE;
    }
}

/* ---- every half-edge of random meshes */

/* a by b sites in rows, two triangles for each square, the diagonal as chance has it; the triangles and their first half-edges in any order */
static void set_grid(uint32_t a, uint32_t b, int chance)
{
    static uint32_t t[ENTRIES], p[ENTRIES], h[SITES], first[SITES], after[ENTRIES];
    uint32_t n = rows_triangles(a, b, chance, t), m = rows_hull(a, b, h);
    for (uint32_t k = n / 3; chance && k > 1; k--) {
        uint32_t j = random_below(k), turn = random_below(3), was[3];
        for (uint32_t i = 0; i < 3; i++)
            was[i] = t[3 * j + (i + turn) % 3], t[3 * j + (i + turn) % 3] = t[3 * (k - 1) + i];
        for (uint32_t i = 0; i < 3; i++)
            t[3 * (k - 1) + i] = was[i];
    }
    for (uint32_t s = 0; s < a * b; s++)
        first[s] = E;
    for (uint32_t e = 0; e < n; e++)
        p[e] = E, after[e] = first[t[e]], first[t[e]] = e;
    for (uint32_t e = 0; e < n; e++)
        for (uint32_t d = first[t[next(e)]]; d != E; d = after[d])
            if (t[next(d)] == t[e])
                p[e] = d;
    set_mesh(a * b, t, p, n, h, m);
}

/* what was flipped becomes the mesh, so that meshes of every shape come up */
static void go_on(void)
{
    for (int l = 0; l < WORK; l++)
        for (size_t i = 0; i < length[l]; i++)
            given[l][i] = lent[l][i];
}

static void meshes(uint64_t cases)
{
    uint64_t flips = 0;
    for (uint64_t i = 0; i < cases && failures < 20; i++) {
        set_grid(2 + random_below(4), 2 + random_below(3), 1);
        for (uint32_t k = random_below(12); k > 0; k--)
            if (compare("mesh", i, random_below((uint32_t)length[TRIANGLES])) == 0)
                go_on();
        for (uint32_t a = 0; a < length[TRIANGLES]; a++, flips++)
            compare("mesh", i, a);
    }
    printf("every half-edge of %llu meshes, %llu in all; 0: %llu, 23: %llu\n", (unsigned long long)cases, (unsigned long long)flips, (unsigned long long)answered[0],
           (unsigned long long)answered[23]);
    for (int k = 0; k < SEEN; k++) {
        printf("  %s: %llu%s\n", kinds[k], (unsigned long long)seen[k], seen[k] ? "" : " (FAILED: never came up)");
        failures += !seen[k];
    }
}

/* ---- the largest mesh, and one site amid all others */

static void set_hub(uint32_t n)
{
    static uint32_t t[ENTRIES], p[ENTRIES], h[SITES];
    uint32_t k = 0;
    for (uint32_t i = 1; i < n; i++, k += 3) {
        t[k] = 0, t[k + 1] = i, t[k + 2] = i + 1 < n ? i + 1 : 1;
        p[k] = i > 1 ? k - 1 : 3 * (n - 1) - 1, p[k + 1] = E, p[k + 2] = i + 1 < n ? k + 3 : 0;
        h[i - 1] = i;
    }
    set_mesh(n, t, p, k, h, n - 1);
}

static void timed(const char *what, uint32_t a)
{
    long best[2] = {1 << 30, 1 << 30};
    for (int k = 0; k < 5; k++) {
        uint32_t got = run(a); /* in place; then once more, so that the copying is not timed */
        long before = clock();
        uint32_t again = voronoi_flip(site_count, lent[TRIANGLES], length[TRIANGLES], lent[HALFEDGES], length[HALFEDGES], hull, hull_count, lent[TABLE],
                                      length[TABLE], lent[WORK], length[WORK], next(next(a)));
        long between = clock();
        uint32_t checked = check_of((uint32_t *const[]){lent[TRIANGLES], lent[HALFEDGES]}, lent[WORK], length[WORK]);
        long after = clock();
        if (got || again || checked) {
            printf("FAILED: %s: %u, again %u, and the check of it %u\n", what, got, again, checked);
            failures++;
            return;
        }
        best[0] = between - before < best[0] ? between - before : best[0];
        best[1] = after - between < best[1] ? after - between : best[1];
    }
    printf("65,536 sites, %lu triangles, %s: flipped in %ld.%ld ms, checked in %ld.%ld ms\n", (unsigned long)(length[TRIANGLES] / 3), what, best[0] / 1000,
           best[0] / 100 % 10, best[1] / 1000, best[1] / 100 % 10);
    if (best[0] >= 3 * best[1] + 5000) {
#ifdef EMULATED
        printf("note: three times the check or more, under an emulator\n");
#else
        printf("FAILED: three times the check or more\n");
        failures++;
#endif
    }
}

int main(int words, char **word)
{
    uint64_t cases = 3000, seed = 1;
    if (!count_and_seed(words, word, &cases, &seed)) {
        printf("usage: flip [COUNT [SEED]]\n");
        return 2;
    }
    state = seed * UINT64_C(0x9E3779B97F4A7C15) + 1;
    rows();
    refusals();
    meshes(cases);
    set_grid(256, 256, 0);
    timed("uniform", 2);
    set_hub(65536);
    timed("one hub", 2);
    printf(failures ? "flip: %d failed\n" : "flip: all as it must be\n", failures);
    return failures != 0;
}
