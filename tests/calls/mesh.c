/* The check of a mesh through the C interface: the checked inputs of docs/use/RULES.md by name, a check of its own beside it on damaged meshes,
 * sites with many half-edges, and the time of the largest mesh.
 *
 *   mesh COUNT [SEED]    compares COUNT damaged meshes; exit status 1 where a number or a work slice differs, or a number never came up
 *
 * Every number is held against `expected`, written from the sentences of docs/use/RULES.md with no regard to cost, and every work slice to its last entry.
 * The C library's headers are not used (tests/archive.sh says why). */
#include "../largest.h"
#include "../number.h"

static double coordinates[2 * SITES];
static uint32_t triangles[ENTRIES], halfedges[ENTRIES], hull[SITES], work[SITES + SPARE], table[SITES];
static size_t coordinate_count, entry_count, halfedge_count, hull_count, work_count;

/* ---- what the answer must be, and the leftmost table */

static uint32_t start(uint32_t e) { return triangles[e]; }
static uint32_t end(uint32_t e) { return triangles[next(e)]; }
static uint32_t count(void) { return (uint32_t)(coordinate_count / 2); }
static int sound_coordinate(double x) { return x >= -0x1p100 && x <= 0x1p100; }

static int counts_hold(void)
{
    return coordinate_count % 2 == 0 && count() >= 3 && count() <= 65536 && entry_count % 3 == 0 && entry_count / 3 >= 1 &&
           entry_count / 3 <= 131072 && halfedge_count == entry_count && hull_count >= 3 && hull_count <= count();
}

static int triangles_hold(void)
{
    for (uint32_t t = 0; t < entry_count; t += 3) {
        uint32_t a = triangles[t], b = triangles[t + 1], c = triangles[t + 2];
        if (a >= count() || b >= count() || c >= count() || a == b || b == c || c == a)
            return 0;
    }
    return 1;
}

static int pairing_holds(void)
{
    for (uint32_t e = 0; e < entry_count; e++) {
        uint32_t p = halfedges[e];
        if (p != E && (p >= entry_count || halfedges[p] != e || start(p) != end(e) || end(p) != start(e)))
            return 0;
    }
    return 1;
}

static int hull_holds(void)
{
    size_t unpaired = 0;
    for (uint32_t e = 0; e < entry_count; e++)
        unpaired += halfedges[e] == E;
    for (size_t i = 0; i < hull_count; i++) {
        uint32_t a = hull[i], b = hull[(i + 1) % hull_count];
        int found = 0;
        if (a >= count())
            return 0;
        for (size_t j = 0; j < i; j++)
            if (hull[j] == a)
                return 0;
        for (uint32_t e = 0; e < entry_count; e++)
            found |= halfedges[e] == E && start(e) == a && end(e) == b;
        if (!found)
            return 0;
    }
    return unpaired == hull_count;
}

static void make_table(void)
{
    for (uint32_t s = 0; s < count(); s++)
        table[s] = E;
    for (uint32_t e = (uint32_t)entry_count; e-- > 0;)
        table[end(e)] = e;
    for (uint32_t e = 0; e < entry_count; e++)
        if (halfedges[e] == E)
            table[end(e)] = e;
}

static int fans_hold(void)
{
    for (uint32_t s = 0; s < count(); s++)
        for (uint32_t e = 0; e < entry_count; e++)
            if (end(e) == s) {
                uint32_t at = table[s], steps = 0;
                while (at != e && at != E && steps++ <= entry_count)
                    at = halfedges[next(at)];
                if (at != e)
                    return 0;
            }
    return 1;
}

static uint32_t expected(void)
{
    if (!counts_hold())
        return 1;
    if (work_count < count())
        return 2;
    for (size_t i = 0; i < coordinate_count; i++)
        if (!sound_coordinate(coordinates[i]))
            return 6;
    if (!triangles_hold())
        return 7;
    if (!pairing_holds())
        return 8;
    if (!hull_holds())
        return 9;
    make_table();
    return fans_hold() ? 0 : 10;
}

/* ---- a run: the number, and the work slice to its last entry and beyond */

static uint32_t run(void)
{
    for (size_t i = 0; i < work_count + SPARE; i++)
        work[i] = HELD;
    return voronoi_check(coordinates, coordinate_count, triangles, entry_count, halfedges, halfedge_count, hull, hull_count, work, work_count);
}

static int work_holds(uint32_t number)
{
    for (size_t i = 0; i < work_count; i++) {
        uint32_t right = number == 0 ? (i < count() ? table[i] : E) : number < 7 ? HELD : E;
        if (work[i] != right)
            return 0;
    }
    for (size_t i = work_count; i < work_count + SPARE; i++)
        if (work[i] != HELD)
            return 0;
    return 1;
}

static int failures;

static void must(const char *what, uint32_t number)
{
    uint32_t got = run();
    if (got != number || expected() != number || !work_holds(number)) {
        printf("FAILED: %s: %u, must be %u (beside it: %u)%s\n", what, got, number, expected(), work_holds(number) ? "" : ", work slice wrong");
        failures++;
    } else
        printf("  %2u  %s\n", got, what);
}

/* ---- meshes */

static void set_sites(uint32_t n)
{
    coordinate_count = 2 * (size_t)n;
    for (uint32_t s = 0; s < n; s++) {
        coordinates[2 * s] = (double)(s % 256);
        coordinates[2 * s + 1] = (double)(s / 256);
    }
    work_count = n + 2;
}

static void set(uint32_t n, size_t entries, const uint32_t *sites_of, const uint32_t *pairs, size_t h, const uint32_t *round)
{
    set_sites(n);
    entry_count = halfedge_count = entries;
    hull_count = h;
    for (size_t i = 0; i < entries; i++) {
        triangles[i] = sites_of[i];
        halfedges[i] = pairs[i];
    }
    for (size_t i = 0; i < h; i++)
        hull[i] = round[i];
}

/* each half-edge with the one that runs the other way, if there is one */
static void pair_up(void)
{
    for (uint32_t e = 0; e < entry_count; e++) {
        halfedges[e] = E;
        for (uint32_t p = 0; p < entry_count; p++)
            if (start(p) == end(e) && end(p) == start(e))
                halfedges[e] = p;
    }
    halfedge_count = entry_count;
}

#define MESH(n, sites_of, pairs, round) set(n, LENGTH(sites_of), sites_of, pairs, LENGTH(round), round)

static const uint32_t square[] = {0, 1, 2, 0, 2, 3}, square_pairs[] = {E, E, 3, 2, E, E}, square_hull[] = {0, 1, 2, 3};

static void set_square(void) { MESH(4, square, square_pairs, square_hull); }

static void named(void)
{
    set_square();
    must("square", 0);
    if (work[0] != 5 || work[1] != 0 || work[2] != 1 || work[3] != 4) {
        printf("FAILED: leftmost of square: %u %u %u %u, must be 5 0 1 4\n", work[0], work[1], work[2], work[3]);
        failures++;
    }
    hull_count = 3;
    must("square, hull 0 1 2", 9);
    set_square();
    halfedges[3] = E;
    must("square, pairs E E 3, E E E", 8);
    set_sites(2);
    must("two sites", 1);
    set_square();
    set_sites(5);
    must("a fifth, unused site", 0);
    work_count = 4;
    must("a fifth, unused site, work of 4", 2);
    set_square();
    work_count = 4;
    must("square, work of exactly 4", 0);
    coordinate_count = 7;
    must("an odd list of coordinates", 1);
    set_square();
    coordinates[5] = 0x1.0000000000001p100;
    must("a coordinate above 2^100", 6);
    set_square();
    coordinates[7] = 0.0 / coordinates[0];
    must("a NaN for a coordinate", 6);
    set_square();
    coordinates[0] = -0x1p100;
    must("a coordinate of -2^100", 0);
    set_square();
    triangles[5] = 4;
    must("a triangle that names no site", 7);
    set_square();
    triangles[5] = 0;
    must("a triangle that names a site twice", 7);
    set_square();
    halfedge_count = 3;
    must("half the half-edges", 1);
    set_square();
    entry_count = halfedge_count = 5;
    must("triangles not in threes", 1);
    set_square();
    hull[3] = 4;
    must("a hull entry that names no site", 9);
    set_square();
    hull[3] = 1;
    must("a hull site twice", 9);

    static const uint32_t closed[] = {0, 1, 2, 3, 4, 5, 3, 5, 4}, first_three[] = {0, 1, 2};
    MESH(6, closed, closed, first_three);
    pair_up();
    must("a closed part beside the disc", 0);

    entry_count = 0;
    for (uint32_t i = 0; i < 7; i++) {
        uint32_t six[] = {i, (i + 1) % 7, (i + 3) % 7, i, (i + 3) % 7, (i + 2) % 7};
        for (int k = 0; k < 6; k++)
            triangles[entry_count++] = six[k];
    }
    entry_count -= 3; /* without 6 2 1 */
    pair_up();
    set_sites(7);
    hull_count = 3;
    hull[0] = 6, hull[1] = 1, hull[2] = 2;
    must("a torus with a hole", 0);

    static const uint32_t mirrored[] = {2, 1, 0, 3, 2, 0}, mirrored_hull[] = {3, 2, 1, 0};
    MESH(4, mirrored, mirrored, mirrored_hull);
    pair_up();
    must("a mirrored mesh", 0);

    static const uint32_t two[] = {0, 1, 2, 3, 4, 5}, none[] = {E, E, E, E, E, E}, six[] = {0, 1, 2, 3, 4, 5};
    MESH(6, two, none, first_three);
    must("two discs, the hull of one", 9);
    MESH(6, two, none, six);
    must("two discs, both in the hull", 9);

    static const uint32_t ring[] = {0, 1, 3, 1, 4, 3, 1, 2, 4, 2, 5, 4, 2, 0, 5, 0, 3, 5};
    MESH(6, ring, ring, first_three);
    pair_up();
    must("an annulus", 9);

    static const uint32_t bow[] = {0, 1, 2, 0, 3, 4}, bow_hull[] = {0, 1, 2, 0, 3, 4};
    MESH(6, bow, none, bow_hull);
    must("a bow-tie", 9);
    MESH(6, bow, none, first_three);
    must("a bow-tie, the hull of one half", 9);

    static const uint32_t sharing[] = {0, 1, 2, 0, 3, 4, 0, 4, 3};
    MESH(5, sharing, sharing, first_three);
    pair_up();
    must("a closed part that shares one site", 10);

    /* closed fans at site 0: one of two triangles alone, beside another of two, beside one of three, and beside an open one of two */
    static const uint32_t pillow[] = {0, 1, 2, 0, 2, 1, 3, 4, 5}, last_three[] = {3, 4, 5};
    MESH(6, pillow, pillow, last_three);
    pair_up();
    must("a closed fan of two triangles", 0);
    static const uint32_t pillows[] = {0, 1, 2, 0, 2, 1, 0, 3, 4, 0, 4, 3, 5, 6, 7}, beside[] = {5, 6, 7};
    MESH(8, pillows, pillows, beside);
    pair_up();
    must("two closed fans of two triangles at one site", 10);
    static const uint32_t amid[] = {0, 4, 5, 0, 5, 4, 0, 1, 2, 0, 2, 3, 0, 3, 1}, around_it[] = {1, 2, 3};
    MESH(6, amid, amid, around_it);
    pair_up();
    must("a closed fan of two triangles, then one of three, at one site", 10);
    static const uint32_t hanging[] = {0, 1, 2, 0, 2, 3, 0, 4, 5, 0, 5, 4};
    MESH(6, hanging, hanging, square_hull);
    pair_up();
    must("an open fan of two triangles and a closed one at one site", 10);

    static const uint32_t one[] = {0, 1, 2}, turning[] = {1, 2, 1};
    MESH(3, one, turning, first_three);
    must("one triangle, pairs 1 2 1", 8);

    static const uint32_t twice[] = {0, 1, 2, 0, 1, 2}, round_twice[] = {0, 1, 2, 0, 1, 2};
    MESH(6, one, none, round_twice);
    must("one triangle, the hull twice round", 9);
    MESH(6, twice, none, first_three);
    must("one triangle twice", 9);
}

/* ---- damaged meshes */

/* a by b sites in rows, two triangles for each square, the diagonal as chance has it */
static void set_grid(uint32_t a, uint32_t b, int chance)
{
    set_sites(a * b);
    entry_count = rows_triangles(a, b, chance, triangles), hull_count = rows_hull(a, b, hull);
}

/* two triangles back to back on three of the sites, or on new ones */
static void add_closed(void)
{
    uint32_t n = count(), v[3];
    for (int k = 0; k < 3; k++) {
        v[k] = random_below(3) ? n++ : random_below(count());
        for (int j = 0; j < k; j++)
            if (v[j] == v[k])
                return;
    }
    uint32_t at = (uint32_t)entry_count;
    uint32_t six[] = {v[0], v[1], v[2], v[0], v[2], v[1]}, pairs[] = {5, 4, 3, 2, 1, 0};
    for (int k = 0; k < 6; k++) {
        triangles[at + (uint32_t)k] = six[k];
        halfedges[at + (uint32_t)k] = at + pairs[k];
    }
    entry_count = halfedge_count = at + 6;
    size_t w = work_count + (n - count());
    set_sites(n);
    work_count = w;
}

static void unpair(void)
{
    uint32_t e = random_below((uint32_t)entry_count), p = halfedges[e];
    if (p < entry_count)
        halfedges[p] = E;
    halfedges[e] = E;
}

static void damage(void)
{
    uint32_t any = random_below(count() + 2);
    switch (random_below(14)) {
    case 0: triangles[random_below((uint32_t)entry_count)] = any; break;
    case 1: halfedges[random_below((uint32_t)entry_count)] = random_below(3) ? random_below((uint32_t)entry_count + 2) : E; break;
    case 2: hull[random_below((uint32_t)hull_count)] = any; break;
    case 3: hull_count -= random_below(2); break;
    case 4: hull[hull_count++] = any; break;
    case 5: unpair(); break;
    case 6: case 7: case 8: add_closed(); break;
    case 9: work_count -= random_below(4); break;
    case 10: coordinates[random_below((uint32_t)coordinate_count)] = random_below(2) ? -0x1.8p100 : 1.0 / 0.0; break;
    case 11: coordinate_count += random_below(2); break;
    case 12: {
        uint32_t turn = random_below((uint32_t)hull_count), kept[64];
        for (size_t i = 0; i < hull_count && i < 64; i++)
            kept[i] = hull[i];
        for (size_t i = 0; i < hull_count && i < 64; i++)
            hull[i] = kept[(i + turn) % hull_count];
        break;
    }
    default: set_sites(count() + 1); break;
    }
}

static void damaged(uint64_t cases)
{
    uint64_t seen[11] = {0};
    for (uint64_t i = 0; i < cases; i++) {
        set_grid(2 + random_below(3), 2 + random_below(3), 1);
        pair_up();
        for (uint32_t k = random_below(4); k > 0; k--)
            damage();
        uint32_t right = expected(), got = run();
        seen[right]++;
        if (got != right || !work_holds(right)) {
            printf("FAILED: damaged mesh %llu: %u, must be %u%s\n", (unsigned long long)i, got, right, work_holds(right) ? "" : ", work slice wrong");
            if (++failures > 20)
                return;
        }
    }
    printf("damaged meshes: %llu; by number:", (unsigned long long)cases);
    for (int k = 0; k < 11; k++)
        if (k < 3 || k > 5) {
            printf(" %d: %llu", k, (unsigned long long)seen[k]);
            if (seen[k] == 0) {
                printf(" (FAILED: never came up)");
                failures++;
            }
        }
    printf("\n");
}

/* ---- a site with many half-edges: amid `ring` others, with two triangles back to back beside them, which have the site too where its fan is to be broken */

static void hub(uint32_t ring, int broken)
{
    uint32_t number = broken ? 10 : 0, got;
    set_sites(ring + 4);
    entry_count = halfedge_count = 3 * (size_t)ring + 6;
    hull_count = ring;
    for (uint32_t i = 0; i < ring; i++) {
        uint32_t e = 3 * i, next_site = (i + 1) % ring;
        triangles[e] = 0, triangles[e + 1] = 1 + i, triangles[e + 2] = 1 + next_site;
        halfedges[e + 1] = E, halfedges[e + 2] = 3 * next_site, halfedges[3 * next_site] = e + 2;
        hull[i] = 1 + i;
    }
    uint32_t back[] = {broken ? 0 : ring + 3, ring + 1, ring + 2, broken ? 0 : ring + 3, ring + 2, ring + 1};
    for (uint32_t k = 0; k < 6; k++) {
        triangles[3 * ring + k] = back[k];
        halfedges[3 * ring + k] = 3 * ring + 5 - k;
    }
    make_table();
    got = run();
    if (got != number || !work_holds(number)) {
        printf("FAILED: a site amid %u: %u, must be %u%s\n", ring, got, number, work_holds(number) ? "" : ", work slice wrong");
        failures++;
    }
}

/* 8,191 half-edges of a site are counted beside its table entry; where there are more the check goes another way */
static void hubs(void)
{
    static const uint32_t rings[] = {3, 8188, 8189, 8190, 8191, 8192, 8193, 65532};
    for (size_t i = 0; i < LENGTH(rings); i++) {
        hub(rings[i], 0);
        hub(rings[i], 1);
    }
    printf("sites amid 3 to 65,532 others, with whole and with broken fans\n");
}

/* ---- the largest mesh, its pairs by place: half-edge e of square c has its pair in the same square or a neighbour */

static void largest(void)
{
    static uint32_t lookup[SITES][8][2];
    static uint8_t used[SITES];
    set_grid(256, 256, 0);
    for (uint32_t e = 0; e < entry_count; e++) {
        uint32_t s = start(e);
        lookup[s][used[s]][0] = end(e);
        lookup[s][used[s]++][1] = e;
    }
    for (uint32_t e = 0; e < entry_count; e++) {
        halfedges[e] = E;
        for (int k = 0; k < used[end(e)]; k++)
            if (lookup[end(e)][k][0] == start(e))
                halfedges[e] = lookup[end(e)][k][1];
    }
    halfedge_count = entry_count;
    work_count = 65536;
    make_table();
    long best = 1 << 30;
    for (int k = 0; k < 9; k++) {
        long before = clock();
        uint32_t got = run();
        long spent = clock() - before;
        best = spent < best ? spent : best;
        if (got != 0 || !work_holds(0)) {
            printf("FAILED: 65,536 sites: %u, must be 0%s\n", got, work_holds(0) ? "" : ", work slice wrong");
            failures++;
            return;
        }
    }
    printf("65,536 sites, %lu triangles: accepted in %ld.%ld ms\n", (unsigned long)(entry_count / 3), best / 1000, best / 100 % 10);
    if (best >= 100000) {
#ifdef EMULATED
        printf("note: 100 ms or more, under an emulator\n");
#else
        printf("FAILED: 100 ms or more\n");
        failures++;
#endif
    }
}

int main(int words, char **word)
{
    uint64_t cases = 20000;
    state = UINT64_C(0x9E3779B97F4A7C15);
    if (!count_and_seed(words, word, &cases, &state)) {
        printf("usage: mesh [COUNT [SEED]], whole numbers such as 20,000\n");
        return 2;
    }
    named();
    damaged(cases);
    hubs();
    largest();
    printf(failures ? "mesh: %d failed\n" : "mesh: all as it must be\n", failures);
    return failures != 0;
}
