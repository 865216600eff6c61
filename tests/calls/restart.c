/* Two theorems on public answers, run through the C interface: a path cut at every allowance and asked for again from the last site got, and every triangle three times
 * among the walks of all sites. Exit status 1 where something differs.
 *
 *   restart [MESHES [SEED]]
 *
 * The C library's headers are not used (tests/archive.sh says why). */
#include "../lent.h"
#include "../number.h"
#include "../rows.h"

#define HELD 0xA5A5A5A5
#define SPARE 4
enum { SIDE = 4, SITES = SIDE * SIDE + 1, ENTRIES = 6 * SIDE * SIDE };

static double sites[2 * SITES];
static uint32_t triangles[ENTRIES], halfedges[ENTRIES], hull[SITES], work[SITES];
static uint32_t n, entries, hull_count;
static unsigned long failures, cuts, paths, walks;

#define LENT sites, 2 * (size_t)n, triangles, entries, halfedges, entries, hull, hull_count

static void fail(const char *what, uint32_t site, uint32_t got, uint32_t must)
{
    if (failures++ < 20)
        printf("FAILED: %s, site %u: %u, must be %u\n", what, site, got, must);
}

/* ---- a mesh: a by b sites in rows, two triangles for each square, the diagonal as chance has it, sometimes a site in no triangle */


static void pair_up(void)
{
    for (uint32_t e = 0; e < entries; e++) {
        halfedges[e] = E;
        for (uint32_t f = 0; f < entries; f++)
            if (triangles[f] == triangles[next(e)] && triangles[next(f)] == triangles[e])
                halfedges[e] = f;
    }
}

static void go_round(void)
{
    uint32_t from = 0, at;
    while (halfedges[from] != E)
        from++;
    hull_count = 0, at = triangles[from];
    do {
        hull[hull_count++] = at;
        for (uint32_t e = 0; e < entries; e++)
            if (halfedges[e] == E && triangles[e] == at) {
                at = triangles[next(e)];
                break;
            }
    } while (at != triangles[from] && hull_count < n);
}

static void set_mesh(void)
{
    uint32_t a = 2 + random_below(SIDE - 1), b = 2 + random_below(SIDE - 1), kind = random_below(3);
    n = a * b, entries = 0;
    for (uint32_t y = 0; y + 1 < b; y++)
        for (uint32_t x = 0; x + 1 < a; x++) {
            uint32_t p = y * a + x, q = p + 1, r = q + a, s = p + a, cut = random_below(2);
            const uint32_t two[2][6] = {{p, s, r, p, r, q}, {p, s, q, q, s, r}};
            for (int i = 0; i < 6; i++)
                triangles[entries++] = two[cut][i];
        }
    for (uint32_t i = 0; i < n; i++) { /* in rows with equal distances, in rows moved about, or anywhere */
        sites[2 * i] = kind == 2 ? random_below(1000) / 8.0 : i % a + (kind ? random_below(64) / 256.0 : 0);
        sites[2 * i + 1] = kind == 2 ? random_below(1000) / 8.0 : i / a + (kind ? random_below(64) / 256.0 : 0);
    }
    if (random_below(4) == 0)
        sites[2 * n] = random_below(9), sites[2 * n + 1] = random_below(9), n++;
    pair_up();
    go_round();
}

/* ---- a path, with an allowance: the count; what is past it must be as it was */

static uint32_t out[2 * SITES + SPARE], ended, refused;

static uint32_t ask(uint32_t site, double x, double y, uint32_t allowance)
{
    uint32_t count = 77;
    for (uint32_t i = 0; i < 2 * SITES + SPARE; i++)
        out[i] = HELD;
    refused = voronoi_path(LENT, site, x, y, work, n, out, allowance, &count, &ended);
    for (uint32_t i = count; i < 2 * SITES + SPARE; i++)
        if (out[i] != HELD)
            fail("past the path", site, i, count);
    return count;
}

static void cut(uint32_t site, double x, double y)
{
    uint32_t whole[SITES], joined[2 * SITES], long_ = ask(site, x, y, n);
    if (refused != 0 || !ended)
        fail("the undivided path", site, refused, 0);
    for (uint32_t i = 0; i < long_; i++)
        whole[i] = out[i];
    paths++;
    for (uint32_t first = 1; first <= long_ + 1; first++) {
        uint32_t got = ask(site, x, y, first), first_ended = ended;
        if (refused != 0 || got == 0) {
            fail("the first answer", site, refused, 0);
            return;
        }
        for (uint32_t i = 0; i < got; i++)
            joined[i] = out[i];
        const uint32_t allowances[] = {0, 1, 2, n};
        for (int i = 0; i < 4; i++, cuts++) {
            uint32_t more = ask(joined[got - 1], x, y, allowances[i]), all = got + (more > 0 ? more - 1 : 0);
            if (refused != 0)
                fail("the second answer is refused", site, refused, 0);
            if (more > 0 && out[0] != joined[got - 1])
                fail("the second begins elsewhere", site, out[0], joined[got - 1]);
            for (uint32_t k = 1; k < more; k++)
                joined[got + k - 1] = out[k];
            if (all > long_ || (ended && more > 0 && all != long_))
                fail("joined, how many", site, all, long_);
            for (uint32_t k = 0; k < all && k < long_; k++)
                if (joined[k] != whole[k])
                    fail("joined, an entry", site, joined[k], whole[k]);
            if (allowances[i] == 0 && more != 0)
                fail("a second allowance of 0 adds", site, more, 0);
            if (first_ended && allowances[i] > 0 && (more != 1 || !ended))
                fail("after the end more than the last site", site, more, 1);
            if (i == 3 && !ended)
                fail("a second with room has not ended", site, 0, 1);
        }
    }
}

/* ---- every triangle three times */

static void thrice(void)
{
    uint32_t held[ENTRIES / 3][SITES] = {{0}}, count;
    for (uint32_t s = 0; s < n; s++, walks++) {
        if (voronoi_walk(LENT, s, work, n, out, SITES, &count, &ended) != 0 || !ended)
            fail("the walk", s, 1, 0);
        for (uint32_t i = 0; i < count; i++)
            held[out[i] / 3][s]++;
    }
    for (uint32_t t = 0; t < entries / 3; t++) {
        uint32_t sum = 0;
        for (uint32_t s = 0; s < n; s++) {
            uint32_t own = (triangles[3 * t] == s) + (triangles[3 * t + 1] == s) + (triangles[3 * t + 2] == s);
            if (held[t][s] != own)
                fail("a triangle in a ring", s, held[t][s], own);
            sum += held[t][s];
        }
        if (sum != 3)
            fail("a triangle in all rings", t, sum, 3);
    }
}

int main(int words, char **word)
{
    uint64_t meshes = 10000, seed = 1;
    if (!count_and_seed(words, word, &meshes, &seed)) {
        printf("usage: restart [MESHES [SEED]]\n");
        return 2;
    }
    state = 0x9E3779B97F4A7C15 * (2 * seed + 1);
    for (uint64_t i = 0; i < meshes && failures < 20; i++) {
        set_mesh();
        if (voronoi_check(LENT, work, n) != 0) {
            fail("the mesh is refused", 0, 1, 0);
            break;
        }
        thrice();
        double x = random_below(80) / 8.0 - 2, y = random_below(80) / 8.0 - 2;
        for (uint32_t s = 0; s < n; s++)
            cut(s, x, y);
    }
    printf("%lu meshes: %lu paths cut %lu times and joined, %lu walks: %lu failed\n", (unsigned long)meshes, paths, cuts, walks, failures);
    return failures != 0;
}
