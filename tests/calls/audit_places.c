/* Kind 5 of the audit, two sites at one place, through the C interface. The piece of site 0 is the box, no other site has one, and none is held
 * against another: so the sites may stand anywhere, and 5 or nothing is told.
 *
 *   audit_places rows           the borders of the blocks in which crate audit_places takes the sites, signs of 0, random sets against a search of all
 *                               pairs; exit status 1 where something differs
 *   audit_places beside COUNT   COUNT sites of four kinds, no two at one place: the call's processor time beside that search's; exit status 1 where
 *                               the call takes more than half of it (from four blocks on, and not under the emulator)
 *
 * The C library's headers are not used (tests/archive.sh says why). */
#include "../lent.h"
#include "../number.h"

enum { MOST = 65536, BLOCK = 512 };
static double sites[2 * MOST];
static size_t n;
static uint32_t kind, site, vertex, other;
static double missing;
static int failures;

static uint32_t ask(void)
{
    static const double corners[8] = {-1, -1, -1, 1, 1, 1, 1, -1};
    static const uint32_t ring[4] = {0, 1, 2, 3};
    static uint32_t offsets[MOST + 1], starts[MOST + 1], others[1];
    for (size_t s = 1; s <= n; s++)
        offsets[s] = 4;
    kind = site = vertex = other = 7, missing = 7;
    return voronoi_audit_by_edges(-1, -1, 1, 1, sites, 2 * n, corners, 8, offsets, n + 1, ring, 4, starts, n + 1, others, 0, VORONOI_AUDIT_BITS, &kind, &site,
        &vertex, &other, &missing);
}

static void is(const char *name, uint32_t s, uint32_t o)
{
    uint32_t number = ask(), k = s == E ? VORONOI_AUDIT_SOUND : VORONOI_AUDIT_TWIN;
    if (number || kind != k || site != s || vertex != E || other != o || missing != 0) {
        printf("%s, %zu sites: answered %u with kind %u, %d and %d, must be %u, %d and %d\n", name, n, number, kind, (int)site, (int)other, k, (int)s, (int)o);
        failures++;
    }
}

static void put(size_t s, double x, double y)
{
    sites[2 * s] = x, sites[2 * s + 1] = y;
}

/* s to the place of o */
static void move(size_t s, size_t o)
{
    put(s, sites[2 * o], sites[2 * o + 1]);
}

/* no two at one place */
static void spread(size_t count)
{
    n = count;
    for (size_t s = 0; s < n; s++)
        put(s, (double)(s % 251) - 99.5, (double)(s / 251) + 0.25);
}

/* the lowest site that has one before it, and the first before it */
static size_t all_pairs(uint32_t *o)
{
    for (size_t s = 0; s < n; s++)
        for (size_t j = 0; j < s; j++)
            if (sites[2 * s] == sites[2 * j] && sites[2 * s + 1] == sites[2 * j + 1])
                return *o = (uint32_t)j, s;
    return *o = E, n;
}

/* ---- rows */

static void borders(void)
{
    static const size_t counts[] = {3, 5, BLOCK - 1, BLOCK, BLOCK + 1, 2 * BLOCK, 2 * BLOCK + 1, 5 * BLOCK - 1, MOST};
    for (size_t k = 0; k < sizeof counts / sizeof *counts; k++) {
        uint32_t last = (uint32_t)counts[k] - 1;
        spread(last + 1), is("no two at one place", E, E);
        move(last, 0), is("the first and the last", last, 0);
        spread(last + 1), move(last, last - 1), is("the last two", last, last - 1);
        spread(last + 1), move(1, 0), move(last, 0), is("the first two and the last", 1, 0);
    }
    for (uint32_t b = BLOCK; b < MOST; b *= 2) {
        spread(MOST), move(b, b - 1), is("the last of a block and the first of the next", b, b - 1);
        spread(MOST), move(b, b - BLOCK), is("the first of two blocks", b, b - BLOCK);
        spread(MOST), move(b - 1, 0), is("the first of all and the last of a block", b - 1, 0);
    }
}

static void several(void)
{
    spread(7000), move(3000, 5), move(6000, 5), is("three at one place", 3000, 5);
    spread(7000), move(5, 3000), move(6, 3000), is("three at one place, two of them near", 6, 5);
    spread(7000), move(5000, 100), move(4000, 3000), is("the lower of two pairs, in a later block", 4000, 3000);
    spread(7000), move(5000, 4500), move(4000, 100), is("the lower of two pairs, from the first block", 4000, 100);
    spread(7000), move(6999, 1), move(6500, 2500), move(6450, 2049), move(6400, 4300), is("the lowest of four pairs", 6400, 4300);
}

static void zeros(void)
{
    static const uint32_t at[] = {1, BLOCK - 1, BLOCK, 3 * BLOCK};
    for (size_t k = 0; k < sizeof at / sizeof *at; k++)
        for (unsigned signs = 0; signs < 16; signs++) {
            spread(3 * BLOCK + 1);
            put(0, signs & 1 ? -0.0 : 0.0, signs & 2 ? -0.0 : 0.0);
            put(at[k], signs & 4 ? -0.0 : 0.0, signs & 8 ? -0.0 : 0.0);
            is("-0 and 0", at[k], 0);
        }
    spread(3), put(0, 3, -5), put(1, 3, 5), put(2, -3, 5), is("the sign of what is not 0", E, E);
    put(0, 0, 0x1p-1074), put(1, -0x1p-1074, 0), put(2, 0x1p-1074, -0.0), is("the least numbers", E, E);
    put(1, -0.0, 0x1p-1074), is("the least number", 1, 0);
    put(1, 0x1p100, -0x1p100), put(2, 0x1p100, -0x1p100), is("the greatest numbers", 2, 1);
}

static uint64_t draw(uint64_t below)
{
    static uint64_t seed = 1;
    seed ^= seed << 13, seed ^= seed >> 7, seed ^= seed << 17;
    return seed % below;
}

/* on lattices of a width at which some sets have no two at one place and some have several */
static void random_sets(void)
{
    unsigned rounds = 300, twins = 0;
    for (unsigned k = 0; k < rounds; k++) {
        n = 3 + draw(k % 10 ? 300 : 3 * BLOCK);
        uint64_t wide = 1 + n / 4 + draw(2 * n);
        double unit = k % 3 ? k % 3 == 1 ? 0.1 : 1000 : 1, left = k % 4 == 3 ? 32500000 : -(double)(wide / 2) * unit;
        for (size_t s = 0; s < n; s++)
            put(s, left + unit * (double)draw(wide), (draw(2) ? 1 : -1) * unit * (double)draw(wide / 2 + 1));
        uint32_t o, s = (uint32_t)all_pairs(&o);
        twins += s < n;
        is("a random set", s < n ? s : E, o);
    }
    if (twins < rounds / 8 || twins > rounds - rounds / 8)
        printf("%u of %u random sets have two at one place\n", twins, rounds), failures++;
}

static int rows(void)
{
    borders(), several(), zeros(), random_sets();
    printf("audit: sites at one place, %d wrong\n", failures);
    return failures > 0;
}

/* ---- beside all pairs */

static uint32_t said(void)
{
    return ask() || kind;
}

static uint32_t found(void)
{
    uint32_t o;
    return all_pairs(&o) < n;
}

static double timed(uint32_t (*wrong)(void))
{
    long start = clock();
    if (wrong())
        printf("two of %zu sites at one place\n", n), failures++;
    return (double)(clock() - start) / 1e6;
}

static int beside(void)
{
    static const char *const names[] = {"a lattice", "a row", "floats", "centimetres on a map"};
    for (int k = 0; k < 4; k++) {
        for (size_t s = 0; s < n; s++)
            if (k < 2)
                put(s, (double)(k ? s : s % 256), (double)(k ? 7 : s / 256));
            else if (k == 2)
                put(s, (double)draw((uint64_t)1 << 53) / 0x1p53, (double)draw((uint64_t)1 << 53) / 0x1p53);
            else
                put(s, 32500000 + (double)(s * 7919 % 3000017) / 100, 5600000 + (double)draw(3000000) / 100);
        double ours = timed(said), all = timed(found);
        for (int round = 1; round < 5; round++) { /* in turn, the best of five of each */
            double again = timed(said), once_more = timed(found);
            ours = again < ours ? again : ours, all = once_more < all ? once_more : all;
        }
        printf("%zu sites, %s: %.4f s, all pairs %.4f s, ratio %.4f\n", n, names[k], ours, all, ours / all);
#ifndef EMULATED
        if (ours > all / 2 && n >= 4 * BLOCK)
            printf("that is more than half\n"), failures++;
#endif
    }
    return failures > 0;
}

int main(int argc, char **argv)
{
    uint64_t count = 0;
    if (argc == 2 && argv[1][0] == 'r')
        return rows();
    if (argc == 3 && argv[1][0] == 'b' && number_of(argv[2], &count) && count >= 3 && count <= MOST)
        return n = count, beside();
    return printf("audit_places rows | beside COUNT\n"), 2;
}
