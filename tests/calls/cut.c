/* Pieces by cutting through the C interface, held to the box and to the truth: sheets of twelve families (tests/sheets.h), sound, damaged and turned.
 *
 *   cut [SHEETS [SEED]]
 *
 * Wherever the answer is 0: the exact areas add up to exactly the box's, by whole numbers of 128 bits here, and the audit says that nothing is missing, with 52 bits.
 * On a Delaunay mesh the answer is 0 (or 11, counted), the audit is sound with 40 bits against all gauges, and no piece is off by more than 10^-12 of the box
 * by half-planes in 113-bit floats; on sheets of 100 m in coordinates of 6,000,000 m, whose last bit is 10^-11 of the sheet, with 32 bits and 10^-10, and where half
 * of the gauges crowd on a ten-thousandth of the sheet with 32 bits and 10^-11. The table has the bits and the worst of each family. A mesh that is wound the wrong way gets 25. The build is made beside it: how often it is refused, or named by the audit.
 * The C library's headers are not used (tests/archive.sh says why). */
#include "../number.h"
#include "voronoi.h"

int printf(const char *format, ...);

#include "../sheets.h"

enum { SOUND = 8, FAMILIES = 12 };
static const char *const names[FAMILIES] = {"uniform", "clustered", "10 m grid", "strip", "lattice", "circle", "box away", "box in a piece",
                                            "turned", "flipped", "gauges moved", "bitten, mirrored"};

static double vertices[VORONOI_CUT_VERTEX_NUMBERS(T, H)], built[VORONOI_VERTEX_NUMBERS(T, H)], areas[N];
static uint32_t work[N], indexes[VORONOI_CUT_INDEX_ROOM(T, H)], offsets[N + 1], entries[VORONOI_INDEX_ROOM(T, H)], counts[VORONOI_COUNTS], count;

/* ---- an exact sum of products, in digits of 32 bits; the first is worth 2^-2148 */

enum { DIGITS = 96 };
static __int128 digits[DIGITS];

static uint64_t split(double x, uint32_t *exponent, int *below_zero)
{
    union {
        double x;
        uint64_t bits;
    } of = {x};
    uint64_t field = of.bits >> 52 & 0x7ff, fraction = of.bits & ((UINT64_C(1) << 52) - 1);
    *below_zero = (int)(of.bits >> 63), *exponent = field ? (uint32_t)field - 1 : 0;
    return field ? fraction | UINT64_C(1) << 52 : fraction;
}

static void product(double x, double y, int off)
{
    uint32_t e, f;
    int s, u;
    unsigned __int128 m = (unsigned __int128)split(x, &e, &s) * split(y, &f, &u);
    for (uint32_t k = 0; k < 4; k++) {
        __int128 digit = (__int128)((uint64_t)(m >> 32 * k & 0xffffffffu) << (e + f) % 32);
        digits[(e + f) / 32 + k] += (s != u) != off ? -digit : digit;
    }
}

static void side(double x, double y, double u, double v, int off) { product(y, u, off), product(x, v, !off); }

static int whole(void)
{
    __int128 carry = 0;
    int some = 0;
    for (uint32_t k = 0; k < DIGITS; k++)
        digits[k] = 0;
    for (uint32_t s = 0; s < n; s++)
        for (uint32_t i = offsets[s]; i < offsets[s + 1]; i++) {
            const double *p = vertices + 2 * indexes[i], *q = vertices + 2 * indexes[i + 1 < offsets[s + 1] ? i + 1 : offsets[s]];
            side(p[0], p[1], q[0], q[1], 0);
        }
    const double l = edges[0], top = edges[1], r = edges[2], b = edges[3];
    side(l, top, l, b, 1), side(l, b, r, b, 1), side(r, b, r, top, 1), side(r, top, l, top, 1);
    for (uint32_t k = 0; k < DIGITS; k++) {
        __int128 x = digits[k] + carry;
        some |= (x & 0xffffffffu) != 0, carry = x >> 32;
    }
    return !some && carry == 0;
}

/* ---- one sheet */

static void set(uint32_t family, uint32_t j)
{
    n = 8 + below(53);
    sound_sheet(family, j);
    if (family == 8)
        turned(j);
    triangulate();
    if (family == 8)
        reverse();
    if (family == 9)
        damage(j % 3);
    if (family == 10)
        damage(j % 2 ? 3 : j < 4 ? 4 : 7);
    if (family == 11)
        damage(5 + j % 2);
    lists();
}

static uint64_t tried[FAMILIES], zero[FAMILIES], eleven[FAMILIES], border[FAMILIES], refused[FAMILIES], named[FAMILIES];
static double worst[FAMILIES];
static uint32_t least[FAMILIES];

static uint32_t verdict(const double *corners, uint32_t many, const uint32_t *starts, const uint32_t *list, uint32_t bits, double *missing)
{
    uint32_t kind = E, site, vertex, other;
    if (voronoi_audit(box[0], box[1], box[2], box[3], sites, 2 * (size_t)n, corners, 2 * (size_t)many, starts, n + 1, list, starts[n], 0, 0, 0, 0, bits, &kind, &site,
                      &vertex, &other, missing))
        return E;
    return kind;
}

static void build_beside(uint32_t family)
{
    static uint32_t starts[N + 1];
    double missing;
    if (voronoi_build(box[0], box[1], box[2], box[3], sites, 2 * (size_t)n, triangles, 3 * (size_t)t, halfedges, 3 * (size_t)t, hull, h, work, N, built,
                      VORONOI_VERTEX_NUMBERS(T, H), entries, VORONOI_INDEX_ROOM(T, H), starts, N + 1, counts, VORONOI_COUNTS))
        refused[family]++;
    else if (verdict(built, counts[VORONOI_COUNT_VERTICES], starts, entries, 20, &missing))
        named[family]++;
}

/* whether the last bit of a coordinate is more than 10^-12 of the sheet */
static int coarse(void) { return absolute(edges[3]) > 8192 * (edges[3] - edges[1]); }

static void off(uint32_t family, uint64_t sheet)
{
    Wide most = 0, box_area = ((Wide)edges[2] - edges[0]) * ((Wide)edges[3] - edges[1]);
    if (voronoi_areas(vertices, 2 * (size_t)count, offsets, n + 1, indexes, offsets[n], areas, n))
        fail("areas of pieces are refused", sheet, 0);
    for (uint32_t s = 0; s < n; s++) {
        Wide is = true_area(s), by = areas[s] > is ? areas[s] - is : is - areas[s];
        most = by > most ? by : most;
    }
    double share = (double)(most / box_area);
    worst[family] = share > worst[family] ? share : worst[family];
    if (share > (coarse() ? 1e-10 : family == 1 ? 1e-11 : 1e-12))
        fail("a piece is off by too much", sheet, share);
}

static void try(uint64_t sheet)
{
    uint32_t family = (uint32_t)(sheet % FAMILIES);
    double missing = 1;
    set(family, (uint32_t)(sheet / FAMILIES % 8));
    edges[0] = box[0] - box[2] / 2, edges[1] = box[1] - box[3] / 2, edges[2] = box[0] + box[2] / 2, edges[3] = box[1] + box[3] / 2;
    uint32_t answer = voronoi_cut(box[0], box[1], box[2], box[3], sites, 2 * (size_t)n, triangles, 3 * (size_t)t, halfedges, 3 * (size_t)t, hull, h, work, N, vertices,
                                  VORONOI_CUT_VERTEX_NUMBERS(T, H), indexes, VORONOI_CUT_INDEX_ROOM(T, H), offsets, N + 1, &count);
    tried[family]++, zero[family] += answer == 0, eleven[family] += answer == 11, border[family] += answer == 25;
    if (answer != 0 && answer != 11 && answer != 25 && family < 9)
        fail("refused", sheet, answer);
    if (family < SOUND && answer == 25)
        fail("the border of a Delaunay mesh does not turn once", sheet, 25);
    if (family == 8 && answer == 0)
        fail("a mesh wound the wrong way is cut", sheet, 0);
    if (answer == 0) {
        if (!whole())
            fail("the pieces do not add up to the box", sheet, 0);
        uint32_t kind = verdict(vertices, count, offsets, indexes, 52, &missing);
        if (missing != 0 || kind == 4 || kind == 2 || kind == E)
            fail("the audit misses something with 52 bits", sheet, missing);
        if (family < SOUND) {
            uint32_t bits = 40;
            while (bits && verdict(vertices, count, offsets, indexes, bits, &missing))
                bits--;
            if (bits < (coarse() || family == 1 ? 32 : 40))
                fail("the audit names a sound sheet; sound with so many bits", sheet, bits);
            least[family] = bits < least[family] ? bits : least[family];
            off(family, sheet);
        }
    } else if (count)
        fail("a count is left after a refusal", sheet, count);
    build_beside(family);
}

int main(int words, char **word)
{
    uint64_t sheets = 12000, seed = 1;
    if (!count_and_seed(words, word, &sheets, &seed)) {
        printf("usage: cut [SHEETS [SEED]]\n");
        return 2;
    }
    state = 88172645463325252u ^ seed * 0x9e3779b97f4a7c15u;
    for (uint32_t f = 0; f < FAMILIES; f++)
        least[f] = 40;
    for (uint64_t sheet = 0; sheet < sheets; sheet++)
        try(sheet);
    printf("%-18s%9s%9s%6s%7s%6s%12s%16s%14s\n", "family", "sheets", "whole", "11", "25", "bits", "worst", "build refused", "build named");
    for (uint32_t f = 0; f < FAMILIES; f++) {
        printf("%-18s%9lu%9lu%6lu%7lu", names[f], (unsigned long)tried[f], (unsigned long)zero[f], (unsigned long)eleven[f], (unsigned long)border[f]);
        if (f < SOUND)
            printf("%6u%12.1e", least[f], worst[f]);
        else
            printf("%18s", "");
        printf("%16lu%14lu\n", (unsigned long)refused[f], (unsigned long)named[f]);
        if (sheets >= 1200 && (f == 8 ? border[f] : zero[f]) == 0)
            fail("a family that says nothing", f, 0);
    }
    if (failures)
        printf("%lu failures\n", (unsigned long)failures);
    return failures != 0;
}
