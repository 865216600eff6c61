/* The audit held to the truth through the C interface: builds of five families, of 8 to 60 sites, with sound, turned and damaged meshes; each piece beside the box
 * cut by all bisectors in 113-bit floats. Exit status 1 where a sound build is named or a wrong one is passed, or where the verdict is not the one that a second
 * reading of its words gives.
 *
 *   audit_truth [BUILDS [SEED]]
 *
 * Wrong: the area of a piece is off by more than 10^-6 of the box. Sound: no piece by more than 10^-9. Between them is slight, and may be named or passed.
 * The C library's headers are not used (tests/archive.sh says why). */
#include "../number.h"
#include "voronoi.h"

int printf(const char *format, ...);

#include "../sheets.h"

enum { FAMILIES = 5 };

static double vertices[VORONOI_VERTEX_NUMBERS(T, H)], areas[T];
static uint32_t work[N], indexes[VORONOI_INDEX_ROOM(T, H)], offsets[N + 1], counts[VORONOI_COUNTS];
static uint32_t starts[N + 1], others[VORONOI_NEIGHBOUR_ROOM(T, H)], thirds[T + 1];

static void set(uint32_t family, uint32_t j)
{
    n = 8 + below(53);
    set_box(50, 40, 100, 80), anywhere();
    if (family == 0)
        uniform(j);
    if (family == 1)
        clustered(j);
    if (family == 2)
        grid(j);
    if (family == 3)
        turned(j);
    triangulate();
    if (family == 3)
        reverse();
    if (family == 4)
        damage(j);
    lists();
}

/* the most that a piece's area is off, over the box's */
static double off(void)
{
    Wide most = 0, total = 0, whole = ((Wide)edges[2] - edges[0]) * ((Wide)edges[3] - edges[1]);
    if (voronoi_areas(vertices, 2 * (size_t)counts[VORONOI_COUNT_VERTICES], offsets, n + 1, indexes, offsets[n], areas, n) != 0)
        fail("areas of pieces are refused", 0, 0);
    for (uint32_t s = 0; s < n; s++) {
        Wide true_one = true_area(s), by = areas[s] > true_one ? areas[s] - true_one : true_one - areas[s];
        most = by > most ? by : most, total += true_one;
    }
    if (total > whole * (1 + (Wide)1e-25) || total < whole * (1 - (Wide)1e-25))
        fail("the true pieces are not the box", 0, (double)(total / whole - 1));
    return (double)(most / whole);
}

/* ---- the verdict, read a second time from docs/use/RULES.md; kinds 1 and 4 in 113-bit floats, far from their limits or not told */

typedef struct {
    uint32_t kind, site, vertex, other;
    double missing;
} Verdict;

static Wide area(uint32_t a, uint32_t b, uint32_t c)
{
    Wide x = vertices[2 * a], y = vertices[2 * a + 1];
    return ((vertices[2 * b + 1] - y) * (vertices[2 * c] - x) - (vertices[2 * b] - x) * (vertices[2 * c + 1] - y)) / 2;
}

static int folds(uint32_t s, Wide limit)
{
    const uint32_t *ring = indexes + offsets[s];
    for (uint32_t i = 1; i + 1 < offsets[s + 1] - offsets[s]; i++)
        if (area(ring[0], ring[i], ring[i + 1]) < -limit || area(ring[0], ring[1], ring[i + 1]) < -limit)
            return 1;
    return 0;
}

static double beyond(uint32_t s, uint32_t v, uint32_t o)
{
    const double *p = sites + 2 * s, *q = sites + 2 * o, *c = vertices + 2 * v;
    return (q[0] - p[0]) * ((c[0] - p[0]) + (c[0] - q[0])) + (q[1] - p[1]) * ((c[1] - p[1]) + (c[1] - q[1]));
}

static double sides(void) { return (edges[2] - edges[0]) + (edges[3] - edges[1]); }

static double between(uint32_t s, uint32_t o) { return absolute(sites[2 * o] - sites[2 * s]) + absolute(sites[2 * o + 1] - sites[2 * s + 1]); }

static int nearer(uint32_t s, uint32_t v, uint32_t o) { return beyond(s, v, o) > sides() * 0x1p-20 * between(s, o); }

static Verdict read_again(int all) /* each piece held against all sites, or against its neighbours */
{
    Verdict it = {0, E, E, E, 0};
    Wide whole = ((Wide)edges[2] - edges[0]) * ((Wide)edges[3] - edges[1]), sum = 0;
    for (uint32_t s = 0; s < n; s++)
        for (uint32_t i = offsets[s] + 1; i + 1 < offsets[s + 1]; i++)
            sum += area(indexes[offsets[s]], indexes[i], indexes[i + 1]);
    it.missing = (double)(whole - sum) / (double)whole;
    for (uint32_t s = 0; s < n; s++)
        if (folds(s, whole * 0x1p-20))
            return it.kind = 1, it.site = s, it;
    for (uint32_t s = 0; s < n; s++)
        for (uint32_t i = offsets[s]; i < offsets[s + 1]; i++) {
            const double *c = vertices + 2 * indexes[i];
            if (c[0] < edges[0] || c[0] > edges[2] || c[1] < edges[1] || c[1] > edges[3])
                return it.kind = 2, it.site = s, it.vertex = indexes[i], it;
        }
    for (uint32_t s = 0; s < n; s++)
        for (uint32_t i = offsets[s]; i < offsets[s + 1]; i++)
            for (uint32_t j = all ? 0 : starts[s]; j < (all ? n : starts[s + 1]); j++)
                if (nearer(s, indexes[i], all ? j : others[j]))
                    return it.kind = 3, it.site = s, it.vertex = indexes[i], it.other = all ? j : others[j], it;
    if (absolute(it.missing) > 0x1p-20)
        return it.kind = 4, it;
    for (uint32_t s = 0; s < n; s++)
        for (uint32_t o = 0; o < s; o++)
            if (sites[2 * s] == sites[2 * o] && sites[2 * s + 1] == sites[2 * o + 1])
                return it.kind = 5, it.site = s, it.other = o, it;
    return it;
}

static Verdict ask(size_t starts_len, size_t others_len)
{
    Verdict it;
    uint32_t refused = voronoi_audit(box[0], box[1], box[2], box[3], sites, 2 * (size_t)n, vertices, 2 * (size_t)counts[VORONOI_COUNT_VERTICES], offsets, n + 1, indexes,
        offsets[n], starts, starts_len, others, others_len, VORONOI_AUDIT_BITS, &it.kind, &it.site, &it.vertex, &it.other, &it.missing);
    if (refused)
        fail("the audit refuses", 0, refused);
    return it;
}

/* ---- what else could have told */

static double apart(double x, double y, uint32_t s)
{
    return (double)(((Wide)x - sites[2 * s]) * ((Wide)x - sites[2 * s]) + ((Wide)y - sites[2 * s + 1]) * ((Wide)y - sites[2 * s + 1]));
}

static int owner_not_nearest(void)
{
    for (int k = 0; k < 4; k++) {
        uint32_t owner = counts[VORONOI_COUNT_OWNERS + k];
        double x = vertices[2 * (t + (uint32_t)k)], y = vertices[2 * (t + (uint32_t)k) + 1];
        for (uint32_t s = 0; owner < n && s < n; s++)
            if (apart(x, y, s) < apart(x, y, owner))
                return 1;
    }
    return 0;
}

static int without_piece(void)
{
    for (uint32_t s = 0; s < n; s++)
        if (offsets[s] == offsets[s + 1] && sites[2 * s] >= edges[0] && sites[2 * s] <= edges[2] && sites[2 * s + 1] >= edges[1] && sites[2 * s + 1] <= edges[3])
            return 1;
    return 0;
}

static int triangle_turned(void)
{
    for (uint32_t i = 0; i <= t; i++)
        thirds[i] = 3 * i;
    if (voronoi_areas(sites, 2 * (size_t)n, thirds, t + 1, triangles, 3 * t, areas, t) != 0)
        fail("areas of triangles are refused", 0, 0);
    for (uint32_t i = 0; i < t; i++)
        if (areas[i] <= 0)
            return 1;
    return 0;
}

static double most_beyond(void) /* how far a corner is beyond a bisector, over the box's sides, as the audit measures it */
{
    double most = 0;
    for (uint32_t s = 0; s < n; s++)
        for (uint32_t i = offsets[s]; i < offsets[s + 1]; i++)
            for (uint32_t o = 0; o < n; o++)
                if (o != s && beyond(s, indexes[i], o) > most * sides() * between(s, o))
                    most = beyond(s, indexes[i], o) / (sides() * between(s, o));
    return most;
}

/* ---- all of it */

enum { REFUSED, SOUND, SLIGHT, WRONG, CLASSES };
enum { TELLERS = 7 };
static const char *const families[FAMILIES] = {"uniform", "clustered", "grid", "turned", "damaged"};
static const char *const tellers[TELLERS] = {"lost corners", "a corner's owner not the nearest", "a site in the box without a piece", "the total alone",
    "triangles that turn the wrong way", "a corner nearer to another site", "the audit"};
static uint64_t classes[FAMILIES][CLASSES], kinds[CLASSES][6], told[TELLERS], told_unlost[TELLERS], exact, unlost, slight_named, otherwise;
static double most_passed, sound_beyond, wrong_beyond = 1;

static int same(Verdict a, Verdict b)
{
    double by = absolute(a.missing - b.missing); /* the second one's sums are not exact to the last bit */
    return a.kind == b.kind && a.site == b.site && a.vertex == b.vertex && a.other == b.other && by <= 0x1p-50 * absolute(a.missing) + 0x1p-90;
}

static void count(uint32_t class, Verdict it)
{
    double far = most_beyond();
    if (class == SOUND && far > sound_beyond)
        sound_beyond = far;
    if (class != WRONG)
        return;
    if (far > 0x1p-20 && far < wrong_beyond)
        wrong_beyond = far;
    const int said[TELLERS] = {counts[VORONOI_COUNT_LOST] != 0, owner_not_nearest(), without_piece(), absolute(it.missing) > 0x1p-20, triangle_turned(),
        far > 0x1p-20, it.kind != 0};
    unlost += !said[0];
    for (int i = 0; i < TELLERS; i++)
        told[i] += said[i] != 0, told_unlost[i] += said[i] && !said[0];
}

static void one(uint64_t build)
{
    uint32_t family = (uint32_t)(build % FAMILIES), class;
    set(family, (uint32_t)(build / FAMILIES % 8));
    uint32_t refused = voronoi_build(box[0], box[1], box[2], box[3], sites, 2 * (size_t)n, triangles, 3 * t, halfedges, 3 * t, hull, h, work, n, vertices,
        VORONOI_VERTEX_NUMBERS(t, h), indexes, VORONOI_INDEX_ROOM(t, h), offsets, n + 1, counts, VORONOI_COUNTS);
    if (refused) {
        classes[family][REFUSED]++;
        return;
    }
    edges[0] = vertices[2 * t], edges[1] = vertices[2 * t + 1], edges[2] = vertices[2 * t + 4], edges[3] = vertices[2 * t + 5]; /* the box's corners follow the centers */
    double by = off();
    class = by > 1e-6 ? WRONG : by > 1e-9 ? SLIGHT : SOUND;
    classes[family][class]++;
    if (voronoi_all_neighbours(sites, 2 * (size_t)n, triangles, 3 * t, halfedges, 3 * t, hull, h, 0, 0, 0, 0, work, n, starts, n + 1, others, VORONOI_NEIGHBOUR_ROOM(t, h)))
        fail("neighbours are refused", build, 0);
    Verdict all = ask(0, 0), near = ask(n + 1, starts[n]);
    if (!same(all, read_again(1)) || !same(near, read_again(0)))
        fail("a second reading has another verdict than this kind", build, all.kind);
    if (class == SOUND && (all.kind || near.kind))
        fail("a sound build is named", build, by);
    if (class == WRONG && (!all.kind || !near.kind))
        fail("a wrong build is passed", build, by);
    kinds[class][all.kind]++, otherwise += all.kind != near.kind;
    exact += class == SOUND && all.missing == 0, slight_named += class == SLIGHT && all.kind;
    if (all.kind == 0 && by > most_passed)
        most_passed = by;
    count(class, all);
}

int main(int argc, char **argv)
{
    uint64_t builds = 500, seed = 1, wrong = 0, sound = 0;
    if (argc > 3 || (argc > 1 && !number_of(argv[1], &builds)) || (argc > 2 && !number_of(argv[2], &seed)))
        return printf("audit_truth [BUILDS [SEED]]\n"), 2;
    state = seed * UINT64_C(0x9E3779B97F4A7C15) + 1;
    for (uint64_t i = 0; i < builds; i++)
        one(i);
    for (int f = 0; f < FAMILIES; f++) {
        uint64_t *c = classes[f];
        printf("%-10s %7lu refused %7lu sound %7lu slight %7lu wrong\n", families[f], (unsigned long)c[REFUSED], (unsigned long)c[SOUND], (unsigned long)c[SLIGHT],
            (unsigned long)c[WRONG]);
        wrong += c[WRONG], sound += c[SOUND];
    }
    printf("%lu of %lu sound builds add up to the box exactly; what was passed is off by at most %.1e of the box; %lu slight ones named\n", (unsigned long)exact,
        (unsigned long)sound, most_passed, (unsigned long)slight_named);
    printf("corners are beyond a bisector by at most %.1e of the sides in sound builds, by %.1e at least in the wrong ones that this tells\n", sound_beyond, wrong_beyond);
    printf("kinds of wrong builds: %lu %lu %lu %lu; another kind with neighbours: %lu\n", (unsigned long)kinds[WRONG][1], (unsigned long)kinds[WRONG][2],
        (unsigned long)kinds[WRONG][3], (unsigned long)kinds[WRONG][4], (unsigned long)otherwise);
    printf("of %lu wrong builds, and of the %lu that lost no corner, told by\n", (unsigned long)wrong, (unsigned long)unlost);
    for (int i = 0; i < TELLERS; i++)
        printf("  %-36s %7lu %7lu\n", tellers[i], (unsigned long)told[i], (unsigned long)told_unlost[i]);
    printf("audit: %lu builds against the truth, %lu failures\n", (unsigned long)builds, (unsigned long)failures);
    return failures > 0 || (builds >= 100 && (wrong == 0 || sound == 0));
}
