/* mesh/triangulate.c held to what its header says. Exit status 1 where something differs.
 *
 *   triangulate refusals              each answer, with what comes after it broken too, and each lent slice to its last element
 *   triangulate families SEEDS        every family of gauges: see `sound` and `moved` below
 *   triangulate fuzz SECONDS [SEED]   the same of random lists, numbers of all sizes among them, for so long; the last list is told
 *   triangulate write FAMILY N SEED   a mesh in bytes, for tests/callers/triangulate.py: N, T, the sites, triangles, halfedges, hull
 *   triangulate signs COUNT SEED      lines of two signs and eight patterns: turn and circle of four places, for the same
 *   triangulate stop N                how long a call goes on after `stop` would have said so, at worst, in each family
 *
 * The file itself is read in here, so that its two signs can be asked. */
#include <math.h>
#include <stdio.h>
#include <stdlib.h>
#include <string.h>
#include <time.h>

#include "../mesh/triangulate.c"
#include "voronoi.h"

enum { MOST = TRIANGULATE_MOST_GAUGES, SPARE = 3 };
#define HELD 0xA5A5A5A5u

static double sites[2 * TRIANGULATE_SITES(MOST)], frame[4];
static uint32_t triangles[3 * TRIANGULATE_TRIANGLES(MOST) + SPARE], halfedges[3 * TRIANGULATE_TRIANGLES(MOST) + SPARE];
static uint32_t hull[TRIANGULATE_GHOSTS + SPARE], work[TRIANGULATE_WORK_ROOM(MOST) + SPARE], was[MOST + SPARE], seen[TRIANGULATE_SITES(MOST)];
static size_t n; /* gauges */
static unsigned long failures;

static void fail(const char *what, unsigned long where)
{
    if (failures++ < 20)
        printf("FAILED: %s, at %lu of %zu gauges\n", what, where, n);
}

/* ---- chance */

static uint64_t state = 1;

static uint64_t chance(void)
{
    state ^= state << 13;
    state ^= state >> 7;
    state ^= state << 17;
    return state * 0x2545F4914F6CDD1Du;
}

static uint64_t below(uint64_t m) { return chance() % m; }
static double unit(void) { return (double)(chance() >> 11) * 0x1p-53; }
static double either(double x) { return below(2) ? x : -x; }

/* ---- the families */

enum { UNIFORM, UTM, GRID, LATTICE, RINGS, LINE, SLANT, NEAR_LINE, CLUSTERS, DEGREES, TENS, SCALES, HUB, WHEEL, FAR_OFF, FAMILIES };
static const char *const family_names[FAMILIES] = { "uniform", "decimetres in UTM", "10 m grid", "lattice", "circle", "line", "slanting line", "near a line",
    "clusters", "degrees", "tens about the box", "many scales", "circle and hub", "exact circle", "far from 0" };

static void set_frame(double left, double top, double right, double bottom)
{
    frame[0] = left, frame[1] = top, frame[2] = right, frame[3] = bottom;
}

/* Gauge i of so many. */
static void place(int family, size_t i, size_t of, double *x, double *y)
{
    double turned = 6.283185307179586 * (double)i / (double)of, along;
    size_t side = (size_t)ceil(sqrt((double)of));
    switch (family) {
    case UNIFORM: *x = 1000 * unit(), *y = 1000 * unit(); break;
    case UTM: *x = 320000 + (double)below(1100000) / 10, *y = 5800000 + (double)below(900000) / 10; break;
    case GRID: *x = 10 * (double)below(side + 1), *y = 10 * (double)below(side + 1); break;
    case LATTICE: *x = 50 * (double)(i % side) - 175, *y = 50 * (double)(i / side) - 175; break;
    case RINGS: *x = 350000 + 40000 * cos(turned), *y = 5850000 + 40000 * sin(turned); break;
    case LINE: *x = 3 * (double)i, *y = 500; break;
    case SLANT: *x = 3 * (double)i + 1, *y = 5 * (double)i - 7; break;
    case NEAR_LINE: *x = 100 * unit(), *y = .5 * *x + 10 + 1e-9 * unit(); break;
    case CLUSTERS: along = pow(unit(), 8) * 300, *x = 150 + 170 * (double)(i % 5) + along * cos(turned * 5), *y = 500 + along * sin(turned * 5); break;
    case DEGREES: *x = 5 + (double)below(1000000) / 1e6, *y = 50 + (double)below(1000000) / 1e6; break;
    case TENS: *x = 10 * (double)below(side + 2) - 10, *y = 10 * (double)below(side + 2) - 10; break;
    case SCALES: *x = either(ldexp(1 + unit(), (int)below(40) - 20)), *y = either(ldexp(1 + unit(), (int)below(40) - 20)); break;
    case HUB: *x = i ? 350000 + 40000 * cos(turned) : 350001, *y = i ? 5850000 + 40000 * sin(turned) : 5850002; break;
    case WHEEL: { /* whole places on circles of radius 5, 25, 125, ..: 3 4 5 turned */
        static const int whole[12][2] = { {5, 0}, {4, 3}, {3, 4}, {0, 5}, {-3, 4}, {-4, 3}, {-5, 0}, {-4, -3}, {-3, -4}, {0, -5}, {3, -4}, {4, -3} };
        *x = ldexp(whole[i % 12][0], (int)(i / 12 % 40)), *y = ldexp(whole[i % 12][1], (int)(i / 12 % 40));
        break;
    }
    default: *x = 0x1p80 + ldexp((double)below(4096), 28), *y = -0x1p80 + ldexp((double)below(4096), 28); break;
    }
}

static int by_place(const void *a, const void *b)
{
    const double *p = a, *q = b;
    return p[0] != q[0] ? (p[0] > q[0]) - (p[0] < q[0]) : (p[1] > q[1]) - (p[1] < q[1]);
}

/* So many gauges of a family, or fewer: none stands where another does, and they are in no order. */
static void set_gauges(int family, size_t of, uint64_t seed)
{
    size_t kept = 1;
    state = seed * 0x9E3779B97F4A7C15u + 1;
    n = of;
    for (size_t i = 0; i < n; i++)
        place(family, i, n, &sites[2 * i], &sites[2 * i + 1]);
    qsort(sites, n, 2 * sizeof(double), by_place);
    for (size_t i = 1; i < n; i++)
        if (by_place(sites + 2 * i, sites + 2 * (kept - 1)))
            sites[2 * kept] = sites[2 * i], sites[2 * kept + 1] = sites[2 * i + 1], kept++;
    n = kept;
    for (size_t i = n; i > 1; i--) {
        size_t j = below(i);
        for (int k = 0; k < 2; k++) {
            double other = sites[2 * j + k];
            sites[2 * j + k] = sites[2 * (i - 1) + k], sites[2 * (i - 1) + k] = other;
        }
    }
    switch (family) {
    case UTM: set_frame(320000, 5800000, 430000, 5890000); break;
    case RINGS:
    case HUB: set_frame(300000, 5800000, 400000, 5900000); break;
    case DEGREES: set_frame(5, 50, 6, 51); break;
    case FAR_OFF: set_frame(0x1p80, -0x1p80, 0x1p80 + 0x1p30, 0x1p30 - 0x1p80); break;
    default: set_frame(0, 0, 1000, 1000); break;
    }
}

/* ---- a mesh looked at */

#define LISTS(spare) sites, 2 * TRIANGULATE_SITES(n), triangles, 3 * TRIANGULATE_TRIANGLES(n) + (spare), halfedges, 3 * TRIANGULATE_TRIANGLES(n) + (spare), hull, \
    TRIANGULATE_GHOSTS + (spare)
#define WORK(spare) work, TRIANGULATE_WORK_ROOM(n) + (spare)
#define LENT(spare) LISTS(spare), WORK(spare)

static uint32_t make(uint32_t *first, uint32_t *second)
{
    return triangulate_gauges(frame, LENT(0), NULL, NULL, first, second);
}

/* Every triangle turns as it must and every edge passes the exact test of Delaunay; each site stands in a triangle; the library takes the mesh. */
static void sound(void)
{
    size_t s = TRIANGULATE_SITES(n), length = 3 * TRIANGULATE_TRIANGLES(n), open = 0;
    memset(seen, 0, sizeof(uint32_t) * s);
    for (size_t e = 0; e < length; e++) {
        if (triangles[e] >= s)
            return fail("a triangle names no site", e);
        seen[triangles[e]]++;
        if (halfedges[e] == NONE) {
            open++;
            if (triangles[e] < n || triangles[next((uint32_t)e)] < n)
                fail("a gauge on the hull", e);
        } else if (halfedges[e] >= length || halfedges[halfedges[e]] != e)
            return fail("a pair", e);
    }
    for (size_t i = 0; i < s; i++)
        if (!seen[i])
            fail("a site in no triangle", i);
    if (open != TRIANGULATE_GHOSTS)
        fail("the hull's half-edges", open);
    for (size_t e = 0; e < length; e++) {
        const double *a = sites + 2 * triangles[e], *b = sites + 2 * triangles[next((uint32_t)e)], *c = sites + 2 * triangles[previous((uint32_t)e)];
        if (e % 3 == 0 && turn(a, b, c) >= 0)
            fail("a triangle that turns the other way", e);
        if (e % 3 == 0 && triangles[e] >= n)
            fail("a triangle that begins with a ghost", e);
        if (halfedges[e] != NONE && circle(a, b, c, sites + 2 * triangles[previous(halfedges[e])]) < 0)
            fail("an edge that is not Delaunay", e);
    }
    uint32_t number = voronoi_check(sites, 2 * s, triangles, length, halfedges, length, hull, TRIANGULATE_GHOSTS, work, VORONOI_WORK_ROOM(s));
    if (number)
        fail("the library's check", number);
}

static double as_given[2 * TRIANGULATE_SITES(MOST)];
static uint32_t as_made[3 * TRIANGULATE_TRIANGLES(MOST)], as_paired[3 * TRIANGULATE_TRIANGLES(MOST)];

/* The same gauges once more, moved to their order: each stands where it stood, once, and the mesh is the one that there is already but for the numbers. */
static void moved(void)
{
    size_t s = TRIANGULATE_SITES(n), length = 3 * TRIANGULATE_TRIANGLES(n);
    uint32_t first, second;
    memcpy(as_given, sites, sizeof(double) * 2 * s);
    memcpy(as_made, triangles, sizeof(uint32_t) * length), memcpy(as_paired, halfedges, sizeof(uint32_t) * length);
    if (triangulate_in_order(frame, LISTS(0), was, n, WORK(0), NULL, NULL, &first, &second))
        return fail("the answer in order", n);
    memset(seen, 0, sizeof(uint32_t) * n);
    for (size_t i = 0; i < s; i++) {
        size_t from = i < n ? was[i] : i;
        if (from >= s || (i < n && (from >= n || seen[from]++)) || memcmp(sites + 2 * i, as_given + 2 * from, 2 * sizeof(double)))
            return fail("a gauge that was moved", i);
    }
    for (size_t e = 0; e < length; e++)
        if ((triangles[e] < n ? was[triangles[e]] : triangles[e]) != as_made[e] || halfedges[e] != as_paired[e])
            return fail("the mesh in order", e);
}

/* Every place of the box is nearer to each gauge than to a ghost: its corners are enough, as what is nearer is convex. */
static void ghosts_are_far(void)
{
    for (int c = 0; c < 4; c++) {
        double x = frame[c & 1 ? 2 : 0], y = frame[c & 2 ? 3 : 1], gauge = 0, ghost = INFINITY;
        for (size_t i = 0; i < TRIANGULATE_SITES(n); i++) {
            double far = hypot(sites[2 * i] - x, sites[2 * i + 1] - y);
            if (i < n)
                gauge = far > gauge ? far : gauge;
            else
                ghost = far < ghost ? far : ghost;
        }
        if (!(gauge * 1.5 < ghost))
            fail("a ghost near a corner", (unsigned long)c);
    }
}

/* ---- the words */

static double seconds(void)
{
    struct timespec now;
    clock_gettime(CLOCK_PROCESS_CPUTIME_ID, &now);
    return (double)now.tv_sec + (double)now.tv_nsec * 1e-9;
}

static void families(unsigned long seeds)
{
    static const size_t sizes[] = { 1, 2, 3, 4, 5, 12, 60, 200, 1000, 5000 };
    unsigned long meshes = 0, edges = 0;
    for (int family = 0; family < FAMILIES; family++)
        for (size_t k = 0; k < sizeof sizes / sizeof *sizes; k++)
            for (unsigned long seed = 1; seed <= (sizes[k] < 1000 ? seeds : 1 + seeds / 20); seed++) {
                uint32_t first, second, number;
                unsigned long before = failures;
                set_gauges(family, sizes[k], seed);
                if ((number = make(&first, &second)))
                    fail("the answer", number);
                else
                    sound(), ghosts_are_far(), moved();
                if (failures > before)
                    printf("  in %s, seed %lu\n", family_names[family], seed);
                meshes++, edges += 3 * TRIANGULATE_TRIANGLES(n);
            }
    printf("triangulate: %lu meshes in %d families, %lu half-edges: each passes the exact test, voronoi_check takes each mesh\n", meshes, FAMILIES, edges);
}

static double any_number(int kind)
{
    switch (kind) {
    case 0: return either(ldexp(1 + unit(), (int)below(40) - 20));
    case 1: return either(ldexp(1, (int)below(294) - 200));
    case 2: return below(3) ? (double)below(8) : 0;
    case 3: return 1e6 + ldexp((double)below(64), -30);
    case 4: return either(ldexp(1 + unit(), (int)below(293) - 200));
    case 5: return 5.8e6 + (double)below(20) * .1;
    case 6: return 0x1p-200 + ldexp((double)below(8), -252);
    case 7: return either(0x1p94 - ldexp((double)below(8), 41));
    default: return either(unit() * 1e5);
    }
}

static void fuzz(double limit, uint64_t seed)
{
    double began = seconds();
    unsigned long meshes = 0, twins = 0, boxes = 0;
    state = seed * 0x9E3779B97F4A7C15u + 1;
    while (seconds() - began < limit) {
        uint64_t kept = state;
        int kind = (int)below(9);
        uint32_t first, second, number;
        unsigned long before = failures;
        n = 1 + below(below(8) ? 60 : 600);
        for (size_t i = 0; i < 2 * n; i++)
            sites[i] = any_number(below(32) ? kind : (int)below(9));
        for (int i = 0; i < 2; i++) {
            double a = any_number(kind), b = any_number(kind);
            frame[i] = a < b ? a : b, frame[i + 2] = a < b ? b : a;
        }
        number = make(&first, &second);
        if (number == TRIANGULATE_TWIN) {
            if (first >= second || second >= n || sites[2 * first] != sites[2 * second] || sites[2 * first + 1] != sites[2 * second + 1])
                fail("twins that are none", first);
            twins++;
        } else if (number == TRIANGULATE_REFUSED_BOX && !(frame[0] < frame[2] && frame[1] < frame[3]))
            boxes++;
        else if (number)
            fail("the answer", number);
        else
            sound(), moved(), meshes++;
        if (failures > before)
            printf("  kind %d, state %llu\n", kind, (unsigned long long)kept);
    }
    printf("triangulate: %lu random lists in %.0f s: each mesh passes; %lu more had twins, %lu no box\n", meshes, seconds() - began, twins, boxes);
}

static int never(void *with)
{
    ++*(unsigned long *)with;
    return 0;
}

static int at_once(void *with)
{
    (void)with;
    return 1;
}

static void held(const char *what, const uint32_t *list, size_t length, uint32_t with)
{
    for (size_t i = 0; i < length; i++)
        if (list[i] != with)
            return fail(what, i);
}

/* What is asked with so much less of each length: the answer, and whether everything is as it was. */
static void refused(const char *what, uint32_t must, size_t odd, size_t less_t, size_t less_e, size_t less_h, size_t less_w, uint32_t names)
{
    static double before[2 * TRIANGULATE_SITES(64)];
    size_t length = 3 * TRIANGULATE_TRIANGLES(n);
    uint32_t first = 7, second = 7;
    memcpy(before, sites, sizeof before);
    memset(triangles, 0xA5, sizeof(uint32_t) * length), memset(halfedges, 0xA5, sizeof(uint32_t) * length);
    memset(hull, 0xA5, sizeof hull), memset(work, 0xA5, sizeof(uint32_t) * TRIANGULATE_WORK_ROOM(n)), memset(was, 0xA5, sizeof(uint32_t) * n);
    for (int in_order = 0; in_order < 2; in_order++) {
        uint32_t number = triangulate_in_order(frame, sites, 2 * TRIANGULATE_SITES(n) - odd, triangles, length - less_t, halfedges, length - less_e, hull,
            TRIANGULATE_GHOSTS - less_h, in_order ? was : NULL, in_order ? n : 0, work, TRIANGULATE_WORK_ROOM(n) - less_w, NULL, NULL, &first, &second);
        if (number != must || first != names || second != NONE)
            fail(what, number);
    }
    held(what, was, n, HELD), held(what, triangles, length, HELD), held(what, halfedges, length, HELD), held(what, hull, TRIANGULATE_GHOSTS, HELD);
    held(what, work, TRIANGULATE_WORK_ROOM(n), HELD);
    if (memcmp(before, sites, sizeof before))
        fail(what, 0);
}

static void refusals(void)
{
    static const double wrong[] = { NAN, INFINITY, -INFINITY, 0x1.0000000000001p94, -1e36, 1e-300, -0x1.fffffffffffffp-201, 5e-324 };
    uint32_t first, second;
    unsigned long calls = 0;
    set_gauges(UNIFORM, 40, 1);
    size_t length = 3 * TRIANGULATE_TRIANGLES(n);
    refused("an odd list", 1, 1, 1, 1, 1, 1, NONE);
    refused("no gauge", 1, 2 * n, 1, 1, 1, 1, NONE);
    refused("no sites", 1, 2 * TRIANGULATE_SITES(n), 1, 1, 1, 1, NONE);
    frame[0] = NAN, sites[9] = NAN;
    refused("triangles too short", 2, 0, 1, 0, 0, 0, NONE);
    refused("half-edges too short", 2, 0, 0, 1, 0, 0, NONE);
    refused("hull too short", 2, 0, 0, 0, 1, 0, NONE);
    refused("work too short", 2, 0, 0, 0, 0, 1, NONE);
    if (triangulate_in_order(frame, LISTS(0), was, n - 1, WORK(0), NULL, NULL, &first, &second) != 2)
        fail("the order too short", 0);
    for (size_t k = 0; k < sizeof wrong / sizeof *wrong; k++)
        for (int i = 0; i < 4; i++) {
            set_frame(0, 0, 1000, 1000), frame[i] = wrong[k];
            refused("the box", 3, 0, 0, 0, 0, 0, NONE);
        }
    set_frame(0, 0, 0, 1), refused("no width", 3, 0, 0, 0, 0, 0, NONE);
    set_frame(0, 1, 1, 0), refused("upside down", 3, 0, 0, 0, 0, 0, NONE);
    set_frame(0, 0, 1000, 1000);
    for (size_t k = 0; k < sizeof wrong / sizeof *wrong; k++) {
        set_gauges(UNIFORM, 40, 1);
        sites[2 * 33] = NAN, sites[2 * 17 + k % 2] = wrong[k];
        refused("a coordinate", 6, 0, 0, 0, 0, 0, 17);
    }
    set_gauges(UNIFORM, 40, 1);
    sites[2 * 38] = sites[2 * 21], sites[2 * 38 + 1] = sites[2 * 21 + 1];
    if (make(&first, &second) != TRIANGULATE_TWIN || first != 21 || second != 38)
        fail("twins", first);
    held("twins", triangles, length, NONE), held("twins", halfedges, length, NONE), held("twins", hull, TRIANGULATE_GHOSTS, NONE);
    if (triangulate_in_order(frame, LISTS(0), was, n, WORK(0), NULL, NULL, &first, &second) != TRIANGULATE_TWIN || first >= second || was[first] != 21 || was[second] != 38)
        fail("twins in order", first);
    set_gauges(LINE, 2, 1), sites[0] = -0.0, sites[2] = 0.0, sites[1] = sites[3] = 5;
    if (make(&first, &second) != TRIANGULATE_TWIN || first != 0 || second != 1)
        fail("twins at 0 and -0", first);
    set_gauges(UNIFORM, 3000, 1), length = 3 * TRIANGULATE_TRIANGLES(n);
    if (triangulate_gauges(frame, LENT(0), at_once, NULL, &first, &second) != TRIANGULATE_STOPPED || first != NONE || second != NONE)
        fail("a stop", 0);
    held("a stop", triangles, length, NONE), held("a stop", halfedges, length, NONE), held("a stop", hull, TRIANGULATE_GHOSTS, NONE);
    memset(triangles, 0xA5, sizeof triangles), memset(halfedges, 0xA5, sizeof halfedges), memset(hull, 0xA5, sizeof hull), memset(work, 0xA5, sizeof work);
    if (triangulate_gauges(frame, LENT(SPARE), never, &calls, &first, &second) || calls < 2)
        fail("no stop", calls);
    held("past the triangles", triangles + length, SPARE, HELD), held("past the half-edges", halfedges + length, SPARE, HELD);
    held("past the hull", hull + TRIANGULATE_GHOSTS, SPARE, HELD), held("past the work", work + TRIANGULATE_WORK_ROOM(n), SPARE, HELD);
    sound(), moved();
    held("past the order", was + n, SPARE, 0);
    set_gauges(UNIFORM, MOST, 1);
    if (n != MOST || make(&first, &second))
        fail("as many as are taken", n);
    sound();
    if (triangulate_gauges(frame, sites, 2 * TRIANGULATE_SITES(MOST) + 2, triangles, 0, halfedges, 0, hull, 0, work, 0, NULL, NULL, &first, &second) != 1)
        fail("one more", n);
    puts("triangulate: each answer, and each lent slice after it");
}

static void write_mesh(int family, size_t of, uint64_t seed)
{
    uint32_t first, second, head[2];
    set_gauges(family, of, seed);
    if (make(&first, &second))
        exit(1);
    head[0] = (uint32_t)n, head[1] = (uint32_t)TRIANGULATE_TRIANGLES(n);
    fwrite(head, sizeof *head, 2, stdout);
    fwrite(sites, sizeof *sites, 2 * TRIANGULATE_SITES(n), stdout);
    fwrite(triangles, sizeof *triangles, 3 * TRIANGULATE_TRIANGLES(n), stdout);
    fwrite(halfedges, sizeof *halfedges, 3 * TRIANGULATE_TRIANGLES(n), stdout);
    fwrite(hull, sizeof *hull, TRIANGULATE_GHOSTS, stdout);
}

/* Four places of one kind; often the fourth is where three others of a parallelogram or a rectangle put it, or a last bit beside. */
static void signs(unsigned long count, uint64_t seed)
{
    state = seed * 0x9E3779B97F4A7C15u + 1;
    while (count--) {
        double p[8];
        int kind = (int)below(9), how = (int)below(4);
        for (int i = 0; i < 8; i++)
            p[i] = any_number(kind);
        if (how == 1)
            p[2] = p[0], p[7] = p[1], p[4] = p[6], p[5] = p[3]; /* a rectangle */
        if (how == 2)
            p[4] = p[0] + (p[2] - p[0]) * 2, p[5] = p[1] + (p[3] - p[1]) * 2; /* on a line, nearly */
        if (how && below(2)) {
            int i = (int)below(8);
            p[i] = nextafter(p[i], either(INFINITY));
        }
        int inside = 1;
        for (int i = 0; i < 8; i++)
            inside = inside && is_coordinate(p[i]);
        if (!inside)
            continue;
        printf("%d %d", turn(p, p + 2, p + 4), circle(p, p + 2, p + 4, p + 6));
        for (int i = 0; i < 8; i++) {
            uint64_t pattern;
            memcpy(&pattern, p + i, 8);
            printf(" %016llx", (unsigned long long)pattern);
        }
        puts("");
    }
}

static double last_look, longest;

static int look(void *with)
{
    double now = seconds();
    (void)with;
    longest = now - last_look > longest ? now - last_look : longest;
    last_look = now;
    return 0;
}

static void stops(size_t of)
{
    for (int family = 0; family < FAMILIES; family++) {
        uint32_t first, second;
        set_gauges(family, of, 1);
        double began = last_look = seconds();
        longest = 0;
        uint32_t number = triangulate_gauges(frame, LENT(0), look, NULL, &first, &second);
        look(NULL);
        printf("  %-20s %6zu gauges %8.1f ms, %6.1f ms from one look to the next at most\n", family_names[family], n, 1e3 * (last_look - began), 1e3 * longest);
        if (number || longest > .5)
            fail("a stop that comes late", (unsigned long)(1e3 * longest));
    }
}

int main(int count, char **words)
{
    const char *word = count > 1 ? words[1] : "";
    unsigned long number = count > 2 ? strtoul(words[2], NULL, 10) : 0;
    if (!strcmp(word, "refusals"))
        refusals();
    else if (!strcmp(word, "families") && count == 3)
        families(number);
    else if (!strcmp(word, "fuzz") && count >= 3)
        fuzz((double)number, count > 3 ? strtoull(words[3], NULL, 10) : (uint64_t)time(NULL));
    else if (!strcmp(word, "write") && count == 5 && number < FAMILIES)
        write_mesh((int)number, strtoul(words[3], NULL, 10), strtoull(words[4], NULL, 10));
    else if (!strcmp(word, "signs") && count == 4)
        signs(number, strtoull(words[3], NULL, 10));
    else if (!strcmp(word, "stop") && count == 3)
        stops(number);
    else
        return fputs("triangulate refusals | families SEEDS | fuzz SECONDS [SEED] | write FAMILY N SEED | signs COUNT SEED | stop N\n", stderr), 2;
    if (failures)
        printf("triangulate: %lu FAILED\n", failures);
    return failures != 0;
}
