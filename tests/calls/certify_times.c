/* The time of a certificate beside the build's, the cutting's and the audit's, with neighbours and (up to 10,000 gauges) against all, on the same gauges: processor time
 * of one call in ms, the least of several, and the certificate's as ratios.
 *
 *   certify_times [GAUGES [ROUNDS]]    so many gauges, 2,000 unless it is given and 65,472 at most: uniform, whole metres, a strip of 1 : 1000, a crowd on a thousandth of the
 *                                      sheet, a lattice, uniform but for one that is a thousand sheets off; on a circle and round a hub, 4,000 at most; above that also a hub
 *                                      with all round it, where neither the build nor the audit is asked
 *
 * The meshes are mesh/triangulate.c's, the pieces that are certified and audited those by cutting. Every sheet must be certified; exit
 * status 1 where one is not, where the certificate of uniform gauges takes more than twice as long as the audit against all of them, or where a crowd's, or that with
 * one far off, takes more than four times as long as theirs (under the emulator a note).
 * The C library's headers are not used (tests/archive.sh says why). */
#include "../mesh/triangulate.h"
#include "../lent.h"
#include "../number.h"

enum { MOST = TRIANGULATE_MOST_GAUGES, SITES = TRIANGULATE_SITES(MOST), T = TRIANGULATE_TRIANGLES(MOST), H = TRIANGULATE_GHOSTS };
enum { UNIFORM, METRES, STRIP, CROWD, LATTICE, FAR, CIRCLE, HUB, LARGE_HUB, FAMILIES };
static const char *const families[FAMILIES] = {"uniform", "whole metres", "strip 1 : 1000", "crowd", "lattice", "one far off", "circle", "hub", "large hub"};

static double frame[4], sites[2 * SITES], vertices[VORONOI_VERTEX_NUMBERS(T, H)]; /* a build takes more than a cutting */
static uint32_t triangles[3 * T], halfedges[3 * T], hull[H], table[TRIANGULATE_WORK_ROOM(MOST)], indexes[VORONOI_CUT_INDEX_ROOM(T, H)], offsets[SITES + 1];
static uint32_t counts[VORONOI_COUNTS], starts[SITES + 1], others[VORONOI_NEIGHBOUR_ROOM(T, H)], work[VORONOI_CERTIFY_ROOM(SITES, 8 * SITES)];
static size_t n, most = 2000; /* gauges */
static uint64_t state = 88172645463325252u;
static int failures;

static double unit(void)
{
    state ^= state << 13, state ^= state >> 7, state ^= state << 17;
    return (double)(state >> 11) * 0x1p-53;
}

/* a place of the unit circle, the more of them the closer */
static void on_circle(size_t k, size_t of, double *x, double *y)
{
    double u = (double)(k % (of / 4)) / (double)(of / 4), c = (1 - u * u) / (1 + u * u), s = 2 * u / (1 + u * u);
    size_t q = k / (of / 4);
    *x = q == 0 ? c : q == 1 ? -s : q == 2 ? -c : s, *y = q == 0 ? s : q == 1 ? c : q == 2 ? -s : -c;
}

static void gauges(int family)
{
    const double edges[4] = {300000, 5800000, 400000, 5900000};
    n = (family == CIRCLE || family == HUB) && most > 4000 ? 4000 : most;
    for (int k = 0; k < 4; k++)
        frame[k] = edges[k];
    if (family == STRIP)
        frame[3] = frame[1] + 100;
    for (size_t s = 0; s < n; s++) {
        double x = unit(), y = unit();
        if (family == CROWD && s >= n / 100)
            x = .5 + x / 32, y = .5 + y / 32;
        if (family == LATTICE)
            x = ((double)(s % 256) + .5) / 256, y = ((double)(s / 256) + .5) / 256;
        if (family == FAR && s == n / 2)
            x = 1000;
        if (family >= CIRCLE) {
            on_circle(family == CIRCLE ? s : s - (s > 0), family == CIRCLE ? n : n - n % 4, &x, &y);
            x = .5 + .45 * x, y = .5 + .45 * y;
        }
        if (family >= HUB && s == 0)
            x = y = .5;
        sites[2 * s] = frame[0] + x * (frame[2] - frame[0]), sites[2 * s + 1] = frame[1] + y * (frame[3] - frame[1]);
        if (family == METRES) /* no two on one metre: a row and a column of its own square of 390 m */
            sites[2 * s] = frame[0] + 390 * (double)(s % 256) + (double)(int)(390 * x), sites[2 * s + 1] = frame[1] + 390 * (double)(s / 256) + (double)(int)(390 * y);
    }
}

typedef struct {
    double build, cut, certify, audit, all;
} Times;

static void least(double *of, long began)
{
    double ms = (double)(clock() - began) / 1e3;
    *of = *of == 0 || ms < *of ? ms : *of;
}

#define MESH sites, 2 * (n + H), triangles, 3 * t, halfedges, 3 * t, hull, H
#define EDGES frame[0], frame[1], frame[2], frame[3]

static void told(const char *what, const char *family, uint32_t answer, uint32_t kind, uint32_t site)
{
    if (answer || kind)
        printf("FAILED: %s of %s answers %u, kind %u at %u\n", what, family, answer, kind, site), failures++;
}

static void round_of(int family, Times *times)
{
    size_t t = TRIANGULATE_TRIANGLES(n);
    uint32_t kind = 0, site = 0, vertex, other, count, number;
    double missing;
    int asked = family != LARGE_HUB; /* neither the build nor the audit of a hub of 65,471, which take minutes */
    long began;
    for (int way = !asked; way < 2; way++) { /* the build with its audit, then the cutting with its certificate */
        began = clock();
        number = way ? voronoi_cut_by_edges(EDGES, MESH, table, n + H, vertices, VORONOI_CUT_VERTEX_NUMBERS(t, H), indexes, VORONOI_CUT_INDEX_ROOM(t, H), offsets, n + H + 1, &count)
                     : voronoi_build_by_edges(EDGES, MESH, table, n + H, vertices, VORONOI_VERTEX_NUMBERS(t, H), indexes, VORONOI_INDEX_ROOM(t, H), offsets, n + H + 1, counts, VORONOI_COUNTS);
        least(way ? &times->cut : &times->build, began);
        if (number == VORONOI_REFUSED_NO_CROSSING && !way)
            continue; /* gauges on whole metres: the time is up to the refusal */
        told(way ? "the cutting" : "the build", families[family], number, 0, 0);
    }
    began = clock();
    number = voronoi_certify_by_edges(EDGES, sites, 2 * (n + H), vertices, 2 * (size_t)count, offsets, n + H + 1, indexes, offsets[n + H], VORONOI_CERTIFY_BITS, work,
        VORONOI_CERTIFY_ROOM(n + H, offsets[n + H]), &kind, &site, &vertex, &other);
    least(&times->certify, began);
    told("the certificate", families[family], number, kind, site);
    if (!asked)
        return;
    if (voronoi_all_neighbours(MESH, 0, 0, 0, 0, table, n + H, starts, n + H + 1, others, VORONOI_NEIGHBOUR_ROOM(t, H)))
        printf("FAILED: no neighbours\n"), failures++;
    began = clock();
    number = voronoi_audit_by_edges(EDGES, sites, 2 * (n + H), vertices, 2 * (size_t)count, offsets, n + H + 1, indexes, offsets[n + H], starts, n + H + 1, others, starts[n + H],
        VORONOI_AUDIT_BITS, &kind, &site, &vertex, &other, &missing);
    least(&times->audit, began);
    told("the audit", families[family], number, kind, site);
    if (n > 10000)
        return;
    began = clock();
    number = voronoi_audit_by_edges(EDGES, sites, 2 * (n + H), vertices, 2 * (size_t)count, offsets, n + H + 1, indexes, offsets[n + H], 0, 0, 0, 0, VORONOI_AUDIT_BITS, &kind, &site,
        &vertex, &other, &missing);
    least(&times->all, began);
    told("the audit against all", families[family], number, kind, site);
}

static void late(const char *than)
{
#ifdef EMULATED
    printf("note: more than %s, but under the emulator a time says nothing\n", than);
#else
    printf("FAILED: the certificate takes more than %s\n", than), failures++;
#endif
}

int main(int words, char **word)
{
    uint64_t rounds = 1, given = 2000;
    double uniform = 0;
    if (!count_and_seed(words, word, &given, &rounds) || given < 100 || given > MOST)
        return printf("certify_times [GAUGES [ROUNDS]]\n"), 2;
    most = given - given % 4;
    printf("%-16s%8s%10s%10s%10s%10s%10s%10s%10s%10s\n", "ms", "gauges", "build", "cut", "certify", "audit", "all", "/ build", "/ audit", "/ all");
    for (int f = 0; f < FAMILIES - (most <= 4000); f++) {
        Times times = {0, 0, 0, 0, 0};
        uint32_t first, second;
        gauges(f);
        if (triangulate_gauges(frame, sites, 2 * (n + H), triangles, 3 * TRIANGULATE_TRIANGLES(n), halfedges, 3 * TRIANGULATE_TRIANGLES(n), hull, H, table, TRIANGULATE_WORK_ROOM(n), 0, 0, &first, &second))
            return printf("FAILED: no mesh of %s, %u %u\n", families[f], first, second), 1;
        for (uint64_t k = 0; k < rounds; k++)
            round_of(f, &times);
        printf("%-16s%8lu%10.1f%10.1f%10.1f%10.1f%10.1f", families[f], (unsigned long)n, times.build, times.cut, times.certify, times.audit, times.all);
        for (int k = 0; k < 3; k++) {
            double by = k == 0 ? times.build : k == 1 ? times.audit : times.all;
            if (by > 0)
                printf("%10.2f", times.certify / by);
        }
        printf("\n");
        if (f == UNIFORM)
            uniform = times.certify;
        if (f == UNIFORM && times.all > 0 && times.certify > 2 * times.all)
            late("twice as long as the audit against all gauges");
        if ((f == CROWD || f == FAR) && times.certify > 4 * uniform)
            late("four times as long as with uniform gauges");
    }
    return failures > 0;
}
