/* The triangulator beside Qhull and GEOS: the processor time of each on the same gauges, in one run, in turn. From the repository (Debian packages libqhull-dev, libgeos-dev):
 *
 *   gcc -O2 -o target/measure mesh/measure.c mesh/triangulate.c -lqhull_r -lgeos_c -lm && target/measure 1000 10000 65472
 *
 * Of each number of gauges, uniform on a sheet of 100 by 100 km in map coordinates: the least of several rounds, in ms, and how many times as long as ours. Qhull gets the
 * options that SciPy gives it, and the gauges moved to 0 and scaled, as it asks for; GEOS gives coordinates back and no numbers of gauges, which is left to its caller. */
#define _GNU_SOURCE
#include <geos_c.h>
#include <libqhull_r/qhull_ra.h>
#include <stdio.h>
#include <stdlib.h>
#include <time.h>

#include "triangulate.h"

static double now(void)
{
    struct timespec at;
    clock_gettime(CLOCK_PROCESS_CPUTIME_ID, &at);
    return 1e3 * (double)at.tv_sec + 1e-6 * (double)at.tv_nsec;
}

static void *room(size_t bytes)
{
    void *block = malloc(bytes);
    if (!block)
        exit(2);
    return block;
}

static const double frame[4] = { 300000, 5800000, 400000, 5900000 };

static double ours(double *sites, size_t n)
{
    size_t length = 3 * TRIANGULATE_TRIANGLES(n);
    uint32_t *lists = room(sizeof(uint32_t) * (2 * length + TRIANGULATE_GHOSTS + TRIANGULATE_WORK_ROOM(n))), *hull = lists + 2 * length, first, second;
    double began = now();
    if (triangulate_gauges(frame, sites, 2 * TRIANGULATE_SITES(n), lists, length, lists + length, length, hull, TRIANGULATE_GHOSTS, hull + TRIANGULATE_GHOSTS,
            TRIANGULATE_WORK_ROOM(n), NULL, NULL, &first, &second))
        exit(1);
    double ended = now();
    free(lists);
    return ended - began;
}

static double by_qhull(const double *sites, size_t n)
{
    double *moved = room(sizeof(double) * 2 * n), began = now();
    for (size_t i = 0; i < 2 * n; i++)
        moved[i] = (sites[i] - (i % 2 ? 5850000 : 350000)) / 50000;
    FILE *null = fopen("/dev/null", "w");
    qhT state, *qh = &state;
    int kept, total;
    qh_zero(qh, null);
    if (qh_new_qhull(qh, 2, (int)n, moved, False, (char *)"qhull d Qbb Qc Qz Q12 Qt", null, null))
        exit(1);
    double ended = now();
    qh_freeqhull(qh, !qh_ALL);
    qh_memfreeshort(qh, &kept, &total);
    fclose(null);
    free(moved);
    return ended - began;
}

static double by_geos(GEOSContextHandle_t geos, const double *sites, size_t n)
{
    GEOSCoordSequence *list = GEOSCoordSeq_create_r(geos, (unsigned)n, 2);
    for (size_t i = 0; i < n; i++)
        GEOSCoordSeq_setXY_r(geos, list, (unsigned)i, sites[2 * i], sites[2 * i + 1]);
    GEOSGeometry *line = GEOSGeom_createLineString_r(geos, list);
    double began = now();
    GEOSGeometry *triangles = GEOSDelaunayTriangulation_r(geos, line, 0, 0);
    double ended = now();
    if (!triangles)
        exit(1);
    GEOSGeom_destroy_r(geos, triangles);
    GEOSGeom_destroy_r(geos, line);
    return ended - began;
}

int main(int count, char **words)
{
    GEOSContextHandle_t geos = GEOS_init_r();
    for (int k = 1; k < count; k++) {
        size_t n = strtoul(words[k], NULL, 10);
        double *sites = room(sizeof(double) * 2 * TRIANGULATE_SITES(n)), least[3] = { 1e99, 1e99, 1e99 };
        srand48(42);
        for (size_t i = 0; i < 2 * n; i++)
            sites[i] = (i % 2 ? 5800000 : 300000) + 100000 * drand48();
        for (int round = 0; round < (n > 20000 ? 5 : 15); round++) {
            double took[3] = { ours(sites, n), by_qhull(sites, n), by_geos(geos, sites, n) };
            for (int i = 0; i < 3; i++)
                least[i] = took[i] < least[i] ? took[i] : least[i];
        }
        printf("%6zu gauges: %8.2f ms; Qhull %8.2f ms (%.1f times); GEOS %8.2f ms (%.1f times)\n", n, least[0], least[1], least[1] / least[0], least[2], least[2] / least[0]);
        free(sites);
    }
    return 0;
}
