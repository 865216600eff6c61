/* A caller in C, for its time beside Python's on the same gauges (bindings/python/tests/times.py): the mesh, the pieces by cutting, their areas, their polygons, with memory
 * of its own each time. Reads the count, the box and the gauges as binary numbers from standard input, then a byte for each round: prints its processor time in milliseconds and
 * the total, before it reads the next, so that rounds of both can be had in turn. */
#define _POSIX_C_SOURCE 199309L
#include <stdio.h>
#include <stdlib.h>
#include <time.h>
#include "../mesh/triangulate.h"
#include "voronoi_pieces.h"

static double milliseconds(void)
{
    struct timespec now;
    clock_gettime(CLOCK_PROCESS_CPUTIME_ID, &now);
    return 1e3 * (double)now.tv_sec + 1e-6 * (double)now.tv_nsec;
}

static void *room(size_t bytes)
{
    void *block = malloc(bytes);
    if (!block)
        exit(2);
    return block;
}

/* the sum of all areas; 0 or the refusal's number in *refused */
static double map(const double *box, const double *gauges, size_t n, uint32_t *refused)
{
    const size_t t = TRIANGULATE_TRIANGLES(n);
    double *sites = (double *)room(sizeof *sites * 2 * TRIANGULATE_SITES(n)), *areas = (double *)room(sizeof *areas * TRIANGULATE_SITES(n)), sum = 0;
    uint32_t *triangles = (uint32_t *)room(sizeof *triangles * 3 * t), *pairs = (uint32_t *)room(sizeof *pairs * 3 * t), hull[TRIANGULATE_GHOSTS];
    uint32_t *work = (uint32_t *)room(sizeof *work * TRIANGULATE_WORK_ROOM(n)), first, second;
    for (size_t i = 0; i < 2 * n; i++)
        sites[i] = gauges[i];
    *refused = triangulate_gauges(box, sites, 2 * TRIANGULATE_SITES(n), triangles, 3 * t, pairs, 3 * t, hull, TRIANGULATE_GHOSTS, work, TRIANGULATE_WORK_ROOM(n), NULL, NULL,
        &first, &second);
    const voronoi_mesh mesh = { sites, TRIANGULATE_SITES(n), triangles, pairs, t, hull, TRIANGULATE_GHOSTS };
    const voronoi_edges edges = { box[0], box[1], box[2], box[3] };
    void *block = room(voronoi_cut_pieces_bytes(&mesh));
    voronoi_pieces pieces = voronoi_cut_pieces_in(&mesh, block);
    if (!*refused && !(*refused = voronoi_cut_pieces_by_edges(edges, &mesh, &pieces)) && !(*refused = voronoi_piece_areas(&pieces, areas))) {
        const size_t bytes = voronoi_polygon_bytes(&pieces);
        uint64_t *starts = (uint64_t *)room(sizeof *starts * VORONOI_START_ROOM(mesh.site_count));
        uint8_t *images = (uint8_t *)room(bytes);
        *refused = voronoi_piece_polygons(&pieces, starts, images, bytes);
        free(starts), free(images);
        for (size_t i = 0; i < n; i++)
            sum += areas[i];
    }
    free(block), free(sites), free(areas), free(triangles), free(pairs), free(work);
    return sum;
}

int main(void)
{
    uint64_t n;
    double box[4];
    if (fread(&n, sizeof n, 1, stdin) != 1 || fread(box, sizeof box, 1, stdin) != 1)
        return 2;
    double *gauges = (double *)room(sizeof *gauges * 2 * n);
    if (fread(gauges, sizeof *gauges, 2 * n, stdin) != 2 * n)
        return 2;
    while (getchar() != EOF) {
        uint32_t refused;
        const double began = milliseconds(), total = map(box, gauges, n, &refused), taken = milliseconds() - began;
        if (refused)
            return 1;
        printf("%.3f %.17g\n", taken, total);
        fflush(stdout);
    }
    free(gauges);
    return 0;
}
