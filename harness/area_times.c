/* A build and the areas of its pieces, timed in turn on one mesh: area_times ROUNDS <MESH.txt, a text whose box is by its edges and whose
 * numbers are decimal (./yelmuzard gauges writes such). Prints the processor time of each in ns a site, best and median of the rounds, and the ratio. */
#include "voronoi.h"

int printf(const char *format, ...);
int atoi(const char *word);
void qsort(void *base, size_t count, size_t bytes, int (*compare)(const void *, const void *));
struct instant { long seconds, nanoseconds; };
int clock_gettime(int clock, struct instant *now);
enum { CPU_TIME_OF_THREAD = 3, ROUNDS = 1000, N = VORONOI_MOST_SITES + 1, T = VORONOI_MOST_TRIANGLES + 1, H = N };

#include "../tests/mesh_text.h"

static double vertices[VORONOI_VERTEX_NUMBERS(T, H)], areas[N], built[ROUNDS], asked[ROUNDS];
static uint32_t work[N], indexes[VORONOI_INDEX_ROOM(T, H)], offsets[N + 1], counts[VORONOI_COUNTS];

static double now(void)
{
    struct instant at;
    clock_gettime(CPU_TIME_OF_THREAD, &at);
    return 1e9 * (double)at.seconds + (double)at.nanoseconds;
}

static int less(const void *a, const void *b)
{
    double x = *(const double *)a, y = *(const double *)b;
    return (x > y) - (x < y);
}

int main(int words, char **word)
{
    int rounds = words == 2 ? atoi(word[1]) : 0;
    if (rounds < 1 || rounds > ROUNDS)
        return printf("area_times ROUNDS <MESH.txt\n"), 2;
    read_mesh();
    size_t again = N / (n ? n : 1); /* a small mesh many times over: the clock's steps are some microseconds */
    uint32_t refused = 0;
    for (int i = 0; i < rounds; i++) {
        double began = now();
        for (size_t k = 0; k < again; k++)
            refused |= voronoi_build_by_edges(box[0], box[1], box[2], box[3], sites, 2 * n, triangles, 3 * t, halfedges, 3 * t, hull, h,
                work, n, vertices, VORONOI_VERTEX_NUMBERS(t, h), indexes, VORONOI_INDEX_ROOM(t, h), offsets, n + 1, counts, VORONOI_COUNTS);
        double between = now();
        for (size_t k = 0; k < again && !refused; k++)
            refused |= voronoi_areas(vertices, 2 * (size_t)counts[VORONOI_COUNT_VERTICES], offsets, n + 1, indexes, offsets[n], areas, n);
        if (refused)
            return printf("refused\n"), 1;
        built[i] = between - began, asked[i] = now() - between;
    }
    qsort(built, (size_t)rounds, sizeof *built, less);
    qsort(asked, (size_t)rounds, sizeof *asked, less);
    double each = (double)(n * again);
    int middle = rounds / 2;
    printf("%6lu sites, %.2f corners a piece: build %.0f (%.0f) ns a site, areas %.0f (%.0f), ratio %.2f (%.2f)\n", (unsigned long)n,
        (double)offsets[n] / (double)n, built[0] / each, built[middle] / each, asked[0] / each, asked[middle] / each, asked[0] / built[0],
        asked[middle] / built[middle]);
    return 0;
}
