/* The accident replayed (README, "The accident"): a mesh on the grid as text from standard input, such as examples/accident.txt; its total and the owner of
 * its last corner, what voronoi_grid_nearest names, and the same after each half-edge that it names has been flipped. */
#include "voronoi.h"
int printf(const char *format, ...);

enum { N = 100, T = 200, H = 100, CORNER = 2 }; /* the corner right and bottom */
#include "../mesh_text.h"

static double vertices[VORONOI_VERTEX_NUMBERS(T, H)], areas[N];
static int32_t grid[2 * N];
static uint32_t work[N], table[N], indexes[VORONOI_INDEX_ROOM(T, H)], offsets[N + 1], counts[VORONOI_COUNTS];

static uint32_t show_total(void)
{
    double total = 0;
    uint32_t refused = voronoi_build(box[0], box[1], box[2], box[3], sites, 2 * n, triangles, 3 * t, halfedges, 3 * t, hull, h, work, n, vertices,
                                     VORONOI_VERTEX_NUMBERS(t, h), indexes, VORONOI_INDEX_ROOM(t, h), offsets, n + 1, counts, VORONOI_COUNTS);
    if (!refused)
        refused = voronoi_areas(vertices, 2 * (size_t)counts[VORONOI_COUNT_VERTICES], offsets, n + 1, indexes, offsets[n], areas, n);
    for (size_t s = 0; s < n && !refused; s++)
        total += areas[s];
    if (!refused)
        printf("total %.6f of %.6f, corners lost %u, the corner (%.0f, %.0f) is gauge %u's\n", total, box[2] * box[3], counts[VORONOI_COUNT_LOST],
               box[0] + box[2] / 2, box[1] + box[3] / 2, counts[1 + CORNER]);
    return refused;
}

int main(void)
{
    read_mesh();
    for (size_t i = 0; i < 2 * n; i++)
        grid[i] = (int32_t)sites[i];
    uint32_t kind, place, unused, refused = voronoi_grid_sites(grid, 2 * n, sites, 2 * n);
    for (int turns = 0; !refused && turns < 100; turns++) {
        if ((refused = show_total()) || (refused = voronoi_grid_nearest(grid, 2 * n, triangles, 3 * t, halfedges, 3 * t, hull, h, table, n, &kind, &place, &unused)))
            break;
        if (kind != VORONOI_GRID_HALFEDGE) {
            printf(kind == VORONOI_GRID_YES ? "nearest\n" : "kind %u at %u\n", kind, place);
            return 0;
        }
        printf("half-edge %u\n", place);
        if ((refused = voronoi_flip((uint32_t)n, triangles, 3 * t, halfedges, 3 * t, hull, h, table, n, work, n, place)))
            break;
    }
    printf("refused %u: %s\n", refused, voronoi_words(refused));
    return 1;
}
