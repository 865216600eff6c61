/* A mesh from triangles alone, whoever made them and whichever way they run: those that turn the wrong way are turned, pairs and hull are worked out by
 * voronoi_mend, and the pieces are built. Reads `site X Y`, `triangle A B C` and a box from standard input, as examples/thirty.txt has them; pairs and
 * hull of such a text are passed over. docs/use/C-MESH.md says where triangles come from. C99 or C++17. */
#include <stdio.h>
#include "voronoi_pieces.h"

enum { N = 1000, T = 2000 };
static double box[4], sites[2 * N], turns[T], areas[N], block[VORONOI_VERTEX_NUMBERS(T, N) + VORONOI_INDEX_ROOM(T, N) + 2 * N];
static uint32_t triangles[3 * T], none[3 * T], pairs[3 * T], hull[N], work[N], cuts[T + 1], changes[VORONOI_CHANGE_NUMBERS(T, N)];
static uint32_t n, t;

/* Turns the triangles that do not run counter-clockwise with y downward, exactly; how many, or the refusal's number below 0. */
static int turn(void)
{
    int turned = 0;
    for (uint32_t k = 0; k <= t; k++)
        cuts[k] = 3 * k;
    uint32_t refused = voronoi_areas(sites, 2 * (size_t)n, cuts, t + 1, triangles, 3 * (size_t)t, turns, t);
    if (refused)
        return -(int)refused;
    for (uint32_t k = 0; k < t; k++)
        if (turns[k] < 0) {
            uint32_t second = triangles[3 * k + 1];
            triangles[3 * k + 1] = triangles[3 * k + 2], triangles[3 * k + 2] = second, turned++;
        }
    return turned;
}

int main(void)
{
    char line[200];
    int edges = 0;
    while (fgets(line, sizeof line, stdin))
        if (sscanf(line, "edges %lf%lf%lf%lf", &box[0], &box[1], &box[2], &box[3]) == 4)
            edges = 1;
        else if (sscanf(line, "box %lf%lf%lf%lf", &box[0], &box[1], &box[2], &box[3]) != 4) {
            if (n < N && sscanf(line, "site %lf%lf", &sites[2 * n], &sites[2 * n + 1]) == 2)
                n++;
            else if (t < T && sscanf(line, "triangle %u%u%u", &triangles[3 * t], &triangles[3 * t + 1], &triangles[3 * t + 2]) == 3)
                t++;
        }
    int turned = turn();
    if (turned < 0)
        return printf("refused %d: %s\n", -turned, voronoi_words((uint32_t)-turned)), 1;
    for (uint32_t k = 0; k < 3 * t; k++)
        none[k] = VORONOI_EMPTY;
    for (uint32_t k = 0; k < 3; k++)
        hull[k] = k; /* only its length is looked at */
    uint32_t hull_count, pair_changes, hull_changes, old[3] = { 0, 1, 2 };
    uint32_t refused = voronoi_mend(sites, 2 * (size_t)n, triangles, 3 * (size_t)t, none, 3 * (size_t)t, old, 3, work, n, pairs, 3 * (size_t)t, hull, n, changes,
        VORONOI_CHANGE_NUMBERS(t, n), &hull_count, &pair_changes, &hull_changes);
    if (refused)
        return printf("refused %u: %s\n", (unsigned)refused, voronoi_words(refused)), 1;
    const voronoi_mesh mesh = { sites, n, triangles, pairs, t, hull, hull_count };
    voronoi_pieces pieces = voronoi_pieces_in(&mesh, block);
    const voronoi_frame frame = { box[0], box[1], box[2], box[3] };
    const voronoi_edges sides = { box[0], box[1], box[2], box[3] };
    refused = edges ? voronoi_build_pieces_by_edges(sides, &mesh, &pieces) : voronoi_build_pieces(frame, &mesh, &pieces);
    if (refused || (refused = voronoi_piece_areas(&pieces, areas)) != 0)
        return printf("refused %u: %s\n", (unsigned)refused, voronoi_words(refused)), 1;
    double total = 0;
    for (uint32_t site = 0; site < n; site++)
        total += areas[site];
    printf("%u triangles, %d of them turned, %u on the hull, total %.6f\n", (unsigned)t, turned, (unsigned)hull_count, total);
    return 0;
}
