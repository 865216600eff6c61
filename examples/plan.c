/* The area of each gauge's piece, and their sum: four gauges in a box of 2 by 2. C99 or C++17. */
#include <stdio.h>
#include <stdlib.h>
#include "voronoi_pieces.h"

int main(void)
{
    const uint32_t E = VORONOI_EMPTY, triangles[] = { 0, 1, 2, 0, 2, 3 }, halfedges[] = { E, E, 3, 2, E, E }, hull[] = { 0, 1, 2, 3 };
    const double sites[] = { -.5, -.5, -.5, .5, .5, .5, .5, -.5 };
    const voronoi_mesh mesh = { sites, 4, triangles, halfedges, 2, hull, 4 };
    const voronoi_frame box = { 0, 0, 2, 2 };
    double areas[4], sum = 0;
    void *block = malloc(voronoi_pieces_bytes(&mesh));
    if (!block)
        return 2;
    voronoi_pieces pieces = voronoi_pieces_in(&mesh, block);
    uint32_t refused = voronoi_build_pieces(box, &mesh, &pieces);
    if (refused || (refused = voronoi_piece_areas(&pieces, areas)) != 0)
        return fprintf(stderr, "refused %u: %s\n", (unsigned)refused, voronoi_words(refused)), 1;
    for (size_t s = 0; s < mesh.site_count; s++) {
        printf("gauge %zu: %zu corners, area %g\n", s, voronoi_corner_count(&pieces, s), areas[s]);
        sum += areas[s];
    }
    printf("sum %g of %g\n", sum, box.width * box.height);
    free(block);
    return 0;
}
