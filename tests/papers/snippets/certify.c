/* KEY voronoi_certify_pieces(box, &mesh */
#include "snippet.h"
#include "voronoi_pieces.h"
void *malloc(size_t size);
void free(void *block);

int main(int words, char **word)
{
    lend(words, word);
    voronoi_mesh mesh = {sites, 4, triangles, halfedges, 2, hull, hull_len};
    voronoi_frame box = {0, 0, 2, 2};
    void *block = malloc(voronoi_cut_pieces_bytes(&mesh));
    voronoi_pieces pieces = voronoi_cut_pieces_in(&mesh, block);
    uint32_t cut = voronoi_cut_pieces(box, &mesh, &pieces);
    @@
    printf("cut %u, certified %u, kind %u\n", cut, refused, verdict.kind);
    free(room);
    free(block);
    return 0;
}
