/* KEY voronoi_pieces_in(&mesh, block) */
#include "snippet.h"
#include "voronoi_pieces.h"
void *malloc(size_t size);
void free(void *block);

int main(int words, char **word)
{
    lend(words, word);
    voronoi_mesh mesh = {sites, 4, triangles, halfedges, 2, hull, hull_len};
    voronoi_frame box = {0, 0, 2, 2};
    void *block = malloc(voronoi_pieces_bytes(&mesh));
    @@
    printf("refused %u, %u vertices\n", refused, refused ? 0 : pieces.counts[VORONOI_COUNT_VERTICES]);
    free(block);
    return 0;
}
