/* What the snippets are lent: "square" in the box 0 0 2 2, sound, or with the hull 0 1 2, which is refused by 9. */
#include "voronoi.h"
int printf(const char *format, ...);

static double sites[192] = {-.5, -.5, -.5, .5, .5, .5, .5, -.5};
static uint32_t triangles[6] = {0, 1, 2, 0, 2, 3};
static uint32_t halfedges[6] = {VORONOI_EMPTY, VORONOI_EMPTY, 3, 2, VORONOI_EMPTY, VORONOI_EMPTY};
static uint32_t hull[4] = {0, 1, 2, 3};
static size_t hull_len = 4;

static inline void lend(int words, char **word) /* the word `refused` takes the hull's last site off */
{
    if (words > 1 && word[1][0] == 'r')
        hull_len = 3;
}
#define MESH sites, 8, triangles, 6, halfedges, 6, hull, hull_len
