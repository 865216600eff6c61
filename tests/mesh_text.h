/* A mesh as text, such as examples/thirty.txt, from standard input into lists of this file: decimal numbers, a box by `box` or `edges`. The file that
 * includes it has N, T and H before: room for so many sites, triangles and hull places. Declares nothing of the C library but scanf. */
#ifndef MESH_TEXT_H
#define MESH_TEXT_H

#include "voronoi.h"

int scanf(const char *format, ...);

static double box[4], sites[2 * N]; /* the box's four numbers, in the text's order */
static uint32_t triangles[3 * T], halfedges[3 * T], hull[H];
static size_t n, t, h; /* how many there are */

static void read_mesh(void)
{
    char word[9];
    uint32_t a;
    while (n < N && t < T && h < H && scanf("%8s", word) == 1)
        if (word[0] == 'b' || word[0] == 'e')
            scanf("%lf%lf%lf%lf", &box[0], &box[1], &box[2], &box[3]);
        else if (word[0] == 's')
            n += scanf("%lf%lf", &sites[2 * n], &sites[2 * n + 1]) == 2;
        else if (word[0] == 't') {
            scanf("%u%u%u", &triangles[3 * t], &triangles[3 * t + 1], &triangles[3 * t + 2]);
            for (size_t e = 3 * t; e < 3 * t + 3; e++)
                if (scanf("%u", &halfedges[e]) != 1)
                    halfedges[e] = VORONOI_EMPTY, scanf(" E");
            t++;
        } else if (word[0] == 'h')
            while (h < H && scanf("%u", &a) == 1)
                hull[h++] = a;
        else
            scanf("%*[^\n]");
}

static inline void swap(uint32_t *a, uint32_t *b)
{
    uint32_t c = *a;
    *a = *b, *b = c;
}

/* triangle a b c becomes a c b: its half-edges a-b b-c c-a become c-a (the last), b-c, a-b */
static inline void turn(void)
{
    for (size_t i = 0; i < t; i++)
        swap(&triangles[3 * i + 1], &triangles[3 * i + 2]), swap(&halfedges[3 * i], &halfedges[3 * i + 2]);
    for (size_t e = 0; e < 3 * t; e++)
        if (halfedges[e] != VORONOI_EMPTY)
            halfedges[e] = halfedges[e] - halfedges[e] % 3 + 2 - halfedges[e] % 3;
    for (size_t i = 0; i < h / 2; i++)
        swap(&hull[i], &hull[h - 1 - i]);
}

#endif
