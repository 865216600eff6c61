/* The area of each gauge's piece, and their total: reads a mesh as text, such as examples/thirty.txt, from standard input. */
#include "voronoi.h"
int printf(const char *format, ...); /* declared here, so that it builds without the C library's headers too */
int scanf(const char *format, ...);

enum { N = 1000, T = 2000, H = 1000 }; /* room for sites, triangles and hull sites; up to 65536, 131072, 65536 */
static double box[4], sites[2 * N], vertices[VORONOI_VERTEX_NUMBERS(T, H)], areas[N];
static uint32_t triangles[3 * T], halfedges[3 * T], hull[H], work[VORONOI_WORK_ROOM(N)], indexes[VORONOI_INDEX_ROOM(T, H)];
static uint32_t offsets[VORONOI_OFFSET_ROOM(N)], counts[VORONOI_COUNTS];
static size_t n, t, h; /* how many there are */
static int edges;      /* whether the box is given by its edges */

static const char *read_mesh(void) /* what there are more of than there is room for, or NULL */
{
    char word[9];
    uint32_t a;
    while (scanf("%8s", word) == 1)
        if (word[0] == 'b' || word[0] == 'e') /* box X Y WIDTH HEIGHT, or edges LEFT TOP RIGHT BOTTOM */
            edges = word[0] == 'e', scanf("%lf%lf%lf%lf", &box[0], &box[1], &box[2], &box[3]);
        else if (word[0] == 's') { /* site X Y: y points down */
            if (n == N)
                return "sites";
            n += scanf("%lf%lf", &sites[2 * n], &sites[2 * n + 1]) == 2;
        } else if (word[0] == 't') { /* triangle A B C P Q R: counter-clockwise; the pairs are numbers or E */
            if (t == T)
                return "triangles";
            scanf("%u%u%u", &triangles[3 * t], &triangles[3 * t + 1], &triangles[3 * t + 2]);
            for (size_t e = 3 * t; e < 3 * t + 3; e++)
                if (scanf("%u", &halfedges[e]) != 1)
                    halfedges[e] = VORONOI_EMPTY, scanf(" E");
            t++;
        } else if (word[0] == 'h') /* hull A .. */
            while (scanf("%u", &a) == 1)
                if (h == H)
                    return "hull sites";
                else
                    hull[h++] = a;
        else /* a comment */
            scanf("%*[^\n]");
    return 0;
}

int main(void)
{
    const char *full = read_mesh();
    if (full)
        return printf("there are more %s than this program has room for: raise N, T or H\n", full), 2;
    uint32_t refused = (edges ? voronoi_build_by_edges : voronoi_build)(box[0], box[1], box[2], box[3], sites, 2 * n, triangles, 3 * t,
        halfedges, 3 * t, hull, h, work, n, vertices, VORONOI_VERTEX_NUMBERS(t, h), indexes, VORONOI_INDEX_ROOM(t, h), offsets, n + 1,
        counts, VORONOI_COUNTS);
    if (refused)
        return printf("refused %u: %s\n", refused, voronoi_words(refused)), 1;
    if ((refused = voronoi_areas(vertices, 2 * (size_t)counts[VORONOI_COUNT_VERTICES], offsets, n + 1, indexes, offsets[n], areas, n)))
        return printf("refused %u: %s\n", refused, voronoi_words(refused)), 1;
    double total = 0, whole = edges ? (box[2] - box[0]) * (box[3] - box[1]) : box[2] * box[3];
    for (size_t site = 0; site < n; site++) {
        printf("site %u: area %.6f\n", (unsigned)site, areas[site]);
        total += areas[site];
    }
    printf("total %.6f, the box %.6f, corners lost %u\n", total, whole, counts[VORONOI_COUNT_LOST]);
    return 0;
}
