/* The Delaunay mesh of gauges, in the form that voronoi.h takes: exact, in lent memory, and with no C library under it.
 *
 * Round the gauges and the box stand 64 sites that are nobody's, the ghosts, on a circle so wide that every place of the box is nearer to every gauge than to a
 * ghost. So a ghost has no piece in the box, and what is fragile at a mesh's border is theirs: one gauge, two, gauges on a line or near one need no
 * case of their own. The gauges keep their numbers; the ghosts come after them.
 *
 * Nothing here is proved. What is made of the mesh is: voronoi_check looks at it before any build, and an audit or a certificate at the pieces. */
#ifndef YELMUZARD_TRIANGULATE_H
#define YELMUZARD_TRIANGULATE_H

#include <stddef.h>
#include <stdint.h>

#ifdef __cplusplus
extern "C" {
#endif

#define TRIANGULATE_GHOSTS 64
#define TRIANGULATE_MOST_GAUGES 65472 /* with the ghosts VORONOI_MOST_SITES */

/* Of N gauges: the sites and triangles of the mesh, whose hull is the ghosts, and the words of `work`. The lists have 2 TRIANGULATE_SITES(N) numbers, 3
 * TRIANGULATE_TRIANGLES(N), as many, and TRIANGULATE_GHOSTS. */
#define TRIANGULATE_SITES(N) ((size_t)(N) + TRIANGULATE_GHOSTS)
#define TRIANGULATE_TRIANGLES(N) (2 * (size_t)(N) + TRIANGULATE_GHOSTS - 2)
#define TRIANGULATE_WORK_ROOM(N) (4 * (size_t)(N) + 64)

/* What a coordinate may be: 0, or of a magnitude from 2^-200 to 2^94. Beyond these the exact signs would leave the range of floats. */
#define TRIANGULATE_LEAST 0x1p-200
#define TRIANGULATE_MOST 0x1p94

/* The answers: 0, the numbers of voronoi.h for what it would refuse too, and three more. */
#define TRIANGULATE_DONE 0
#define TRIANGULATE_REFUSED_COUNT 1      /* no gauge, more than TRIANGULATE_MOST_GAUGES, or an odd list */
#define TRIANGULATE_REFUSED_ROOM 2       /* a list or `work` is shorter than its room */
#define TRIANGULATE_REFUSED_BOX 3        /* left < right and top < bottom do not hold, or an edge is none of the coordinates above */
#define TRIANGULATE_REFUSED_COORDINATE 6 /* a gauge has a coordinate that is none of those above; *first is the lowest such gauge */
#define TRIANGULATE_TWIN 105             /* two gauges stand at one place: *first and *second, the lower number first */
#define TRIANGULATE_STOPPED 106          /* `stop` said so */
#define TRIANGULATE_BROKEN 107           /* cannot be, unless what is lent changes during the call or overlaps */

/* The mesh of the gauges in `sites` and of the ghosts, which the call writes behind them: sites_len is 2 TRIANGULATE_SITES(N), its first 2 N numbers x and y of
 * each gauge. `frame`: left, top, right, bottom of the box. Triangles run counter-clockwise with y downward, as voronoi.h wants them,
 * and each begins with a gauge.
 *
 * `stop` may be NULL; else it is called with `with` every 1,024 gauges, and more often where one takes long; where it answers other than 0 the call ends. It need
 * not return at all: nothing is held but what is lent.
 *
 * Every edge of the mesh passes the exact test of Delaunay: no site lies inside the circle of a triangle beside it. Where four sites or more stand on one circle
 * there are several such meshes, and which one is made is a matter of the order of the gauges.
 *
 * After 0 the lists hold the mesh and past it what they held. After 1 to 6 all that is lent is as it was. After 105 to 107 the room of triangles, halfedges and
 * hull is UINT32_MAX, that of the ghosts is written, `work` is anything. *first and *second are always written, UINT32_MAX where they name none.
 * Time: some microsecond a gauge; at worst, gauges whose distances span many powers of two, it grows with the square. The stack: 30 kB. */
uint32_t triangulate_gauges(const double *frame, double *sites, size_t sites_len, uint32_t *triangles, size_t triangles_len,
                            uint32_t *halfedges, size_t halfedges_len, uint32_t *hull, size_t hull_len, uint32_t *work, size_t work_len,
                            int (*stop)(void *), void *with, uint32_t *first, uint32_t *second);

/* The same, and the gauges are moved to the order of a Hilbert curve, which they are put in along: what is near in the plane is then near in memory, for whoever works on
 * the mesh or on the pieces. was[i] is the number that gauge i had: was_len is N, or `was` is NULL, and then no gauge is moved. *first and *second are the numbers that
 * the gauges have at the end: after 6 those that they had. After 105 to 107 they are moved and `was` is written; after 1 to 6 all is as it was. */
uint32_t triangulate_in_order(const double *frame, double *sites, size_t sites_len, uint32_t *triangles, size_t triangles_len,
                              uint32_t *halfedges, size_t halfedges_len, uint32_t *hull, size_t hull_len, uint32_t *was, size_t was_len,
                              uint32_t *work, size_t work_len, int (*stop)(void *), void *with, uint32_t *first, uint32_t *second);

#ifdef __cplusplus
}
#endif
#endif
