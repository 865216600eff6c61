/* The memory of a survey: one block for all its lists.
 *
 * New memory is new pages of the system, and each of them takes longer to come by than its 4,096 bytes to fill. The C library's malloc, which palloc asks for all that is large,
 * keeps for the next call up to twice the largest block that it was given back, if that was below 32 MB, and gives the rest to the system: with a block for each list that
 * was nearly all, 286, 2,954 and 17,353 pages anew in each call for geometries of 1,000, 10,000 and 65,000 gauges. With one block, twice as large as is needed, because what
 * others hold beside it counts too, there are none at 1,000 and 10,000; what is not written to takes no memory.
 * What is needed for a while stands behind the vertices: the room that voronoi_cut wants for them is six times what they take. */
#include "yelmuzard.h"

enum { MORE = 1 << 20, MOST_KEPT = (32 << 20) - (64 << 10) }; /* bytes */

enum { SITES, WAS, TRIANGLES, HALFEDGES, HULL, WORK, AREAS, OFFSETS, INDEXES, VERTICES, LISTS };

void lay_out(Survey *p, size_t n, bool pieces)
{
    size_t s = TRIANGULATE_SITES(n), t = TRIANGULATE_TRIANGLES(n), h = TRIANGULATE_GHOSTS, bytes = 0;
    const size_t rooms[LISTS] = {
        [SITES] = sizeof(double) * 2 * s,
        [WAS] = sizeof(uint32) * n,
        [TRIANGLES] = sizeof(uint32) * 3 * t,
        [HALFEDGES] = sizeof(uint32) * 3 * t,
        [HULL] = sizeof(uint32) * h,
        [WORK] = sizeof(uint32) * Max(TRIANGULATE_WORK_ROOM(n), VORONOI_WORK_ROOM(s)),
        [AREAS] = pieces ? sizeof(double) * n : 0,
        [OFFSETS] = pieces ? sizeof(uint32) * VORONOI_OFFSET_ROOM(s) : 0,
        [INDEXES] = pieces ? sizeof(uint32) * VORONOI_CUT_INDEX_ROOM(t, h) : 0,
        [VERTICES] = pieces ? sizeof(double) * VORONOI_CUT_VERTEX_NUMBERS(t, h) : 0,
    };
    char *block, *at[LISTS];

    for (int i = 0; i < LISTS; i++)
        bytes += MAXALIGN(rooms[i]);
    p->block = block = palloc(Max(bytes, Min(2 * bytes + MORE, MOST_KEPT)));
    for (int i = 0; i < LISTS; i++)
        at[i] = block, block += MAXALIGN(rooms[i]);
    p->sites = (double *)at[SITES], p->was = (uint32 *)at[WAS];
    p->triangles = (uint32 *)at[TRIANGLES], p->halfedges = (uint32 *)at[HALFEDGES], p->hull = (uint32 *)at[HULL], p->work = (uint32 *)at[WORK];
    if (pieces) {
        p->areas = (double *)at[AREAS], p->offsets = (uint32 *)at[OFFSETS], p->indexes = (uint32 *)at[INDEXES], p->vertices = (double *)at[VERTICES];
        p->spare = block, p->spare_bytes = 0;
    }
}

void leave_vertices(Survey *p)
{
    p->spare_bytes = sizeof(double) * (VORONOI_CUT_VERTEX_NUMBERS(p->t, p->h) - 2 * (size_t)p->v);
    p->spare -= p->spare_bytes;
}

void *room_in(Survey *p, size_t bytes)
{
    char *room = p->spare;

    if (MAXALIGN(bytes) > p->spare_bytes)
        return palloc(bytes);
    p->spare += MAXALIGN(bytes), p->spare_bytes -= MAXALIGN(bytes);
    return room;
}

void give_back(Survey *p)
{
    if (p->block)
        pfree(p->block);
    else /* of a lent mesh */
        pfree(p->vertices), pfree(p->indexes), pfree(p->offsets);
    *p = (Survey){.n = p->n};
}

void *grown(Growing *g, size_t bytes)
{
    if (bytes > g->room) {
        g->room = Max(2 * g->room, bytes);
        g->value = g->value ? repalloc(g->value, g->room) : palloc(g->room);
    }
    SET_VARSIZE(g->value, bytes);
    return g->value;
}
