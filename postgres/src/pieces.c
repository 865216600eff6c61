/* How pieces are made and looked at: the only file that does.
 *
 * Of gauges: by cutting (voronoi_cut_by_edges), and no piece leaves that the certificate did not pass (voronoi_certify_by_edges).
 * Of a lent mesh: the build, bit for bit, and the audit, which leaves a build's tolerance. */
#include "yelmuzard.h"

#include "miscadmin.h"

/* ---- the audit */

/* The pieces held against the neighbours of each site in the mesh; against all, where a site is in no triangle. */
static bool audit(const Survey *p, Fault *f)
{
    uint32 *work = palloc(sizeof(uint32) * VORONOI_WORK_ROOM(p->s)), *starts = palloc(sizeof(uint32) * VORONOI_START_ROOM(p->s));
    uint32 *others = palloc(sizeof(uint32) * VORONOI_NEIGHBOUR_ROOM(p->t, p->h)), none[1] = {0}, vertex, number;
    size_t starts_len = p->s + 1, others_len;

    number = voronoi_all_neighbours(MESH_OF(p), none, 0, none, 0, work, VORONOI_WORK_ROOM(p->s), starts, VORONOI_START_ROOM(p->s), others,
                                    VORONOI_NEIGHBOUR_ROOM(p->t, p->h));
    if (number)
        refuse(number, NULL);
    others_len = starts[p->s];
    for (size_t i = 0; i < p->s; i++)
        if (starts[i] == starts[i + 1])
            starts_len = others_len = 0;
    CHECK_FOR_INTERRUPTS();
    number = voronoi_audit_by_edges(FRAME_OF(p), SITES_OF(p), p->vertices, 2 * (size_t)p->v, p->offsets, p->s + 1, p->indexes, p->offsets[p->s], starts,
                                    starts_len, others, others_len, VORONOI_AUDIT_BITS, &f->kind, &f->site, &vertex, &f->other, &f->missing);
    if (number)
        refuse(number, NULL);
    f->state = 2;
    pfree(work), pfree(starts), pfree(others);
    CHECK_FOR_INTERRUPTS();
    return f->kind == VORONOI_AUDIT_SOUND;
}

/* ---- the build of a lent mesh */

typedef struct {
    uint32 *work, counts[VORONOI_COUNTS];
} Rooms;

static void lend_rooms(Survey *p, Rooms *r)
{
    r->work = palloc(sizeof(uint32) * VORONOI_WORK_ROOM(p->s));
    p->vertices = palloc(sizeof(double) * VORONOI_VERTEX_NUMBERS(p->t, p->h));
    p->indexes = palloc(sizeof(uint32) * VORONOI_INDEX_ROOM(p->t, p->h));
    p->offsets = palloc(sizeof(uint32) * VORONOI_OFFSET_ROOM(p->s));
    p->areas = palloc(sizeof(double) * p->n);
}

#define ROOMS_OF(p, r) (r).work, VORONOI_WORK_ROOM((p)->s), (p)->vertices, VORONOI_VERTEX_NUMBERS((p)->t, (p)->h), (p)->indexes, \
    VORONOI_INDEX_ROOM((p)->t, (p)->h), (p)->offsets, VORONOI_OFFSET_ROOM((p)->s), (r).counts, VORONOI_COUNTS

static void make_areas(Survey *p)
{
    uint32 number = voronoi_areas(p->vertices, 2 * (size_t)p->v, p->offsets, p->n + 1, p->indexes, p->offsets[p->n], p->areas, p->n);
    if (number)
        refuse(number, NULL);
    CHECK_FOR_INTERRUPTS();
}

static char *edge_words(const Survey *p, uint32 site, uint32 from, uint32 to)
{
    uint32 t = from < p->t ? from : to;
    double x[3], y[3], at_x, at_y;

    if (t >= p->t)
        return psprintf("In the piece of %s.", gauge_words(p, site));
    for (int i = 0; i < 3; i++)
        x[i] = p->sites[2 * (size_t)p->triangles[3 * t + i]], y[i] = p->sites[2 * (size_t)p->triangles[3 * t + i] + 1];
    voronoi_circumcenter(x[0], y[0], x[1], y[1], x[2], y[2], &at_x, &at_y);
    return psprintf("In the piece of %s, at its corner (%.17g, %.17g).", gauge_words(p, site), at_x, at_y);
}

uint32 why_refused(Survey *p, char **place)
{
    Rooms r;
    uint32 kind, at, from, to, number;

    lend_rooms(p, &r);
    number = voronoi_why_by_edges(FRAME_OF(p), MESH_OF(p), 0, 0, 0, ROOMS_OF(p, r), &kind, &at, &from, &to);
    *place = kind == VORONOI_WHY_SITE         ? psprintf("At %s.", gauge_words(p, at))
             : kind == VORONOI_WHY_TRIANGLE   ? psprintf("At triangle %u.", at)
             : kind == VORONOI_WHY_HALFEDGE   ? psprintf("At half-edge %u.", at)
             : kind == VORONOI_WHY_HULL_PLACE ? psprintf("At hull place %u.", at)
             : kind == VORONOI_WHY_EDGE       ? edge_words(p, at, from, to)
                                              : NULL;
    return number;
}

bool build_pieces(Survey *p, Fault *f)
{
    Rooms r;
    uint32 number;
    char *place;

    lend_rooms(p, &r);
    number = voronoi_build_by_edges(FRAME_OF(p), MESH_OF(p), ROOMS_OF(p, r));
    if (number) {
        (void)why_refused(p, &place);
        refuse(number, place);
    }
    p->v = r.counts[VORONOI_COUNT_VERTICES];
    pfree(r.work);
    CHECK_FOR_INTERRUPTS();
    make_areas(p);
    return audit(p, f);
}

/* ---- the certificate */

typedef struct {
    const Survey *p;
    size_t sites, entries, room;
    const uint32 *offsets;
    uint32 *work, number;
    Fault *f;
} Certifying;

static void certify(void *with)
{
    Certifying *c = with;
    const Survey *p = c->p;
    uint32 vertex;

    c->number = voronoi_certify_by_edges(FRAME_OF(p), p->sites, 2 * c->sites, p->vertices, 2 * (size_t)p->v, c->offsets, c->sites + 1, p->indexes, c->entries,
                                         VORONOI_CERTIFY_BITS, c->work, c->room, &c->f->kind, &c->f->site, &vertex, &c->f->other);
}

/* Over the gauges alone: that their pieces cover the box once says that no ghost has ground; where one has, theirs do not. The call wants three sites: of one gauge or two
 * the first ghosts stand beside them, with no piece. */
bool look_over(Survey *p, Fault *f)
{
    size_t sites = Max(p->n, VORONOI_LEAST_SITES), entries = p->offsets[p->n], room = VORONOI_CERTIFY_ROOM(sites, entries);
    uint32 few[VORONOI_LEAST_SITES + 1];
    char *spare = p->spare;
    size_t spare_bytes = p->spare_bytes;
    Certifying c = {p, sites, entries, room, p->n < sites ? few : p->offsets, room_in(p, sizeof(uint32) * room), 0, f};

    for (size_t i = 0; i <= VORONOI_LEAST_SITES; i++)
        few[i] = p->offsets[Min(i, p->n)];
    run_cancellable(certify, &c);
    if (c.number)
        refuse(c.number, NULL);
    f->state = 1, f->missing = 0;
    p->spare = spare, p->spare_bytes = spare_bytes; /* its work may be written over */
    return f->kind == VORONOI_CERTIFY_SOUND;
}

/* ---- the pieces of gauges */

typedef struct {
    Survey *p;
    uint32 number;
} Cutting;

static void cut(void *with)
{
    Cutting *c = with;
    Survey *p = c->p;

    c->number = voronoi_cut_by_edges(FRAME_OF(p), MESH_OF(p), p->work, VORONOI_WORK_ROOM(p->s), p->vertices, VORONOI_CUT_VERTEX_NUMBERS(p->t, p->h), p->indexes,
                                     VORONOI_CUT_INDEX_ROOM(p->t, p->h), p->offsets, VORONOI_OFFSET_ROOM(p->s), &p->v);
}

bool make_pieces(Survey *p, Fault *f)
{
    Cutting c = {p, 0};

    run_cancellable(cut, &c);
    if (c.number)
        refuse(c.number, NULL);
    leave_vertices(p);
    make_areas(p);
    return look_over(p, f);
}
