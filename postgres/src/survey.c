/* From a list of points to their pieces: the gauges looked at, the mesh of gauges and ghosts (mesh/triangulate.c), the pieces (pieces.c). Interrupts are looked for between
 * the stages and, in the longest of them that is ours, every 1,024 gauges. */
#include "yelmuzard.h"

#include "miscadmin.h"

void set_frame(Survey *p, const BOX *frame)
{
    p->frame[0] = frame->low.x, p->frame[1] = frame->low.y;
    p->frame[2] = frame->high.x, p->frame[3] = frame->high.y;
}

bool same_box(const BOX *a, const BOX *b)
{
    return a->low.x == b->low.x && a->low.y == b->low.y && a->high.x == b->high.x && a->high.y == b->high.y;
}

void set_gauges(Survey *p, const Point *points, size_t n, bool pieces)
{
    if (n < 1 || n > TRIANGULATE_MOST_GAUGES)
        refuse(VORONOI_REFUSED_COUNT, psprintf("There are %zu gauges.", n));
    p->n = p->s = n;
    lay_out(p, n, pieces);
    memcpy(p->sites, points, sizeof(Point) * n);
}

static int interrupted(void *with)
{
    CHECK_FOR_INTERRUPTS();
    return 0;
}

bool make_mesh(Survey *p, Fault *f)
{
    size_t triangles = TRIANGULATE_TRIANGLES(p->n);
    uint32 number = triangulate_in_order(p->frame, p->sites, 2 * TRIANGULATE_SITES(p->n), p->triangles, 3 * triangles, p->halfedges, 3 * triangles, p->hull,
                                         TRIANGULATE_GHOSTS, p->was, p->n, p->work, TRIANGULATE_WORK_ROOM(p->n), interrupted, NULL, &f->other, &f->site);

    f->state = 1, f->kind = VORONOI_AUDIT_SOUND, f->missing = 0;
    if (number == TRIANGULATE_TWIN) {
        f->kind = VORONOI_AUDIT_TWIN;
        return false;
    }
    if (number == TRIANGULATE_REFUSED_COORDINATE) {
        p->was = NULL; /* none is moved then */
        refuse(number, psprintf("It is %s.", gauge_words(p, f->other)));
    }
    if (number && number < 100)
        refuse(number, NULL);
    if (number)
        elog(ERROR, "the mesh could not be made: %u", number);
    p->s = TRIANGULATE_SITES(p->n), p->t = triangles, p->h = TRIANGULATE_GHOSTS;
    CHECK_FOR_INTERRUPTS();
    return true;
}

bool survey(Survey *p, const Point *points, size_t n, const BOX *frame, Fault *f)
{
    set_frame(p, frame);
    set_gauges(p, points, n, true);
    return make_mesh(p, f) && make_pieces(p, f);
}

void sound_survey(Survey *p, const Point *points, size_t n, const BOX *frame)
{
    Fault f;

    if (!survey(p, points, n, frame, &f))
        refuse_fault(p, &f);
}

Survey survey_of(FunctionCallInfo fcinfo, int points)
{
    Survey p = {0};
    size_t n;
    const Point *list = points_of(PG_GETARG_ARRAYTYPE_P(points), &n);

    sound_survey(&p, list, n, PG_GETARG_BOX_P(points + 1));
    return p;
}

uint32 *listed_sites(const Survey *p)
{
    uint32 *sites = palloc(sizeof(uint32) * p->n);

    for (size_t i = 0; i < p->n; i++)
        sites[p->was ? p->was[i] : i] = (uint32)i;
    return sites;
}

double *listed_areas(const Survey *p)
{
    double *areas = palloc(sizeof(double) * p->n);

    for (size_t i = 0; i < p->n; i++)
        areas[p->was ? p->was[i] : i] = p->areas[i];
    return areas;
}
