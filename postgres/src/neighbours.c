/* Which pieces lie side by side, and which gauge is the nearest: yelmuzard_neighbours, yelmuzard_nearest. */
#include "yelmuzard.h"

#include "funcapi.h"
#include "miscadmin.h"

#include <math.h>

/* A side of a piece, the lesser end first, and its gauge's place in the list; pieces that lie side by side have the same two ends, to the bit. */
typedef struct {
    Point a, b;
    uint32 site;
} Side;

typedef struct {
    uint32 site, other;
    double length;
} Border;

static int by_end(const Point *p, const Point *q)
{
    return p->x != q->x ? (p->x < q->x ? -1 : 1) : p->y < q->y ? -1 : p->y > q->y;
}

static int by_ends(const void *a, const void *b)
{
    const Side *p = a, *q = b;
    int first = by_end(&p->a, &q->a);

    return first ? first : by_end(&p->b, &q->b);
}

static int by_sites(const void *a, const void *b)
{
    const Border *p = a, *q = b;

    return p->site != q->site ? (p->site < q->site ? -1 : 1) : p->other < q->other ? -1 : p->other > q->other;
}

/* All sides, in the order of their ends. */
static Side *sides_of(const Survey *p, size_t *count)
{
    Side *sides = palloc(sizeof(Side) * Max(p->offsets[p->n], 1));

    *count = 0;
    for (size_t i = 0; i < p->n; i++)
        for (uint32 k = p->offsets[i], end = p->offsets[i + 1]; k < end; k++) {
            Point a = ((const Point *)p->vertices)[p->indexes[k]], b = ((const Point *)p->vertices)[p->indexes[k + 1 < end ? k + 1 : p->offsets[i]]];
            int turned = by_end(&a, &b);
            if (turned)
                sides[(*count)++] = (Side){turned < 0 ? a : b, turned < 0 ? b : a, p->was[i]};
        }
    qsort(sides, *count, sizeof(Side), by_ends);
    CHECK_FOR_INTERRUPTS();
    return sides;
}

SQL_FUNCTION(yelmuzard_neighbours)
{
    ReturnSetInfo *info = (ReturnSetInfo *)fcinfo->resultinfo;
    Survey p = survey_of(fcinfo, 0);
    size_t count, made = 0;
    Side *sides = sides_of(&p, &count);
    Border *borders = palloc(sizeof(Border) * Max(count, 1));

    for (size_t i = 0; i + 1 < count; i++)
        if (by_ends(sides + i, sides + i + 1) == 0) {
            double length = hypot(sides[i].b.x - sides[i].a.x, sides[i].b.y - sides[i].a.y);
            borders[made++] = (Border){sides[i].site, sides[i + 1].site, length};
            borders[made++] = (Border){sides[i + 1].site, sides[i].site, length};
        }
    qsort(borders, made, sizeof(Border), by_sites);
    InitMaterializedSRF(fcinfo, 0);
    for (size_t i = 0, next; i < made; i = next) {
        double length = 0;
        Datum values[3];
        bool nulls[3] = {false, false, false};

        for (next = i; next < made && by_sites(borders + i, borders + next) == 0; next++)
            length += borders[next].length;
        values[0] = Int32GetDatum((int32)borders[i].site + 1);
        values[1] = Int32GetDatum((int32)borders[i].other + 1);
        values[2] = Float8GetDatum(length);
        tuplestore_putvalues(info->setResult, info->setDesc, values, nulls);
    }
    return (Datum)0;
}

/* ---- the nearest gauge */

enum { BLOCK = 65536 }; /* places asked at once, between two looks at interrupts */

/* A box about all places asked: the ghosts then are farther from each than any gauge. */
static void frame_of_places(Survey *p, const Point *asked, size_t count)
{
    double *f = p->frame;

    f[0] = f[2] = p->sites[0], f[1] = f[3] = p->sites[1];
    for (size_t i = 0; i < count; i++) {
        f[0] = Min(f[0], asked[i].x), f[2] = Max(f[2], asked[i].x);
        f[1] = Min(f[1], asked[i].y), f[3] = Max(f[3], asked[i].y);
    }
    for (int i = 0; i < 2; i++)
        if (f[i] == f[i + 2]) { /* it must have a width and a height */
            double at = f[i];
            f[i] = fabs(at) < 1 ? -1 : Min(at, at / 2), f[i + 2] = fabs(at) < 1 ? 1 : Max(at, at / 2);
        }
}

SQL_FUNCTION(yelmuzard_nearest)
{
    Survey p = {0};
    Fault f;
    size_t n, count;
    const Point *points = points_of(PG_GETARG_ARRAYTYPE_P(0), &n), *asked = points_of(PG_GETARG_ARRAYTYPE_P(1), &count);
    uint32 *out = palloc(sizeof(uint32) * Max(count, 1)), *work, number, from = 0;

    set_gauges(&p, points, n, false);
    for (size_t i = 0; i < count; i++)
        for (int c = 0; c < 2; c++) {
            double x = c ? asked[i].y : asked[i].x;
            if (x != 0 && !(fabs(x) >= TRIANGULATE_LEAST && fabs(x) <= TRIANGULATE_MOST))
                refuse(VORONOI_REFUSED_DESTINATION, psprintf("It is place %zu at (%.17g, %.17g).", i + 1, asked[i].x, asked[i].y));
        }
    frame_of_places(&p, asked, count);
    if (!make_mesh(&p, &f))
        refuse_fault(&p, &f);
    work = palloc(sizeof(uint32) * VORONOI_WORK_ROOM(p.s));
    for (size_t i = 0; i < count; i += BLOCK) {
        size_t block = Min(count - i, BLOCK);

        number = voronoi_ends(MESH_OF(&p), from, (const double *)(asked + i), 2 * block, work, VORONOI_WORK_ROOM(p.s), out + i, block);
        if (number)
            refuse(number, NULL);
        from = out[i + block - 1];
        for (size_t k = i; k < i + block; k++)
            out[k] = p.was[out[k]];
        CHECK_FOR_INTERRUPTS();
    }
    return number_list(out, count, 1);
}
