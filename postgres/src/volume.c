/* The rollup: readings times the areas of the gauges that have one, as aggregates over rows and of lists. Before the mesh is made the rows of a group are put in an order of
 * their own, so that the answer is the same to the bit in whatever order they come: a parallel plan gives another each time. */
#include "yelmuzard.h"

#include "funcapi.h"
#include "utils/builtins.h"
#include "utils/memutils.h"

Readings *group_of(FunctionCallInfo fcinfo)
{
    MemoryContext context;
    Readings *g;

    if (!AggCheckCallContext(fcinfo, &context))
        elog(ERROR, "this is part of an aggregate");
    if (PG_ARGISNULL(3))
        ereport(ERROR, (errcode(ERRCODE_NULL_VALUE_NOT_ALLOWED), errmsg("a row has no box")));
    if (!PG_ARGISNULL(0))
        return (Readings *)PG_GETARG_POINTER(0);
    g = MemoryContextAllocZero(context, sizeof(Readings));
    g->context = context;
    return g;
}

void refuse_boxes(void)
{
    ereport(ERROR, (errcode(ERRCODE_INVALID_PARAMETER_VALUE), errmsg("the rows of one group have different boxes"),
                    errhint("GROUP BY the box, or by what it belongs to.")));
}

void group_add(Readings *g, const Point *place, bool no_reading, double reading)
{
    g->rows_seen++;
    if (!place || no_reading) {
        g->silent++;
        return;
    }
    if (g->n == TRIANGULATE_MOST_GAUGES)
        refuse(VORONOI_REFUSED_COUNT, "There are more than 65,472 gauges in one group.");
    if (g->n == g->room) {
        g->room = g->room ? 2 * g->room : 64;
        g->rows = g->rows ? repalloc(g->rows, sizeof(Row) * g->room) : MemoryContextAlloc(g->context, sizeof(Row) * g->room);
    }
    g->rows[g->n].place = *place;
    g->rows[g->n++].reading = reading;
}

SQL_FUNCTION(yelmuzard_volume_add) /* (state, place, reading, frame) */
{
    Readings *g = group_of(fcinfo);

    if (!same_box(&g->frame, PG_GETARG_BOX_P(3)) && g->rows_seen)
        refuse_boxes();
    g->frame = *PG_GETARG_BOX_P(3);
    group_add(g, PG_ARGISNULL(1) ? NULL : PG_GETARG_POINT_P(1), PG_ARGISNULL(2), PG_ARGISNULL(2) ? 0 : PG_GETARG_FLOAT8(2));
    PG_RETURN_POINTER(g);
}

static int by_place(const void *a, const void *b)
{
    const Row *p = a, *q = b;

    if (p->place.x != q->place.x)
        return p->place.x < q->place.x ? -1 : 1;
    return p->place.y < q->place.y ? -1 : p->place.y > q->place.y;
}

/* The sum of the products, each sum's error carried along (Neumaier, 1974). */
static double sum_of_products(const double *a, const double *b, size_t n)
{
    double sum = 0, lost = 0;

    for (size_t i = 0; i < n; i++) {
        double term = a[i] * b[i], more = sum + term;
        lost += fabs(sum) >= fabs(term) ? (sum - more) + term : (term - more) + sum;
        sum = more;
    }
    return isinf(sum) || isnan(sum) ? sum : sum + lost;
}

/* The volume of points and readings; false, with *f, where the pieces are not sound. */
static bool volume_of(Survey *p, const Point *points, const double *readings, size_t n, const BOX *frame, double *volume, Fault *f)
{
    if (!survey(p, points, n, frame, f))
        return false;
    *volume = sum_of_products(readings, listed_areas(p), n);
    return true;
}

static double area_of(const BOX *frame)
{
    return (frame->high.x - frame->low.x) * (frame->high.y - frame->low.y);
}

/* The volume of a group, which has rows. What it needs of memory is given back. */
static bool group_volume(const Readings *g, double *volume, Fault *f, char **where)
{
    MemoryContext own = AllocSetContextCreate(CurrentMemoryContext, "yelmuzard", ALLOCSET_DEFAULT_SIZES), before = MemoryContextSwitchTo(own);
    Row *rows = palloc(sizeof(Row) * g->n);
    Point *points = palloc(sizeof(Point) * g->n);
    double *readings = palloc(sizeof(double) * g->n);
    Survey p = {.nameless = true};
    bool sound;

    memcpy(rows, g->rows, sizeof(Row) * g->n);
    qsort(rows, g->n, sizeof(Row), by_place);
    for (size_t i = 0; i < g->n; i++)
        points[i] = rows[i].place, readings[i] = rows[i].reading;
    sound = volume_of(&p, points, readings, g->n, &g->frame, volume, f);
    if (!sound && !where)
        refuse_fault(&p, f);
    MemoryContextSwitchTo(before);
    if (!sound) {
        char *place = fault_place(&p, f);
        *where = place ? psprintf("%s. %s", fault_words(f), place) : pstrdup(fault_words(f));
    }
    MemoryContextDelete(own);
    return sound;
}

/* The volume of the group that an aggregate ends with, and of its frame; false where no row has a place and a reading. */
static bool ended_volume(FunctionCallInfo fcinfo, double *volume, const BOX **frame)
{
    const Readings *g = PG_ARGISNULL(0) ? NULL : (const Readings *)PG_GETARG_POINTER(0);
    Fault f;

    if (!g || g->n == 0)
        return false;
    *frame = &g->frame;
    return group_volume(g, volume, &f, NULL);
}

SQL_FUNCTION(yelmuzard_rollup_end) /* the row volume, mean, gauges, silent, sound, fault */
{
    const Readings *g = PG_ARGISNULL(0) ? NULL : (const Readings *)PG_GETARG_POINTER(0);
    double volume = 0;
    Fault f;
    char *where = NULL;
    bool sound;
    TupleDesc row;
    Datum values[6] = {0};
    bool nulls[6] = {true, true, false, false, false, true};

    if (get_call_result_type(fcinfo, NULL, &row) != TYPEFUNC_COMPOSITE)
        elog(ERROR, "a row is wanted");
    if (!g)
        PG_RETURN_NULL();
    sound = g->n > 0 && group_volume(g, &volume, &f, &where);
    if (sound) {
        values[0] = Float8GetDatum(volume), values[1] = Float8GetDatum(volume / area_of(&g->frame));
        nulls[0] = nulls[1] = false;
    } else {
        values[5] = CStringGetTextDatum(where ? where : "no gauge has a reading");
        nulls[5] = false;
    }
    values[2] = Int64GetDatum((int64)g->n), values[3] = Int64GetDatum(g->silent), values[4] = BoolGetDatum(sound);
    PG_RETURN_DATUM(HeapTupleGetDatum(heap_form_tuple(BlessTupleDesc(row), values, nulls)));
}

/* ---- of lists */

/* The volume of the arguments points, readings, frame; false where none has a reading. */
static bool list_volume(FunctionCallInfo fcinfo, double *volume, const BOX **frame)
{
    size_t n, m = 0;
    const Point *points = points_of(PG_GETARG_ARRAYTYPE_P(0), &n);
    ArrayType *list = PG_GETARG_ARRAYTYPE_P(1);
    Datum *readings;
    bool *none;
    Point *at = palloc(sizeof(Point) * Max(n, 1));
    double *reading = palloc(sizeof(double) * Max(n, 1));
    Survey p = {.numbers = palloc(sizeof(uint32) * Max(n, 1))};
    Fault f;

    as_many(n, elements_of(list, "readings", &readings, &none), "readings");
    for (size_t i = 0; i < n; i++)
        if (!none[i])
            p.numbers[m] = (uint32)i + 1, at[m] = points[i], reading[m++] = DatumGetFloat8(readings[i]);
    *frame = PG_GETARG_BOX_P(2);
    if (m && !volume_of(&p, at, reading, m, *frame, volume, &f))
        refuse_fault(&p, &f);
    return m > 0;
}

/* ---- the four functions: a volume, or that over the box's area, where there is one */

typedef bool (*Way)(FunctionCallInfo, double *, const BOX **);

static Datum answer(FunctionCallInfo fcinfo, Way way, bool mean)
{
    double volume;
    const BOX *frame;

    if (!way(fcinfo, &volume, &frame))
        PG_RETURN_NULL();
    PG_RETURN_FLOAT8(mean ? volume / area_of(frame) : volume);
}

SQL_FUNCTION(yelmuzard_volume)
{
    return answer(fcinfo, list_volume, false);
}

SQL_FUNCTION(yelmuzard_mean)
{
    return answer(fcinfo, list_volume, true);
}

SQL_FUNCTION(yelmuzard_volume_end)
{
    return answer(fcinfo, ended_volume, false);
}

SQL_FUNCTION(yelmuzard_mean_end)
{
    return answer(fcinfo, ended_volume, true);
}
