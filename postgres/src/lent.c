/* A lent mesh: the build's answer bit for bit, as voronoice has it, and why it is refused: yelmuzard_mesh_pieces, yelmuzard_why. The mesh's own numbers are the library's, from 0. */
#include "yelmuzard.h"

#include "funcapi.h"
#include "utils/builtins.h"

static const uint32 *list_of(FunctionCallInfo fcinfo, int arg, size_t *n)
{
    ArrayType *array;

    *n = 0;
    if (PG_ARGISNULL(arg))
        return NULL;
    array = PG_GETARG_ARRAYTYPE_P(arg);
    *n = length_of(array, "numbers of the mesh");
    if (array_contains_nulls(array))
        ereport(ERROR, (errcode(ERRCODE_NULL_VALUE_NOT_ALLOWED), errmsg("a NULL among the numbers of the mesh"), errhint("A half-edge without a pair has -1.")));
    return (const uint32 *)ARR_DATA_PTR(array); /* -1 is VORONOI_EMPTY */
}

static uint32 *copied(const uint32 *from, size_t n)
{
    uint32 *to = palloc(sizeof(uint32) * Max(n, 1));

    if (n)
        memcpy(to, from, sizeof(uint32) * n);
    return to;
}

/* Half-edges and hull of the triangles, by voronoi_mend: the number. */
static uint32 mend(Survey *p)
{
    size_t length = 3 * p->t, room = VORONOI_CHANGE_NUMBERS(p->t, p->n);
    uint32 *old = palloc(sizeof(uint32) * length), *changes = palloc(sizeof(uint32) * room), *work = palloc(sizeof(uint32) * p->n);
    uint32 none[3] = {VORONOI_EMPTY, VORONOI_EMPTY, VORONOI_EMPTY}, h, pairs, places, number;

    memset(old, 0xff, sizeof(uint32) * length);
    p->halfedges = palloc(sizeof(uint32) * VORONOI_PAIR_ROOM(p->t));
    p->hull = palloc(sizeof(uint32) * VORONOI_MENDED_ROOM(p->n));
    number = voronoi_mend(SITES_OF(p), p->triangles, length, old, length, none, 3, work, p->n, p->halfedges, length, p->hull, p->n, changes, room, &h, &pairs,
                          &places);
    pfree(old), pfree(changes), pfree(work);
    p->h = h;
    return number;
}

/* The arguments points, triangles, halfedges, hull, frame: 0, or the number of what is wrong with their lengths or cannot be mended. */
static uint32 lent_mesh(FunctionCallInfo fcinfo, Survey *p)
{
    const uint32 *list;
    const Point *points;
    size_t length, pairs;

    if (PG_ARGISNULL(0) || PG_ARGISNULL(1) || PG_ARGISNULL(4))
        ereport(ERROR, (errcode(ERRCODE_NULL_VALUE_NOT_ALLOWED), errmsg("the points, the triangles and the box must be given")));
    if (PG_ARGISNULL(2) != PG_ARGISNULL(3))
        ereport(ERROR, (errcode(ERRCODE_NULL_VALUE_NOT_ALLOWED), errmsg("halfedges and hull are given both, or neither")));
    set_frame(p, PG_GETARG_BOX_P(4));
    points = points_of(PG_GETARG_ARRAYTYPE_P(0), &p->n);
    list = list_of(fcinfo, 1, &length);
    p->s = p->n;
    if (length % 3 || length / 3 > VORONOI_MOST_TRIANGLES || length < 3 || p->n < VORONOI_LEAST_SITES || p->n > VORONOI_MOST_SITES)
        return VORONOI_REFUSED_COUNT;
    p->sites = palloc(sizeof(Point) * p->n);
    memcpy(p->sites, points, sizeof(Point) * p->n);
    p->t = length / 3;
    p->triangles = copied(list, length);
    if (PG_ARGISNULL(2))
        return mend(p);
    list = list_of(fcinfo, 2, &pairs);
    p->halfedges = copied(list, pairs);
    list = list_of(fcinfo, 3, &p->h);
    p->hull = copied(list, p->h);
    return pairs != length || p->h < 3 || p->h > p->n ? VORONOI_REFUSED_COUNT : 0;
}

SQL_FUNCTION(yelmuzard_mesh_pieces)
{
    Survey p = {0};
    Fault f;
    uint32 number = lent_mesh(fcinfo, &p);

    if (number)
        refuse(number, NULL);
    if (!build_pieces(&p, &f))
        refuse_fault(&p, &f);
    InitMaterializedSRF(fcinfo, 0);
    return put_pieces(fcinfo, &p, NULL, NULL, NULL);
}

SQL_FUNCTION(yelmuzard_why)
{
    Survey p = {0};
    char *place = NULL;
    uint32 number = lent_mesh(fcinfo, &p);
    TupleDesc row;
    Datum values[3];
    bool nulls[3] = {false, false, false};

    if (get_call_result_type(fcinfo, NULL, &row) != TYPEFUNC_COMPOSITE)
        elog(ERROR, "a row is wanted");
    if (!number)
        number = why_refused(&p, &place);
    values[0] = Int32GetDatum((int32)number);
    values[1] = CStringGetTextDatum(voronoi_words(number));
    nulls[2] = place == NULL;
    values[2] = place ? CStringGetTextDatum(place) : (Datum)0;
    PG_RETURN_DATUM(HeapTupleGetDatum(heap_form_tuple(BlessTupleDesc(row), values, nulls)));
}
