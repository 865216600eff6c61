/* The audit of pieces from anywhere, a stored table above all. */
#include "yelmuzard.h"

#include "funcapi.h"
#include "miscadmin.h"
#include "utils/builtins.h"

/* The rings of the pieces, as they run. */
static void set_pieces(Survey *p, const Bytes *pieces)
{
    size_t room = 0, v = 0;

    for (size_t i = 0; i < p->n; i++)
        room += pieces[i].length / 16;
    if (room > UINT32_C(1) << 24)
        refuse(VORONOI_REFUSED_COUNT, "The pieces have more than 16,777,216 corners.");
    p->vertices = palloc(sizeof(double) * 2 * (room + 1));
    p->indexes = palloc(sizeof(uint32) * (room + 1));
    p->offsets = palloc(sizeof(uint32) * (p->n + 1));
    p->areas = palloc(sizeof(double) * p->n);
    for (size_t i = 0; i < p->n; i++) {
        size_t corners = 0;
        Wkb w = {.at = pieces[i].at, .end = pieces[i].at + pieces[i].length};

        p->offsets[i] = (uint32)v;
        if (pieces[i].length && (!read_head(&w) || !read_ring(&w, (Point *)p->vertices + v, room + 1 - v, &corners)))
            ereport(ERROR, (errcode(ERRCODE_INVALID_PARAMETER_VALUE), errmsg("piece %zu is no polygon of one ring", i + 1),
                            errhint("Give each gauge one Polygon, without holes; an empty one where it has no piece.")));
        for (size_t k = 0; k < corners; k++)
            p->indexes[v + k] = (uint32)(v + k);
        v += corners;
    }
    p->offsets[p->n] = (uint32)v;
    p->v = (uint32)v;
}

/* Each ring turned as the library wants it: a polygon says nothing by the way that it runs. */
static void turn_rings(Survey *p)
{
    uint32 number = voronoi_areas(p->vertices, 2 * (size_t)p->v, p->offsets, p->n + 1, p->indexes, p->offsets[p->n], p->areas, p->n);

    if (number)
        refuse(number, NULL);
    for (size_t i = 0; i < p->n; i++)
        if (p->areas[i] < 0) {
            p->areas[i] = -p->areas[i];
            for (uint32 a = p->offsets[i], b = p->offsets[i + 1]; a + 1 < b; a++) {
                uint32 kept = p->indexes[a];
                p->indexes[a] = p->indexes[--b], p->indexes[b] = kept;
            }
        }
    CHECK_FOR_INTERRUPTS();
}

Datum audit_row(FunctionCallInfo fcinfo, const Point *points, size_t n, const BOX *frame, const Bytes *pieces, size_t count)
{
    Survey p = {0};
    Fault f;
    TupleDesc row;
    double sum = 0;
    Datum values[5] = {0};
    bool nulls[5] = {false, false, false, false, false}, sound;

    if (get_call_result_type(fcinfo, NULL, &row) != TYPEFUNC_COMPOSITE)
        elog(ERROR, "a row is wanted");
    as_many(n, count, "pieces");
    set_frame(&p, frame);
    set_gauges(&p, points, n, false);
    p.was = NULL; /* they stand as in the list */
    sound = make_mesh(&p, &f);
    set_pieces(&p, pieces);
    turn_rings(&p);
    sound = sound && look_over(&p, &f);
    for (size_t i = 0; i < p.n; i++)
        sum += p.areas[i];
    values[0] = BoolGetDatum(sound);
    values[1] = CStringGetTextDatum(fault_words(&f));
    nulls[1] = sound;
    values[2] = Int32GetDatum((int32)(f.site + 1));
    nulls[2] = f.site == VORONOI_EMPTY;
    values[3] = Int32GetDatum((int32)(f.other + 1));
    nulls[3] = f.other == VORONOI_EMPTY;
    values[4] = Float8GetDatum(1 - sum / ((p.frame[2] - p.frame[0]) * (p.frame[3] - p.frame[1])));
    PG_RETURN_DATUM(HeapTupleGetDatum(heap_form_tuple(BlessTupleDesc(row), values, nulls)));
}

SQL_FUNCTION(yelmuzard_audit) /* (points, pieces, frame): sound, fault, site, other, missing */
{
    size_t n;
    const Point *points = points_of(PG_GETARG_ARRAYTYPE_P(0), &n);
    ArrayType *list = PG_GETARG_ARRAYTYPE_P(1);
    Datum *parts;
    bool *none;
    size_t count = elements_of(list, "pieces", &parts, &none);
    Bytes *pieces = palloc0(sizeof(Bytes) * Max(count, 1));

    for (size_t i = 0; i < count; i++)
        if (!none[i]) {
            bytea *wkb = DatumGetByteaPP(parts[i]);
            pieces[i] = (Bytes){(const uint8 *)VARDATA_ANY(wkb), VARSIZE_ANY_EXHDR(wkb)};
        }
    return audit_row(fcinfo, points, n, PG_GETARG_BOX_P(2), pieces, count);
}
