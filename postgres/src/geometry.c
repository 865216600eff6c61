/* PostGIS's geometries, for the extension yelmuzard_postgis. They go in and out by the binary output and input of their type, which is Well-Known Binary with the reference system in
 * it; or, faster, as PostGIS 3 keeps them (kept.c): points where they are kept so, pieces where the type's input makes the same bytes of the first one. No header and no symbol
 * of PostGIS is needed to build or to load this module. */
#include "yelmuzard.h"

#include "catalog/pg_type.h"
#include "funcapi.h"
#include "lib/stringinfo.h"
#include "miscadmin.h"
#include "utils/builtins.h"
#include "utils/lsyscache.h"

/* ---- in */

/* The type's binary output, kept for the next call. */
static FmgrInfo *sender(FunctionCallInfo fcinfo, Oid type)
{
    FmgrInfo *send = fcinfo->flinfo->fn_extra;

    if (!send) {
        Oid function;
        bool varlena;

        getTypeBinaryOutputInfo(type, &function, &varlena);
        send = MemoryContextAllocZero(fcinfo->flinfo->fn_mcxt, sizeof(FmgrInfo));
        fmgr_info_cxt(function, send, fcinfo->flinfo->fn_mcxt);
        fcinfo->flinfo->fn_extra = send;
    }
    return send;
}

static Wkb open_geometry(FmgrInfo *send, Datum geometry)
{
    bytea *bytes = SendFunctionCall(send, geometry);
    Wkb w = {.at = (const uint8 *)VARDATA(bytes)};

    w.first = w.at, w.end = w.at + VARSIZE(bytes) - VARHDRSZ;
    if (!read_head(&w))
        elog(ERROR, "a geometry could not be read");
    return w;
}

static void same_system(int32 points, int32 frame)
{
    if (points != frame)
        ereport(ERROR, (errcode(ERRCODE_INVALID_PARAMETER_VALUE), errmsg("the gauges and the frame have different reference systems (%d and %d)", points, frame),
                        errhint("Bring one into the other's by ST_Transform.")));
}

static void refuse_empty(size_t number)
{
    ereport(ERROR, (errcode(ERRCODE_NULL_VALUE_NOT_ALLOWED), errmsg("a POINT EMPTY among the points"), number ? errdetail("It is gauge %zu.", number) : 0,
                    errhint("Leave out what has no place: FILTER (WHERE NOT ST_IsEmpty(place)).")));
}

/* The place of a Point; `number` is its gauge's in messages, or 0. */
static Point place_of(Wkb *w, size_t number)
{
    Point place;

    if (w->type != 1 || !read_place(w, &place))
        refuse(VORONOI_REFUSED_POINTS, number ? psprintf("Gauge %zu is no Point.", number) : "A gauge is no Point.");
    if (isnan(place.x) && isnan(place.y))
        refuse_empty(number);
    return place;
}

/* The places of a MultiPoint, or of a Point, as it is sent. */
static Point *places_sent(Wkb *w, size_t *n)
{
    uint32 count = 1;
    Point *places;

    if (w->type != 1 && (w->type != 4 || !read_count(w, &count)))
        refuse(VORONOI_REFUSED_POINTS, NULL);
    if (w->type == 4 && count > (size_t)(w->end - w->at) / 21)
        elog(ERROR, "a geometry could not be read");
    places = palloc(sizeof(Point) * Max(count, 1));
    if (w->type == 1)
        places[0] = place_of(w, 1);
    else
        for (uint32 i = 0; i < count; i++) {
            if (!read_head(w))
                elog(ERROR, "a geometry could not be read");
            places[i] = place_of(w, i + 1);
        }
    *n = count;
    return places;
}

/* The places of a geometry, which must be of the frame's reference system. */
static Point *places_of(FmgrInfo *send, Datum geometry, int32 srid, size_t *n)
{
    int32 own;
    Point *places = kept_places((struct varlena *)PG_DETOAST_DATUM_PACKED(geometry), n, &own);

    if (places)
        same_system(own, srid);
    else {
        Wkb w = open_geometry(send, geometry);

        same_system(w.srid, srid);
        places = places_sent(&w, n);
    }
    return places;
}

/* The place of a Point, which must be of the frame's reference system; `number` is its gauge's in messages, or 0. */
static Point place_in(FmgrInfo *send, Datum geometry, int32 srid, size_t number)
{
    struct varlena *value = (struct varlena *)PG_DETOAST_DATUM_PACKED(geometry);
    Point place;
    int32 own;

    if (kept_place(value, &place, &own))
        same_system(own, srid);
    else {
        Wkb w = open_geometry(send, geometry);

        same_system(w.srid, srid);
        place = place_of(&w, number);
    }
    return place;
}

/* The box that a rectangle along the axes is, its edges to the bit. */
static BOX box_of(Wkb *w)
{
    Point c[6];
    size_t count;
    bool rectangle = read_ring(w, c, 6, &count) && count == 4;

    if (rectangle) /* up or down first, then across, or the other way */
        rectangle = (c[0].x == c[1].x && c[1].y == c[2].y && c[2].x == c[3].x && c[3].y == c[0].y) ||
                    (c[0].y == c[1].y && c[1].x == c[2].x && c[2].y == c[3].y && c[3].x == c[0].x);
    if (!rectangle)
        ereport(ERROR, (errcode(ERRCODE_INVALID_PARAMETER_VALUE), errmsg("the frame is no rectangle along the axes"),
                        errhint("Give ST_Envelope(..) of it, and cut the pieces by ST_Intersection afterwards.")));
    return (BOX){.low = {Min(c[0].x, c[2].x), Min(c[0].y, c[2].y)}, .high = {Max(c[0].x, c[2].x), Max(c[0].y, c[2].y)}};
}

/* The geometries of an array, as they are sent; empty for a NULL. */
static Wkb *geometries_of(FunctionCallInfo fcinfo, ArrayType *array, size_t *n)
{
    bool *none;
    Datum *parts;
    size_t count = elements_of(array, "geometries", &parts, &none);
    FmgrInfo *send = sender(fcinfo, ARR_ELEMTYPE(array));
    Wkb *list = palloc0(sizeof(Wkb) * Max(count, 1));

    for (size_t i = 0; i < count; i++) {
        if (!none[i])
            list[i] = open_geometry(send, parts[i]);
        if (i % 1024 == 0)
            CHECK_FOR_INTERRUPTS();
    }
    *n = count;
    return list;
}

/* The places of an array of Points, all of the frame's reference system. */
static Point *place_list(FunctionCallInfo fcinfo, ArrayType *array, int32 srid, size_t *n)
{
    bool *none;
    Datum *parts;
    size_t count = elements_of(array, "geometries", &parts, &none);
    FmgrInfo *send = sender(fcinfo, ARR_ELEMTYPE(array));
    Point *places = palloc(sizeof(Point) * Max(count, 1));

    for (size_t i = 0; i < count; i++)
        if (none[i])
            ereport(ERROR, (errcode(ERRCODE_NULL_VALUE_NOT_ALLOWED), errmsg("a NULL among the points"), errdetail("It is gauge %zu.", i + 1),
                            errhint("Leave out what has no place: array_agg(place) FILTER (WHERE place IS NOT NULL).")));
    for (size_t i = 0; i < count; i++) {
        places[i] = place_in(send, parts[i], srid, i + 1);
        if (i % 1024 == 0)
            CHECK_FOR_INTERRUPTS();
    }
    *n = count;
    return places;
}

/* ---- out */

typedef struct {
    FmgrInfo receive;
    Oid parameter;
    int32 srid;
    StringInfoData bytes;
    struct varlena *last; /* that was received, or NULL */
} Writer;

static void open_writer(Writer *w, Oid type, int32 srid)
{
    Oid function;

    getTypeBinaryInputInfo(type, &function, &w->parameter);
    fmgr_info(function, &w->receive);
    w->srid = srid;
    initStringInfo(&w->bytes);
    w->last = NULL;
}

/* By the type's input: the head of the Polygon with the reference system put in. */
static struct varlena *received(Writer *w, const uint8 *image, size_t length)
{
    const uint8 head[9] = {1, 3, 0, 0, 0x20, w->srid & 255, w->srid >> 8 & 255, w->srid >> 16 & 255, w->srid >> 24 & 255};

    resetStringInfo(&w->bytes);
    appendBinaryStringInfo(&w->bytes, (const char *)head, 9);
    appendBinaryStringInfo(&w->bytes, (const char *)image + 5, (int)length - 5);
    if (w->last)
        pfree(w->last);
    w->last = (struct varlena *)DatumGetPointer(ReceiveFunctionCall(&w->receive, &w->bytes, w->parameter, -1));
    return w->last;
}

static Datum by_input(const uint8 *image, size_t length, void *with)
{
    return PointerGetDatum(received(with, image, length));
}

/* Whether kept_polygon makes what the type's input makes, of the first piece that has ground. */
static bool is_kept_so(Writer *w, const Survey *p)
{
    size_t site = 0, bytes;
    bytea *image;
    char *own;
    double reach;
    bool same;

    while (site < p->n && p->areas[site] == 0)
        site++;
    if (site == p->n)
        return false;
    image = piece_wkb(p, site);
    own = palloc(kept_bytes(p->offsets[site + 1] - p->offsets[site]));
    bytes = kept_polygon(own, w->srid, p, site, &reach);
    received(w, (const uint8 *)VARDATA(image), VARSIZE(image) - VARHDRSZ);
    same = VARSIZE(w->last) == bytes && memcmp(own, w->last, bytes) == 0;
    pfree(own), pfree(image);
    return same;
}

/* The pieces as PostGIS keeps them, in the order of the list; made in the order of the sites, which is that of memory. A piece of no area is the empty polygon. */
static Shown *shown_kept(Writer *w, const Survey *p)
{
    static const uint8 empty[9] = {1, 3, 0, 0, 0, 0, 0, 0, 0};
    struct varlena *nothing = received(w, empty, sizeof empty);
    size_t room = ROW_BYTES + Max(kept_bytes(0), MAXALIGN(VARSIZE(nothing)));
    Shown *shown = palloc(sizeof(Shown) * p->n);
    char *to = palloc(p->n * room + sizeof(Point) * p->offsets[p->n]);

    for (size_t i = 0; i < p->n; i++) {
        uint32 place = p->was ? p->was[i] : (uint32)i;
        Shown *one = shown + place;

        one->area = p->areas[i], one->piece = to += ROW_BYTES;
        if (p->areas[i] == 0)
            memcpy(to, nothing, one->length = VARSIZE(nothing)), one->reach = piece_reach(p, i);
        else
            one->length = kept_polygon(to, w->srid, p, i, &one->reach);
        form_row(place + 1, one);
        to += MAXALIGN(one->length);
    }
    CHECK_FOR_INTERRUPTS();
    return shown;
}

/* ---- the functions */

/* The rows of the pieces of these places, in the frame's reference system; `keys` may be NULL. After InitMaterializedSRF. */
static Datum put_geometries(FunctionCallInfo fcinfo, const Point *places, size_t n, const BOX *box, int32 srid, const Keys *keys)
{
    Survey p = {0};
    Writer w;

    sound_survey(&p, places, n, box);
    open_writer(&w, TupleDescAttr(((ReturnSetInfo *)fcinfo->resultinfo)->setDesc, 3)->atttypid, srid);
    return is_kept_so(&w, &p) ? put_rows(fcinfo, &p, keys, shown_kept(&w, &p), NULL, NULL) : put_pieces(fcinfo, &p, keys, by_input, &w);
}

SQL_FUNCTION(yelmuzard_geometry_pieces) /* (points, frame) */
{
    FmgrInfo *send = sender(fcinfo, get_fn_expr_argtype(fcinfo->flinfo, 0));
    Wkb frame = open_geometry(send, PG_GETARG_DATUM(1));
    BOX box = box_of(&frame);
    size_t n;
    Point *places;

    InitMaterializedSRF(fcinfo, 0);
    places = places_of(send, PG_GETARG_DATUM(0), frame.srid, &n);
    return put_geometries(fcinfo, places, n, &box, frame.srid, NULL);
}

SQL_FUNCTION(yelmuzard_geometry_pieces_by_key) /* (keys, points, frame) */
{
    Wkb frame = open_geometry(sender(fcinfo, get_fn_expr_argtype(fcinfo->flinfo, 2)), PG_GETARG_DATUM(2));
    BOX box = box_of(&frame);
    Keys keys;
    size_t n;
    Point *places = place_list(fcinfo, PG_GETARG_ARRAYTYPE_P(1), frame.srid, &n);

    InitMaterializedSRF(fcinfo, 0);
    read_keys(PG_GETARG_ARRAYTYPE_P(0), n, &keys);
    return put_geometries(fcinfo, places, n, &box, frame.srid, &keys);
}

SQL_FUNCTION(yelmuzard_geometry_audit) /* (points, pieces, frame) */
{
    Wkb frame = open_geometry(sender(fcinfo, get_fn_expr_argtype(fcinfo->flinfo, 2)), PG_GETARG_DATUM(2)), *list;
    BOX box = box_of(&frame);
    size_t n, count;
    Point *places = place_list(fcinfo, PG_GETARG_ARRAYTYPE_P(0), frame.srid, &n);
    Bytes *pieces;

    list = geometries_of(fcinfo, PG_GETARG_ARRAYTYPE_P(1), &count);
    pieces = palloc0(sizeof(Bytes) * Max(count, 1));
    for (size_t i = 0; i < count; i++)
        if (list[i].first) {
            same_system(list[i].srid, frame.srid);
            pieces[i] = (Bytes){list[i].first, (size_t)(list[i].end - list[i].first)};
        }
    return audit_row(fcinfo, places, n, &box, pieces, count);
}

SQL_FUNCTION(yelmuzard_geometry_add) /* (state, place, reading, frame) */
{
    Readings *g = group_of(fcinfo);
    FmgrInfo *send = sender(fcinfo, get_fn_expr_argtype(fcinfo->flinfo, 1));
    struct varlena *frame = PG_GETARG_VARLENA_P(3);
    Point place;

    /* the same frame again, byte for byte, is not read again */
    if (!g->geometry || VARSIZE(frame) != VARSIZE(g->geometry) || memcmp(frame, g->geometry, VARSIZE(frame)) != 0) {
        Wkb w = open_geometry(send, PointerGetDatum(frame));
        BOX box = box_of(&w);

        if (g->geometry)
            same_system(w.srid, g->srid);
        if (g->geometry && !same_box(&g->frame, &box))
            refuse_boxes();
        g->frame = box, g->srid = w.srid;
        if (!g->geometry) {
            g->geometry = MemoryContextAlloc(g->context, VARSIZE(frame));
            memcpy(g->geometry, frame, VARSIZE(frame));
        }
    }
    if (!PG_ARGISNULL(1))
        place = place_in(send, PG_GETARG_DATUM(1), g->srid, 0);
    group_add(g, PG_ARGISNULL(1) ? NULL : &place, PG_ARGISNULL(2), PG_ARGISNULL(2) ? 0 : PG_GETARG_FLOAT8(2));
    PG_RETURN_POINTER(g);
}

SQL_FUNCTION(yelmuzard_refuse_geography)
{
    ereport(ERROR, (errcode(ERRCODE_INVALID_PARAMETER_VALUE), errmsg("degrees are no plane: geography is not taken"),
                    errhint("Bring gauges and frame into a projected system, in metres: ST_Transform(place::geometry, 25832).")));
}
