/* Pieces and areas of a list of points: yelmuzard_areas, yelmuzard_pieces. */
#include "yelmuzard.h"

#include "funcapi.h"
#include "miscadmin.h"

SQL_FUNCTION(yelmuzard_areas)
{
    Survey p = survey_of(fcinfo, 0);

    return float_list(listed_areas(&p), p.n);
}

static Datum as_bytes(const uint8 *image, size_t length, void *with)
{
    struct varlena *bytes = grown(with, VARHDRSZ + length);

    memcpy(VARDATA(bytes), image, length);
    return PointerGetDatum(bytes);
}

/* With images, in the order of the list; made in the order of the sites, which is that of memory. */
static Shown *shown_images(Survey *p)
{
    Images images = all_images(p);
    Shown *shown = palloc(sizeof(Shown) * p->n);

    for (size_t i = 0; i < p->n; i++) {
        Shown *one = shown + (p->was ? p->was[i] : i);

        one->area = p->areas[i], one->reach = piece_reach(p, i);
        one->piece = image_of(p, &images, i, &one->length);
    }
    CHECK_FOR_INTERRUPTS();
    return shown;
}

Datum put_pieces(FunctionCallInfo fcinfo, Survey *p, const Keys *keys, Maker make, void *with)
{
    Growing own = {0};

    return make ? put_rows(fcinfo, p, keys, shown_images(p), make, with) : put_rows(fcinfo, p, keys, shown_images(p), as_bytes, &own);
}

void read_keys(ArrayType *array, size_t n, Keys *keys)
{
    as_many(n, elements_of(array, "keys", &keys->key, &keys->none), "keys");
}

SQL_FUNCTION(yelmuzard_pieces)
{
    Survey p = survey_of(fcinfo, 0);

    InitMaterializedSRF(fcinfo, 0);
    return put_pieces(fcinfo, &p, NULL, NULL, NULL);
}

SQL_FUNCTION(yelmuzard_pieces_by_key)
{
    Survey p = survey_of(fcinfo, 1);
    Keys keys;

    InitMaterializedSRF(fcinfo, 0);
    read_keys(PG_GETARG_ARRAYTYPE_P(0), p.n, &keys);
    return put_pieces(fcinfo, &p, &keys, NULL, NULL);
}
