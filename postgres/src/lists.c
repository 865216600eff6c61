/* Arguments and results that are arrays. */
#include "yelmuzard.h"

#include "catalog/pg_type.h"
#include "utils/lsyscache.h"

size_t length_of(const ArrayType *list, const char *what)
{
    if (ARR_NDIM(list) > 1)
        ereport(ERROR, (errcode(ERRCODE_ARRAY_SUBSCRIPT_ERROR), errmsg("the %s must be a list, not a table", what)));
    return ARR_NDIM(list) ? (size_t)ARR_DIMS(list)[0] : 0;
}

size_t elements_of(ArrayType *list, const char *what, Datum **elements, bool **none)
{
    int16 length;
    bool by_value;
    char align;
    int count;

    (void)length_of(list, what);
    get_typlenbyvalalign(ARR_ELEMTYPE(list), &length, &by_value, &align);
    deconstruct_array(list, ARR_ELEMTYPE(list), length, by_value, align, elements, none, &count);
    return (size_t)count;
}

void as_many(size_t gauges, size_t count, const char *what)
{
    if (count != gauges)
        ereport(ERROR, (errcode(ERRCODE_ARRAY_SUBSCRIPT_ERROR), errmsg("there are %zu gauges and %zu %s", gauges, count, what)));
}

const Point *points_of(ArrayType *array, size_t *n)
{
    *n = length_of(array, "points");
    if (array_contains_nulls(array))
        ereport(ERROR, (errcode(ERRCODE_NULL_VALUE_NOT_ALLOWED), errmsg("a NULL among the points"),
                        errhint("Leave out what has no place: array_agg(place) FILTER (WHERE place IS NOT NULL).")));
    return (const Point *)ARR_DATA_PTR(array);
}

/* A list of n elements of so many bytes, from 1 on. */
static ArrayType *new_list(Oid type, size_t n, size_t each)
{
    size_t bytes = ARR_OVERHEAD_NONULLS(1) + each * n;
    ArrayType *list;

    if (n == 0)
        return construct_empty_array(type);
    list = palloc(bytes);
    memset(list, 0, ARR_OVERHEAD_NONULLS(1));
    SET_VARSIZE(list, bytes);
    list->ndim = 1;
    list->elemtype = type;
    ARR_DIMS(list)[0] = (int)n;
    ARR_LBOUND(list)[0] = 1;
    return list;
}

Datum float_list(const double *values, size_t n)
{
    ArrayType *list = new_list(FLOAT8OID, n, sizeof(double));

    if (n)
        memcpy(ARR_DATA_PTR(list), values, sizeof(double) * n);
    return PointerGetDatum(list);
}

Datum number_list(const uint32 *values, size_t n, uint32 add)
{
    ArrayType *list = new_list(INT4OID, n, sizeof(int32));

    for (size_t i = 0; i < n; i++)
        ((int32 *)ARR_DATA_PTR(list))[i] = (int32)(values[i] + add);
    return PointerGetDatum(list);
}
