/* Rows of gauges: a key or number, area, reach and piece, put where the executor fetches them.
 *
 * Rows of numbers whose pieces are ready are formed here, as PostgreSQL 15 keeps a row in memory (htup_details.h, MinimalTuple), each before its piece: then one copy makes it, where
 * PostgreSQL's own forming takes three times as long. It is not taken on trust: one row is formed by both, and where a byte differs PostgreSQL forms all. */
#include "yelmuzard.h"

#include "access/htup_details.h"
#include "executor/executor.h"
#include "funcapi.h"
#include "miscadmin.h"

enum { LISTS_TAKE = 350 }; /* bytes a gauge: two triangles, each with seven vertices and sixteen indexes */

/* The rows stay in memory where they take no more than the lists that they are made of. */
static void keep_rows(ReturnSetInfo *info, size_t n)
{
    MemoryContext before = MemoryContextSwitchTo(info->econtext->ecxt_per_query_memory);

    tuplestore_end(info->setResult);
    info->setResult = tuplestore_begin_heap((info->allowedModes & SFRM_Materialize_Random) != 0, false, Max(work_mem, (int)(n * LISTS_TAKE / 1024)));
    MemoryContextSwitchTo(before);
}

/* The values of row i. */
static void set_values(Datum *values, bool *nulls, const Keys *keys, size_t i, const Shown *one, Datum piece)
{
    values[0] = keys ? keys->key[i] : Int32GetDatum((int32)i + 1);
    values[1] = Float8GetDatum(one->area), values[2] = Float8GetDatum(one->reach), values[3] = piece;
    nulls[0] = keys && keys->none[i];
    nulls[1] = nulls[2] = nulls[3] = false;
}

/* The row before a piece: the head, the number, eight bytes for it, and the two floats. */
static MinimalTuple row_of(const Shown *one)
{
    return (MinimalTuple)((char *)one->piece - ROW_BYTES);
}

void form_row(uint32 number, const Shown *one)
{
    enum { HEAD = MAXALIGN(SizeofHeapTupleHeader) - MINIMAL_TUPLE_OFFSET };
    MinimalTuple head = row_of(one);
    char *row = (char *)head;
    const uint32 numbers[2] = {number, 0};

    StaticAssertStmt(HEAD + sizeof numbers + 2 * sizeof(double) == ROW_BYTES, "a piece stands behind its row");
    memset(row, 0, HEAD);
    head->t_len = (uint32)(ROW_BYTES + one->length), head->t_hoff = MAXALIGN(SizeofHeapTupleHeader);
    head->t_infomask = HEAP_HASVARWIDTH, head->t_infomask2 = 4; /* columns */
    memcpy(row + HEAD, numbers, sizeof numbers);
    memcpy(row + HEAD + sizeof numbers, &one->area, sizeof(double)), memcpy(row + HEAD + sizeof numbers + sizeof(double), &one->reach, sizeof(double));
}

/* Whether PostgreSQL forms the same: of a row whose piece it leaves as it is, because it is long. */
static bool is_formed_so(TupleDesc columns, const Shown *shown, size_t n)
{
    Datum values[4];
    bool nulls[4], same;
    MinimalTuple own, its;
    size_t i = 0;

    while (i < n && shown[i].length <= VARATT_SHORT_MAX + VARHDRSZ)
        i++;
    if (i == n)
        return false;
    own = row_of(shown + i);
    set_values(values, nulls, NULL, i, shown + i, PointerGetDatum(shown[i].piece));
    its = heap_form_minimal_tuple(columns, values, nulls);
    same = own->t_len == its->t_len && memcmp(own, its, own->t_len) == 0;
    pfree(its);
    return same;
}

enum { AHEAD = 8 }; /* rows: the pieces lie elsewhere for each, and are fetched while others are written */

Datum put_rows(FunctionCallInfo fcinfo, Survey *p, const Keys *keys, const Shown *shown, Maker make, void *with)
{
    ReturnSetInfo *info = (ReturnSetInfo *)fcinfo->resultinfo;
    TupleTableSlot *slot = NULL;
    size_t n = p->n;

    give_back(p);
    keep_rows(info, n);
    if (!keys && !make && is_formed_so(info->setDesc, shown, n))
        slot = MakeSingleTupleTableSlot(info->setDesc, &TTSOpsMinimalTuple);
    for (size_t i = 0; i < n; i++) {
        if (i + AHEAD < n)
            for (size_t k = 0; k < ROW_BYTES + shown[i + AHEAD].length; k += 64)
                __builtin_prefetch((const char *)shown[i + AHEAD].piece - ROW_BYTES + k);
        if (slot) {
            ExecStoreMinimalTuple(row_of(shown + i), slot, false);
            tuplestore_puttupleslot(info->setResult, slot);
        } else {
            Datum values[4];
            bool nulls[4];

            set_values(values, nulls, keys, i, shown + i, make ? make(shown[i].piece, shown[i].length, with) : PointerGetDatum(shown[i].piece));
            tuplestore_putvalues(info->setResult, info->setDesc, values, nulls);
        }
        if (i % 1024 == 0)
            CHECK_FOR_INTERRUPTS();
    }
    if (slot)
        ExecDropSingleTupleTableSlot(slot);
    return (Datum)0;
}
