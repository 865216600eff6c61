/* What the planner asks, and the module's head. */
#include "yelmuzard.h"

#include "nodes/nodeFuncs.h"
#include "nodes/supportnodes.h"
#include "optimizer/optimizer.h"
#include "utils/lsyscache.h"
#include "utils/builtins.h"

PG_MODULE_MAGIC;

SQL_FUNCTION(yelmuzard_version)
{
    PG_RETURN_TEXT_P(cstring_to_text(VORONOI_VERSION));
}

/* The gauges of a call, from its first argument that is an array; 1,000 where that is not known yet. */
static double gauges_of(Node *call)
{
    if (call && is_funcclause(call)) {
        ListCell *cell;
        foreach (cell, ((FuncExpr *)call)->args) {
            Node *arg = (Node *)lfirst(cell);
            if (IsA(arg, Const) && !((Const *)arg)->constisnull && type_is_array(((Const *)arg)->consttype)) {
                ArrayType *array = DatumGetArrayTypeP(((Const *)arg)->constvalue);
                return ArrayGetNItems(ARR_NDIM(array), ARR_DIMS(array));
            }
            if (IsA(arg, ArrayExpr))
                return list_length(((ArrayExpr *)arg)->elements);
        }
    }
    return 1000;
}

SQL_FUNCTION(yelmuzard_support)
{
    Node *request = (Node *)PG_GETARG_POINTER(0);

    if (IsA(request, SupportRequestRows)) {
        SupportRequestRows *rows = (SupportRequestRows *)request;
        rows->rows = clamp_row_est(gauges_of(rows->node));
        PG_RETURN_POINTER(request);
    }
    if (IsA(request, SupportRequestCost)) {
        SupportRequestCost *cost = (SupportRequestCost *)request;
        cost->startup = 0;
        cost->per_tuple = gauges_of(cost->node) * 400 * cpu_operator_cost; /* some microseconds a gauge */
        PG_RETURN_POINTER(request);
    }
    PG_RETURN_POINTER(NULL);
}
