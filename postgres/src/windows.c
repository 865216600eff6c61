/* Window functions: a value on each gauge's own row. yelmuzard_area, yelmuzard_piece. */
#include "yelmuzard.h"

#include "miscadmin.h"
#include "utils/memutils.h"
#include "windowapi.h"

typedef struct {
    bool done;
    int64 *gauge; /* of each row of the partition: its site, or -1 where it has no place */
    Survey p;
} Partition;

/* The frame of all rows of the partition, and their places. */
static size_t read_partition(WindowObject w, Partition *part, int64 rows, Point *points, BOX *frame)
{
    size_t n = 0;

    for (int64 i = 0; i < rows; i++) {
        bool no_place, no_frame, out;
        Datum place = WinGetFuncArgInPartition(w, 0, i, WINDOW_SEEK_HEAD, false, &no_place, &out), box;

        part->gauge[i] = no_place ? -1 : (int64)n;
        if (!no_place)
            points[n++] = *DatumGetPointP(place);
        box = WinGetFuncArgInPartition(w, 1, i, WINDOW_SEEK_HEAD, false, &no_frame, &out);
        if (no_frame)
            ereport(ERROR, (errcode(ERRCODE_NULL_VALUE_NOT_ALLOWED), errmsg("a row has no box")));
        if (i && !same_box(frame, DatumGetBoxP(box)))
            ereport(ERROR, (errcode(ERRCODE_INVALID_PARAMETER_VALUE), errmsg("the rows of one partition have different boxes"),
                            errhint("PARTITION BY the box, or by what it belongs to.")));
        *frame = *DatumGetBoxP(box);
        if (i % 1024 == 0)
            CHECK_FOR_INTERRUPTS();
    }
    return n;
}

/* The survey of the partition, made at its first row. */
static Partition *partition_of(FunctionCallInfo fcinfo)
{
    WindowObject w = PG_WINDOW_OBJECT();
    int64 rows = WinGetPartitionRowCount(w);
    Partition *part = WinGetPartitionLocalMemory(w, sizeof(Partition));
    MemoryContext before;
    Point *points;
    BOX frame;
    size_t n;

    if (part->done)
        return part;
    before = MemoryContextSwitchTo(GetMemoryChunkContext(part));
    part->gauge = MemoryContextAllocHuge(CurrentMemoryContext, sizeof(int64) * rows);
    points = MemoryContextAllocHuge(CurrentMemoryContext, sizeof(Point) * rows);
    n = read_partition(w, part, rows, points, &frame);
    part->p.nameless = true;
    if (n) {
        uint32 *sites;

        sound_survey(&part->p, points, n, &frame);
        sites = listed_sites(&part->p);
        for (int64 i = 0; i < rows; i++)
            part->gauge[i] = part->gauge[i] < 0 ? -1 : (int64)sites[part->gauge[i]];
        pfree(sites);
    }
    pfree(points);
    part->done = true;
    MemoryContextSwitchTo(before);
    return part;
}

/* The site of the current row; false where it has no place. */
static bool current_site(FunctionCallInfo fcinfo, const Survey **p, size_t *site)
{
    Partition *part = partition_of(fcinfo);
    int64 gauge = part->gauge[WinGetCurrentPosition(PG_WINDOW_OBJECT())];

    *p = &part->p, *site = (size_t)gauge;
    return gauge >= 0;
}

SQL_FUNCTION(yelmuzard_area)
{
    const Survey *p;
    size_t site;

    if (current_site(fcinfo, &p, &site))
        PG_RETURN_FLOAT8(p->areas[site]);
    PG_RETURN_NULL();
}

SQL_FUNCTION(yelmuzard_piece)
{
    const Survey *p;
    size_t site;

    if (current_site(fcinfo, &p, &site))
        PG_RETURN_BYTEA_P(piece_wkb(p, site));
    PG_RETURN_NULL();
}
