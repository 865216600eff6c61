/* Errors: refusal NN of the library is SQLSTATE YZ0NN, a fault K of the certificate YZ10K, one of the audit YZ20K. The message is the number's words, DETAIL the gauge with its
 * coordinates, HINT the way out. */
#include "yelmuzard.h"

static const char *way_out(uint32 number)
{
    switch (number) {
    case VORONOI_REFUSED_COUNT: return "Give 1 to 65,472 gauges; of more, those near each box (see the column reach of yelmuzard_pieces).";
    case VORONOI_REFUSED_BOX: return "The box needs a width and a height above 0, and edges that are 0 or from 2^-200 to 2^94 in magnitude.";
    case VORONOI_REFUSED_DESTINATION: return "Look for a missing value that became a NaN, or a fill value such as 1e36.";
    case VORONOI_REFUSED_COORDINATE:
        return "Look for a missing value that became a NaN, or a fill value such as 1e36. A coordinate is 0 or from 2^-200 to 2^94 in magnitude.";
    case VORONOI_REFUSED_TRIANGLE: return "The sites of a lent mesh are numbered from 0.";
    case VORONOI_REFUSED_PAIRING:
    case VORONOI_REFUSED_HULL: return "Leave halfedges and hull NULL: they are then worked out of the triangles.";
    case VORONOI_REFUSED_FAN: return "The triangles at a gauge must be one fan: look for a part that hangs by one gauge.";
    case VORONOI_REFUSED_CIRCUMCENTER: return "Three gauges stand on a line, or nearly: of a lent mesh leave that triangle out, with halfedges and hull NULL; of a list those gauges that are far from the box.";
    case VORONOI_REFUSED_NO_CROSSING:
    case VORONOI_REFUSED_ONE_CROSSING: return "Make the box larger by an odd fraction of the unit, such as .37.";
    case VORONOI_REFUSED_TWICE: return "Look for a triangle that is there twice, or that is wound against its neighbour.";
    case VORONOI_REFUSED_POINTS: return "Give a MultiPoint, or ST_Collect(..) of points.";
    case VORONOI_REFUSED_CORNER: return "A corner of a piece is not finite, or beyond 2^400.";
    default: return "docs/use/RULES.md has each number.";
    }
}

void refuse(uint32 number, const char *detail)
{
    ereport(ERROR, (errcode(MAKE_SQLSTATE('Y', 'Z', '0', '0' + number / 10 % 10, '0' + number % 10)), errmsg("%s", voronoi_words(number)),
                    detail ? errdetail("%s", detail) : 0, errhint("%s", way_out(number))));
}

uint32 gauge_number(const Survey *p, uint32 site)
{
    uint32 place = p->was ? p->was[site] : site;

    return p->numbers ? p->numbers[place] : place + 1;
}

char *gauge_words(const Survey *p, uint32 site)
{
    const double *at = p->sites + 2 * (size_t)site;
    if (site >= p->n)
        return psprintf("ghost %u", (unsigned)(site - p->n));
    if (p->nameless)
        return psprintf("the gauge at (%.17g, %.17g)", at[0], at[1]);
    return psprintf("gauge %u at (%.17g, %.17g)", gauge_number(p, site), at[0], at[1]);
}

static const char *certificate_words(uint32 kind)
{
    static const char *const words[] = {"sound", "a corner of a piece is outside the box", "a side of a piece is no neighbour's", "the border of the pieces is not the box's",
                                        "a corner of a piece is nearer to another gauge", "two gauges stand at one place"};
    return kind < lengthof(words) ? words[kind] : "no such kind";
}

static const char *audit_words(uint32 kind)
{
    static const char *const words[] = {"sound", "a piece does not run once round, the right way", "a corner of a piece is outside the box",
                                        "a corner of a piece is nearer to another gauge", "the pieces do not add up to the box", "two gauges stand at one place"};
    return kind < lengthof(words) ? words[kind] : "no such kind";
}

const char *fault_words(const Fault *f)
{
    return f->state == 1 ? certificate_words(f->kind) : audit_words(f->kind);
}

char *fault_place(const Survey *p, const Fault *f)
{
    if (f->kind == VORONOI_AUDIT_TWIN && p->nameless)
        return psprintf("It is at (%.17g, %.17g).", p->sites[2 * (size_t)f->site], p->sites[2 * (size_t)f->site + 1]);
    if (f->site != VORONOI_EMPTY && f->other != VORONOI_EMPTY)
        return psprintf("It is %s, and %s.", gauge_words(p, f->site), gauge_words(p, f->other));
    if (f->site != VORONOI_EMPTY)
        return psprintf("It is %s.", gauge_words(p, f->site));
    if (f->missing != 0)
        return psprintf("Of the box %.9g is in no piece.", f->missing);
    return NULL;
}

void refuse_fault(const Survey *p, const Fault *f)
{
    char *where = fault_place(p, f);
    bool twin = f->kind == VORONOI_AUDIT_TWIN; /* the certificate's number too */

    ereport(ERROR, (errcode(MAKE_SQLSTATE('Y', 'Z', '0' + f->state, '0', '0' + f->kind)),
                    twin ? errmsg("%s", fault_words(f)) : errmsg("the pieces are not sound: %s", fault_words(f)), where ? errdetail("%s", where) : 0,
                    twin ? errhint("Give each place once, with the mean of the readings there.")
                         : errhint("Look at the mesh: which way its triangles turn, and the order of the gauges.")));
}
