/* Geometries as PostGIS 3 keeps them: what its tables hold (liblwgeom, gserialized2), so that whatever PostGIS comes after it must read them. Behind the length are three bytes of the
 * reference system and one of flags; the extent in four floats, rounded outward, where a flag says so; then a type and a count, in a collection again for each part, and the places.
 * What has any other flag, Z and M too, is left to the type's own output. */
#include "yelmuzard.h"

#include <math.h>

enum { EXTENT = 0x04, VERSION = 0x40, SYSTEM_BYTES = 4, EXTENT_BYTES = 16, PART_BYTES = 24 };
enum { A_POINT = 1, A_POLYGON = 3, A_MULTIPOINT = 4 };

typedef struct {
    const char *at, *end;
    int32 srid;
} Kept;

static bool open_kept(const struct varlena *value, Kept *k)
{
    const uint8 *head = (const uint8 *)VARDATA_ANY(value);

    k->at = (const char *)head, k->end = k->at + VARSIZE_ANY_EXHDR(value);
    if (k->end - k->at < SYSTEM_BYTES || (head[3] & ~EXTENT) != VERSION || head[0] > 0x0F)
        return false;
    k->srid = head[0] << 16 | head[1] << 8 | head[2];
    k->at += SYSTEM_BYTES + (head[3] & EXTENT ? EXTENT_BYTES : 0);
    return true;
}

static bool read_shape(Kept *k, uint32 *type, uint32 *count)
{
    if (k->end - k->at < 8)
        return false;
    memcpy(type, k->at, 4), memcpy(count, k->at + 4, 4);
    k->at += 8;
    return true;
}

/* The place of a Point whose type and count are read; false of an empty one, which Well-Known Binary writes as two NaNs. */
static bool read_kept(Kept *k, uint32 type, uint32 count, Point *place)
{
    if (type != A_POINT || count != 1 || k->end - k->at < 16)
        return false;
    memcpy(place, k->at, 16);
    k->at += 16;
    return !isnan(place->x) || !isnan(place->y);
}

bool kept_place(const struct varlena *value, Point *place, int32 *srid)
{
    Kept k;
    uint32 type, count;

    if (!open_kept(value, &k) || !read_shape(&k, &type, &count) || !read_kept(&k, type, count, place))
        return false;
    *srid = k.srid;
    return k.at == k.end;
}

Point *kept_places(const struct varlena *value, size_t *n, int32 *srid)
{
    Kept k;
    uint32 type, count;
    Point *places;

    if (!open_kept(value, &k) || !read_shape(&k, &type, &count) || type != A_MULTIPOINT || k.end - k.at != (ptrdiff_t)count * PART_BYTES)
        return NULL;
    places = palloc(sizeof(Point) * Max(count, 1));
    for (uint32 i = 0, part, one; i < count; i++)
        if (!read_shape(&k, &part, &one) || !read_kept(&k, part, one, places + i)) {
            pfree(places);
            return NULL;
        }
    *n = count, *srid = k.srid;
    return places;
}

/* The float next to a coordinate that is not above it, and the one that is not below it; no coordinate is near the greatest float. Without a branch: on which side the nearest one
 * lies nobody can foresee. */
static float down(double x)
{
    union {
        float number;
        int32 pattern; /* the next float toward 0 has one less, the next away from it one more */
    } near = {(float)x};

    near.pattern -= (near.pattern >> 31 | 1) * (near.number > x);
    return near.number;
}

static float up(double x)
{
    return -down(-x);
}

/* The bytes before the places: of the length, the reference system, the extent, and the shape, which ends them at a multiple of eight. */
enum { PLACES = VARHDRSZ + SYSTEM_BYTES + EXTENT_BYTES + 16 };

size_t kept_bytes(size_t corners)
{
    return PLACES + sizeof(Point) * (corners + 1);
}

size_t kept_polygon(char *to, int32 srid, const Survey *p, size_t site, double *reach)
{
    const uint32 *index = p->indexes + p->offsets[site];
    size_t corners = p->offsets[site + 1] - p->offsets[site], bytes = kept_bytes(corners);
    const Point *vertices = (const Point *)p->vertices, own = ((const Point *)p->sites)[site];
    const uint8 system[SYSTEM_BYTES] = {srid >> 16 & 255, srid >> 8 & 255, srid & 255, VERSION | EXTENT};
    const uint32 shape[4] = {A_POLYGON, 1, (uint32)corners + 1, 0}; /* one ring */
    Point *place = (Point *)(to + PLACES), least = vertices[index[0]], most = least;
    double farthest = 0; /* as in piece_reach */
    float extent[4];

    for (size_t i = 0; i < corners; i++) {
        const Point at = vertices[index[i]];
        double x = at.x - own.x, y = at.y - own.y;

        place[i] = at;
        least.x = Min(least.x, at.x), least.y = Min(least.y, at.y);
        most.x = Max(most.x, at.x), most.y = Max(most.y, at.y);
        farthest = Max(farthest, x * x + y * y);
    }
    place[corners] = place[0];
    extent[0] = down(least.x), extent[1] = up(most.x), extent[2] = down(least.y), extent[3] = up(most.y);
    SET_VARSIZE(to, bytes);
    memcpy(to + VARHDRSZ, system, sizeof system), memcpy(to + VARHDRSZ + SYSTEM_BYTES, extent, sizeof extent);
    memcpy(to + VARHDRSZ + SYSTEM_BYTES + EXTENT_BYTES, shape, sizeof shape);
    *reach = sqrt(farthest);
    return bytes;
}
