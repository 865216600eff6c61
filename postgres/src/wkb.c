/* Pieces and points in Well-Known Binary: written by the library's voronoi_all_wkb; read here, because what others have written may be of either byte order and may carry
 * Z, M and PostGIS's reference system, which voronoi_read_multipoint refuses. */
#include "yelmuzard.h"

#include <math.h>

static uint32 word_at(const uint8 *b, bool little)
{
    return little ? b[0] | (uint32)b[1] << 8 | (uint32)b[2] << 16 | (uint32)b[3] << 24 : b[3] | (uint32)b[2] << 8 | (uint32)b[1] << 16 | (uint32)b[0] << 24;
}

static double number_at(const uint8 *b, bool little)
{
    uint64 first = word_at(b, little), second = word_at(b + 4, little), pattern = little ? second << 32 | first : first << 32 | second;
    double number;

    memcpy(&number, &pattern, sizeof number);
    return number;
}

bool read_count(Wkb *w, uint32 *count)
{
    if (w->end - w->at < 4)
        return false;
    *count = word_at(w->at, w->little);
    w->at += 4;
    return true;
}

bool read_head(Wkb *w)
{
    uint32 type, more;

    if (w->end - w->at < 5 || w->at[0] > 1)
        return false;
    w->little = w->at[0] == 1;
    w->at++;
    read_count(w, &type);
    more = (type & 0x1FFFFFFF) / 1000; /* 1 has Z, 2 M, 3 both, as the standard writes it; PostGIS writes flags */
    if (more > 3)
        return false;
    w->extra = (more == 1 || more == 3 || (type & 0x80000000) != 0) + (more >= 2 || (type & 0x40000000) != 0);
    w->type = (type & 0x1FFFFFFF) % 1000;
    if (type & 0x20000000) {
        if (!read_count(w, &more))
            return false;
        w->srid = (int32)more;
    }
    return true;
}

bool read_place(Wkb *w, Point *place)
{
    if (w->end - w->at < 16 + 8 * w->extra)
        return false;
    place->x = number_at(w->at, w->little), place->y = number_at(w->at + 8, w->little);
    w->at += 16 + 8 * w->extra;
    return true;
}

bool read_ring(Wkb *w, Point *corners, size_t room, size_t *count)
{
    uint32 many, length;

    *count = 0;
    if (w->type == 6) {
        if (!read_count(w, &many) || many > 1)
            return false;
        if (many == 0)
            return w->at == w->end;
        if (!read_head(w))
            return false;
    }
    if (w->type != 3 || !read_count(w, &many) || many > 1)
        return false;
    if (many == 0)
        return w->at == w->end;
    if (!read_count(w, &length) || length > room)
        return false;
    for (uint32 i = 0; i < length; i++)
        if (!read_place(w, corners + i))
            return false;
    *count = length ? length - 1 : 0;
    return w->at == w->end && (length == 0 || (corners[0].x == corners[length - 1].x && corners[0].y == corners[length - 1].y));
}

Images all_images(Survey *p)
{
    size_t entries = p->offsets[p->n], room = VORONOI_ALL_WKB_ROOM(p->n, entries), written;
    Images images = {palloc(room), room_in(p, sizeof(uint64) * VORONOI_START_ROOM(p->n))};
    uint32 number = voronoi_all_wkb(p->vertices, 2 * (size_t)p->v, p->offsets, p->n + 1, p->indexes, entries, images.starts, VORONOI_START_ROOM(p->n), images.at, room, &written);

    if (number)
        refuse(number, NULL);
    return images;
}

const uint8 *image_of(const Survey *p, const Images *images, size_t site, size_t *length)
{
    static const uint8 empty[9] = {1, 3, 0, 0, 0, 0, 0, 0, 0};

    *length = p->areas[site] == 0 ? sizeof empty : (size_t)(images->starts[site + 1] - images->starts[site]);
    return p->areas[site] == 0 ? empty : images->at + images->starts[site];
}

bytea *piece_wkb(const Survey *p, size_t site)
{
    uint32 first = p->offsets[site], one[2] = {0, p->offsets[site + 1] - first};
    double areas[1] = {p->areas[site]};
    Survey alone = {.n = 1, .v = p->v, .vertices = p->vertices, .indexes = p->indexes + first, .offsets = one, .areas = areas};
    Images images = all_images(&alone);
    size_t length;
    const uint8 *image = image_of(&alone, &images, 0, &length);
    Growing out = {0};

    memcpy(VARDATA(grown(&out, VARHDRSZ + length)), image, length);
    pfree(images.at), pfree(images.starts); /* they are in no block */
    return out.value;
}

double piece_reach(const Survey *p, size_t site)
{
    double most = 0; /* its square: no coordinate is so large or so small that one would leave the range */

    for (uint32 i = p->offsets[site]; i < p->offsets[site + 1]; i++) {
        const double *at = p->vertices + 2 * (size_t)p->indexes[i];
        double x = at[0] - p->sites[2 * site], y = at[1] - p->sites[2 * site + 1];
        most = Max(most, x * x + y * y);
    }
    return sqrt(most);
}
