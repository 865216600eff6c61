/* The call for a reason through the C interface: the rows of docs/use/RULES.md, "Reasons", every kind, and the four lent numbers after every answer. Exit status 1 where
 * something differs. The inputs of 11 to 14 are those of harness/meshes; the C library's headers are not used (tests/archive.sh says why). */
#include "../lent.h"

#define HELD UINT32_C(77)

struct mesh {
    const char *name;
    double box[4];
    size_t numbers, entries, places;
    double sites[16];
    uint32_t triangles[12], pairs[12], hull[8];
};

struct row {
    const struct mesh *mesh;
    uint32_t asked, first, second;
    uint32_t number, kind, place, from, to;
};

static const struct mesh square = {"square", {0, 0, 2, 2}, 8, 6, 4, {-.5, -.5, -.5, .5, .5, .5, .5, -.5}, {0, 1, 2, 0, 2, 3}, {E, E, 3, 2, E, E}, {0, 1, 2, 3}};
static const struct mesh two = {"two sites", {0, 0, 2, 2}, 4, 6, 4, {-.5, -.5, -.5, .5}, {0, 1, 2, 0, 2, 3}, {E, E, 3, 2, E, E}, {0, 1, 2, 3}};
static const struct mesh no_width = {"no width", {0, 0, 0, 2}, 8, 6, 4, {-.5, -.5, -.5, .5, .5, .5, .5, -.5}, {0, 1, 2, 0, 2, 3}, {E, E, 3, 2, E, E}, {0, 1, 2, 3}};
static const struct mesh far = {"a far site", {0, 0, 2, 2}, 8, 6, 4, {-.5, -.5, -.5, 1e31, .5, 1e31, .5, -.5}, {0, 1, 2, 0, 2, 3}, {E, E, 3, 2, E, E}, {0, 1, 2, 3}};
static const struct mesh twice = {"a site twice", {0, 0, 2, 2}, 8, 6, 4, {-.5, -.5, -.5, .5, .5, .5, .5, -.5}, {0, 1, 2, 0, 2, 2}, {E, E, 3, 2, E, E}, {0, 1, 2, 3}};
static const struct mesh one_sided = {"pairs E E 3, E E E", {0, 0, 2, 2}, 8, 6, 4, {-.5, -.5, -.5, .5, .5, .5, .5, -.5}, {0, 1, 2, 0, 2, 3}, {E, E, 3, E, E, E}, {0, 1, 2, 3}};
static const struct mesh short_hull = {"hull 0 1 2", {0, 0, 2, 2}, 8, 6, 3, {-.5, -.5, -.5, .5, .5, .5, .5, -.5}, {0, 1, 2, 0, 2, 3}, {E, E, 3, 2, E, E}, {0, 1, 2}};
static const struct mesh line = {"three on a line", {0, 0, 2, 2}, 6, 3, 3, {0, 0, 1, 0, 2, 0}, {0, 1, 2}, {E, E, E}, {0, 1, 2}};
static const struct mesh underflow = {"a hull edge of 2^-540", {0, 0, 2, 2}, 6, 3, 3, {0, 0, 0x1p-540, 0, 0, 1}, {0, 1, 2}, {E, E, E}, {0, 1, 2}};
static const struct mesh top_side = {"a circumcenter on the top side", {0, 0, 2, 2}, 6, 3, 3, {-.5, 0, .5, .5, .75, .5}, {0, 1, 2}, {E, E, E}, {0, 1, 2}};
static const struct mesh corner = {"rounding at a corner", {2, 2, 1, 1}, 8, 6, 4, {-2, 2, 2, -1, 1, 2, 2, 2}, {3, 1, 0, 1, 2, 0}, {E, 5, E, E, E, 1}, {0, 3, 1, 2}};
static const struct mesh unused = {"a fifth, unused site", {0, 0, 2, 2}, 10, 6, 4, {-.5, -.5, -.5, .5, .5, .5, .5, -.5, .25, 0}, {0, 1, 2, 0, 2, 3}, {E, E, 3, 2, E, E}, {0, 1, 2, 3}};
static const struct mesh within = {"a box within a piece", {-.5, -.5, .125, .125}, 8, 6, 4, {-.5, -.5, -.5, .5, .5, .5, .5, -.5}, {0, 1, 2, 0, 2, 3}, {E, E, 3, 2, E, E}, {0, 1, 2, 3}};
static const struct mesh apart = {"cells that share nothing", {0, 0, 2, 2}, 6, 3, 3, {.3515625, 0, .6875, -.4296875, 0, .3125}, {2, 0, 1}, {E, E, E}, {1, 2, 0}};
static const struct mesh counted = {"one shared entry", {0, 0, 2, 2}, 10, 9, 5, {1, 2, -2, 3, -2, 2, 4, 0, -3, 2}, {0, 1, 2, 2, 1, 3, 3, 1, 4}, {E, 3, E, 1, 6, E, 4, E, E}, {0, 1, 4, 3, 2}};

static const struct row rows[] = {
    {&square, 0, 9, 9, 0, VORONOI_WHY_NO_FAULT, E, E, E},
    {&square, 1, 0, 9, 0, VORONOI_WHY_NO_FAULT, E, E, E},
    {&square, 2, 0, 2, 0, VORONOI_WHY_NO_FAULT, E, E, E},
    {&square, 3, 0, 1, 0, VORONOI_WHY_NO_FAULT, E, E, E},
    {&square, 2, 1, 3, 0, VORONOI_WHY_NO_FAULT, E, E, E},
    {&square, 1, 4, 0, 4, VORONOI_WHY_NUMBER, E, E, E},
    {&square, 1, E, 0, 4, VORONOI_WHY_NUMBER, E, E, E},
    {&square, 2, 0, 4, 4, VORONOI_WHY_NUMBER, E, E, E},
    {&two, 1, 9, 0, 1, VORONOI_WHY_NUMBER, E, E, E},
    {&no_width, 1, 9, 0, 3, VORONOI_WHY_NUMBER, E, E, E},
    {&far, 1, 4, 0, 4, VORONOI_WHY_NUMBER, E, E, E},
    {&far, 1, 3, 0, 6, VORONOI_WHY_SITE, 1, E, E},
    {&twice, 0, 0, 0, 7, VORONOI_WHY_TRIANGLE, 1, E, E},
    {&one_sided, 0, 0, 0, 8, VORONOI_WHY_HALFEDGE, 2, E, E},
    {&short_hull, 0, 0, 0, 9, VORONOI_WHY_HULL_PLACE, 2, E, E},
    {&line, 0, 0, 0, 11, VORONOI_WHY_TRIANGLE, 0, E, E},
    {&underflow, 0, 0, 0, 12, VORONOI_WHY_HULL_PLACE, 0, E, E},
    {&top_side, 2, 0, 1, 13, VORONOI_WHY_EDGE, 0, 0, 7},
    {&corner, 0, 0, 0, 14, VORONOI_WHY_EDGE, 1, 1, 0},
    {&unused, 1, 4, 0, 0, VORONOI_WHY_UNUSED, 4, E, E},
    {&unused, 2, 4, 0, 0, VORONOI_WHY_NO_FAULT, E, E, E},
    {&within, 1, 0, 0, 0, VORONOI_WHY_TRIES, 0, E, E},
    {&apart, 2, 0, 1, 0, VORONOI_WHY_DROPPED, 0, E, E},
    {&apart, 2, 2, 1, 0, VORONOI_WHY_DROPPED, 0, E, E},
    {&counted, 2, 2, 0, 0, VORONOI_WHY_DROPPED, 1, E, E},
};

static uint32_t work[2][8], indexes[2][128], offsets[2][8], counts[2][VORONOI_COUNTS];
static double vertices[2][128];
static int failures;

static void hold(int k)
{
    for (size_t i = 0; i < LENGTH(work[k]); i++)
        work[k][i] = offsets[k][i] = HELD;
    for (size_t i = 0; i < LENGTH(indexes[k]); i++)
        indexes[k][i] = HELD, vertices[k][i] = HELD;
    for (size_t i = 0; i < VORONOI_COUNTS; i++)
        counts[k][i] = HELD;
}

/* as after a build, but that rule 4 leaves everything */
static void same_slices(const struct row *r, uint32_t built)
{
    int same = 1;
    if (r->number == VORONOI_REFUSED_SITE)
        hold(1);
    else if (built != r->number)
        failures++, printf("%s: a build answers %u\n", r->mesh->name, built);
    for (size_t i = 0; i < LENGTH(work[0]); i++)
        same &= work[0][i] == work[1][i] && offsets[0][i] == offsets[1][i];
    for (size_t i = 0; i < LENGTH(indexes[0]); i++)
        same &= indexes[0][i] == indexes[1][i] && vertices[0][i] == vertices[1][i];
    for (size_t i = 0; i < VORONOI_COUNTS; i++)
        same &= counts[0][i] == counts[1][i];
    if (!same)
        failures++, printf("%s: the slices are not a build's\n", r->mesh->name);
}

static void ask(const struct row *r, size_t room)
{
    const struct mesh *m = r->mesh;
    uint32_t kind = HELD, place = HELD, from = HELD, to = HELD;
    hold(0), hold(1);
    uint32_t number = voronoi_why(m->box[0], m->box[1], m->box[2], m->box[3], m->sites, m->numbers, m->triangles, m->entries, m->pairs, m->entries, m->hull,
        m->places, r->asked, r->first, r->second, work[0], LENGTH(work[0]), vertices[0], room, indexes[0], LENGTH(indexes[0]), offsets[0],
        LENGTH(offsets[0]), counts[0], VORONOI_COUNTS, &kind, &place, &from, &to);
    uint32_t built = voronoi_build(m->box[0], m->box[1], m->box[2], m->box[3], m->sites, m->numbers, m->triangles, m->entries, m->pairs, m->entries, m->hull,
        m->places, work[1], LENGTH(work[1]), vertices[1], room, indexes[1], LENGTH(indexes[1]), offsets[1], LENGTH(offsets[1]), counts[1],
        VORONOI_COUNTS);
    if (number != r->number || kind != r->kind || place != r->place || from != r->from || to != r->to)
        failures++, printf("%s, asked %u about %u %u: %u, kind %u, place %u from %u to %u\n", m->name, r->asked, r->first, r->second, number, kind, place, from, to);
    same_slices(r, built);
}

int main(void)
{
    static const struct row roomless = {&square, 1, 9, 0, 2, VORONOI_WHY_NUMBER, E, E, E};
    for (size_t i = 0; i < LENGTH(rows); i++)
        ask(&rows[i], LENGTH(vertices[0]));
    ask(&roomless, 75);
    printf("%u reasons, %d differ\n", (unsigned)LENGTH(rows) + 1, failures);
    return failures != 0;
}
