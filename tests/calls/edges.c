/* The calls that take a box by its four edges, through the C interface: what rule 3 takes and refuses, the box and its center, neighbours that
 * share an edge, and for many boxes each call by the edges of a box beside the call by its center and size. Exit status 1 where something differs.
 * The C library's headers are not used (tests/archive.sh says why). */
#include "../lent.h"

#define HELD UINT32_C(77)
#define SPARE 3

static int failures;

static void tell(const char *what, int right)
{
    printf(right ? "  %s\n" : "FAILED: %s\n", what);
    failures += !right;
}

static int same(const double *a, const double *b, size_t length)
{
    for (size_t i = 0; i < length; i++)
        if (bits(a[i]) != bits(b[i]))
            return 0;
    return 1;
}

/* ---- a box, by its edges and by its center and size; each way has its own answers */

struct box {
    int by_edges;
    double a, b, c, d;
};

struct answers {
    uint32_t number[6], inside, inner, side, met[2];
    double corners[8 + SPARE], points[8];
};

static void ask(struct box o, const double *p, struct answers *r)
{
    for (int i = 0; i < 8 + SPARE; i++)
        r->corners[i] = HELD;
    if (o.by_edges) {
        r->number[0] = voronoi_corners_by_edges(o.a, o.b, o.c, o.d, r->corners, 8);
        r->number[1] = voronoi_is_inside_by_edges(o.a, o.b, o.c, o.d, p[0], p[1], &r->inside);
        r->number[2] = voronoi_is_exclusively_inside_by_edges(o.a, o.b, o.c, o.d, p[0], p[1], &r->inner);
        r->number[3] = voronoi_which_edge_by_edges(o.a, o.b, o.c, o.d, p[0], p[1], &r->side);
        r->number[4] = voronoi_intersect_line_by_edges(o.a, o.b, o.c, o.d, p[0], p[1], p[2], p[3], r->met, r->points, r->points + 1, r->points + 2, r->points + 3);
        r->number[5] = voronoi_project_ray_by_edges(o.a, o.b, o.c, o.d, p[0], p[1], p[2], p[3], r->met + 1, r->points + 4, r->points + 5, r->points + 6, r->points + 7);
    } else {
        r->number[0] = voronoi_corners(o.a, o.b, o.c, o.d, r->corners, 8);
        r->number[1] = voronoi_is_inside(o.a, o.b, o.c, o.d, p[0], p[1], &r->inside);
        r->number[2] = voronoi_is_exclusively_inside(o.a, o.b, o.c, o.d, p[0], p[1], &r->inner);
        r->number[3] = voronoi_which_edge(o.a, o.b, o.c, o.d, p[0], p[1], &r->side);
        r->number[4] = voronoi_intersect_line(o.a, o.b, o.c, o.d, p[0], p[1], p[2], p[3], r->met, r->points, r->points + 1, r->points + 2, r->points + 3);
        r->number[5] = voronoi_project_ray(o.a, o.b, o.c, o.d, p[0], p[1], p[2], p[3], r->met + 1, r->points + 4, r->points + 5, r->points + 6, r->points + 7);
    }
}

static int same_answers(const struct answers *r, const struct answers *s)
{
    for (int i = 0; i < 6; i++)
        if (r->number[i] != s->number[i])
            return 0;
    return r->inside == s->inside && r->inner == s->inner && r->side == s->side && r->met[0] == s->met[0] && r->met[1] == s->met[1] &&
           same(r->corners, s->corners, 8 + SPARE) && same(r->points, s->points, 8);
}

/* ---- "square" of docs/use/RULES.md, moved and scaled, built in a box; and asked why */

static const uint32_t triangles[] = {0, 1, 2, 0, 2, 3}, pairs[] = {E, E, 3, 2, E, E}, hull[] = {0, 1, 2, 3};
enum { WORK = 4, NUMBERS = 76, INDEXES = 60, OFFSETS = 5, COUNTS = VORONOI_COUNTS };

struct built {
    uint32_t number, work[WORK + SPARE], indexes[INDEXES + SPARE], offsets[OFFSETS + SPARE], counts[COUNTS + SPARE], told[4];
    double vertices[NUMBERS + SPARE];
};

static void held(struct built *r)
{
    uint32_t *word = (uint32_t *)r;
    for (size_t i = 0; i < sizeof *r / sizeof *word; i++)
        word[i] = HELD;
    for (size_t i = 0; i < NUMBERS + SPARE; i++)
        r->vertices[i] = HELD;
}

static int same_built(const struct built *r, const struct built *s)
{
    const uint32_t *a = (const uint32_t *)r, *b = (const uint32_t *)s;
    for (size_t i = 0; i < sizeof *r / sizeof *a; i++)
        if (a[i] != b[i])
            return 0;
    return 1;
}

/* indexes: how many are lent; asked: 9 for a build, else what is asked of site 0 and 1 */
static void make(struct box o, const double *sites, size_t indexes, uint32_t asked, struct built *r)
{
    held(r);
#define LENT(first) o.a, o.b, o.c, o.d, sites, 8, triangles, 6, pairs, 6, hull, 4, first r->work, WORK, r->vertices, NUMBERS, r->indexes, indexes, r->offsets, OFFSETS, r->counts, COUNTS
#define NOTHING
#define QUESTION asked, 0, 1,
#define TOLD r->told, r->told + 1, r->told + 2, r->told + 3
    if (asked == 9)
        r->number = o.by_edges ? voronoi_build_by_edges(LENT(NOTHING)) : voronoi_build(LENT(NOTHING));
    else
        r->number = o.by_edges ? voronoi_why_by_edges(LENT(QUESTION), TOLD) : voronoi_why(LENT(QUESTION), TOLD);
}

/* by the edges of a box that is given by its center and size: the same answers to the last bit, of every call but the center */
static int agree(double cx, double cy, double width, double height, const double *p, const double *sites)
{
    double edges[4], size[2], center[2], again[2];
    struct box by_size = {0, cx, cy, width, height}, by_edges;
    struct answers r, s;
    struct built b, c;
    if (voronoi_box(cx, cy, width, height, edges, edges + 1, edges + 2, edges + 3, size, size + 1))
        return 0;
    by_edges = (struct box){1, edges[0], edges[1], edges[2], edges[3]};
    ask(by_size, p, &r);
    ask(by_edges, p, &s);
    if (!same_answers(&r, &s))
        return 0;
    for (uint32_t asked = 0; asked < 4; asked++) {
        make(by_size, sites, INDEXES, asked == 3 ? 9 : asked, &b);
        make(by_edges, sites, INDEXES, asked == 3 ? 9 : asked, &c);
        if (!same_built(&b, &c))
            return 0;
    }
    volatile double across = edges[2] - edges[0], down = edges[3] - edges[1];
    center[0] = edges[0] + across / 2, center[1] = edges[1] + down / 2;
    double found[2];
    return voronoi_box_by_edges(edges[0], edges[1], edges[2], edges[3], found, found + 1, again, again + 1) == 0 && same(again, size, 2) &&
           same(found, center, 2);
}

static const double square[] = {-.5, -.5, -.5, .5, .5, .5, .5, -.5};
static const double inner[] = {.25, 0, .5, 2};

/* ---- rule 3 */

static void rule(const char *what, double left, double top, double right, double bottom, uint32_t number)
{
    double out[4] = {HELD, HELD, HELD, HELD}, corners[8 + SPARE];
    static const double zeros[8];
    struct box o = {1, left, top, right, bottom};
    struct answers r;
    struct built b, untouched;
    int right_one = voronoi_box_by_edges(left, top, right, bottom, out, out + 1, out + 2, out + 3) == number;
    ask(o, inner, &r);
    make(o, square, INDEXES, 9, &b);
    held(&untouched);
    for (int i = 0; i < 6; i++)
        right_one &= r.number[i] == number;
    if (number) {
        untouched.number = number;
        right_one &= same(out, zeros, 4) && same(r.points, zeros, 8) && r.side == E && !r.inside && !r.inner && !r.met[0] && !r.met[1] &&
                     b.number == number && same_built(&b, &untouched);
        for (int i = 0; i < 8 + SPARE; i++)
            right_one &= r.corners[i] == HELD;
        make(o, square, INDEXES, 1, &b);
        untouched.told[0] = VORONOI_WHY_NUMBER, untouched.told[1] = untouched.told[2] = untouched.told[3] = E;
        right_one &= same_built(&b, &untouched);
        /* 2 comes before it */
        make(o, square, INDEXES - 1, 9, &b);
        for (int i = 0; i < 8 + SPARE; i++)
            corners[i] = HELD;
        right_one &= b.number == 2 && voronoi_corners_by_edges(left, top, right, bottom, corners, 7) == 2;
    }
    tell(what, right_one);
}

static void rules(void)
{
    static const double nothing;
    double limit = 0x1p101, over = value(UINT64_C(0x4640000000000001)), inf = 1 / nothing, nan = nothing / nothing;
    rule("-1 -1 1 1", -1, -1, 1, 1, 0);
    rule("from -2^101 to 2^101", -limit, -limit, limit, limit, 0);
    rule("left = right", 1, 0, 1, 2, 3);
    rule("left > right", 2, 0, 1, 2, 3);
    rule("top = bottom", 0, 1, 2, 1, 3);
    rule("top > bottom", 0, 2, 2, 1, 3);
    rule("the float after 2^101 on the right", 0, 0, over, 1, 3);
    rule("the float after 2^101 below", 0, 0, 1, over, 3);
    rule("its negative on the left", -over, 0, 1, 1, 3);
    rule("its negative above", 0, -over, 1, 1, 3);
    rule("an infinite left", -inf, 0, 1, 1, 3);
    rule("an infinite bottom", 0, 0, 1, inf, 3);
    rule("a NaN for left", nan, 0, 1, 1, 3);
    rule("a NaN for top", 0, nan, 1, 1, 3);
    rule("a NaN for right", 0, 0, nan, 1, 3);
    rule("a NaN for bottom", 0, 0, 1, nan, 3);
    rule("from -0 to +0", -0.0, 0, 0.0, 1, 3);
}

/* ---- neighbours at .3 */

static void neighbours(void)
{
    double a[8], b[8], left, skip[5];
    uint32_t n = voronoi_corners_by_edges(.1, .1, .3, .3, a, 8), m = voronoi_corners_by_edges(.3, .1, .6, .3, b, 8);
    tell("side by side: corners 3 and 2 of the left box are 0 and 1 of the right one", !n && !m && same(a + 6, b, 2) && same(a + 4, b + 2, 2));
    n = voronoi_corners_by_edges(.1, .3, .3, .6, b, 8);
    tell("one above the other: corners 1 and 2 of the upper box are 0 and 3 of the lower one", !n && same(a + 2, b, 2) && same(a + 4, b + 6, 2));
    n = voronoi_box(.44999999999999996, .2, .3, .2, &left, skip, skip + 1, skip + 2, skip + 3, skip + 4);
    tell("by center and size the box from .3 starts a bit to the left", !n && bits(left) == UINT64_C(0x3fd3333333333332));

    static const double sites[] = {.35, .15, .35, .25, .55, .25, .55, .15};
    static const uint64_t corners[] = {UINT64_C(0x3fd3333333333333), UINT64_C(0x3fb999999999999a), UINT64_C(0x3fd3333333333333), UINT64_C(0x3fd3333333333333),
                                       UINT64_C(0x3fe3333333333333), UINT64_C(0x3fd3333333333333), UINT64_C(0x3fe3333333333333), UINT64_C(0x3fb999999999999a)};
    static const uint32_t starts[] = {0, 5, 9, 14, 18}, owners[] = {14, 0, 1, 2, 3, 0, 0, 4, 0};
    static const uint32_t entries[] = {1, 10, 2, 11, 0, 0, 11, 3, 12, 0, 12, 4, 13, 1, 1, 13, 5, 10};
    struct built r;
    make((struct box){1, .3, .1, .6, .3}, sites, INDEXES, 9, &r);
    int right = r.number == 0;
    for (int i = 0; i < 8; i++)
        right &= bits(r.vertices[4 + i]) == corners[i];
    for (int i = 0; i < 5; i++)
        right &= r.offsets[i] == starts[i];
    for (int i = 0; i < 18; i++)
        right &= r.indexes[i] == entries[i];
    for (int i = 0; i < COUNTS; i++)
        right &= r.counts[i] == owners[i];
    tell("the box .3 .1 .6 .3: the listing of \"square\", its corners to the last bit", right);
}

/* ---- many boxes, each both ways */

static uint64_t state = UINT64_C(0x9e3779b97f4a7c15);

static double drawn(void) /* from -1 to 1 */
{
    state ^= state << 13, state ^= state >> 7, state ^= state << 17;
    return (double)(int64_t)state * 0x1p-63;
}

static void many(int boxes)
{
    int wrong = 0, moved = 0;
    for (int i = 0; i < boxes; i++) {
        double scale = i % 7 == 0 ? 0x1p60 : i % 5 == 0 ? 0x1p-20 : 1, cx = scale * drawn(), cy = scale * drawn(), p[4], sites[8], left, skip[5];
        double width = scale * (drawn() + 1.0001), height = scale * (drawn() + 1.0001);
        for (int k = 0; k < 4; k++)
            p[k] = 2 * scale * drawn();
        voronoi_box(cx, cy, width, height, &left, skip, skip + 1, skip + 2, skip + 3, skip + 4);
        if (i % 3 == 0) /* on an edge's line */
            p[0] = left;
        for (int k = 0; k < 8; k++)
            sites[k] = (k % 2 ? cy : cx) + square[k] * scale / 2 * (1 + drawn() / 8);
        wrong += !agree(cx, cy, width, height, p, sites);
        moved += bits(skip[3]) != bits(width);
    }
    printf("  %d boxes both ways, %d answered otherwise; of %d the width is not the one that was given\n", boxes, wrong, moved);
    failures += wrong != 0;
}

int main(void)
{
    rules();
    neighbours();
    tell("\"square\": -1 -1 1 1 is the box 0 0 2 2 to the last bit", agree(0, 0, 2, 2, inner, square));
    many(20000);
    printf(failures ? "edges: %d failed\n" : "edges: all as it must be\n", failures);
    return failures != 0;
}
