/* The Delaunay mesh of gauges and ghosts: see triangulate.h.
 *
 * The gauges are put in one by one, in rounds along a Hilbert curve, so that each is near the one before. A walk from the last triangle finds the one that it stands
 * in; that is split, and edges about the new gauge are flipped until the circles are empty. All that decides is the sign of two determinants, and both signs are
 * exact: by floats where the bound of their error leaves no doubt, else by whole numbers of 128 bits, else by sums of floats (Shewchuk, Adaptive
 * precision floating-point arithmetic and fast robust geometric predicates, 1997). So the mesh is Delaunay after each gauge, and then every such walk ends.
 *
 * A float may be fused with a product before it (-ffp-contract): that makes no bound worse, and where a product's error is taken it is asked for by name. */
#include "triangulate.h"

#ifdef __FAST_MATH__
#error "the signs are exact in IEEE arithmetic alone: compile without -ffast-math"
#endif
#if defined __FLT_EVAL_METHOD__ && (__FLT_EVAL_METHOD__ == 2 || __FLT_EVAL_METHOD__ < 0)
#error "the signs are exact where a double is no wider than 64 bits: compile with -msse2 -mfpmath=sse"
#endif

#define NONE UINT32_MAX
#define HALF_ULP 0x1p-53

static inline double magnitude(double x)
{
    return __builtin_fabs(x); /* no call and no branch: the sign of what is compared here is anything */
}

static inline int sign(double x)
{
    return (x > 0) - (x < 0);
}

/* ---- sums of floats: parts that do not overlap, the least first, none of them 0 but in the sum 0. Coordinates are whole multiples of 2^-254 below 2^100, so what is
 * computed here, of the fourth degree at most, is a multiple of 2^-1016 below 2^410: nothing is lost below or above. */

/* *x + *y = a + b, and *x is a + b rounded. */
static inline void two_sum(double a, double b, double *x, double *y)
{
    double sum = a + b, of_b = sum - a, of_a = sum - of_b;
    *x = sum, *y = (a - of_a) + (b - of_b);
}

/* The same where a is not below b in magnitude. */
static inline void fast_two_sum(double a, double b, double *x, double *y)
{
    double sum = a + b;
    *x = sum, *y = b - (sum - a);
}

/* *x + *y = a b, and *x is a b rounded. */
static inline void two_product(double a, double b, double *x, double *y)
{
    double product = a * b;
#ifdef __FP_FAST_FMA
    *x = product, *y = __builtin_fma(a, b, -product);
#else /* the processor fuses nothing, so nothing is fused here (Dekker, 1971) */
    double wide = 134217729.0 * a, a_high = wide - (wide - a), a_low = a - a_high;
    wide = 134217729.0 * b;
    double b_high = wide - (wide - b), b_low = b - b_high;
    *x = product, *y = a_low * b_low - (((product - a_high * b_high) - a_low * b_high) - a_high * b_low);
#endif
}

static inline int put(double *to, int count, double part)
{
    to[count] = part;
    return count + (part != 0);
}

/* e + f, of as many parts as both at most. */
static int sum_of(int e_count, const double *e, int f_count, const double *f, double *to)
{
    double held = 0, low;
    int i = 0, j = 0, count = 0;
    while (i < e_count || j < f_count) {
        int take_e = j == f_count || (i < e_count && magnitude(e[i]) < magnitude(f[j]));
        two_sum(held, take_e ? e[i++] : f[j++], &held, &low);
        count = put(to, count, low);
    }
    to[count] = held;
    return count + (held != 0 || count == 0);
}

/* e times b, of twice as many parts at most. */
static int scaled(int count, const double *e, double b, double *to)
{
    double held, low, high, sum;
    int made = 0;
    two_product(e[0], b, &held, &low);
    made = put(to, made, low);
    for (int i = 1; i < count; i++) {
        double product;
        two_product(e[i], b, &product, &low);
        two_sum(held, low, &sum, &low);
        made = put(to, made, low);
        fast_two_sum(product, sum, &high, &low);
        made = put(to, made, low);
        held = high;
    }
    to[made] = held;
    return made + (held != 0 || made == 0);
}

enum { PARTS = 512 }; /* of a product of two sums of 16 */

/* e times f, each of 16 parts at most. */
static int product_of(int e_count, const double *e, int f_count, const double *f, double *to)
{
    double term[32], before[PARTS];
    int count = scaled(e_count, e, f[0], to);
    for (int j = 1; j < f_count; j++) {
        int more = scaled(e_count, e, f[j], term);
        for (int i = 0; i < count; i++)
            before[i] = to[i];
        count = sum_of(count, before, more, term, to);
    }
    return count;
}

/* a - b, of two parts at most. */
static int difference_of(double a, double b, double *to)
{
    double high, low;
    two_sum(a, -b, &high, &low);
    int count = put(to, 0, low);
    to[count] = high;
    return count + (high != 0 || count == 0);
}

/* a b - c d, each of two parts at most: 16 parts at most. */
static int cross_of(int a_count, const double *a, int b_count, const double *b, int c_count, const double *c, int d_count, const double *d, double *to)
{
    double left[8], right[8];
    int l = product_of(a_count, a, b_count, b, left), r = product_of(c_count, c, d_count, d, right);
    for (int i = 0; i < r; i++)
        right[i] = -right[i];
    return sum_of(l, left, r, right, to);
}

/* ---- whole numbers */

__extension__ typedef __int128 wide;

static inline int wide_sign(wide x)
{
    return (x > 0) - (x < 0);
}

/* Whether d is a - b without an error. */
static inline int is_difference(double a, double b, double d)
{
    double high, low;
    two_sum(a, -b, &high, &low);
    return low == 0 && high == d;
}

/* The numbers as whole multiples, below 2^bits, of one power of two: whether they are. */
static int whole_multiples(const double *numbers, int count, int bits, int64_t *to)
{
    union {
        double number;
        uint64_t pattern;
    } most = { 0 }, unit;
    for (int i = 0; i < count; i++)
        most.number = magnitude(numbers[i]) > most.number ? magnitude(numbers[i]) : most.number;
    uint64_t exponent = most.pattern >> 52; /* most < 2^(exponent - 1022) */
    if (exponent == 0)
        return 0;
    unit.pattern = ((uint64_t)(1023 + 1022 + bits) - exponent) << 52; /* 2^(bits - (exponent - 1022)) */
    for (int i = 0; i < count; i++) {
        double scaled_up = numbers[i] * unit.number;
        to[i] = (int64_t)scaled_up;
        if ((double)to[i] != scaled_up)
            return 0;
    }
    return 1;
}

/* ---- the two signs */

static int exact_turn(const double *a, const double *b, const double *c)
{
    double d[4] = { a[0] - c[0], a[1] - c[1], b[0] - c[0], b[1] - c[1] };
    int64_t w[4];
    if (is_difference(a[0], c[0], d[0]) && is_difference(a[1], c[1], d[1]) && is_difference(b[0], c[0], d[2]) && is_difference(b[1], c[1], d[3]) &&
        whole_multiples(d, 4, 62, w))
        return wide_sign((wide)w[0] * w[3] - (wide)w[1] * w[2]);
    double ax[2], ay[2], bx[2], by[2], all[16];
    int ax_count = difference_of(a[0], c[0], ax), ay_count = difference_of(a[1], c[1], ay);
    int bx_count = difference_of(b[0], c[0], bx), by_count = difference_of(b[1], c[1], by);
    int count = cross_of(ax_count, ax, by_count, by, ay_count, ay, bx_count, bx, all);
    return sign(all[count - 1]);
}

/* How a, b, c turn: above 0 counter-clockwise with y upward, below 0 the way of a mesh's triangles, 0 on a line. */
static inline int turn(const double *a, const double *b, const double *c)
{
    double left = (a[0] - c[0]) * (b[1] - c[1]), right = (a[1] - c[1]) * (b[0] - c[0]), difference = left - right;
    double bound = 4 * HALF_ULP * (magnitude(left) + magnitude(right)); /* Shewchuk has 3 + 16 half ulps */
    if (magnitude(difference) > bound)
        return difference > 0 ? 1 : -1;
    return exact_turn(a, b, c);
}

static int circle_of_sums(const double *const *corners, const double *d)
{
    double x[3][2], y[3][2], lift[3][16], cross[16], left[8], right[8], term[PARTS], two[2 * PARTS], all[3 * PARTS];
    int x_count[3], y_count[3], lift_count[3], term_count, count = 0;
    for (int i = 0; i < 3; i++) {
        x_count[i] = difference_of(corners[i][0], d[0], x[i]);
        y_count[i] = difference_of(corners[i][1], d[1], y[i]);
        int l = product_of(x_count[i], x[i], x_count[i], x[i], left), r = product_of(y_count[i], y[i], y_count[i], y[i], right);
        lift_count[i] = sum_of(l, left, r, right, lift[i]);
    }
    for (int i = 0; i < 3; i++) { /* the sums of one term, two and three */
        int j = (i + 1) % 3, k = (i + 2) % 3;
        int cross_count = cross_of(x_count[j], x[j], y_count[k], y[k], y_count[j], y[j], x_count[k], x[k], cross);
        term_count = product_of(cross_count, cross, lift_count[i], lift[i], i ? term : all);
        count = i == 0 ? term_count : i == 1 ? sum_of(count, all, term_count, term, two) : sum_of(count, two, term_count, term, all);
    }
    return sign(all[count - 1]);
}

static int exact_circle(const double *a, const double *b, const double *c, const double *d)
{
    const double *corners[3] = { a, b, c };
    double differences[6];
    int64_t w[6];
    int exact = 1;
    for (int i = 0; i < 6; i++) {
        differences[i] = corners[i / 2][i % 2] - d[i % 2];
        exact = exact && is_difference(corners[i / 2][i % 2], d[i % 2], differences[i]);
    }
    if (!exact || !whole_multiples(differences, 6, 30, w))
        return circle_of_sums(corners, d);
    wide a_lift = w[0] * w[0] + w[1] * w[1], b_lift = w[2] * w[2] + w[3] * w[3], c_lift = w[4] * w[4] + w[5] * w[5];
    return wide_sign(a_lift * (w[2] * w[5] - w[4] * w[3]) + b_lift * (w[4] * w[1] - w[0] * w[5]) + c_lift * (w[0] * w[3] - w[2] * w[1]));
}

/* Whether d lies inside the circle of a, b, c: of a mesh's triangle below 0, on the circle 0, outside above 0. */
static inline int circle(const double *a, const double *b, const double *c, const double *d)
{
    double ax = a[0] - d[0], ay = a[1] - d[1], bx = b[0] - d[0], by = b[1] - d[1], cx = c[0] - d[0], cy = c[1] - d[1];
    double bc = bx * cy, cb = cx * by, ca = cx * ay, ac = ax * cy, ab = ax * by, ba = bx * ay;
    double a_lift = ax * ax + ay * ay, b_lift = bx * bx + by * by, c_lift = cx * cx + cy * cy;
    double value = a_lift * (bc - cb) + b_lift * (ca - ac) + c_lift * (ab - ba);
    double sizes = (magnitude(bc) + magnitude(cb)) * a_lift + (magnitude(ca) + magnitude(ac)) * b_lift + (magnitude(ab) + magnitude(ba)) * c_lift;
    double bound = 11 * HALF_ULP * sizes; /* Shewchuk has 10 + 96 half ulps; one more is for what is rounded below 2^-1022 */
    if (magnitude(value) > bound)
        return value > 0 ? 1 : -1;
    return exact_circle(a, b, c, d);
}

/* ---- the order of the gauges */

typedef uint32_t four __attribute__((vector_size(16)));

/* The places on Hilbert's curve of four cells of 2^16 by 2^16. In the lower half of a square the curve is laid down along its other diagonal: x and y are exchanged, and on the
 * right turned round before. Without a branch: which half it is nobody can foresee. */
static inline four hilbert(four x, four y)
{
    four place = { 0 };
    for (int bit = 15; bit >= 0; bit--) {
        four right = x >> bit & 1, up = y >> bit & 1, laid = (up - 1) & (x ^ y ^ (0 - right));
        place = place << 2 | ((right << 1 | right) ^ up);
        x ^= laid, y ^= laid;
    }
    return place;
}

typedef struct {
    double left, top, right, bottom;
} extent;

static extent widened(extent e, double x, double y)
{
    return (extent){ x < e.left ? x : e.left, y < e.top ? y : e.top, x > e.right ? x : e.right, y > e.bottom ? y : e.bottom };
}

/* The gauges in the order of their places on the curve: `count` numbers at the answer, in `work`. A radix sort in four rounds. */
static uint32_t *put_in_order(const double *sites, size_t count, uint32_t *work)
{
    uint32_t *keys = work, *order = work + count, *keys_to = work + 2 * count, *order_to = work + 3 * count, begins[257];
    extent e = { sites[0], sites[1], sites[0], sites[1] };
    for (size_t i = 1; i < count; i++)
        e = widened(e, sites[2 * i], sites[2 * i + 1]);
    double across = e.right > e.left ? 65535 / (e.right - e.left) : 0, down = e.bottom > e.top ? 65535 / (e.bottom - e.top) : 0;
    for (size_t i = 0; i < count; i += 4) {
        size_t end = i + 4 < count ? i + 4 : count;
        four x = { 0 }, y = { 0 };
        for (size_t j = i; j < end; j++) {
            double right = (sites[2 * j] - e.left) * across, up = (sites[2 * j + 1] - e.top) * down;
            x[j - i] = right < 65535 ? (uint32_t)right : 65535, y[j - i] = up < 65535 ? (uint32_t)up : 65535;
        }
        x = hilbert(x, y);
        for (size_t j = i; j < end; j++)
            keys[j] = x[j - i], order[j] = (uint32_t)j;
    }
    for (int shift = 0; shift < 32; shift += 8) {
        for (int i = 0; i < 257; i++)
            begins[i] = 0;
        for (size_t i = 0; i < count; i++)
            begins[(keys[i] >> shift & 255) + 1]++;
        for (int i = 1; i < 256; i++)
            begins[i] += begins[i - 1];
        for (size_t i = 0; i < count; i++) {
            uint32_t to = begins[keys[i] >> shift & 255]++;
            keys_to[to] = keys[i], order_to[to] = order[i];
        }
        uint32_t *kept = keys;
        keys = keys_to, keys_to = kept;
        kept = order, order = order_to, order_to = kept;
    }
    return order;
}

/* Gauge order[i] moved to place i, for every i: the round of each is gone along once. `was` is the order then, and the order itself that of the places. */
static void move(double *sites, size_t count, uint32_t *order, uint32_t *was)
{
    for (size_t i = 0; i < count; i++)
        was[i] = order[i];
    for (uint32_t first = 0; first < count; first++) {
        double x = sites[2 * (size_t)first], y = sites[2 * (size_t)first + 1];
        uint32_t to = first, from;
        while ((from = order[to]) != first) {
            sites[2 * (size_t)to] = sites[2 * (size_t)from], sites[2 * (size_t)to + 1] = sites[2 * (size_t)from + 1];
            order[to] = to, to = from;
        }
        sites[2 * (size_t)to] = x, sites[2 * (size_t)to + 1] = y, order[to] = to;
    }
}

/* ---- the mesh. Triangle t has the half-edges 3t, 3t + 1, 3t + 2; half-edge e runs from site triangles[e] to site triangles[next(e)]. */

typedef struct {
    const double *sites;
    uint32_t *triangles, *halfedges;
    uint32_t count; /* triangles so far */
} mesh;

static inline uint32_t next(uint32_t e)
{
    return e % 3 == 2 ? e - 2 : e + 1;
}

static inline uint32_t previous(uint32_t e)
{
    return e % 3 == 0 ? e + 2 : e - 1;
}

static inline const double *at(const mesh *m, uint32_t site)
{
    return m->sites + 2 * (size_t)site;
}

static inline void pair(mesh *m, uint32_t e, uint32_t f)
{
    m->halfedges[e] = f;
    if (f != NONE)
        m->halfedges[f] = e;
}

static inline void set(mesh *m, uint32_t triangle, uint32_t a, uint32_t b, uint32_t c)
{
    m->triangles[3 * triangle] = a, m->triangles[3 * triangle + 1] = b, m->triangles[3 * triangle + 2] = c;
}

/* The ghosts on their circle, in the direction of a mesh's hull. Its centre is the middle of gauges and box; its radius eight times the greater half of their extent:
 * the gauges are then within 2.83 halves of each place of the box, and the ghosts beyond 6.58. Far from 0 it is at least 2^-20 of that distance, so that the ghosts
 * stay on a circle when they are rounded. */
static void place_ghosts(const double *frame, double *sites, size_t count)
{
    static const double cosines[17] = { 1, 0.9951847266721969, 0.9807852804032304, 0.9569403357322088, 0.9238795325112867, 0.881921264348355,
        0.8314696123025452, 0.773010453362737, 0.7071067811865476, 0.6343932841636455, 0.5555702330196023, 0.4713967368259978,
        0.38268343236508984, 0.29028467725446233, 0.19509032201612833, 0.09801714032956077, 0 };
    extent e = { frame[0], frame[1], frame[2], frame[3] };
    for (size_t i = 0; i < count; i++)
        e = widened(e, sites[2 * i], sites[2 * i + 1]);
    double x = e.left + (e.right - e.left) / 2, y = e.top + (e.bottom - e.top) / 2;
    double radius = 4 * (e.right - e.left > e.bottom - e.top ? e.right - e.left : e.bottom - e.top);
    double far = 0x1p-20 * (magnitude(x) > magnitude(y) ? magnitude(x) : magnitude(y));
    if (radius < far)
        radius = far;
    for (int i = 0; i < TRIANGULATE_GHOSTS; i++) {
        int quarter = i / 16, part = i % 16;
        double along = radius * cosines[part], aside = radius * cosines[16 - part];
        double right = quarter == 0 ? along : quarter == 1 ? -aside : quarter == 2 ? -along : aside;
        double up = quarter == 0 ? aside : quarter == 1 ? along : quarter == 2 ? -aside : -along;
        sites[2 * (count + i)] = x + right, sites[2 * (count + i) + 1] = y - up;
    }
}

/* The first gauge and the ghosts: a triangle to each side of the hull. A circle through a gauge and two ghosts side by side has, of the ghosts' own circle, only
 * the arc between these two inside it; so this is Delaunay. */
static void begin(mesh *m, uint32_t gauge, uint32_t ghosts, uint32_t *hull)
{
    for (uint32_t i = 0; i < TRIANGULATE_GHOSTS; i++) {
        uint32_t after = (i + 1) % TRIANGULATE_GHOSTS;
        hull[i] = ghosts + i;
        set(m, i, ghosts + i, ghosts + after, gauge);
        m->halfedges[3 * i] = NONE;
        pair(m, 3 * i + 1, 3 * after + 2);
    }
    m->count = TRIANGULATE_GHOSTS;
}

/* What is done between two looks at `stop`: gauges, steps of walks, flips. */
typedef struct {
    int (*stop)(void *);
    void *with;
    uint32_t gauges, steps;
} patience;

static int stopped(patience *p)
{
    if (p->gauges < 1024 && p->steps < 262144)
        return 0;
    p->gauges = p->steps = 0;
    return p->stop && p->stop(p->with);
}

/* The triangle that the place is in or on, from triangle *where on; *on is its half-edge that the place is on, or NONE. */
static uint32_t find(const mesh *m, const double *place, uint32_t *where, uint32_t *on, patience *p)
{
    uint32_t came = NONE; /* the half-edge that was passed: the place is on this side of it */
    for (uint32_t steps = 0; steps <= m->count; steps++) {
        uint32_t e = 3 * *where, end = e + 3, left = NONE;
        *on = NONE;
        for (; e < end && left == NONE; e++)
            if (e != came) {
                int s = turn(at(m, m->triangles[e]), at(m, m->triangles[next(e)]), place);
                if (s > 0)
                    left = e;
                else if (s == 0)
                    *on = e;
            }
        if (left == NONE)
            return TRIANGULATE_DONE;
        came = m->halfedges[left];
        if (came == NONE)
            return TRIANGULATE_BROKEN;
        *where = came / 3;
        p->steps++;
        if (p->steps >= 262144 && stopped(p))
            return TRIANGULATE_STOPPED;
    }
    return TRIANGULATE_BROKEN;
}

/* The triangle, split in three at the site; the answer is a half-edge opposite to it. */
static uint32_t split_triangle(mesh *m, uint32_t t, uint32_t site)
{
    uint32_t a = m->triangles[3 * t], b = m->triangles[3 * t + 1], c = m->triangles[3 * t + 2];
    uint32_t bc = m->halfedges[3 * t + 1], ca = m->halfedges[3 * t + 2], u = m->count, v = m->count + 1;
    m->count += 2;
    set(m, t, a, b, site), set(m, u, b, c, site), set(m, v, c, a, site);
    pair(m, 3 * u, bc), pair(m, 3 * v, ca);
    pair(m, 3 * t + 1, 3 * u + 2), pair(m, 3 * u + 1, 3 * v + 2), pair(m, 3 * v + 1, 3 * t + 2);
    return 3 * t;
}

/* The two triangles a b c and b a d at a half-edge a b, split in four at the site, which is on it; the answer is a half-edge opposite to it. */
static uint32_t split_edge(mesh *m, uint32_t ab, uint32_t site)
{
    uint32_t ba = m->halfedges[ab], t = ab / 3, u = ba / 3, v = m->count, w = m->count + 1;
    uint32_t a = m->triangles[ab], b = m->triangles[ba], c = m->triangles[previous(ab)], d = m->triangles[previous(ba)];
    uint32_t bc = m->halfedges[next(ab)], ca = m->halfedges[previous(ab)], ad = m->halfedges[next(ba)], db = m->halfedges[previous(ba)];
    m->count += 2;
    set(m, t, c, a, site), set(m, v, b, c, site), set(m, u, d, b, site), set(m, w, a, d, site);
    pair(m, 3 * t, ca), pair(m, 3 * v, bc), pair(m, 3 * u, db), pair(m, 3 * w, ad);
    pair(m, 3 * t + 1, 3 * w + 2), pair(m, 3 * w + 1, 3 * u + 2), pair(m, 3 * u + 1, 3 * v + 2), pair(m, 3 * v + 1, 3 * t + 2);
    return 3 * t;
}

/* Flips edges until the circles of all triangles about a site are empty: once round it, from the half-edge e opposite to it. The far end of an edge that is
 * flipped joins the round; none leaves it, so that it ends where it began. */
static uint32_t flip_about(mesh *m, uint32_t e, patience *p)
{
    uint32_t *triangles = m->triangles, *halfedges = m->halfedges, first = triangles[e], end;
    uint32_t most = 2 * m->count;
    do {
        uint32_t f;
        while ((f = halfedges[e]) != NONE) {
            uint32_t to_site = previous(e), to_far = previous(f), site = triangles[to_site], far = triangles[to_far];
            if (circle(at(m, site), at(m, triangles[e]), at(m, triangles[next(e)]), at(m, far)) >= 0)
                break;
            if (most-- == 0)
                return TRIANGULATE_BROKEN;
            triangles[e] = far, triangles[f] = site;
            pair(m, e, halfedges[to_far]), pair(m, f, halfedges[to_site]), pair(m, to_site, to_far);
            e = next(f);
            p->steps += 8;
            if (p->steps >= 262144 && stopped(p))
                return TRIANGULATE_STOPPED;
        }
        if (most-- == 0)
            return TRIANGULATE_BROKEN;
        end = triangles[next(e)];
        e = next(halfedges[next(e)]);
    } while (end != first);
    return TRIANGULATE_DONE;
}

/* One gauge more, from the triangle *where on. */
static uint32_t add(mesh *m, uint32_t gauge, uint32_t *where, patience *p, uint32_t *first, uint32_t *second)
{
    const double *place = at(m, gauge);
    uint32_t on, number = find(m, place, where, &on, p);
    if (number)
        return number;
    for (uint32_t e = 3 * *where; e < 3 * *where + 3; e++) {
        uint32_t other = m->triangles[e];
        if (at(m, other)[0] == place[0] && at(m, other)[1] == place[1]) {
            *first = other < gauge ? other : gauge, *second = other < gauge ? gauge : other;
            return TRIANGULATE_TWIN;
        }
    }
    if (on != NONE && m->halfedges[on] == NONE)
        return TRIANGULATE_BROKEN;
    number = flip_about(m, on == NONE ? split_triangle(m, *where, gauge) : split_edge(m, on, gauge), p);
    *where = m->count - 1;
    return number;
}

enum { EIGHT = 8 }; /* on trial with 2, 4, 8 and 16 */

/* Every gauge whose place along the curve is a multiple of `stride`, in that order; then, of an eighth of it, those that are not in yet; and so on to 1. */
static uint32_t add_by(size_t stride, mesh *m, size_t count, const uint32_t *order, uint32_t *hull, patience *p, uint32_t *first, uint32_t *second)
{
    uint32_t where = 0, number = TRIANGULATE_DONE;
    begin(m, order[0], (uint32_t)count, hull);
    for (size_t before = count; stride && !number; before = stride, stride /= EIGHT)
        for (size_t i = stride; i < count && !number; i += stride)
            if (i % before) {
                p->gauges++;
                number = stopped(p) ? TRIANGULATE_STOPPED : add(m, order[i], &where, p, first, second);
            }
    return number;
}

/* All gauges, in rounds, each along the curve and of eight times as many as the round before (Amenta, Choi and Rote, Incremental constructions con BRIO, 2003). Then a
 * gauge is put among others on all sides, where along the curve alone it is put at the edge of those that are there, beside triangles that reach to the ghosts: 9 circles
 * are asked for each and not 12. Of gauges at one place those are named that are the first along the curve. */
static uint32_t add_all(mesh *m, size_t count, const uint32_t *order, uint32_t *hull, patience *p, uint32_t *first, uint32_t *second)
{
    size_t stride = 1;
    while (EIGHT * stride < count)
        stride *= EIGHT;
    uint32_t number = add_by(stride, m, count, order, hull, p, first, second);
    return number == TRIANGULATE_TWIN ? add_by(1, m, count, order, hull, p, first, second) : number;
}

/* Each triangle turned so that its first site is a gauge. A circumcenter is computed from the first site: from a ghost, far off, it would be off by that distance's last bits. */
static void begin_with_gauges(mesh *m, uint32_t count)
{
    for (uint32_t t = 0; t < m->count; t++)
        for (int turns = 0; turns < 2 && m->triangles[3 * t] >= count; turns++) {
            uint32_t a = m->triangles[3 * t], ab = m->halfedges[3 * t];
            set(m, t, m->triangles[3 * t + 1], m->triangles[3 * t + 2], a);
            pair(m, 3 * t, m->halfedges[3 * t + 1]), pair(m, 3 * t + 1, m->halfedges[3 * t + 2]), pair(m, 3 * t + 2, ab);
        }
}

/* ---- the call */

static int is_coordinate(double x)
{
    return x == 0 || (magnitude(x) >= TRIANGULATE_LEAST && magnitude(x) <= TRIANGULATE_MOST);
}

static void clear(uint32_t *list, size_t length)
{
    for (size_t i = 0; i < length; i++)
        list[i] = NONE;
}

uint32_t triangulate_in_order(const double *frame, double *sites, size_t sites_len, uint32_t *triangles, size_t triangles_len, uint32_t *halfedges,
                              size_t halfedges_len, uint32_t *hull, size_t hull_len, uint32_t *was, size_t was_len, uint32_t *work, size_t work_len,
                              int (*stop)(void *), void *with, uint32_t *first, uint32_t *second)
{
    *first = *second = NONE;
    if (sites_len % 2 || sites_len < 2 * TRIANGULATE_SITES(1) || sites_len > 2 * TRIANGULATE_SITES(TRIANGULATE_MOST_GAUGES))
        return TRIANGULATE_REFUSED_COUNT;
    size_t count = sites_len / 2 - TRIANGULATE_GHOSTS, length = 3 * TRIANGULATE_TRIANGLES(count);
    if (triangles_len < length || halfedges_len < length || hull_len < TRIANGULATE_GHOSTS || (was && was_len < count) || work_len < TRIANGULATE_WORK_ROOM(count))
        return TRIANGULATE_REFUSED_ROOM;
    for (int i = 0; i < 4; i++)
        if (!is_coordinate(frame[i]))
            return TRIANGULATE_REFUSED_BOX;
    if (!(frame[0] < frame[2] && frame[1] < frame[3]))
        return TRIANGULATE_REFUSED_BOX;
    for (size_t i = 0; i < 2 * count; i++)
        if (!is_coordinate(sites[i])) {
            *first = (uint32_t)(i / 2);
            return TRIANGULATE_REFUSED_COORDINATE;
        }
    mesh m = { sites, triangles, halfedges, 0 };
    patience p = { stop, with, 0, 0 };
    uint32_t *order = put_in_order(sites, count, work);
    if (was)
        move(sites, count, order, was);
    place_ghosts(frame, sites, count);
    uint32_t number = add_all(&m, count, order, hull, &p, first, second);
    if (number)
        clear(triangles, length), clear(halfedges, length), clear(hull, TRIANGULATE_GHOSTS);
    else
        begin_with_gauges(&m, (uint32_t)count);
    return number;
}

uint32_t triangulate_gauges(const double *frame, double *sites, size_t sites_len, uint32_t *triangles, size_t triangles_len, uint32_t *halfedges,
                            size_t halfedges_len, uint32_t *hull, size_t hull_len, uint32_t *work, size_t work_len, int (*stop)(void *), void *with,
                            uint32_t *first, uint32_t *second)
{
    return triangulate_in_order(frame, sites, sites_len, triangles, triangles_len, halfedges, halfedges_len, hull, hull_len, NULL, 0, work, work_len, stop, with,
                                first, second);
}
