/* Sheets for tests: gauges of several families in a box, their Delaunay mesh, damage done to it, and the true pieces by half-planes in 113-bit floats.
 * Small ones (8 to 60 gauges), made here from nothing but stdint.h, so that no triangulator under test is taken for the truth. A program that includes
 * this has number.h and voronoi.h before it, and declares printf. */
#ifndef SHEETS_H
#define SHEETS_H

#ifdef __clang__
typedef __float128 Wide; /* 113 bits, by the compiler's own functions */
#else
typedef _Float128 Wide;
#endif

#define E VORONOI_EMPTY
enum { N = 60, T = 2 * N, H = N };

static double sites[2 * N], box[4], edges[4];
static uint32_t triangles[3 * T], halfedges[3 * T], hull[H], n, t, h;
static uint64_t state, failures;

static uint32_t below(uint32_t m)
{
    state ^= state << 13, state ^= state >> 7, state ^= state << 17;
    return (uint32_t)((state >> 20) % m);
}

static double unit(void)
{
    return (below(1u << 31) + below(1u << 22) * 0x1p-22) * 0x1p-31;
}

static double bell(void) /* nearly a normal distribution, of variance 1 */
{
    double sum = -6;
    for (int i = 0; i < 12; i++)
        sum += unit();
    return sum;
}

static inline double absolute(double x) { return x < 0 ? -x : x; }

static void fail(const char *what, uint64_t build, double by)
{
    if (failures++ < 20)
        printf("FAILED: %s, build %lu: %g\n", what, (unsigned long)build, by);
}

/* ---- a mesh: third[a][b] is the corner after a and b in the triangle that has the edge from a to b, or none */

static uint32_t third[N][N];

static void add(uint32_t a, uint32_t b, uint32_t c) { third[a][b] = c, third[b][c] = a, third[c][a] = b; }

static void take(uint32_t a, uint32_t b, uint32_t c) { third[a][b] = third[b][c] = third[c][a] = E; }

/* above 0 where a b c turns as a build wants it; in 113 bits where 53 do not tell */
static int turn(uint32_t a, uint32_t b, uint32_t c)
{
    const double *p = sites + 2 * a, *q = sites + 2 * b, *r = sites + 2 * c;
    double one = (q[1] - p[1]) * (r[0] - p[0]), two = (q[0] - p[0]) * (r[1] - p[1]), sure = (absolute(one) + absolute(two)) * 0x1p-48;
    if (one - two > sure || one - two < -sure)
        return one > two ? 1 : -1;
    Wide x = p[0], y = p[1], by = (q[1] - y) * (r[0] - x) - (q[0] - x) * (r[1] - y);
    return (by > 0) - (by < 0);
}

/* above 0 where d is inside the circle through a b c; as above */
static int inside(uint32_t a, uint32_t b, uint32_t c, uint32_t d)
{
    const uint32_t of[3] = {a, b, c};
    double x[3], y[3], q[3], sum = 0, sure = 0;
    for (int i = 0; i < 3; i++)
        x[i] = sites[2 * of[i]] - sites[2 * d], y[i] = sites[2 * of[i] + 1] - sites[2 * d + 1], q[i] = x[i] * x[i] + y[i] * y[i];
    for (int i = 0; i < 3; i++) {
        int j = (i + 1) % 3, k = (i + 2) % 3;
        sum += q[i] * (y[j] * x[k] - x[j] * y[k]), sure += q[i] * (absolute(y[j] * x[k]) + absolute(x[j] * y[k])) * 0x1p-46;
    }
    if (sum > sure || sum < -sure)
        return sum > 0 ? 1 : -1;
    Wide u[3], v[3], w[3], by = 0;
    for (int i = 0; i < 3; i++)
        u[i] = (Wide)sites[2 * of[i]] - sites[2 * d], v[i] = (Wide)sites[2 * of[i] + 1] - sites[2 * d + 1], w[i] = u[i] * u[i] + v[i] * v[i];
    for (int i = 0; i < 3; i++)
        by += w[i] * (v[(i + 1) % 3] * u[(i + 2) % 3] - u[(i + 1) % 3] * v[(i + 2) % 3]);
    return (by > 0) - (by < 0);
}

/* the other diagonal of the two triangles at the edge from a to b; 0 where there are no two, or that diagonal is an edge already */
static int flip(uint32_t a, uint32_t b)
{
    uint32_t c = third[a][b], d = third[b][a];
    if (c == E || d == E || c == d || third[c][d] != E || third[d][c] != E)
        return 0;
    take(a, b, c), take(b, a, d), add(a, d, c), add(d, b, c);
    return 1;
}

/* Sites by x, then y, each joined to what it sees of the hull so far; then every edge whose circle holds the opposite corner is flipped. */
static void triangulate(void)
{
    uint32_t order[N], after[N], flipped = 1;
    for (uint32_t i = 0; i < n; i++) {
        uint32_t k = i;
        for (; k > 0 && (sites[2 * i] < sites[2 * order[k - 1]] || (sites[2 * i] == sites[2 * order[k - 1]] && sites[2 * i + 1] < sites[2 * order[k - 1] + 1])); k--)
            order[k] = order[k - 1];
        order[k] = i;
    }
    for (uint32_t a = 0; a < n; a++)
        for (uint32_t b = 0; b < n; b++)
            third[a][b] = E;
    uint32_t row = 2; /* the first sites may lie on one line: the first beside it is joined to all of them */
    while (row + 1 < n && turn(order[0], order[1], order[row]) == 0)
        row++;
    int way = turn(order[0], order[1], order[row]) > 0;
    for (uint32_t i = 0; i + 1 < row; i++) {
        uint32_t a = order[way ? i : i + 1], b = order[way ? i + 1 : i];
        add(a, b, order[row]), after[a] = b;
    }
    after[order[way ? row - 1 : 0]] = order[row], after[order[row]] = order[way ? 0 : row - 1];
    for (uint32_t i = row + 1; i < n; i++) {
        uint32_t p = order[i], a = order[i - 1], seen = 0;
        while (turn(a, after[a], p) < 0) /* on to an edge that p does not see */
            a = after[a];
        for (uint32_t turns = 0; turns < n && turn(a, after[a], p) >= 0; turns++)
            a = after[a];
        while (turn(a, after[a], p) < 0) {
            uint32_t b = after[a];
            add(b, a, p);
            if (!seen)
                after[a] = p, seen = a + 1;
            a = b;
        }
        after[p] = a;
    }
    for (uint32_t rounds = 0; flipped && rounds < 1000; rounds++) {
        flipped = 0;
        for (uint32_t a = 0; a < n; a++)
            for (uint32_t b = 0; b < n; b++)
                if (third[a][b] != E && third[b][a] != E && inside(a, b, third[a][b], third[b][a]) > 0)
                    flipped += (uint32_t)flip(a, b);
    }
}

static inline void reverse(void)
{
    for (uint32_t a = 0; a < n; a++)
        for (uint32_t b = 0; b < a; b++) {
            uint32_t c = third[a][b];
            third[a][b] = third[b][a], third[b][a] = c;
        }
}

static int on_border(uint32_t s)
{
    for (uint32_t b = 0; b < n; b++)
        if (third[s][b] != E && third[b][s] == E)
            return 1;
    return 0;
}

static inline void bite(void) /* a triangle of the border gone, whose opposite corner is inside */
{
    for (uint32_t a = 0; a < n; a++)
        for (uint32_t b = 0; b < n; b++)
            if (third[a][b] != E && third[b][a] == E && !on_border(third[a][b])) {
                take(a, b, third[a][b]);
                return;
            }
}

/* the lists that a build is lent */
static void lists(void)
{
    static uint32_t place[N][N];
    uint32_t first = E, at;
    t = h = 0;
    for (uint32_t a = 0; a < n; a++)
        for (uint32_t b = a + 1; b < n; b++) {
            uint32_t c = third[a][b];
            if (c == E || c < a)
                continue;
            place[a][b] = 3 * t, place[b][c] = 3 * t + 1, place[c][a] = 3 * t + 2;
            triangles[3 * t] = a, triangles[3 * t + 1] = b, triangles[3 * t + 2] = c, t++;
        }
    for (uint32_t e = 0; e < 3 * t; e++) {
        uint32_t a = triangles[e], b = triangles[e % 3 == 2 ? e - 2 : e + 1];
        halfedges[e] = third[b][a] == E ? E : place[b][a];
        if (halfedges[e] == E && first == E)
            first = a;
    }
    at = first;
    do {
        hull[h++] = at;
        for (uint32_t b = 0; b < n; b++)
            if (third[at][b] != E && third[b][at] == E) {
                at = b;
                break;
            }
    } while (at != first && h < n);
}

/* ---- the families */

static void scale(double by, double x, double y)
{
    for (uint32_t i = 0; i < n; i++)
        sites[2 * i] = sites[2 * i] * by + x, sites[2 * i + 1] = sites[2 * i + 1] * by + y;
}

static void set_box(double cx, double cy, double width, double height) { box[0] = cx, box[1] = cy, box[2] = width, box[3] = height; }

static void anywhere(void)
{
    for (uint32_t i = 0; i < n; i++)
        sites[2 * i] = unit() * 100, sites[2 * i + 1] = unit() * 80;
}

static void round_the_middle(void)
{
    for (uint32_t i = 0; i < n; i++)
        sites[2 * i] = 50 + 15 * bell(), sites[2 * i + 1] = 40 + 12 * bell();
}

static void in_places(uint32_t across, uint32_t down, double step, double from) /* no two in one */
{
    for (uint32_t i = 0, k; i < n; i += k == i) {
        sites[2 * i] = below(across) * step + from, sites[2 * i + 1] = below(down) * step + from;
        for (k = 0; k < i && (sites[2 * k] != sites[2 * i] || sites[2 * k + 1] != sites[2 * i + 1]);)
            k++;
    }
}

static inline void uniform(uint32_t j)
{
    if (j == 1)
        scale(1.4, -20, -16); /* gauges outside the box too */
    if (j == 2)
        scale(1, 500000, 6000000), set_box(500050, 6000040, 100, 80); /* map coordinates */
    if (j == 3)
        scale(1e-3, 0, 0), set_box(.05, .04, .1, .08);
    if (j == 4)
        scale(1000, 0, 0), set_box(50000, 40000, 100000, 80000);
    if (j == 5)
        scale(1000, 32500000, 5500000), set_box(32550000, 5540000, 100000, 80000);
    if (j == 6)
        set_box(50, 40, 30, 20);
    for (uint32_t i = 0; j == 7 && i < n; i++) /* a strip */
        sites[2 * i + 1] = 40 + (sites[2 * i + 1] - 40) * 1e-3;
}

static inline void clustered(uint32_t j)
{
    if (j % 2 == 0)
        round_the_middle();
    for (uint32_t i = n / 2; j % 2 == 1 && i < n; i++)
        sites[2 * i] = 50 + unit() * .01, sites[2 * i + 1] = 50 + unit() * .01;
    if (j == 4 || j == 5)
        scale(1000, 500000, 6000000), set_box(550000, 6040000, 100000, 80000);
}

static inline void grid(uint32_t j)
{
    set_box(500, 500, 1000, 1000);
    if (j == 4 || j == 5) {
        n = n < 50 ? n : 50;
        in_places(8, 7, 100, 100);
    } else
        in_places(101, 101, 10, 0);
    if (j == 2 || j == 3)
        scale(1, 500000, 6000000), set_box(500500, 6000500, 1000, 1000);
}

static inline void turned(uint32_t j)
{
    if (j == 2 || j == 3)
        round_the_middle();
    if (j == 4 || j == 5)
        in_places(11, 11, 10, 0), set_box(50, 50, 100, 100);
    if (j == 6)
        scale(1.4, -20, -16);
}

static inline void damage(uint32_t j)
{
    static const uint32_t flips[3] = {1, 3, 10};
    uint32_t a = below(n), b = (a + 1 + below(n - 1)) % n;
    for (uint32_t done = 0, tries = 0; j < 3 && done < flips[j] && tries < 10000; tries++)
        done += (uint32_t)flip(below(n), below(n));
    for (uint32_t k = 0; j == 3 && k < 2; k++) { /* two rows of the list exchanged */
        double x = sites[2 * a + k];
        sites[2 * a + k] = sites[2 * b + k], sites[2 * b + k] = x;
    }
    if (j == 4)
        sites[2 * a] = unit() * 100, sites[2 * a + 1] = unit() * 80;
    for (uint32_t i = 0; j == 5 && i < n; i++) /* y upward */
        sites[2 * i + 1] = 80 - sites[2 * i + 1];
    if (j == 6)
        bite();
    for (uint32_t i = 0; j == 7 && i < 2 * n; i++)
        sites[i] += 3 * bell();
}

/* ---- families that a build often refuses or leaves short */

static inline void lattice(uint32_t j) /* gauges and box on one lattice; the box inside it or along it */
{
    uint32_t across = 2 + below(6), down = 2 + below(5);
    n = 0;
    for (uint32_t y = 0; y < down; y++)
        for (uint32_t x = 0; x < across; x++, n++)
            sites[2 * n] = 10 * x, sites[2 * n + 1] = 10 * y + (j % 2 ? 5 * (x % 2) : 0);
    set_box(5 * (across - 1), 5 * (down - 1), 10 * (across - 1), 10 * (down - 1));
    if (j == 2 || j == 3)
        set_box(5 * (across - 1), 5 * (down - 1), 10 * (across - 1) + 10, 10 * (down - 1) + 10);
    if (j == 4 || j == 5)
        set_box(5 * (across - 1), 5 * (down - 1), 5, 5);
    if (j == 6 || j == 7)
        scale(1000, 500000, 6000000), set_box(500000 + 5000 * (across - 1), 6000000 + 5000 * (down - 1), 10000 * (across - 1), 10000 * (down - 1));
}

static inline void circle(uint32_t j) /* points of the circle of radius 65, whole numbers, some of them; with or without its middle */
{
    static const int x[] = {65, 63, 60, 56, 52, 39, 33, 25, 16, 0}, y[] = {0, 16, 25, 33, 39, 52, 56, 60, 63, 65};
    n = 0;
    for (uint32_t k = 0; k < 40; k++) {
        uint32_t i = k % 10, q = k / 10;
        double u = q == 0 ? x[i] : q == 1 ? -y[i] : q == 2 ? -x[i] : y[i], v = q == 0 ? y[i] : q == 1 ? x[i] : q == 2 ? -y[i] : -x[i];
        uint32_t twin = 0;
        for (uint32_t o = 0; o < n; o++)
            twin |= sites[2 * o] == u && sites[2 * o + 1] == v;
        if (!twin && (n < 3 || below(4)))
            sites[2 * n] = u, sites[2 * n + 1] = v, n++;
    }
    if (j % 2)
        sites[2 * n] = 0, sites[2 * n + 1] = 0, n++;
    set_box(0, 0, j < 4 ? 130 : 60, j < 4 ? 130 : 40);
}

static inline void away(uint32_t j) /* a box beside or far from the gauges */
{
    double far = j < 4 ? 60 : j < 6 ? 200 : 1e6;
    set_box(50 + (j % 2 ? far : 0), 40 + (j % 4 < 2 ? far : -far), 100, 80);
}

static inline void in_one_piece(uint32_t j)
{
    uint32_t s = below(n);
    double size = j < 4 ? 1 : 1e-6;
    set_box(sites[2 * s] + (j % 2 ? size / 4 : 0), sites[2 * s + 1], size, size);
}

static inline void sound_sheet(uint32_t family, uint32_t j) /* one of the eight families above, in a box of 100 by 80 unless the family has its own */
{
    set_box(50, 40, 100, 80), anywhere();
    if (family == 0)
        uniform(j % 7);
    if (family == 1)
        clustered(j);
    if (family == 2)
        grid(j);
    if (family == 3)
        uniform(7);
    if (family == 4)
        lattice(j);
    if (family == 5)
        circle(j);
    if (family == 6)
        away(j);
    if (family == 7)
        in_one_piece(j);
}

/* ---- the truth: the box cut by the bisectors to all other sites */

enum { MOST_CORNERS = N + 8 };

static inline int true_piece(uint32_t s, Wide *x, Wide *y) /* its corners, and how many there are */
{
    Wide u[MOST_CORNERS], v[MOST_CORNERS], f[MOST_CORNERS];
    int m = 4;
    for (int i = 0; i < 4; i++)
        x[i] = edges[i < 2 ? 0 : 2], y[i] = edges[i == 1 || i == 2 ? 3 : 1];
    for (uint32_t o = 0; o < n && m > 0; o++) {
        Wide nx = (Wide)sites[2 * o] - sites[2 * s], ny = (Wide)sites[2 * o + 1] - sites[2 * s + 1];
        Wide middle = (nx * ((Wide)sites[2 * o] + sites[2 * s]) + ny * ((Wide)sites[2 * o + 1] + sites[2 * s + 1])) / 2;
        int k = 0, cutting = 0;
        for (int i = 0; i < m; i++)
            f[i] = nx * x[i] + ny * y[i] - middle, cutting |= f[i] > 0;
        if (o == s || !cutting)
            continue;
        for (int i = 0; i < m; i++) {
            int j = i + 1 < m ? i + 1 : 0;
            if (f[i] <= 0)
                u[k] = x[i], v[k++] = y[i];
            if ((f[i] < 0 && f[j] > 0) || (f[i] > 0 && f[j] < 0))
                u[k] = x[i] + f[i] / (f[i] - f[j]) * (x[j] - x[i]), v[k] = y[i] + f[i] / (f[i] - f[j]) * (y[j] - y[i]), k++;
        }
        m = k;
        for (int i = 0; i < m; i++)
            x[i] = u[i], y[i] = v[i];
    }
    return m;
}

static inline Wide true_area(uint32_t s)
{
    Wide x[MOST_CORNERS], y[MOST_CORNERS], sum = 0;
    int m = true_piece(s, x, y);
    for (int i = 1; i + 1 < m; i++)
        sum += (y[i] - y[0]) * (x[i + 1] - x[0]) - (x[i] - x[0]) * (y[i + 1] - y[0]);
    return sum / 2;
}

#endif
