/* The check with the hull through the C interface: rows by name, random meshes beside exact numbers of 128 bits, and what the check is for: where it says
 * yes, every path from every site in use ends at a site in use that a full scan finds nearest, and so does each corner's owner; where one ends wrong it
 * never says yes. 65,536 sites are timed beside voronoi_grid_check.
 *
 *   nearest COUNT [SEED]    compares COUNT random meshes; exit status 1 where something differs, or something never came up
 *
 * What must come out is written from docs/use/RULES.md ("The grid"). The C library's headers are not used (tests/archive.sh says why). */
#include "../exact_grid.h"
#include "../number.h"

#define SMALL 32 /* sites of a random mesh */

static uint32_t triangles[ENTRIES], halfedges[ENTRIES], hull[SITES];
static size_t sites, entries, places;
static uint32_t work[SITES + SPARE], right[SITES + SPARE], kind, place, unused;
static double floats[2 * SITES];
static int failures;

/* ---- what must come out */

static uint32_t at(size_t i) { return hull[i % places]; }
static wide rise(size_t i) { return 32768 * (y(at(i + 1)) - y(at(i))) + x(at(i + 1)) - x(at(i)); }

/* by all pairs: each other hull site is strictly left of a hull edge, or on its line and not between its ends */
static int convex_by_pairs(void)
{
    for (size_t i = 0; i < places; i++)
        for (size_t j = 0; j < places; j++)
            if (j != i && j != (i + 1) % places) {
                uint32_t a = at(i), b = at(i + 1), c = at(j);
                wide turn = cross(a, b, c), along = (x(c) - x(a)) * (x(b) - x(a)) + (y(c) - y(a)) * (y(b) - y(a));
                wide whole = (x(b) - x(a)) * (x(b) - x(a)) + (y(b) - y(a)) * (y(b) - y(a));
                if (turn > 0 || (turn == 0 && along >= 0 && along <= whole))
                    return 0;
            }
    return 1;
}

static void judged(uint32_t *must_kind, uint32_t *must_place)
{
    for (uint32_t t = 0; t < entries / 3; t++)
        if (cross(triangles[3 * t], triangles[3 * t + 1], triangles[3 * t + 2]) >= 0) {
            *must_kind = VORONOI_GRID_TRIANGLE, *must_place = t;
            return;
        }
    for (uint32_t e = 0; e < entries; e++)
        if (halfedges[e] != E &&
            against_the_circle(triangles[e], triangles[next(e)], triangles[next(next(e))], triangles[next(next(halfedges[e]))]) < 0) {
            *must_kind = VORONOI_GRID_HALFEDGE, *must_place = e;
            return;
        }
    size_t begun = 0;
    for (size_t i = 0; i < places; i++) /* both up or both down, and to the right */
        if ((rise(i + places - 1) > 0) == (rise(i) > 0) && cross(at(i + places - 1), at(i), at(i + 1)) > 0) {
            *must_kind = VORONOI_GRID_HULL, *must_place = (uint32_t)i;
            return;
        }
    for (size_t i = 0; i < places; i++)
        if (rise(i + places - 1) < 0 && rise(i) > 0 && ++begun == 2) {
            *must_kind = VORONOI_GRID_HULL, *must_place = (uint32_t)i;
            return;
        }
    *must_kind = VORONOI_GRID_YES, *must_place = E;
}

static int in_use(uint32_t s)
{
    for (size_t e = 0; e < entries; e++)
        if (triangles[e] == s)
            return 1;
    return 0;
}

/* compares number, kind, place, unused site and work slice; answers the number */
static uint32_t compare(const char *what, uint64_t which)
{
    uint32_t must_kind = E, must_place = E, must_unused = E;
    for (size_t i = 0; i < sites + SPARE; i++)
        right[i] = work[i] = HELD;
    uint32_t must = voronoi_grid_check(grid, 2 * sites, triangles, entries, halfedges, entries, hull, places, right, sites, &must_kind, &must_place);
    if (!must) {
        judged(&must_kind, &must_place);
        for (uint32_t s = 0; s < sites && sites <= SMALL && must_unused == E; s++)
            if (!in_use(s))
                must_unused = s;
    }
    kind = place = unused = HELD;
    uint32_t got = voronoi_grid_nearest(grid, 2 * sites, triangles, entries, halfedges, entries, hull, places, work, sites, &kind, &place, &unused);
    const char *wrong = got != must ? "the number" : kind != must_kind ? "the kind" : place != must_place ? "the place" : unused != must_unused ? "the unused site" : 0;
    for (size_t i = 0; i < sites + SPARE; i++)
        if (work[i] != right[i])
            wrong = "work";
    if (!got && (kind == VORONOI_GRID_YES || kind == VORONOI_GRID_HULL) && sites <= SMALL && convex_by_pairs() != (kind == VORONOI_GRID_YES))
        wrong = "convexity by all pairs";
    if (wrong) {
        printf("FAILED: %s %llu: %u kind %u place %u unused %u, must be %u kind %u place %u unused %u; %s differs\n", what, (unsigned long long)which, got,
               kind, place, unused, must, must_kind, must_place, must_unused, wrong);
        failures++;
    }
    return got;
}

/* ---- what it is for: the ends of all paths, in units of 1/2 */

static wide twice_squared(uint32_t s, wide px, wide py) { return (2 * x(s) - px) * (2 * x(s) - px) + (2 * y(s) - py) * (2 * y(s) - py); }

static int nearest_of_all(uint32_t s, wide px, wide py)
{
    for (uint32_t t = 0; t < sites; t++)
        if (twice_squared(t, px, py) < twice_squared(s, px, py) && in_use(t))
            return 0;
    return 1;
}

/* how many paths towards (px / 2, py / 2) end at a site that is not nearest */
static uint64_t paths_wrong(wide px, wide py)
{
    static uint32_t path[SMALL];
    uint64_t wrong = 0;
    for (uint32_t s = 0; s < sites; s++) {
        uint32_t n, ended;
        if (!in_use(s))
            continue;
        if (voronoi_path(floats, 2 * sites, triangles, entries, halfedges, entries, hull, places, s, (double)px / 2, (double)py / 2, work, sites, path, SMALL,
                         &n, &ended) || !ended) {
            printf("FAILED: a path is refused or cut\n");
            failures++;
            return 1;
        }
        wrong += !nearest_of_all(path[n - 1], px, py);
    }
    return wrong;
}

static uint64_t builds, build_refused;

/* how many of the corners of the box (in halves) have an owner that is not nearest */
static uint64_t owners_wrong(wide left, wide top, wide to_right, wide bottom)
{
    static double vertices[VORONOI_VERTEX_NUMBERS(SMALL * 3, SMALL)];
    static uint32_t indexes[VORONOI_INDEX_ROOM(SMALL * 3, SMALL)], offsets[VORONOI_OFFSET_ROOM(SMALL)], counts[VORONOI_COUNTS];
    builds++;
    if (voronoi_build_by_edges((double)left / 2, (double)top / 2, (double)to_right / 2, (double)bottom / 2, floats, 2 * sites, triangles, entries, halfedges,
                               entries, hull, places, work, sites, vertices, VORONOI_VERTEX_NUMBERS(entries / 3, places), indexes,
                               VORONOI_INDEX_ROOM(entries / 3, places), offsets, sites + 1, counts, VORONOI_COUNTS)) {
        build_refused++;
        return 0;
    }
    const wide corner[4][2] = {{left, top}, {left, bottom}, {to_right, bottom}, {to_right, top}};
    uint64_t wrong = 0;
    for (int c = 0; c < 4; c++)
        wrong += !nearest_of_all(counts[1 + c], corner[c][0], corner[c][1]);
    return wrong;
}

/* ---- rows by name */

static void set_mesh(const int32_t *g, size_t n, const uint32_t *t, const uint32_t *p, size_t e, const uint32_t *h, size_t l)
{
    sites = n / 2, entries = e, places = l;
    for (size_t i = 0; i < n; i++)
        grid[i] = g[i];
    for (size_t i = 0; i < e; i++)
        triangles[i] = t[i], halfedges[i] = p[i];
    for (size_t i = 0; i < l; i++)
        hull[i] = h[i];
    if (voronoi_grid_sites(grid, 2 * sites, floats, 2 * sites)) {
        printf("FAILED: the floats of a row\n");
        failures++;
    }
}

static void must(const char *what, uint32_t k, uint32_t p, uint32_t u)
{
    if (compare(what, 0) || kind != k || place != p || unused != u) {
        printf("FAILED: %s: kind %u place %u unused %u, must be kind %u place %u unused %u\n", what, kind, place, unused, k, p, u);
        failures++;
    }
}

/* the path from s to (px / 2, py / 2) ends at a site that is not nearest */
static void must_go_wrong(const char *what, uint32_t s, wide px, wide py)
{
    static uint32_t path[SMALL];
    uint32_t n, ended, got = voronoi_path(floats, 2 * sites, triangles, entries, halfedges, entries, hull, places, s, (double)px / 2, (double)py / 2, work,
                                          sites, path, SMALL, &n, &ended);
    if (got || !ended || nearest_of_all(path[n - 1], px, py)) {
        printf("FAILED: %s: the path from %u is refused by %u, or ends right\n", what, s, got);
        failures++;
    }
}

#define MESH(g, t, p, h) set_mesh(g, LENGTH(g), t, p, LENGTH(t), h, LENGTH(h))

static void rows(void)
{
    {
        static const int32_t g[] = {-1, -1, -1, 1, 1, 1, 1, -1};
        static const uint32_t t[] = {0, 1, 2, 0, 2, 3}, p[] = {E, E, 3, 2, E, E}, h[] = {0, 1, 2, 3};
        MESH(g, t, p, h);
        must("square", VORONOI_GRID_YES, E, E);
    }
    {
        static const int32_t g[] = {0, 0, 0, 4, 4, 0, 10, 10, 10, 12, 12, 10};
        static const uint32_t t[] = {0, 1, 2, 3, 4, 5, 3, 5, 4}, p[] = {E, E, E, 8, 7, 6, 5, 4, 3}, h[] = {0, 1, 2};
        MESH(g, t, p, h);
        must("a part that is closed: triangle 2 lies back to back with triangle 1", VORONOI_GRID_TRIANGLE, 2, E);
        must_go_wrong("a closed part", 3, -4, -4);
    }
    {
        static const int32_t g[] = {0, 0, 0, 1, 1, 2, 1, 0};
        static const uint32_t t[] = {0, 1, 2, 0, 2, 3}, p[] = {E, E, 3, 2, E, E}, h[] = {0, 1, 2, 3};
        MESH(g, t, p, h);
        must("a far site inside the circle", VORONOI_GRID_HALFEDGE, 2, E);
        must_go_wrong("a far site inside", 3, 1, 2);
    }
    {
        static const int32_t g[] = {0, 3, 1, 6, 1, 5, 5, 0};
        static const uint32_t t[] = {0, 1, 2, 2, 1, 3}, p[] = {E, 3, E, 1, E, E}, h[] = {0, 1, 3, 2};
        MESH(g, t, p, h);
        must("a hull that is not convex", VORONOI_GRID_HULL, 2, E);
        must_go_wrong("a hull that is not convex", 3, -4, -4);
    }
    {
        static const int32_t g[] = {2, 3, 3, 2, 3, 0, 4, 3, 6, 2};
        static const uint32_t t[] = {0, 1, 2, 2, 1, 3, 1, 0, 4}, p[] = {6, 3, E, 1, E, E, 0, E, E}, h[] = {0, 4, 1, 3, 2};
        MESH(g, t, p, h);
        must("each hull corner turns left, and the hull runs round twice", VORONOI_GRID_HULL, 4, E);
    }
    { /* a fan that goes round its site twice */
        static const int32_t g[] = {0, 0, 10, 0, -5, -9, -5, 9, 20, 1, -11, -18, -11, 18};
        static const uint32_t t[] = {0, 1, 2, 0, 2, 3, 0, 3, 4, 0, 4, 5, 0, 5, 6, 0, 6, 1}, h[] = {1, 2, 3, 4, 5, 6};
        static const uint32_t p[] = {17, E, 3, 2, E, 6, 5, E, 9, 8, E, 12, 11, E, 15, 14, E, 0};
        MESH(g, t, p, h);
        must("a branch point", VORONOI_GRID_HULL, 4, E);
    }
    { /* two sheets over one place: the second triangle is folded over onto the first, its third site where the first one has its own */
        static const int32_t g[] = {0, 0, 0, 4, 4, 0, 0, 4};
        static const uint32_t t[] = {0, 1, 2, 2, 3, 0}, p[] = {E, E, 5, E, E, 2}, h[] = {0, 1, 2, 3};
        MESH(g, t, p, h);
        must("a doubled triangle", VORONOI_GRID_TRIANGLE, 1, E);
    }
    {
        static const int32_t g[] = {-2, -2, -1, 0, -2, 2, 2, 2, 2, -2};
        static const uint32_t t[] = {4, 0, 1, 4, 1, 3, 3, 1, 2}, p[] = {E, E, 3, 2, 6, E, 4, E, E}, h[] = {0, 1, 2, 3, 4};
        MESH(g, t, p, h);
        must("a hull place inside a run that turns right", VORONOI_GRID_HULL, 1, E);
    }
    {
        static const int32_t g[] = {-1, -1, -1, 1, 1, 1, 1, -1, 0, 0};
        static const uint32_t t[] = {0, 1, 2, 0, 2, 3}, p[] = {E, E, 3, 2, E, E}, h[] = {0, 1, 2, 3};
        MESH(g, t, p, h);
        must("square with a site in no triangle", VORONOI_GRID_YES, E, 4);
    }
    {
        static const int32_t g[] = {0, 0, 0, 4, 0, 8, 8, 8, 8, 0, 3, 4};
        static const uint32_t t[] = {5, 0, 1, 5, 1, 2, 5, 2, 3, 5, 3, 4, 5, 4, 0}, p[] = {14, E, 3, 2, E, 6, 5, E, 9, 8, E, 12, 11, E, 0}, h[] = {0, 1, 2, 3, 4};
        MESH(g, t, p, h);
        must("an inner site and a straight hull corner", VORONOI_GRID_YES, E, E);
    }
}

/* ---- random meshes */

static uint32_t edges[2 * SMALL], loop_length; /* the border while sites are added, counter-clockwise with Y downward */

static void add_triangle(uint32_t a, uint32_t b, uint32_t c) { triangles[entries++] = a, triangles[entries++] = b, triangles[entries++] = c; }

/* sites in rising order of x and then y, each joined to all border edges that it sees; 0 where the first three are on a line */
static int swept(void)
{
    entries = 0;
    if (sites < 3 || cross(0, 1, 2) == 0)
        return 0;
    int left = cross(0, 1, 2) < 0;
    edges[0] = 0, edges[1] = left ? 1 : 2, edges[2] = left ? 2 : 1, loop_length = 3;
    add_triangle(edges[0], edges[1], edges[2]);
    for (uint32_t s = 3; s < sites; s++) {
        static uint32_t kept[2 * SMALL];
        uint32_t length = 0, first = E;
        for (uint32_t i = 0; i < loop_length; i++)
            if (cross(edges[i], edges[(i + 1) % loop_length], s) > 0 && cross(edges[(i + loop_length - 1) % loop_length], edges[i], s) <= 0)
                first = i;
        if (first == E)
            return 0;
        uint32_t i = first, seen = 0; /* edges first .. are seen from s, which lies right of them */
        while (seen < loop_length && cross(edges[i], edges[(i + 1) % loop_length], s) > 0)
            add_triangle(edges[(i + 1) % loop_length], edges[i], s), i = (i + 1) % loop_length, seen++;
        for (uint32_t k = 0; k <= loop_length - seen; k++)
            kept[length++] = edges[(i + k) % loop_length];
        kept[length++] = s;
        for (uint32_t k = 0; k < length; k++)
            edges[k] = kept[k];
        loop_length = length;
    }
    return 1;
}

/* pairs and hull of the triangles, by voronoi_mend */
static int mended(void)
{
    static uint32_t pairs[ENTRIES], ring[SITES], changes[VORONOI_CHANGE_NUMBERS(SMALL * 3, SMALL)];
    uint32_t length, pair_changes, hull_changes;
    for (size_t e = 0; e < entries; e++)
        halfedges[e] = E;
    for (size_t i = 0; i < 3; i++)
        hull[i] = triangles[i];
    if (voronoi_mend(floats, 2 * sites, triangles, entries, halfedges, entries, hull, 3, work, sites, pairs, entries, ring, entries, changes,
                     LENGTH(changes), &length, &pair_changes, &hull_changes))
        return 0;
    for (size_t e = 0; e < entries; e++)
        halfedges[e] = pairs[e];
    places = length;
    for (size_t i = 0; i < places; i++)
        hull[i] = ring[i];
    return 1;
}

/* the diagonal of half-edge e, with the table that a check left in `work` */
static uint32_t flip(uint32_t e)
{
    static uint32_t second[SITES];
    return voronoi_flip((uint32_t)sites, triangles, entries, halfedges, entries, hull, places, work, sites, second, sites, e);
}

/* flips half-edges that the check names, until it names none */
static int settled(void)
{
    for (int k = 0; k < 1000; k++) {
        uint32_t got = voronoi_grid_check(grid, 2 * sites, triangles, entries, halfedges, entries, hull, places, work, sites, &kind, &place);
        if (got || kind != VORONOI_GRID_HALFEDGE)
            return got == 0;
        if (flip(place))
            return 1;
    }
    return 0;
}

static void draw_sites(void)
{
    uint32_t span = random_below(3) ? 4 + random_below(12) : random_below(2) ? 200 : 8193;
    sites = 3 + random_below(9);
    for (uint32_t s = 0; s < sites; s++) {
        uint32_t t = s;
        int32_t a = (int32_t)random_below(2 * span - 1) - (int32_t)(span - 1), b = (int32_t)random_below(2 * span - 1) - (int32_t)(span - 1);
        for (; t > 0 && (grid[2 * t - 2] > a || (grid[2 * t - 2] == a && grid[2 * t - 1] > b)); t--)
            grid[2 * t] = grid[2 * t - 2], grid[2 * t + 1] = grid[2 * t - 1];
        grid[2 * t] = a, grid[2 * t + 1] = b;
    }
    for (uint32_t s = 1; s < sites; s++) /* no place twice */
        if (x(s) == x(s - 1) && y(s) == y(s - 1))
            grid[2 * s] = grid[0], grid[2 * s + 1] = grid[1];
}

static void drop_triangle(void)
{
    uint32_t t = 3 * random_below((uint32_t)(entries / 3));
    if (entries > 3 && (halfedges[t] == E || halfedges[t + 1] == E || halfedges[t + 2] == E)) {
        for (uint32_t k = 0; k < 3; k++)
            triangles[t + k] = triangles[entries - 3 + k];
        entries -= 3;
        mended();
    }
}

static void damage(void)
{
    uint32_t e = random_below((uint32_t)entries), s = random_below((uint32_t)sites);
    switch (random_below(6)) {
    case 0:
    case 1: drop_triangle(); break;
    case 2:
        if (!voronoi_grid_check(grid, 2 * sites, triangles, entries, halfedges, entries, hull, places, work, sites, &kind, &place))
            flip(e);
        break;
    case 3: grid[2 * s] += (int32_t)random_below(3) - 1, grid[2 * s + 1] += (int32_t)random_below(3) - 1; break;
    case 4:
        if (sites < SMALL)
            grid[2 * sites] = (int32_t)random_below(9) - 4, grid[2 * sites + 1] = (int32_t)random_below(9) - 4, sites++;
        break;
    default: drop_triangle(), drop_triangle(); break;
    }
}

static void random_meshes(uint64_t cases)
{
    uint64_t kinds[4] = {0}, astray[4] = {0}, spare = 0, refused = 0, paths = 0, half = 0, made = 0;
    for (uint64_t i = 0; i < cases && failures < 20;) {
        draw_sites();
        if (!swept() || voronoi_grid_sites(grid, 2 * sites, floats, 2 * sites) || !mended() || !settled())
            continue;
        for (uint32_t k = random_below(4); k > 0; k--)
            damage();
        i++;
        if (compare("random mesh", i) || voronoi_grid_sites(grid, 2 * sites, floats, 2 * sites)) {
            refused++;
            continue;
        }
        uint32_t said = kind, told = unused;
        uint64_t wrong = 0;
        wide low_x = 2 * x(0), low_y = 2 * y(0), high_x = low_x, high_y = low_y, out = random_below(4) ? 1 + random_below(40) : 50000 + random_below(60000000);
        for (uint32_t s = 0; s < sites; s++) {
            wrong += paths_wrong(2 * x(s), 2 * y(s)), paths++;
            low_x = low_x < 2 * x(s) ? low_x : 2 * x(s), high_x = high_x > 2 * x(s) ? high_x : 2 * x(s);
            low_y = low_y < 2 * y(s) ? low_y : 2 * y(s), high_y = high_y > 2 * y(s) ? high_y : 2 * y(s);
        }
        low_x -= out, low_y -= out, high_x += out, high_y += out;
        wrong += paths_wrong(low_x, low_y) + paths_wrong(low_x, high_y) + paths_wrong(high_x, high_y) + paths_wrong(high_x, low_y), paths += 4;
        for (int k = 0; k < 6; k++, half++)
            wrong += paths_wrong(low_x + random_below((uint32_t)(high_x - low_x + 1)), low_y + random_below((uint32_t)(high_y - low_y + 1)));
        if (out < 1000)
            wrong += owners_wrong(low_x, low_y, high_x, high_y), made++;
        kinds[said]++;
        astray[said] += wrong > 0;
        spare += told != E;
        if (said == VORONOI_GRID_YES && wrong) {
            printf("FAILED: random mesh %llu: yes, and %llu ends are not nearest\n", (unsigned long long)i, (unsigned long long)wrong);
            failures++;
        }
    }
    printf("random meshes: %llu; yes %llu; a triangle %llu, of them with a wrong end %llu; a half-edge %llu, %llu; the hull %llu, %llu; a site unused %llu; refused %llu\n",
           (unsigned long long)cases, (unsigned long long)kinds[0], (unsigned long long)kinds[1], (unsigned long long)astray[1], (unsigned long long)kinds[2],
           (unsigned long long)astray[2], (unsigned long long)kinds[3], (unsigned long long)astray[3], (unsigned long long)spare, (unsigned long long)refused);
    printf("destinations, each from every site in use: %llu sites and corners, %llu half-whole points; builds %llu, %llu refused\n", (unsigned long long)paths,
           (unsigned long long)half, (unsigned long long)builds, (unsigned long long)build_refused);
    for (int k = 0; k < 4; k++)
        if (!kinds[k] || (k && !astray[k])) {
            printf("FAILED: kind %d never came up, or never with a wrong end\n", k);
            failures++;
        }
    if (!spare || builds == build_refused) {
        printf("FAILED: no site was unused, or no box was built\n");
        failures++;
    }
}

/* ---- 65,536 sites */

static void largest(void)
{
    uint32_t a = 256;
    sites = a * a, entries = 0, places = rows_hull(a, a, hull);
    for (uint32_t s = 0; s < sites; s++)
        grid[2 * s] = (int32_t)(s % a) * 32, grid[2 * s + 1] = (int32_t)(s / a) * 32;
    for (uint32_t r = 0; r + 1 < a; r++)
        for (uint32_t c = 0; c + 1 < a; c++) { /* p o n with the sides p-o, o-n, n-p; p n q with p-n, n-q, q-p */
            uint32_t p = r * a + c, q = p + 1, o = p + a, n = o + 1, e = (uint32_t)entries, row = 6 * (a - 1);
            const uint32_t t[] = {p, o, n, p, n, q}, side[] = {c ? e - 6 + 4 : E, r + 2 < a ? e + row + 5 : E, e + 3, e + 2, c + 2 < a ? e + 6 : E, r ? e - row + 1 : E};
            for (uint32_t k = 0; k < 6; k++)
                triangles[entries] = t[k], halfedges[entries++] = side[k];
        }
    must("65,536 sites", VORONOI_GRID_YES, E, E);
    long start = clock();
    for (int k = 0; k < 5; k++)
        failures += voronoi_grid_nearest(grid, 2 * sites, triangles, entries, halfedges, entries, hull, places, work, sites, &kind, &place, &unused) != 0;
    long nearest_time = (clock() - start) / 5;
    start = clock();
    for (int k = 0; k < 5; k++)
        failures += voronoi_grid_check(grid, 2 * sites, triangles, entries, halfedges, entries, hull, places, work, sites, &kind, &place) != 0;
    long check_time = (clock() - start) / 5;
    printf("65,536 sites, %lu triangles, %lu on the hull: %ld.%ld ms, voronoi_grid_check alone %ld.%ld ms\n", (unsigned long)(entries / 3),
           (unsigned long)places, nearest_time / 1000, nearest_time / 100 % 10, check_time / 1000, check_time / 100 % 10);
    grid[2 * 128]++, grid[2 * 128 + 1]++; /* a site of the upper border moved in: at the one before it an edge goes up after one down */
    must("65,536 sites, one of the border moved in", VORONOI_GRID_HULL, 3 * (a - 1) + (a - 1 - 129), E);
}

int main(int words, char **word)
{
    uint64_t cases = 5000, seed = 1;
    if (!count_and_seed(words, word, &cases, &seed)) {
        printf("usage: nearest [COUNT [SEED]]\n");
        return 2;
    }
    state = seed * UINT64_C(0x9e3779b97f4a7c15) + 1;
    rows();
    random_meshes(cases);
    largest();
    printf(failures ? "nearest: %d failed\n" : "nearest: all as it must be\n", failures);
    return failures != 0;
}
