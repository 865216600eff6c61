/* The calls for all gauges at once, held to the single calls through the C interface: every slice to its last element, and every refusal with those after it
 * broken too. Exit status 1 where something differs.
 *
 *   bulk [MESHES [SEED]]
 *   bulk times SIDE        the processor time of a build and of the neighbours of SIDE by SIDE sites
 *
 * The C library's headers are not used (tests/archive.sh says why). */
#include "../lent.h"
#include "../number.h"
#include "../rows.h"

struct instant {
    int64_t seconds, nanoseconds;
};
int clock_gettime(int clock, struct instant *now);

#define HELD 0xA5A5A5A5
enum { MOST = 256, SITES = MOST * MOST, TRIANGLES = 2 * MOST * MOST, HULL = 4 * MOST, SPARE = 3, POINTS = 40 };

static double sites[2 * SITES], vertices[VORONOI_VERTEX_NUMBERS(TRIANGLES, HULL)], points[2 * POINTS + 1];
static uint32_t triangles[3 * TRIANGLES], halfedges[3 * TRIANGLES], hull[HULL], work[SITES + SPARE], single_work[SITES];
static uint32_t indexes[VORONOI_INDEX_ROOM(TRIANGLES, HULL)], offsets[SITES + 1], counts[VORONOI_COUNTS];
static uint32_t starts[SITES + 1 + SPARE], out[VORONOI_NEIGHBOUR_ROOM(TRIANGLES, HULL) + SPARE], one[SITES];
static uint32_t n, entries, hull_count;
static unsigned long failures, lists, empty_lists, dropped, paths, refusals;
#define LENT sites, 2 * (size_t)n, triangles, entries, halfedges, entries, hull, hull_count

static void fail(const char *what, size_t where, uint32_t got, uint32_t must)
{
    if (failures++ < 20)
        printf("FAILED: %s, at %lu: %u, must be %u\n", what, (unsigned long)where, got, must);
}

static void same(const char *what, size_t where, uint32_t got, uint32_t must)
{
    if (got != must)
        fail(what, where, got, must);
}

static void fill(uint32_t *slice, size_t length, uint32_t with)
{
    for (size_t i = 0; i < length; i++)
        slice[i] = with;
}

static void all_are(const char *what, const uint32_t *slice, size_t length, uint32_t with)
{
    for (size_t i = 0; i < length; i++)
        same(what, i, slice[i], with);
}

/* ---- a mesh: a by b sites in rows, two triangles for each square; its pairs and its hull by what the squares are */

/* Square q has the triangles p s r, p r q or p s q, q s r; so the half-edges of its west, south, east and north sides have fixed places. */
static uint32_t side_of(uint32_t square, uint32_t cut, int side)
{
    static const uint32_t place[2][4] = {{0, 1, 4, 5}, {0, 4, 5, 2}};
    return 6 * square + place[cut][side];
}

static unsigned char cuts[MOST * MOST];

static void set_mesh(uint32_t a, uint32_t b, uint32_t kind)
{
    uint32_t wide = a - 1, high = b - 1;
    n = a * b, entries = 6 * wide * high, hull_count = rows_hull(a, b, hull);
    for (uint32_t i = 0; i < wide * high; i++) {
        uint32_t p = i / wide * a + i % wide, q = p + 1, r = q + a, s = p + a, cut = cuts[i] = (unsigned char)random_below(2);
        const uint32_t two[2][6] = {{p, s, r, p, r, q}, {p, s, q, q, s, r}};
        for (int k = 0; k < 6; k++)
            triangles[6 * i + k] = two[cut][k], halfedges[6 * i + k] = E;
        halfedges[6 * i + (cut ? 1 : 2)] = 6 * i + 3, halfedges[6 * i + 3] = 6 * i + (cut ? 1 : 2);
    }
    for (uint32_t i = 0; i < wide * high; i++) {
        if (i % wide + 1 < wide) { /* the east side, and the west side of the square beside it */
            uint32_t e = side_of(i, cuts[i], 2), f = side_of(i + 1, cuts[i + 1], 0);
            halfedges[e] = f, halfedges[f] = e;
        }
        if (i / wide + 1 < high) { /* the south side, and the north side of the square below it */
            uint32_t e = side_of(i, cuts[i], 1), f = side_of(i + wide, cuts[i + wide], 3);
            halfedges[e] = f, halfedges[f] = e;
        }
    }
    for (uint32_t i = 0; i < n; i++) {
        sites[2 * i] = kind == 2 ? random_below(1000) / 8.0 : i % a + (kind ? random_below(64) / 256.0 : 0);
        sites[2 * i + 1] = kind == 2 ? random_below(1000) / 8.0 : i / a + (kind ? random_below(64) / 256.0 : 0);
    }
    if (kind != 3 && n < SITES && random_below(4) == 0) /* a site in no triangle */
        sites[2 * n] = random_below(9), sites[2 * n + 1] = random_below(9), n++;
}

static uint32_t build(void)
{
    return voronoi_build(1.3, 1.1, 2.9 + random_below(4), 2.7 + random_below(4), LENT, single_work, n, vertices, VORONOI_VERTEX_NUMBERS(entries / 3, hull_count), indexes,
        VORONOI_INDEX_ROOM(entries / 3, hull_count), offsets, n + 1, counts, VORONOI_COUNTS);
}

/* Cells by chance, where the mesh does not build. */
static uint32_t cells_by_chance(void)
{
    uint32_t k = 0;
    for (uint32_t s = 0; s <= n; s++) {
        offsets[s] = k;
        for (uint32_t i = random_below(5); s < n && i > 0; i--)
            indexes[k++] = random_below(12);
    }
    return k;
}

/* ---- all neighbours against the single calls; `lent` is how many entries the cells have, or none are lent */

static void neighbours(int with_cells, size_t lent, size_t more_work, size_t more_starts, size_t more_out)
{
    size_t room = VORONOI_NEIGHBOUR_ROOM(entries / 3, hull_count), at = 0;
    fill(work, n + SPARE, HELD), fill(starts, n + 1 + SPARE, HELD), fill(out, room + SPARE, HELD);
    same("all neighbours", 0, voronoi_all_neighbours(LENT, offsets, with_cells ? n + 1 : 0, indexes, with_cells ? lent : 0, work, n + more_work, starts,
        n + 1 + more_starts, out, room + more_out), 0);
    same("the first start", 0, starts[0], 0);
    for (uint32_t s = 0; s < n; s++, lists++) {
        uint32_t count = 77, ended = 77, plain, r;
        r = voronoi_neighbours(LENT, s, single_work, n, one, n, &plain, &ended);
        if (with_cells)
            r = voronoi_clipped_neighbours(LENT, offsets, n + 1, indexes, lent, s, single_work, n, one, n, &count, &ended);
        else
            count = plain;
        same("the single call", s, r, 0), same("the single call's end", s, ended, 1);
        dropped += plain - count, empty_lists += count == 0;
        for (uint32_t i = 0; i < count; i++)
            same("a neighbour", at + i, out[at + i], one[i]);
        at += count;
        same("a start", s + 1, starts[s + 1], (uint32_t)at);
    }
    if (at > room)
        fail("the room does not suffice", at, (uint32_t)at, (uint32_t)room);
    all_are("past the starts", starts + n + 1, more_starts, E), all_are("past the slice of starts", starts + n + 1 + more_starts, SPARE - more_starts, HELD);
    all_are("past the lists", out + at, room + more_out - at, E), all_are("past the slice of lists", out + room + more_out, SPARE - more_out, HELD);
    for (uint32_t s = 0; s < n; s++)
        same("the table", s, work[s], single_work[s]);
    all_are("past the table", work + n, more_work, E), all_are("past the work slice", work + n + more_work, SPARE - more_work, HELD);
}

/* ---- ends against paths */

static void ends(uint32_t site, size_t k, size_t more_work, size_t more_out)
{
    uint32_t from = site;
    for (size_t i = 0; i < 2 * k; i++)
        points[i] = random_below(160) / 8.0 - 4;
    fill(work, n + SPARE, HELD), fill(out, k + SPARE, HELD);
    same("ends", 0, voronoi_ends(LENT, site, points, 2 * k, work, n + more_work, out, k + more_out), 0);
    for (size_t i = 0; i < k; i++, paths++) {
        uint32_t count, ended;
        same("the path", i, voronoi_path(LENT, from, points[2 * i], points[2 * i + 1], single_work, n, one, n, &count, &ended), 0);
        same("the path's end", i, ended, 1);
        from = one[count - 1];
        same("an end", i, out[i], from);
    }
    all_are("past the ends", out + k, SPARE, HELD);
    if (k > 0)
        for (uint32_t s = 0; s < n; s++)
            same("the table of ends", s, work[s], single_work[s]);
    all_are("past the table of ends", work + n, more_work, E), all_are("past the work slice of ends", work + n + more_work, SPARE - more_work, HELD);
}

/* ---- refusals, each with all that come after it broken too: 1, 2, (4, 5,) 6, 7, 8, 9, 10, 16 in their order */

static void refused(uint32_t number)
{
    size_t room = VORONOI_NEIGHBOUR_ROOM(entries / 3, hull_count), k = 3;
    size_t coordinates = 2 * (size_t)n, pairs = entries, hulls = hull_count, points_long = 2 * k, work_long = n, starts_long = n + 1, out_long = room, ends_long = k;
    uint32_t site = 0, old_site = triangles[0], old_pair = halfedges[2], old_hull = hull[0], bad_offset = offsets[n];
    double old_x = sites[0];
    for (size_t i = 0; i < 2 * k; i++)
        points[i] = i;
    int which = (int)random_below(4);
    if (number <= 16)
        offsets[n] = E;
    if (number <= 9)
        hull[0] = hull[1];
    if (number <= 8)
        halfedges[2] = 2;
    if (number <= 7)
        triangles[0] = triangles[1];
    if (number <= 6)
        sites[0] = 0x1p101;
    if (number <= 5)
        points[2 * k - 1] = 1e300 * 1e300;
    if (number <= 4)
        site = n;
    if (number <= 2) {
        if (which == 0 || number < 2)
            work_long = n - 1;
        if (which != 0 || number < 2)
            ends_long = k - 1;
        if (which == 1 || number < 2)
            starts_long = n;
        if (which >= 2 || number < 2)
            out_long = room - 1;
    }
    if (number <= 1) {
        if (which == 0)
            coordinates--;
        else if (which == 1)
            pairs--;
        else if (which == 2)
            hulls = 2;
        points_long--;
    }
    fill(work, n + SPARE, HELD), fill(starts, n + 1 + SPARE, HELD), fill(out, room + SPARE, HELD);
    if (number != 4 && number != 5 && !(number == 1 && which == 3)) {
        uint32_t kept = number > 6 ? E : HELD, lists_kept = number > 6 && number != 16 ? E : HELD;
        same("refused", number, voronoi_all_neighbours(sites, coordinates, triangles, entries, halfedges, pairs, hull, hulls, offsets, n + 1, indexes, 1, work,
            work_long, starts, starts_long, out, out_long), number);
        all_are("work after a refusal", work, work_long, kept), all_are("past work", work + work_long, n + SPARE - work_long, HELD);
        all_are("starts after a refusal", starts, starts_long, lists_kept), all_are("past starts", starts + starts_long, n + 1 + SPARE - starts_long, HELD);
        all_are("out after a refusal", out, out_long, lists_kept), all_are("past out", out + out_long, room + SPARE - out_long, HELD);
        refusals++;
    }
    fill(work, n + SPARE, HELD), fill(out, room + SPARE, HELD);
    if (number != 16) {
        uint32_t kept = number > 6 ? E : HELD;
        same("ends refused", number, voronoi_ends(sites, coordinates, triangles, entries, halfedges, pairs, hull, hulls, site, points, points_long, work, work_long,
            out, ends_long), number);
        all_are("work after a refusal of ends", work, work_long, kept), all_are("past work of ends", work + work_long, n + SPARE - work_long, HELD);
        all_are("ends after a refusal", out, ends_long, kept), all_are("past ends", out + ends_long, room + SPARE - ends_long, HELD);
        refusals++;
    }
    sites[0] = old_x, triangles[0] = old_site, halfedges[2] = old_pair, hull[0] = old_hull, offsets[n] = bad_offset;
}

/* A triangle, and two glued back to back that touch it in site 0 alone (tests/programs/cells/refused_10_two_fans.txt): rule 10, with 16 broken too. */
static void broken_fan(void)
{
    static const double where[10] = {0, 0, 0, 1, 1, 0, -1, 0, -1, -1}, to[2] = {0, 0};
    static const uint32_t three[9] = {0, 1, 2, 0, 3, 4, 0, 4, 3}, pairs[9] = {E, E, E, 8, 7, 6, 5, 4, 3}, round[3] = {0, 1, 2};
    fill(work, 8, HELD), fill(starts, 9, HELD), fill(out, 15, HELD);
    same("broken fan", 0, voronoi_all_neighbours(where, 10, three, 9, pairs, 9, round, 3, offsets, 1, indexes, 1, work, 5, starts, 6, out, 12), 10);
    all_are("starts of a broken fan", starts, 6, E), all_are("lists of a broken fan", out, 12, E), all_are("work of a broken fan", work, 5, E);
    all_are("past them", starts + 6, SPARE, HELD), all_are("past them", out + 12, SPARE, HELD), all_are("past them", work + 5, SPARE, HELD);
    fill(work, 8, HELD), fill(out, 15, HELD);
    same("ends on a broken fan", 0, voronoi_ends(where, 10, three, 9, pairs, 9, round, 3, 0, to, 2, work, 5, out, 1), 10);
    all_are("ends of a broken fan", out, 1, E), all_are("work of its ends", work, 5, E), all_are("past the ends of a broken fan", out + 1, SPARE, HELD);
}

/* ---- rows by hand: "square", its neighbours and the ends of four points */

static void rows(void)
{
    static const double at[8] = {-1, -1, -1, 1, 1, 1, 1, -1}, to[8] = {-1, 1, .9, .9, 0, 0, 1, -2};
    static const uint32_t tri[6] = {0, 1, 2, 0, 2, 3}, pairs[6] = {E, E, 3, 2, E, E}, round[4] = {0, 1, 2, 3};
    static const uint32_t begin[5] = {0, 3, 5, 8, 10}, of[10] = {3, 2, 1, 0, 2, 1, 0, 3, 2, 0}, at_last[4] = {1, 2, 2, 3};
    same("square", 0, voronoi_all_neighbours(at, 8, tri, 6, pairs, 6, round, 4, of, 0, of, 0, work, 4, starts, 5, out, 10), 0);
    for (int i = 0; i < 5; i++)
        same("square's starts", (size_t)i, starts[i], begin[i]);
    for (int i = 0; i < 10; i++)
        same("square's neighbours", (size_t)i, out[i], of[i]);
    same("square's ends", 0, voronoi_ends(at, 8, tri, 6, pairs, 6, round, 4, 0, to, 8, work, 4, out, 4), 0);
    for (int i = 0; i < 4; i++)
        same("square's end", (size_t)i, out[i], at_last[i]);
    /* one of the two lists of cells is not empty: they are lent, and unsound */
    same("indexes without offsets", 0, voronoi_all_neighbours(at, 8, tri, 6, pairs, 6, round, 4, of, 0, of, 1, work, 4, starts, 5, out, 10), 16);
    same("offsets without indexes", 0, voronoi_all_neighbours(at, 8, tri, 6, pairs, 6, round, 4, of, 1, of, 0, work, 4, starts, 5, out, 10), 16);
}

static int64_t now(void)
{
    struct instant t;
    clock_gettime(2, &t); /* the processor time of this program */
    return t.seconds * 1000000000 + t.nanoseconds;
}

static int times(uint32_t side)
{
    set_mesh(side, side, 3);
    for (uint32_t i = 0; i < 2 * n; i++)
        sites[i] += random_below(1 << 20) / 4194304.0;
    int64_t t = now();
    uint32_t r = voronoi_build(side / 2.0, side / 2.0, side + 1.37, side + 1.37, LENT, work, n, vertices, VORONOI_VERTEX_NUMBERS(entries / 3, hull_count), indexes,
        VORONOI_INDEX_ROOM(entries / 3, hull_count), offsets, n + 1, counts, VORONOI_COUNTS);
    int64_t built = now() - t;
    if (r != 0)
        return printf("the mesh of %u sites is refused: %u\n", n, r), 1;
    size_t room = VORONOI_NEIGHBOUR_ROOM(entries / 3, hull_count);
    t = now();
    r = voronoi_all_neighbours(LENT, offsets, 0, indexes, 0, work, n, starts, n + 1, out, room);
    int64_t plain = now() - t;
    t = now();
    r |= voronoi_all_neighbours(LENT, offsets, n + 1, indexes, offsets[n], work, n, starts, n + 1, out, room);
    int64_t clipped = now() - t;
    printf("%u sites: a build %.1f ms, all neighbours %.1f ms, after clipping %.1f ms\n", n, built / 1e6, plain / 1e6, clipped / 1e6);
    if (r != 0 || plain >= 2 * built || clipped >= 2 * built) {
#ifdef EMULATED
        return printf("note: more than two builds' time, under the emulator\n"), r != 0;
#else
        return printf("FAILED: %u, or more than two builds' time\n", r), 1;
#endif
    }
    return 0;
}

int main(int words, char **word)
{
    uint64_t meshes = 2000, seed = 1, side;
    if (words == 3 && word[1][0] == 't')
        return !number_of(word[2], &side) || side < 2 || side > MOST ? 2 : times((uint32_t)side);
    if (!count_and_seed(words, word, &meshes, &seed))
        return 2;
    state = 0x9E3779B97F4A7C15 * (2 * seed + 1);
    rows(), broken_fan();
    unsigned long built = 0;
    for (uint64_t i = 0; i < meshes && failures < 20; i++) {
        set_mesh(2 + random_below(5), 2 + random_below(5), random_below(3));
        same("the mesh", 0, voronoi_check(LENT, single_work, n), 0);
        int sound = build() == 0;
        built += sound;
        size_t lent = sound ? offsets[n] : cells_by_chance();
        neighbours(0, 0, random_below(SPARE), random_below(SPARE), random_below(SPARE)), neighbours(1, lent, random_below(SPARE), random_below(SPARE), random_below(SPARE));
        lent = cells_by_chance();
        neighbours(1, lent, 0, 0, 0);
        ends(random_below(n), random_below(POINTS), random_below(SPARE), random_below(SPARE));
        static const uint32_t numbers[] = {1, 1, 1, 2, 2, 2, 4, 5, 6, 7, 8, 9, 16};
        for (size_t k = 0; k < sizeof numbers / sizeof *numbers; k++)
            refused(numbers[k]);
    }
    printf("%lu meshes, %lu of them built: %lu lists (%lu empty, %lu neighbours dropped), %lu paths, %lu refusals: %lu failed\n", (unsigned long)meshes, built, lists,
        empty_lists, dropped, paths, refusals, failures);
    return failures != 0 || (meshes > 100 && (empty_lists == 0 || dropped == 0));
}
