/* The certificate held to the truth through the C interface: sheets of twelve families, of 8 to 58 gauges, each once as it is and once damaged: its mesh before the
 * cut or the build, or its pieces after the cut. The truth is the box cut by all bisectors in 113-bit floats. Exit status 1 where a sheet that nothing was done to is
 * named, or a wrong one is passed.
 *
 *   certify_truth [SHEETS [SEED]]         the table by family and by damage
 *   certify_truth places SHEETS SEED      certified sheets, some moved within a coarse tolerance, for tests/calls/certify.py: box and bits, gauges, rings, as hexadecimal floats
 *
 * Wrong: the area of a piece is off by more than 10^-6 of the box, and by more than three times the band of the tolerance, (far 1.42) (w + h) over the box; or
 * the middle of a true piece, where its gauge is nearer than all others by more than the tolerance, is not in that piece once, or is in another. Harmless: no piece
 * is off by more than 10^-11, and no middle. Between them is slight, and may be named or passed.
 * The C library's headers are not used (tests/archive.sh says why). */
#include "../lent.h"
#include "../number.h"
#include "../sheets.h"

enum { LONG = 400, VERTICES = VORONOI_CUT_VERTEX_ROOM(T, H) + VORONOI_VERTEX_ROOM(T, H), ENTRIES = N * LONG };

static double vertices[2 * VERTICES], areas[N];
static uint32_t work[VORONOI_CERTIFY_ROOM(N, ENTRIES)], indexes[ENTRIES], offsets[N + 1], counts[VORONOI_COUNTS], many; /* many: vertices */
static uint32_t starts[N + 1], others[VORONOI_NEIGHBOUR_ROOM(T, H)];

/* ---- the families */

enum { FAMILIES = 12 };
static const char *const families[FAMILIES] = {"uniform", "clustered", "10 m grid", "strip", "lattice", "circle", "box away", "box in a piece", "stations",
    "small sheets", "small, map metres", "small, crowded"};

static double low[2], high[2]; /* the gauges' extent */

static void measure(void)
{
    for (int k = 0; k < 2; k++) {
        low[k] = high[k] = sites[k];
        for (uint32_t s = 1; s < n; s++)
            low[k] = sites[2 * s + (uint32_t)k] < low[k] ? sites[2 * s + (uint32_t)k] : low[k], high[k] = sites[2 * s + (uint32_t)k] > high[k] ? sites[2 * s + (uint32_t)k] : high[k];
    }
}

static void small_sheet(void) /* a tenth to a half of the extent each way, somewhere in it */
{
    double wide = (.1 + .4 * unit()) * (high[0] - low[0]), tall = (.1 + .4 * unit()) * (high[1] - low[1]);
    set_box(low[0] + wide / 2 + unit() * (high[0] - low[0] - wide), low[1] + tall / 2 + unit() * (high[1] - low[1] - tall), wide, tall);
}

static void stations(uint32_t j) /* two to four gauges within 10^-5 to 10^-3 of the sheet */
{
    double near = j < 3 ? 1e-3 : j < 6 ? 1e-2 : .1;
    for (uint32_t s = 0; s + 4 < n; s += 2 + below(3))
        for (uint32_t k = s + 1; k < s + 2 + below(3) && k < n; k++)
            sites[2 * k] = sites[2 * s] + near * (2 * unit() - 1), sites[2 * k + 1] = sites[2 * s + 1] + near * (2 * unit() - 1);
}

static void set(uint32_t family, uint32_t j)
{
    n = 8 + below(51);
    sound_sheet(family, j);
    if (family == 8)
        stations(j);
    if (family == 10)
        scale(1000, 500000, 5800000);
    if (family == 11)
        round_the_middle();
    measure();
    if (family >= 9)
        small_sheet();
    triangulate(), lists();
}

/* ---- the pieces, cut or built; as rings that can be damaged */

static uint32_t ring[N][LONG], length[N];

static void take_rings(void)
{
    for (uint32_t s = 0; s < n; s++) {
        length[s] = offsets[s + 1] - offsets[s];
        for (uint32_t i = 0; i < length[s]; i++)
            ring[s][i] = indexes[offsets[s] + i];
    }
}

static void lay_rings(void)
{
    for (uint32_t s = 0, at = 0; s <= n; s++) {
        offsets[s] = at;
        for (uint32_t i = 0; s < n && i < length[s]; i++)
            indexes[at++] = ring[s][i];
    }
}

static uint32_t cut(void)
{
    edges[0] = box[0] - box[2] / 2, edges[1] = box[1] - box[3] / 2, edges[2] = box[0] + box[2] / 2, edges[3] = box[1] + box[3] / 2;
    uint32_t number = voronoi_cut(box[0], box[1], box[2], box[3], sites, 2 * (size_t)n, triangles, 3 * (size_t)t, halfedges, 3 * (size_t)t, hull, h, work, n, vertices,
        VORONOI_CUT_VERTEX_NUMBERS(t, h), indexes, VORONOI_CUT_INDEX_ROOM(t, h), offsets, n + 1, &many);
    if (!number)
        take_rings();
    return number;
}

static uint32_t build(void)
{
    uint32_t number = voronoi_build(box[0], box[1], box[2], box[3], sites, 2 * (size_t)n, triangles, 3 * (size_t)t, halfedges, 3 * (size_t)t, hull, h, work, n, vertices,
        VORONOI_VERTEX_NUMBERS(t, h), indexes, VORONOI_INDEX_ROOM(t, h), offsets, n + 1, counts, VORONOI_COUNTS);
    if (!number)
        take_rings(), many = counts[VORONOI_COUNT_VERTICES];
    return number;
}

static void neighbours(uint64_t sheet)
{
    if (voronoi_all_neighbours(sites, 2 * (size_t)n, triangles, 3 * (size_t)t, halfedges, 3 * (size_t)t, hull, h, 0, 0, 0, 0, work, n, starts, n + 1, others,
            VORONOI_NEIGHBOUR_ROOM(t, h)))
        fail("neighbours are refused", sheet, 0);
}

/* ---- the verdicts */

static uint32_t certificate(uint64_t sheet, uint32_t bits)
{
    uint32_t kind, site, vertex, other, number;
    size_t room = VORONOI_CERTIFY_ROOM(n, offsets[n]);
    number = sheet % 2 ? voronoi_certify(box[0], box[1], box[2], box[3], sites, 2 * (size_t)n, vertices, 2 * (size_t)many, offsets, n + 1, indexes, offsets[n], bits, work,
                             room, &kind, &site, &vertex, &other)
                       : voronoi_certify_by_edges(edges[0], edges[1], edges[2], edges[3], sites, 2 * (size_t)n, vertices, 2 * (size_t)many, offsets, n + 1, indexes,
                             offsets[n], bits, work, room, &kind, &site, &vertex, &other);
    if (number)
        fail("the certificate refuses", sheet, number);
    return kind;
}

static int audit_passes(uint64_t sheet, int all)
{
    uint32_t kind, site, vertex, other;
    double missing;
    if (voronoi_audit(box[0], box[1], box[2], box[3], sites, 2 * (size_t)n, vertices, 2 * (size_t)many, offsets, n + 1, indexes, offsets[n], starts, all ? 0 : n + 1, others,
            all ? 0 : starts[n], VORONOI_AUDIT_BITS, &kind, &site, &vertex, &other, &missing))
        fail("the audit refuses", sheet, 0);
    return kind == 0;
}

/* ---- the truth, of the gauges and the box as they are */

static Wide is[N], middle[2 * N];
static int clear[N]; /* whether the gauge is nearer to the middle of its true piece than all others by more than the tolerance */

static double far(void)
{
    double reach = 0;
    for (int k = 0; k < 4; k++)
        reach = absolute(edges[k]) > reach ? absolute(edges[k]) : reach;
    return reach * 0x1p-32;
}

static Wide squared(const Wide *p, uint32_t s) { return (p[0] - sites[2 * s]) * (p[0] - sites[2 * s]) + (p[1] - sites[2 * s + 1]) * (p[1] - sites[2 * s + 1]); }

static void find_truth(uint64_t sheet)
{
    Wide x[MOST_CORNERS], y[MOST_CORNERS], total = 0, whole = ((Wide)edges[2] - edges[0]) * ((Wide)edges[3] - edges[1]);
    for (uint32_t s = 0; s < n; s++) {
        int m = true_piece(s, x, y);
        is[s] = 0, clear[s] = m > 2, middle[2 * s] = middle[2 * s + 1] = 0;
        for (int i = 1; i + 1 < m; i++)
            is[s] += ((y[i] - y[0]) * (x[i + 1] - x[0]) - (x[i] - x[0]) * (y[i + 1] - y[0])) / 2;
        for (int i = 0; i < m; i++)
            middle[2 * s] += x[i] / m, middle[2 * s + 1] += y[i] / m;
        total += is[s];
        for (uint32_t o = 0; o < n && clear[s]; o++)
            clear[s] = o == s || squared(&middle[2 * s], s) + 2 * far() * (absolute(sites[2 * o] - sites[2 * s]) + absolute(sites[2 * o + 1] - sites[2 * s + 1]))
                < squared(&middle[2 * s], o);
    }
    for (uint32_t s = 0; s < n; s++) /* two at one place share theirs */
        for (uint32_t o = 0; o < s; o++)
            if (sites[2 * s] == sites[2 * o] && sites[2 * s + 1] == sites[2 * o + 1])
                total = whole;
    if (total > whole * (1 + (Wide)1e-20) || total < whole * (1 - (Wide)1e-20))
        fail("the true pieces are not the box", sheet, (double)(total / whole - 1));
}

/* how often the ring of s goes round p */
static int winding(uint32_t s, const Wide *p)
{
    int sum = 0;
    for (uint32_t i = offsets[s]; i < offsets[s + 1]; i++) {
        const double *a = vertices + 2 * indexes[i], *b = vertices + 2 * indexes[i + 1 < offsets[s + 1] ? i + 1 : offsets[s]];
        int sign = (b[1] <= p[1]) - (a[1] <= p[1]);
        const double *lo = a[1] < b[1] ? a : b, *hi = a[1] < b[1] ? b : a;
        if (sign && ((Wide)hi[1] - lo[1]) * p[0] < lo[0] * (hi[1] - p[1]) + hi[0] * (p[1] - lo[1]))
            sum += sign;
    }
    return sum;
}

enum { HARMLESS, SLIGHT, WRONG, CLASSES };

static double most_off;

static uint32_t judge(uint64_t sheet)
{
    Wide whole = ((Wide)edges[2] - edges[0]) * ((Wide)edges[3] - edges[1]), most = 0;
    double band = 3 * 1.42 * far() * ((edges[2] - edges[0]) + (edges[3] - edges[1])) / (double)whole;
    int misplaced = 0;
    if (voronoi_areas(vertices, 2 * (size_t)many, offsets, n + 1, indexes, offsets[n], areas, n))
        fail("areas of pieces are refused", sheet, 0);
    for (uint32_t s = 0; s < n; s++) {
        Wide by = areas[s] > is[s] ? areas[s] - is[s] : is[s] - areas[s];
        most = by > most ? by : most;
        for (uint32_t o = 0; o < n && clear[s]; o++)
            misplaced |= winding(o, &middle[2 * s]) != (o == s);
    }
    most_off = (double)(most / whole);
    return misplaced || most_off > 1e-6 + band ? WRONG : most_off > 1e-11 ? SLIGHT : HARMLESS;
}

/* ---- the damage */

enum { FLIPS, EXCHANGED, NEIGHBOURS, MISTYPED, NEARBY, MIRRORED, BITTEN, SHAKEN, APPENDED, TURNED, OF_MESH,
    MOVED = OF_MESH, SPLIT, SWAPPED, DROPPED, REPEATED, REPLACED, RINGS, RING_TURNED, LAP, GIVEN, GAUGE, GAUGES, DAMAGES };
static const char *const damages[DAMAGES] = {"1 to 10 flips", "two rows exchanged", "two neighbours exchanged", "a gauge mistyped", "a gauge put beside the sheet",
    "y upward", "a bite from the border", "all gauges moved a little", "gauges appended", "mesh turned", "a corner moved", "a corner of one piece moved", "entries exchanged",
    "an entry dropped", "an entry repeated", "an entry replaced", "two pieces exchanged", "a piece turned", "a lap for another piece", "a piece given to another",
    "a gauge moved after", "gauges exchanged after"};

static void swap_gauges(uint32_t a, uint32_t b)
{
    for (uint32_t k = 0; k < 2; k++) {
        double x = sites[2 * a + k];
        sites[2 * a + k] = sites[2 * b + k], sites[2 * b + k] = x;
    }
}

static void put_anywhere(uint32_t s)
{
    for (uint32_t k = 0; k < 2; k++)
        sites[2 * s + k] = low[k] + unit() * (high[k] - low[k]);
}

static void damage_mesh(uint32_t how, uint32_t j)
{
    uint32_t a = below(n), b = (a + 1 + below(n - 1)) % n;
    if (how == FLIPS)
        damage(j % 3);
    if (how == EXCHANGED)
        swap_gauges(a, b);
    for (uint32_t k = 0; how == NEIGHBOURS && k < n; k++)
        if (third[a][(b + k) % n] != E || third[(b + k) % n][a] != E) {
            swap_gauges(a, (b + k) % n);
            break;
        }
    if (how == MISTYPED)
        put_anywhere(a);
    if (how == NEARBY) { /* just outside, or just inside */
        uint32_t k = below(2), end = below(2) * 2;
        put_anywhere(a), sites[2 * a + k] = edges[k + end] + (edges[k + 2] - edges[k]) * (unit() - .5) / 10;
        sites[2 * a + !k] = edges[!k] + (edges[!k + 2] - edges[!k]) * unit();
    }
    for (uint32_t s = 0; how == MIRRORED && s < n; s++)
        sites[2 * s + 1] = low[1] + high[1] - sites[2 * s + 1];
    if (how == BITTEN)
        bite();
    for (uint32_t s = 0; how == SHAKEN && s < n; s++)
        for (uint32_t k = 0; k < 2; k++)
            sites[2 * s + k] += .03 * (high[k] - low[k]) * bell();
    if (how == TURNED)
        reverse();
    lists();
    for (uint32_t more = 1 + below(2); how == APPENDED && more > 0; more--, n++)
        for (uint32_t k = 0; k < 2; k++)
            sites[2 * n + k] = j % 2 ? low[k] + unit() * (high[k] - low[k]) : edges[k] + unit() * (edges[k + 2] - edges[k]);
}

static uint32_t some_ring(void)
{
    uint32_t s = below(n);
    for (uint32_t k = 0; k < n && length[s] == 0; k++)
        s = (s + 1) % n;
    return s;
}

static uint32_t moved_copy(uint32_t v) /* another vertex beside it, in the box */
{
    static const double parts[6] = {1, .1, 1e-2, 1e-3, 1e-4, 1e-6};
    double part = parts[below(6)];
    for (uint32_t k = 0; k < 2; k++) {
        double x = vertices[2 * v + k] + part * (edges[k + 2] - edges[k]) * (2 * unit() - 1);
        vertices[2 * many + k] = x < edges[k] ? edges[k] : x > edges[k + 2] ? edges[k + 2] : x;
    }
    return many++;
}

static void damage_pieces(uint32_t how)
{
    uint32_t s = some_ring(), o = (s + 1 + below(n - 1)) % n, i = below(length[s]), v = ring[s][i], w;
    if (how == MOVED) {
        w = moved_copy(v);
        for (uint32_t p = 0; p < n; p++)
            for (uint32_t k = 0; k < length[p]; k++)
                if (vertices[2 * ring[p][k]] == vertices[2 * v] && vertices[2 * ring[p][k] + 1] == vertices[2 * v + 1])
                    ring[p][k] = w;
    }
    if (how == SPLIT)
        ring[s][i] = moved_copy(v);
    if (how == SWAPPED)
        w = below(length[s]), ring[s][i] = ring[s][w], ring[s][w] = v;
    for (uint32_t k = i; how == DROPPED && k + 1 < length[s]; k++)
        ring[s][k] = ring[s][k + 1];
    length[s] -= how == DROPPED;
    for (uint32_t k = length[s]; how == REPEATED && k > i; k--)
        ring[s][k] = ring[s][k - 1];
    length[s] += how == REPEATED;
    if (how == REPLACED)
        w = some_ring(), ring[s][i] = ring[w][below(length[w])];
    if (how == RINGS)
        for (uint32_t k = 0, a = length[s], b = length[o]; k < a || k < b; k++)
            w = ring[s][k], ring[s][k] = ring[o][k], ring[o][k] = w, length[s] = b, length[o] = a;
    for (uint32_t k = 0; how == RING_TURNED && k < length[s] / 2; k++)
        w = ring[s][k], ring[s][k] = ring[s][length[s] - 1 - k], ring[s][length[s] - 1 - k] = w;
    if (how == LAP) {
        for (uint32_t k = 0; k < length[s]; k++)
            ring[s][length[s] + k] = ring[s][k];
        length[s] *= 2, length[o] = 0;
    }
    if (how == GIVEN) {
        for (uint32_t k = 0; k < length[o]; k++)
            ring[s][length[s] + k] = ring[o][k];
        length[s] += length[o], length[o] = 0;
    }
    if (how == GAUGE)
        put_anywhere(s);
    if (how == GAUGES)
        swap_gauges(s, o);
    lay_rings();
}

/* ---- all of it */

typedef struct {
    uint64_t sheets, refused, classes[CLASSES], named[CLASSES], kinds[6], near, all; /* near, all: wrong ones that the audit passes */
} Count;
static Count by_family[FAMILIES], by_damage[DAMAGES], by_build[DAMAGES], as_is[FAMILIES];
static double most_passed;

static void count(Count *c, uint32_t class, uint32_t kind, int near, int all)
{
    c->classes[class]++, c->named[class] += kind != 0;
    if (class == WRONG)
        c->kinds[kind]++, c->near += (uint64_t)near, c->all += (uint64_t)all;
}

static void damaged(uint64_t sheet, Count *one, Count *two)
{
    uint32_t class = judge(sheet), kind = certificate(sheet, VORONOI_CERTIFY_BITS);
    if (class == WRONG && kind == 0)
        fail("a wrong sheet is passed", sheet, most_off);
    if (kind == 0 && most_off > most_passed)
        most_passed = most_off;
    int near = class == WRONG && audit_passes(sheet, 0), all = class == WRONG && audit_passes(sheet, 1);
    count(one, class, kind, near, all);
    if (two)
        count(two, class, kind, near, all);
}

static void try(uint64_t sheet)
{
    uint32_t turn = (uint32_t)(sheet / FAMILIES), family = (uint32_t)(sheet % FAMILIES), how = turn % DAMAGES, j = (turn + turn / DAMAGES) % 8;
    set(family, j);
    uint32_t number = cut();
    as_is[family].sheets++;
    if (number) {
        as_is[family].refused++;
        if (number != 11)
            fail("a sound sheet is refused", sheet, number);
        return;
    }
    find_truth(sheet), neighbours(sheet);
    uint32_t class = judge(sheet), kind = certificate(sheet, VORONOI_CERTIFY_BITS);
    count(&as_is[family], class, kind, 0, 0);
    if (kind)
        fail("a sheet that nothing was done to is named", sheet, kind);
    if (class == WRONG)
        fail("pieces by cutting are wrong", sheet, most_off);
    by_damage[how].sheets++, by_family[family].sheets++;
    if (how >= OF_MESH) {
        damage_pieces(how);
        if (how >= GAUGE)
            find_truth(sheet);
        damaged(sheet, &by_damage[how], &by_family[family]);
        return;
    }
    damage_mesh(how, j);
    number = cut();
    by_damage[how].refused += number != 0, by_family[family].refused += number != 0;
    find_truth(sheet);
    if (voronoi_check(sites, 2 * (size_t)n, triangles, 3 * (size_t)t, halfedges, 3 * (size_t)t, hull, h, work, n) == 0)
        neighbours(sheet);
    if (!number)
        damaged(sheet, &by_damage[how], &by_family[family]);
    by_build[how].sheets++;
    if (build())
        by_build[how].refused++;
    else
        damaged(sheet, &by_build[how], 0);
}

static void line(const char *name, const Count *c)
{
    printf("%-30s%8lu%8lu%9lu%7lu%8lu%8lu%8lu", name, (unsigned long)c->sheets, (unsigned long)c->refused, (unsigned long)c->classes[HARMLESS], (unsigned long)c->classes[SLIGHT],
        (unsigned long)c->classes[WRONG], (unsigned long)c->named[WRONG], (unsigned long)(c->named[HARMLESS] + c->named[SLIGHT]));
    for (int k = 1; k < 6; k++)
        printf("%7lu", (unsigned long)c->kinds[k]);
    printf("%8lu%6lu\n", (unsigned long)c->near, (unsigned long)c->all);
}

static void table(const char *title, const char *const *names, const Count *list, uint32_t many_rows)
{
    Count sum = {0};
    printf("%-30s%8s%8s%9s%7s%8s%8s%8s%7s%7s%7s%7s%7s%8s%6s\n", title, "sheets", "refused", "harmless", "slight", "wrong", "named", "others", "1", "2", "3", "4", "5", "near", "all");
    for (uint32_t k = 0; k < many_rows; k++) {
        line(names[k], &list[k]);
        sum.sheets += list[k].sheets, sum.refused += list[k].refused, sum.near += list[k].near, sum.all += list[k].all;
        for (int c = 0; c < CLASSES; c++)
            sum.classes[c] += list[k].classes[c], sum.named[c] += list[k].named[c];
        for (int c = 0; c < 6; c++)
            sum.kinds[c] += list[k].kinds[c];
    }
    line("all", &sum);
}

static int sheets_held(uint64_t sheets)
{
    for (uint64_t sheet = 0; sheet < sheets; sheet++)
        try(sheet);
    table("as they are, by cutting", families, as_is, FAMILIES);
    table("damaged, by cutting", families, by_family, FAMILIES);
    table("damaged, by cutting", damages, by_damage, DAMAGES);
    table("damaged mesh, by the build", damages, by_build, OF_MESH);
    printf("named: of the wrong ones; others: of the rest; near, all: wrong ones that the audit passes, against neighbours and against all gauges\n");
    printf("what was passed of damaged sheets is off by at most %.1e of the box\n", most_passed);
    for (uint32_t k = 0; sheets >= FAMILIES * DAMAGES && k < DAMAGES; k++)
        if (k != REPEATED && by_damage[k].classes[WRONG] + by_build[k].classes[WRONG] == 0)
            fail("a damage that says nothing", k, 0);
    if (by_damage[REPEATED].named[HARMLESS] + by_damage[REPEATED].classes[SLIGHT] + by_damage[REPEATED].classes[WRONG])
        fail("an entry repeated is no damage", 0, 0);
    printf("certify: %lu sheets each way against the truth, %lu failures\n", (unsigned long)sheets, (unsigned long)failures);
    return failures != 0;
}

/* ---- certified sheets, for the theorem at exact places */

static void places(uint64_t sheets)
{
    static const uint32_t tolerances[8] = {52, 32, 20, 12, 9, 8, 7, 6};
    for (uint64_t sheet = 0; sheet < sheets; sheet++) {
        uint32_t bits = tolerances[sheet % 8];
        n = 0;
        do
            set((uint32_t)(sheet % FAMILIES), (uint32_t)(sheet / FAMILIES % 8));
        while (n > 30 || cut());
        for (uint32_t k = 0; bits < 20 && k < 3; k++) { /* corners moved as far as the tolerance allows */
            for (uint32_t turns = 0; turns < 6; turns++) {
                damage_pieces(MOVED);
                if (certificate(sheet, bits) == 0)
                    break;
                if (cut())
                    fail("a sound sheet is refused", sheet, 0);
            }
        }
        if (certificate(sheet, bits))
            continue;
        printf("sheet %a %a %a %a %u\n", edges[0], edges[1], edges[2], edges[3], bits);
        for (uint32_t s = 0; s < n; s++) {
            printf("site %a %a", sites[2 * s], sites[2 * s + 1]);
            for (uint32_t i = offsets[s]; i < offsets[s + 1]; i++)
                printf(" %a %a", vertices[2 * indexes[i]], vertices[2 * indexes[i] + 1]);
            printf("\n");
        }
    }
}

int main(int words, char **word)
{
    uint64_t sheets = 1056, seed = 1;
    int print = words > 1 && word[1][0] == 'p';
    if (!count_and_seed(words - print, word + print, &sheets, &seed))
        return printf("certify_truth [SHEETS [SEED]] | places SHEETS SEED\n"), 2;
    state = 88172645463325252u ^ seed * 0x9e3779b97f4a7c15u;
    if (print)
        return places(sheets), failures != 0;
    return sheets_held(sheets);
}
