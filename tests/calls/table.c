/* The pieces of a mesh with their areas, as the tests of the audit and of GDAL's areas ask for them: a form on standard input, long or not; on standard
 * output `site,area,geometry`, then a line for each gauge: its number, the area of its piece (%.17g) and the piece as a Polygon in Well-Known
 * Binary, in hexadecimal digits. On standard error what there is to say of the whole, and the audit's verdict.
 *
 *   pieces [--bits N] [--all] <FORM    N: the audit's tolerance is 2^-N; --all: each piece is held against all sites, not only its neighbours
 *
 * Status: 0 sound; 1 refused, with its words; 2 unknown words, or input or output failed; 3 a fault.
 * Everything that is computed is asked of the library. The C library's headers are not used (tests/archive.sh says why). */
#include "voronoi.h"

void *calloc(size_t count, size_t bytes);
void *realloc(void *block, size_t bytes);
void *memcpy(void *to, const void *from, size_t bytes);
long read(int file, void *to, size_t bytes);
long write(int file, const void *from, size_t bytes);
int snprintf(char *to, size_t bytes, const char *format, ...);
int dprintf(int file, const char *format, ...);
void exit(int status) __attribute__((noreturn));

enum { SOUND, REFUSED, FAILED, FAULT };
#define SAY(...) dprintf(2, "pieces: " __VA_ARGS__)

static void *room(size_t count, size_t bytes)
{
    void *block = calloc(count ? count : 1, bytes);
    if (!block) {
        SAY("there is no memory for a mesh of this size\n");
        exit(FAILED);
    }
    return block;
}

static void __attribute__((noreturn)) refuse(uint32_t number)
{
    SAY("refused %u: %s (docs/use/RULES.md, rule %u, says what to do)\n", (unsigned)number, voronoi_words(number), (unsigned)number);
    if (number == VORONOI_REFUSED_NO_CROSSING)
        SAY("a corner of a piece lies on a side of the box: make the box larger by a fraction such as .375, another on each side\n");
    exit(REFUSED);
}

/* ---- output */

static char out[65536];
static size_t held;

static void flush(void)
{
    for (size_t done = 0; done < held;) {
        long more = write(1, out + done, held - done);
        if (more <= 0) {
            SAY("the output could not be written (is the disk full?)\n");
            exit(FAILED);
        }
        done += (size_t)more;
    }
    held = 0;
}

static void put(char letter)
{
    if (held == sizeof out)
        flush();
    out[held++] = letter;
}

static void put_text(const char *text)
{
    while (*text)
        put(*text++);
}

static void put_hex(const uint8_t *bytes, size_t count)
{
    for (size_t i = 0; i < count; i++) {
        put("0123456789abcdef"[bytes[i] >> 4]);
        put("0123456789abcdef"[bytes[i] & 15]);
    }
}

/* ---- the mesh */

typedef struct {
    uint8_t opening; /* 1 the box by center and size, 7 by its edges */
    double box[4], *sites;
    uint32_t *triangles, *halfedges, *hull;
    size_t n, t, h; /* sites, triangles, hull sites */
} Mesh;

/* The mesh's lists, each with its length, as the calls take them. */
#define LISTS(m) (m)->sites, 2 * (m)->n, (m)->triangles, 3 * (m)->t, (m)->halfedges, 3 * (m)->t, (m)->hull, (m)->h

static uint64_t whole(const uint8_t *bytes, int count)
{
    uint64_t value = 0;
    while (count > 0)
        value = value << 8 | bytes[--count];
    return value;
}

static double of(const uint8_t *bytes)
{
    uint64_t pattern = whole(bytes, 8);
    double value;
    memcpy(&value, &pattern, sizeof value);
    return value;
}

static uint8_t *all_input(size_t *length)
{
    uint8_t *form = room(1, 1);
    size_t size = 0;
    long more;
    *length = 0;
    do {
        if (*length == size && !(form = realloc(form, size = 2 * size + 65536)))
            SAY("there is no memory for a form of this size\n"), exit(FAILED);
        more = read(0, form + *length, size - *length);
        if (more < 0)
            SAY("standard input could not be read\n"), exit(FAILED);
        *length += (size_t)more;
    } while (more > 0);
    return form;
}

/* The mesh of a form: docs/use/RULES.md, "The form", but that there may be any number of each record. */
static void read_mesh(Mesh *m)
{
    size_t length, at = 0;
    uint8_t *form = all_input(&length), last = 0;
    m->n = m->t = m->h = 0;
    m->sites = room(length / 8 + 1, sizeof(double)); /* no list can have more numbers than the form */
    m->triangles = room(length / 8 + 1, sizeof(uint32_t));
    m->halfedges = room(length / 8 + 1, sizeof(uint32_t));
    m->hull = room(length / 4 + 1, sizeof(uint32_t));
    while (at < length) {
        uint8_t kind = form[at];
        const uint8_t *body = form + at + 1;
        size_t bytes = kind == 1 || kind == 7 ? 32 : kind == 2 ? 16 : kind == 3 ? 24 : 4;
        if (kind == 5 && last) {
            if (at + 1 == length)
                return;
            at++;
            break;
        }
        if (kind == 6)
            refuse(VORONOI_REFUSED_UNCLIPPED);
        if ((last ? kind < 2 || kind > 4 || kind < last : kind != 1 && kind != 7))
            break;
        if (length - at - 1 < bytes) {
            at = length;
            break;
        }
        if (kind == 1 || kind == 7) {
            m->opening = kind;
            for (int i = 0; i < 4; i++)
                m->box[i] = of(body + 8 * i);
        } else if (kind == 2) {
            m->sites[2 * m->n] = of(body);
            m->sites[2 * m->n++ + 1] = of(body + 8);
        } else if (kind == 3) {
            for (size_t i = 0; i < 3; i++) {
                m->triangles[3 * m->t + i] = (uint32_t)whole(body + 4 * i, 4);
                m->halfedges[3 * m->t + i] = (uint32_t)whole(body + 12 + 4 * i, 4);
            }
            m->t++;
        } else
            m->hull[m->h++] = (uint32_t)whole(body, 4);
        last = kind == 7 ? 1 : kind;
        at += 1 + bytes;
    }
    SAY("the form is broken at byte %zu\n", at);
    refuse(VORONOI_REFUSED_FORM);
}

/* ---- the pieces */

typedef struct {
    double *vertices, *areas;
    uint32_t *indexes, *offsets, counts[VORONOI_COUNTS];
    size_t numbers; /* of the vertices: two each */
} Pieces;

/* The pieces' lists, as the calls take them. */
#define CELLS(m, p) (p)->vertices, (p)->numbers, (p)->offsets, (m)->n + 1, (p)->indexes, (p)->offsets[(m)->n]

static void build(const Mesh *m, Pieces *p)
{
    size_t vertices = VORONOI_VERTEX_NUMBERS(m->t, m->h), indexes = VORONOI_INDEX_ROOM(m->t, m->h), offsets = VORONOI_OFFSET_ROOM(m->n);
    const double *b = m->box;
    uint32_t *work = room(VORONOI_WORK_ROOM(m->n), sizeof(uint32_t)), refused;
    p->vertices = room(vertices, sizeof(double));
    p->areas = room(m->n, sizeof(double));
    p->indexes = room(indexes, sizeof(uint32_t));
    p->offsets = room(offsets, sizeof(uint32_t));
    refused = (m->opening == 7 ? voronoi_build_by_edges : voronoi_build)(b[0], b[1], b[2], b[3], LISTS(m), work, m->n, p->vertices, vertices,
        p->indexes, indexes, p->offsets, offsets, p->counts, VORONOI_COUNTS);
    if (refused)
        refuse(refused);
    p->numbers = 2 * (size_t)p->counts[VORONOI_COUNT_VERTICES];
    refused = voronoi_areas(CELLS(m, p), p->areas, m->n);
    if (refused)
        refuse(refused);
}

static void print(const Mesh *m, const Pieces *p)
{
    size_t longest = 0, bytes;
    for (size_t s = 0; s < m->n; s++)
        if (p->offsets[s + 1] - p->offsets[s] > longest)
            longest = p->offsets[s + 1] - p->offsets[s];
    size_t most = VORONOI_WKB_ROOM(longest);
    uint8_t *image = room(most, 1);
    char words[64];
    put_text("site,area,geometry\n");
    for (size_t s = 0; s < m->n; s++) {
        uint32_t refused = voronoi_cell_wkb(CELLS(m, p), (uint32_t)s, image, most, &bytes);
        if (refused)
            refuse(refused);
        snprintf(words, sizeof words, "%zu,%.17g,", s, p->areas[s]);
        put_text(words);
        put_hex(image, bytes);
        put('\n');
    }
    flush();
}

/* ---- what there is to say of the whole */

/* The areas of the triangles: how many are not above 0, and which is the lowest. */
static size_t turned(const Mesh *m, size_t *lowest)
{
    uint32_t *threes = room(m->t + 1, sizeof(uint32_t)), refused;
    double *areas = room(m->t, sizeof(double));
    size_t count = 0;
    for (size_t k = 0; k <= m->t; k++)
        threes[k] = (uint32_t)(3 * k);
    refused = voronoi_areas(m->sites, 2 * m->n, threes, m->t + 1, m->triangles, 3 * m->t, areas, m->t);
    if (refused)
        refuse(refused);
    for (size_t k = m->t; k-- > 0;)
        if (!(areas[k] > 0))
            count++, *lowest = k;
    return count;
}

typedef struct {
    uint32_t kind, site, vertex, other;
    double missing; /* the share of the box */
    int all;        /* held against all sites */
} Verdict;

/* The audit of the pieces, each against its site's neighbours in the mesh, or against all sites; so also where a site is in no triangle, and
 * therefore nobody's neighbour. */
static void audit(const Mesh *m, const Pieces *p, uint32_t bits, int all, Verdict *v)
{
    uint32_t none = 0, *starts = &none, *others = &none, refused;
    size_t cut = 0, listed = 0, lists = VORONOI_START_ROOM(m->n), most = VORONOI_NEIGHBOUR_ROOM(m->t, m->h);
    const double *b = m->box;
    if (!all) {
        starts = room(lists, sizeof(uint32_t));
        others = room(most, sizeof(uint32_t));
        refused = voronoi_all_neighbours(LISTS(m), &none, 0, &none, 0, room(m->n, sizeof(uint32_t)), m->n, starts, lists, others, most);
        if (refused)
            refuse(refused);
        for (size_t s = 0; s < m->n; s++)
            all |= starts[s] == starts[s + 1];
        if (!all)
            cut = lists, listed = starts[m->n];
    }
    v->all = all;
    refused = (m->opening == 7 ? voronoi_audit_by_edges : voronoi_audit)(b[0], b[1], b[2], b[3], m->sites, 2 * m->n, CELLS(m, p), starts, cut,
        others, listed, bits, &v->kind, &v->site, &v->vertex, &v->other, &v->missing);
    if (refused)
        refuse(refused);
}

static int say_verdict(const Pieces *p, const Verdict *v, uint32_t bits)
{
    unsigned site = v->site, other = v->other;
    const double *at = p->vertices + (v->vertex == VORONOI_EMPTY ? 0 : 2 * (size_t)v->vertex);
    switch (v->kind) {
    case VORONOI_AUDIT_SOUND:
        SAY("sound to 2^-%u: no corner of a piece is outside the box or nearer to %s, and the pieces add up to the box\n", (unsigned)bits,
            v->all ? "another gauge" : "a neighbour");
        return SOUND;
    case VORONOI_AUDIT_RING: SAY("FAULT: the piece of gauge %u does not run once round, the right way\n", site); break;
    case VORONOI_AUDIT_OUTSIDE: SAY("FAULT: the corner %.9g %.9g of the piece of gauge %u is outside the box\n", at[0], at[1], site); break;
    case VORONOI_AUDIT_NEARER: SAY("FAULT: the corner %.9g %.9g of the piece of gauge %u is nearer to gauge %u\n", at[0], at[1], site, other); break;
    case VORONOI_AUDIT_TOTAL: SAY("FAULT: the pieces do not add up to the box\n"); break;
    default: SAY("FAULT: gauges %u and %u stand at one place: a piece goes to one of them\n", other, site);
    }
    return FAULT;
}

static int say(const Mesh *m, const Pieces *p, uint32_t bits, int all)
{
    size_t empty = 0, first = 0, wrong = turned(m, &first);
    Verdict v;
    audit(m, p, bits, all, &v);
    for (size_t s = 0; s < m->n; s++)
        empty += p->offsets[s + 1] - p->offsets[s] < 3;
    SAY("%zu gauges; %.3g of the box is missing; %u of its corners lost; %zu pieces empty\n", m->n, v.missing,
        (unsigned)p->counts[VORONOI_COUNT_LOST], empty);
    if (wrong)
        SAY("%zu of %zu triangles turn the wrong way, or are flat; the lowest is triangle %zu (docs/use/RULES.md, \"Terms\", says how to turn a mesh)\n",
            wrong, m->t, first);
    else if (v.kind && p->counts[VORONOI_COUNT_LOST])
        SAY("perhaps a side of a piece runs into a corner of the box: make the box larger by a fraction such as .375, another on each side\n");
    return say_verdict(p, &v, bits);
}

static int same(const char *a, const char *b)
{
    while (*a && *a == *b)
        a++, b++;
    return *a == *b;
}

/* A tolerance: digits, from 0 to 52; else 53. */
static uint32_t bits_of(const char *word)
{
    uint32_t bits = *word ? 0 : 53;
    for (; *word; word++)
        bits = *word < '0' || *word > '9' || bits > 52 ? 53 : 10 * bits + (uint32_t)(*word - '0');
    return bits > 52 ? 53 : bits;
}

int main(int words, char **word)
{
    static Mesh mesh;
    static Pieces pieces;
    uint32_t bits = VORONOI_AUDIT_BITS;
    int all = 0;
    for (int i = 1; i < words; i++)
        if (same(word[i], "--all"))
            all = 1;
        else if (same(word[i], "--bits") && i + 1 < words && bits_of(word[i + 1]) <= 52)
            bits = bits_of(word[++i]);
        else {
            SAY("use: pieces [--bits N] [--all] <FORM, N from 0 to 52\n");
            return FAILED;
        }
    read_mesh(&mesh);
    build(&mesh, &pieces);
    print(&mesh, &pieces);
    return say(&mesh, &pieces, bits, all);
}
