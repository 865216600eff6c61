/* Cells as Well-Known Binary through the C interface: an image to the last byte, every refusal with those after it broken too, each lent slice to its
 * last element and beyond, and a second reader of the images. Exit status 1 where something differs.
 *
 *   wkb           these tests
 *   wkb dump      a form on standard input: the build's vertices, cells and images, for tests/calls/wkb.py
 *
 * The C library's headers are not used (tests/archive.sh says why). */
#include "../lent.h"

long read(int from, void *at, size_t length);

#define HELD 0xA5
#define SPARE 4

static int failures;

/* ---- what is lent: "square" after its build, and room for a changed copy */

static const double square[] = {0, 0, 0, 0, -1, -1, -1, 1, 1, 1, 1, -1, -1e10, 0, 0, 1e10, 1e10, 0, 0, -1e10, 0, -1, -1, 0, 0, 1, 1, 0};
static const uint32_t square_indexes[] = {1, 10, 2, 11, 0, 0, 11, 3, 12, 0, 12, 4, 13, 1, 1, 13, 5, 10, E, E};
static const uint32_t square_offsets[] = {0, 5, 9, 14, 18};

static double vertices[32];
static uint64_t patterns[32];
static uint32_t offsets[16], indexes[32];
static size_t vertex_numbers, offset_count, index_count, room;
static uint8_t out[512];
static size_t written;

static void set_square(void)
{
    vertex_numbers = LENGTH(square), offset_count = LENGTH(square_offsets), index_count = LENGTH(square_indexes);
    for (size_t i = 0; i < vertex_numbers; i++)
        patterns[i] = bits(square[i]);
    for (size_t i = 0; i < offset_count; i++)
        offsets[i] = square_offsets[i];
    for (size_t i = 0; i < index_count; i++)
        indexes[i] = square_indexes[i];
    room = VORONOI_WKB_ROOM(4);
}

/* one cell of so many entries, 0 1 2 .., over so many vertices of "square" */
static void set_cell(uint32_t entries, size_t numbers)
{
    set_square();
    vertex_numbers = 2 * numbers;
    offset_count = 2, offsets[0] = 0, offsets[1] = entries;
    index_count = entries;
    for (uint32_t i = 0; i < entries; i++)
        indexes[i] = i;
    room = VORONOI_WKB_ROOM(entries);
}

/* ---- a run: the output holds HELD to its end and past it before */

static uint32_t run(int patterned, uint32_t site)
{
    for (size_t i = 0; i < LENGTH(out); i++)
        out[i] = HELD;
    for (size_t i = 0; i < vertex_numbers; i++)
        vertices[i] = value(patterns[i]);
    written = 77;
    if (patterned)
        return voronoi_cell_wkb_bits(patterns, vertex_numbers, offsets, offset_count, indexes, index_count, site, out, room, &written);
    return voronoi_cell_wkb(vertices, vertex_numbers, offsets, offset_count, indexes, index_count, site, out, room, &written);
}

static int held_from(size_t from)
{
    for (size_t i = from; i < LENGTH(out); i++)
        if (out[i] != HELD)
            return 0;
    return 1;
}

static void tell(const char *what, uint32_t got, uint32_t number, int right)
{
    if (got != number || !right) {
        printf("FAILED: %s: %u, must be %u%s\n", what, got, number, right ? "" : ", an output wrong");
        failures++;
    } else
        printf("  %2u  %s\n", got, what);
}

/* refused: nothing written, the output as it was */
static void refuse(const char *what, uint32_t site, uint32_t number)
{
    for (int patterned = 0; patterned < 2; patterned++) {
        uint32_t got = run(patterned, site);
        tell(what, got, number, written == 0 && held_from(0));
    }
}

/* ---- a reader, from the OGC text: the points of a polygon of at most one ring, -1 where it is none */

static uint64_t word(const uint8_t *at, int bytes)
{
    uint64_t x = 0;
    for (int i = bytes; i-- > 0;)
        x = x << 8 | at[i];
    return x;
}

static long points_of(const uint8_t *at, size_t length, uint64_t *points)
{
    if (length < 9 || at[0] != 1 || word(at + 1, 4) != 3)
        return -1;
    uint64_t rings = word(at + 5, 4);
    if (rings == 0)
        return length == 9 ? 0 : -1;
    if (rings != 1 || length < 13)
        return -1;
    uint64_t n = word(at + 9, 4);
    if (n < 4 || length != 13 + 16 * n)
        return -1;
    for (uint64_t i = 0; i < 2 * n; i++)
        points[i] = word(at + 13 + 8 * i, 8);
    return points[0] == points[2 * n - 2] && points[1] == points[2 * n - 1] ? (long)n - 1 : -1;
}

#define QUIET UINT64_C(0x7ff8000000000000)

static uint64_t owed(int patterned, uint64_t b)
{
    int nan = (b & UINT64_C(0x7fffffffffffffff)) > UINT64_C(0x7ff0000000000000);
    return nan && !patterned ? QUIET : b;
}

/* accepted, with so many bytes: read back, the points are the cell's, and the output past the image is as it was */
static void accept(const char *what, uint32_t site, size_t bytes)
{
    for (int patterned = 0; patterned < 2; patterned++) {
        uint64_t points[64];
        uint32_t got = run(patterned, site);
        int right = got == 0 && written == bytes && held_from(bytes);
        uint32_t from = offsets[site], n = offsets[site + 1] - from;
        if (right) {
            right = points_of(out, written, points) == (n < 3 ? 0 : (long)n);
            for (uint32_t i = 0; right && n >= 3 && i < n; i++)
                for (int k = 0; k < 2; k++)
                    right &= points[2 * i + k] == owed(patterned, patterns[2 * indexes[from + i] + k]);
        }
        tell(what, got, 0, right);
    }
}

/* ---- images */

static void images(void)
{
    static const char *const words = "0103000000010000000500000000000000000000000000000000000000000000000000f0bf0000000000000000000000000000f0bf"
                                     "000000000000f03f0000000000000000000000000000f03f00000000000000000000000000000000";
    static const char digits[] = "0123456789abcdef";
    set_square();
    for (int patterned = 0; patterned < 2; patterned++) {
        uint32_t got = run(patterned, 1);
        int right = written == 93 && held_from(93);
        for (size_t i = 0; i < 93; i++)
            right &= words[2 * i] == digits[out[i] >> 4] && words[2 * i + 1] == digits[out[i] & 15];
        tell("cell 1 of square, byte for byte", got, 0, right);
    }
    set_square();
    room = 400;
    accept("cell 0", 0, 109);
    accept("cell 1", 1, 93);
    accept("cell 2", 2, 109);
    accept("cell 3", 3, 93);
    for (uint32_t n = 0; n < 7; n++) {
        set_cell(n, 7);
        accept("a cell of 0, 1, 2, .. entries, in exactly its room", 0, VORONOI_WKB_ROOM(n));
        room++;
        accept("the same in a byte more", 0, VORONOI_WKB_ROOM(n));
        room -= 2;
        refuse("the same in a byte less", 0, VORONOI_REFUSED_ROOM);
        room = 0;
        refuse("the same in no room", 0, VORONOI_REFUSED_ROOM);
    }
    set_cell(2, 7);
    run(1, 0);
    static const uint8_t none[] = {1, 3, 0, 0, 0, 0, 0, 0, 0};
    int right = written == 9;
    for (size_t i = 0; i < 9; i++)
        right &= out[i] == none[i];
    tell("two entries: the nine bytes of a polygon without rings", 0, 0, right);
    set_cell(0, 0);
    accept("an empty cell over no vertex", 0, 9);
    set_cell(4, 7);
    indexes[1] = indexes[2] = indexes[0] = 3;
    accept("repeated entries stay", 0, 93);
    static const uint64_t odd[] = {0, UINT64_C(1) << 63, 1, 0x7ff0000000000000, 0xfff0000000000000, 0x7ff0000000000001, 0x7ff8000000000001, UINT64_MAX};
    set_cell(4, 4);
    for (size_t i = 0; i < LENGTH(odd); i++)
        patterns[i] = odd[i];
    accept("zeros, a subnormal, infinities and NaNs: patterns as they are, of floats a NaN by its one pattern", 0, 93);
}

/* ---- refusals, each with those after it broken too */

static void refusals(void)
{
    set_square();
    vertex_numbers--;
    refuse("an odd list of vertices", 1, VORONOI_REFUSED_COUNT);
    indexes[6] = 14, room = 0, offsets[1] = 99;
    refuse("the same, no such site, offsets that fall, an entry that names no vertex, no room", 4, VORONOI_REFUSED_COUNT);
    vertex_numbers++;
    refuse("no such site, offsets that fall, such an entry, no room", 4, VORONOI_REFUSED_SITE);
    refuse("site 4294967295", E, VORONOI_REFUSED_SITE);
    refuse("offsets that fall, such an entry, no room", 1, VORONOI_REFUSED_OFFSETS);
    offsets[1] = 5;
    refuse("such an entry, no room", 1, VORONOI_REFUSED_ENTRY);
    room = 400;
    refuse("such an entry", 1, VORONOI_REFUSED_ENTRY);
    indexes[6] = E;
    refuse("the entry that is none", 1, VORONOI_REFUSED_ENTRY);
    room = 93;
    accept("such an entry in another cell", 3, 93);
    indexes[6] = 13;
    accept("the last vertex", 1, 93);
    room = 92;
    refuse("a byte too few", 1, VORONOI_REFUSED_ROOM);
    set_square();
    offset_count = 0;
    refuse("no offsets", 0, VORONOI_REFUSED_SITE);
    offset_count = 1;
    refuse("one offset", 0, VORONOI_REFUSED_SITE);
    set_square();
    index_count = 17;
    refuse("the index list cut before its end", 0, VORONOI_REFUSED_OFFSETS);
    set_square();
    offsets[0] = 1;
    refuse("offsets that start at 1", 3, VORONOI_REFUSED_OFFSETS);
    for (uint32_t n = 1; n < 4; n++) {
        set_cell(n, n - 1);
        refuse("a cell of 1, 2, 3 entries whose last is the vertex count", 0, VORONOI_REFUSED_ENTRY);
    }
    set_square();
    vertex_numbers = 0;
    refuse("no vertices", 1, VORONOI_REFUSED_ENTRY);
}

/* ---- a form's build, for tests/calls/wkb.py */

static uint8_t form[8192], image[65536];
static double sites[192], built[8192];
static uint32_t tri[576], pairs[576], hull[96], work[96], entries[8192], starts[97], counts[VORONOI_COUNTS];

static int dump(void)
{
    double box[4];
    size_t length = 0, numbers = 0, links = 0, border = 0, at = 0;
    int clipped = 0;
    for (long n; (n = read(0, form + length, sizeof form - length)) > 0;)
        length += (size_t)n;
    while (at < length && form[at] != 5) {
        uint8_t kind = form[at++];
        size_t size = kind == 1 ? 32 : kind == 2 ? 16 : kind == 3 ? 24 : kind == 4 ? 4 : 0;
        if (at + size > length)
            return 1;
        for (size_t i = 0; kind <= 2 && i < size; i += 8)
            *(kind == 1 ? &box[i / 8] : &sites[numbers++]) = value(word(form + at + i, 8));
        for (size_t i = 0; kind == 3 && i < 12; i += 4, links++) {
            tri[links] = (uint32_t)word(form + at + i, 4);
            pairs[links] = (uint32_t)word(form + at + 12 + i, 4);
        }
        if (kind == 4)
            hull[border++] = (uint32_t)word(form + at, 4);
        clipped |= kind == 1;
        at += size;
    }
    uint32_t number = clipped ? voronoi_build(box[0], box[1], box[2], box[3], sites, numbers, tri, links, pairs, links, hull, border, work, 96, built,
                                              8192, entries, 8192, starts, 97, counts, VORONOI_COUNTS)
                              : VORONOI_REFUSED_UNCLIPPED;
    printf("number %u\n", number);
    if (number)
        return 0;
    for (size_t i = 0; i < counts[0]; i++)
        printf("vertex %016llx %016llx\n", (unsigned long long)bits(built[2 * i]), (unsigned long long)bits(built[2 * i + 1]));
    for (uint32_t s = 0; s < numbers / 2; s++) {
        size_t n = 0;
        if (voronoi_cell_wkb(built, 2 * (size_t)counts[0], starts, numbers / 2 + 1, entries, 8192, s, image, sizeof image, &n))
            return 1;
        printf("cell");
        for (uint32_t i = starts[s]; i < starts[s + 1]; i++)
            printf(" %u", entries[i]);
        printf("\nimage ");
        for (size_t i = 0; i < n; i++)
            printf("%02x", image[i]);
        printf("\n");
    }
    return 0;
}

int main(int words, char **word_list)
{
    if (words == 2 && word_list[1][0] == 'd')
        return dump();
    images();
    refusals();
    printf(failures ? "wkb: %d failed\n" : "wkb: all as it must be\n", failures);
    return failures != 0;
}
