/* Gauges from the boards' files through the C interface: MultiPoints in both byte orders, read and written, every refusal, each lent slice to its last
 * element and beyond, and random files against a second reader and writer from the OGC text (06-103r4, 8.2). Exit status 1 where something differs.
 *
 *   multipoint          these tests, with 100,000 random files
 *   multipoint N        with N of them
 *   multipoint show     a file on standard input: the number, the count, the patterns of the sites, and the bytes that they are written as
 *
 * The C library's headers are not used (tests/archive.sh says why). */
#include "../lent.h"

long read(int from, void *at, size_t length);

#define HELD 0xA5
#define SPARE 4
#define MOST 65537

static int failures;

/* ---- what is lent */

static uint8_t file[9 + 21 * MOST + 8], out[9 + 21 * MOST + SPARE];
static double sites[2 * MOST + SPARE], expected[2 * MOST + SPARE];
static size_t length, written;
static uint32_t count;
static const double held = -77.5;

/* ---- a writer: by structures, a byte after the other */

static uint8_t *put(uint8_t *to, int little, uint64_t x, int bytes)
{
    for (int i = 0; i < bytes; i++)
        to[i] = (uint8_t)(x >> 8 * (little ? i : bytes - 1 - i));
    return to + bytes;
}

static uint8_t *put_start(uint8_t *to, int little, uint32_t type)
{
    *to = little ? 1 : 0;
    return put(to + 1, little, type, 4);
}

static uint8_t *put_point(uint8_t *to, int little, uint64_t x, uint64_t y)
{
    to = put_start(to, little, 1);
    to = put(to, little, x, 8);
    return put(to, little, y, 8);
}

/* ---- a reader from the OGC text: byteOrder, wkbType, numPoints, and so many WKBPoints, each with its own byteOrder */

static const uint8_t *at, *end;
static int broken;

static int byte_order(void)
{
    if (at == end || *at > 1)
        return broken = 1, 0;
    return *at++;
}

static uint64_t unsigned_of(int order, int bytes)
{
    uint64_t x = 0;
    if (end - at < bytes)
        return broken = 1, 0;
    if (order == 0)
        for (int i = 0; i < bytes; i++)
            x = x * 256 + at[i];
    else
        for (int i = bytes - 1; i >= 0; i--)
            x = x * 256 + at[i];
    at += bytes;
    return x;
}

/* the refusal's number, the count, and in `expected` what the output must hold: so many numbers lent, SPARE past them */
static uint32_t second_reader(size_t room, uint32_t *points)
{
    static uint64_t read_bits[2 * MOST];
    at = file, end = file + length, broken = 0, *points = 0;
    for (size_t i = 0; i < room + SPARE; i++)
        expected[i] = held;
    int order = byte_order();
    uint64_t type = broken ? 0 : unsigned_of(order, 4), n = broken ? 0 : unsigned_of(order, 4);
    if (broken || type != 4)
        return VORONOI_REFUSED_POINTS;
    for (uint64_t i = 0; i < n && !broken; i++) {
        int own = byte_order();
        if (broken || unsigned_of(own, 4) != 1)
            broken = 1;
        uint64_t x = broken ? 0 : unsigned_of(own, 8), y = broken ? 0 : unsigned_of(own, 8);
        if (i < MOST)
            read_bits[2 * i] = x, read_bits[2 * i + 1] = y;
    }
    if (broken || at != end)
        return VORONOI_REFUSED_POINTS;
    if (n < 3 || n > 65536)
        return VORONOI_REFUSED_COUNT;
    if (room < 2 * n)
        return VORONOI_REFUSED_ROOM;
    const double most = 1267650600228229401496703205376.0; /* 2^100 */
    for (uint64_t i = 0; i < 2 * n; i++)
        if (!(value(read_bits[i]) >= -most && value(read_bits[i]) <= most))
            return VORONOI_REFUSED_COORDINATE;
    for (size_t i = 0; i < room; i++)
        expected[i] = i < 2 * n ? value(read_bits[i]) : 0.0;
    *points = (uint32_t)n;
    return 0;
}

/* ---- a run, held to the second reader; the sites are then written, held to the second writer */

static void fail(const char *what, uint32_t got, uint32_t number)
{
    if (failures++ < 20)
        printf("FAILED: %s: %u, must be %u (a file of %lu bytes)\n", what, got, number, (unsigned long)length);
}

static uint32_t run(size_t room)
{
    for (size_t i = 0; i < room + SPARE; i++)
        sites[i] = held;
    count = 77;
    return voronoi_read_multipoint(file, length, sites, room, &count);
}

static uint32_t write(size_t numbers, size_t room)
{
    for (size_t i = 0; i < room + SPARE; i++)
        out[i] = HELD;
    written = 77;
    return voronoi_write_multipoint(sites, numbers, out, room, &written);
}

static int out_held(size_t from, size_t room)
{
    for (size_t i = from; i < room + SPARE; i++)
        if (out[i] != HELD)
            return 0;
    return 1;
}

static int little_throughout(uint32_t n)
{
    if (file[0] != 1)
        return 0;
    for (uint32_t i = 0; i < n; i++)
        if (file[9 + 21 * (size_t)i] != 1)
            return 0;
    return 1;
}

/* what was read is written again: the second writer's bytes, and the file's where it is little-endian throughout */
static void again(const char *what, uint32_t n, size_t more)
{
    size_t size = 9 + 21 * (size_t)n;
    uint32_t got = write(2 * (size_t)n, size + more);
    if (got != 0 || written != size || !out_held(size, size + more)) {
        fail(what, got, 0);
        return;
    }
    static uint8_t second[9 + 21 * MOST];
    uint8_t *to = put(put_start(second, 1, 4), 1, n, 4);
    for (uint32_t i = 0; i < n; i++)
        to = put_point(to, 1, bits(sites[2 * i]), bits(sites[2 * i + 1]));
    int little = little_throughout(n);
    for (size_t i = 0; i < size; i++)
        if (out[i] != second[i] || (little && out[i] != file[i])) {
            fail(what, out[i], second[i]);
            return;
        }
    got = write(2 * (size_t)n, size - 1);
    if (got != VORONOI_REFUSED_ROOM || written != 0 || !out_held(0, size - 1))
        fail("written with a byte too few", got, VORONOI_REFUSED_ROOM);
}

static uint32_t held_to(const char *what, size_t room)
{
    uint32_t n, number = second_reader(room, &n), got = run(room);
    if (got != number)
        fail(what, got, number);
    if (count != n)
        fail("the count", count, n);
    for (size_t i = 0; i < room + SPARE; i++)
        if (bits(sites[i]) != bits(expected[i])) {
            fail("the output", (uint32_t)i, 0);
            break;
        }
    if (got == 0 && number == 0)
        again(what, n, 1);
    return number;
}

/* the number that the request names, and the second reader's */
static void must(const char *what, size_t room, uint32_t number)
{
    uint32_t second = held_to(what, room);
    if (second != number)
        fail(what, second, number);
    else
        printf("  %2u  %s\n", number, what);
}

/* ---- files */

static const uint64_t three[] = {
    0x40252353F7CED917, 0x4010BF7CED916873, 0xBFB999999999999A, 0x4054100000000000, 0x3FF0000000000001, 0x8000000000000000,
};

/* so many of the points of `three`, again and again; the order of the head, and a bit for each point's */
static void set(uint32_t n, int head, uint32_t orders)
{
    uint8_t *to = put(put_start(file, head, 4), head, n, 4);
    for (uint32_t i = 0; i < n; i++)
        to = put_point(to, orders >> i % 32 & 1, three[2 * i % 6], three[(2 * i + 1) % 6]);
    length = (size_t)(to - file);
}

static void orders(void)
{
    for (int head = 0; head < 2; head++)
        for (uint32_t own = 0; own < 8; own++) {
            set(3, head, own);
            if (held_to("three points", 6) != 0)
                fail("three points", 1, 0);
            for (int i = 0; i < 6; i++)
                if (bits(sites[i]) != three[i])
                    fail("the sites of an order", (uint32_t)own, 0);
        }
    printf("   0  three points in each of 16 orders: the same sites, to the bit\n");
}

static void damage(void)
{
    unsigned long files = 0;
    for (int head = 0; head < 2; head++)
        for (uint32_t own = 0; own < 8; own++) {
            set(3, head, own);
            size_t whole = length;
            for (length = 0; length < whole; length++, files++)
                if (held_to("a file cut", 6) != VORONOI_REFUSED_POINTS)
                    fail("a file cut", 0, VORONOI_REFUSED_POINTS);
            length = whole + 1, file[whole] = 0, files++;
            if (held_to("a byte left over", 6) != VORONOI_REFUSED_POINTS)
                fail("a byte left over", 0, VORONOI_REFUSED_POINTS);
            length = whole;
            for (size_t i = 0; i < whole; i++) {
                size_t in = i < 9 ? i : (i - 9) % 21; /* marks and types: bytes 0 to 4 of a structure */
                for (unsigned v = 0; v < 256 && in < 5; v++) {
                    uint8_t old = file[i];
                    if (v == old)
                        continue;
                    file[i] = (uint8_t)v, files++;
                    if (held_to("a mark or a type changed", 6) != VORONOI_REFUSED_POINTS)
                        fail("a mark or a type changed", 0, VORONOI_REFUSED_POINTS);
                    file[i] = old;
                }
            }
        }
    printf("  %2u  each of 16 files cut at every byte, lengthened by one, each mark and type byte changed: %lu files\n", VORONOI_REFUSED_POINTS, files);
}

static void counts(void)
{
    set(0, 1, ~0u), must("no points", 6, VORONOI_REFUSED_COUNT);
    set(2, 1, ~0u), must("two points", 6, VORONOI_REFUSED_COUNT);
    set(2, 1, ~0u), file[9] = 2, must("two points, a wrong mark", 6, VORONOI_REFUSED_POINTS);
    set(3, 1, ~0u), must("three points", 6, 0);
    set(3, 0, 0), must("three points, big-endian", 6, 0);
    set(3, 1, ~0u), must("room for five numbers", 5, VORONOI_REFUSED_ROOM);
    set(3, 1, ~0u), must("no output", 0, VORONOI_REFUSED_ROOM);
    set(3, 1, ~0u), must("room for more", 11, 0);
    set(65536, 1, 0x5A5A5A5A), must("65,536 points, mixed", 131072, 0);
    set(65537, 1, ~0u), must("65,537 points", 131072, VORONOI_REFUSED_COUNT);
    set(65537, 1, ~0u), must("65,537 points, no output", 0, VORONOI_REFUSED_COUNT);
    set(0, 1, 0), put(file + 5, 1, 0xFFFFFFFF, 4), must("a count of 4,294,967,295 in a file of 9 bytes", 6, VORONOI_REFUSED_POINTS);
    length = 0, must("no bytes", 6, VORONOI_REFUSED_POINTS);
    set(3, 1, ~0u), put(file + 1, 1, 1004, 4), must("a MultiPoint with Z", 6, VORONOI_REFUSED_POINTS);
    set(3, 1, ~0u), put(file + 1, 1, 2004, 4), must("with M", 6, VORONOI_REFUSED_POINTS);
    set(3, 1, ~0u), put(file + 1, 1, 0x20000004, 4), must("with an SRID", 6, VORONOI_REFUSED_POINTS);
    set(3, 1, ~0u), put(file + 1, 1, 0x80000004, 4), must("with Z as GDAL marks it", 6, VORONOI_REFUSED_POINTS);
    set(3, 1, ~0u), put(file + 10, 1, 1001, 4), must("a point with Z", 6, VORONOI_REFUSED_POINTS);
}

/* a pattern as the last y, in both orders */
static void last(const char *what, uint64_t pattern, uint32_t number)
{
    for (int little = 0; little < 2; little++) {
        set(3, 1, ~0u);
        put_point(file + length - 21, little, three[4], pattern);
        must(what, 6, number);
        set(3, 1, ~0u);
        put_point(file + 9, little, pattern, three[1]);
        must(what, 8, number);
    }
}

static void coordinates(void)
{
    last("a NaN", 0x7FF8000000000000, VORONOI_REFUSED_COORDINATE);
    last("a NaN of another pattern", 0xFFF0000000000001, VORONOI_REFUSED_COORDINATE);
    last("infinity", 0x7FF0000000000000, VORONOI_REFUSED_COORDINATE);
    last("-infinity", 0xFFF0000000000000, VORONOI_REFUSED_COORDINATE);
    last("2^100", 0x4630000000000000, 0);
    last("-2^100", 0xC630000000000000, 0);
    last("the next above 2^100", 0x4630000000000001, VORONOI_REFUSED_COORDINATE);
    last("-0", 0x8000000000000000, 0);
    last("the least above 0", 1, 0);
    set(3, 1, ~0u), put(file + 14, 1, 0x7FF8000000000000, 8), must("a NaN, and room for five numbers", 5, VORONOI_REFUSED_ROOM);
    set(2, 1, ~0u), put(file + 14, 1, 0x7FF8000000000000, 8), must("a NaN among two", 0, VORONOI_REFUSED_COUNT);
    set(3, 1, ~0u), put(file + 14, 1, 0x7FF8000000000000, 8), file[51] = 2, must("a NaN, and a wrong mark after it", 0, VORONOI_REFUSED_POINTS);
}

static void written_must(const char *what, size_t numbers, size_t room, uint32_t number)
{
    uint32_t got = write(numbers, room);
    if (got != number || written != 0 || !out_held(0, room))
        fail(what, got, number);
    else
        printf("  %2u  %s\n", number, what);
}

static void writing(void)
{
    for (int i = 0; i < 6; i++)
        sites[i] = value(three[i]);
    written_must("written: five numbers", 5, 72, VORONOI_REFUSED_COUNT);
    written_must("written: no sites", 0, 72, VORONOI_REFUSED_COUNT);
    written_must("written: two sites", 4, 72, VORONOI_REFUSED_COUNT);
    written_must("written: 65,537 sites, no output", 131074, 0, VORONOI_REFUSED_COUNT);
    written_must("written: 71 bytes for three", 6, 71, VORONOI_REFUSED_ROOM);
    written_must("written: no output", 6, 0, VORONOI_REFUSED_ROOM);
    sites[5] = value(0x7FF8000000000000);
    written_must("written: a NaN, and 71 bytes", 6, 71, VORONOI_REFUSED_ROOM);
    written_must("written: a NaN", 6, 72, VORONOI_REFUSED_COORDINATE);
    sites[5] = value(0x4630000000000001);
    written_must("written: the next above 2^100", 6, 80, VORONOI_REFUSED_COORDINATE);
}

/* ---- random files */

static uint64_t state = 0x2026100000000001;

static uint64_t draw(uint64_t below)
{
    state ^= state << 13, state ^= state >> 7, state ^= state << 17;
    return (state >> 11) % below;
}

static uint64_t pattern(void)
{
    static const uint64_t odd[] = {0, 0x8000000000000000, 1, 0x7FF0000000000000, 0x7FF8000000000000, 0xFFF8000000000001, 0x4630000000000000, 0xC630000000000000,
        0x4630000000000001, 0x462FFFFFFFFFFFFF, 0x000FFFFFFFFFFFFF, 0x3FF0000000000000};
    uint64_t kind = draw(100);
    if (kind < 8)
        return odd[draw(sizeof odd / sizeof odd[0])];
    if (kind < 10)
        return draw(1ULL << 32) << 32 | draw(1ULL << 32);
    return (draw(2) << 63) | ((uint64_t)(1023 - 30 + draw(60)) << 52) | draw(1ULL << 52); /* a coordinate of a map */
}

static void random_file(void)
{
    uint32_t n = draw(40) == 0 ? (uint32_t)draw(300) : (uint32_t)draw(8);
    int head = (int)draw(2), same = draw(3) == 0;
    uint8_t *to = put(put_start(file, head, draw(30) == 0 ? (uint32_t)draw(8) : 4), head, draw(30) == 0 ? draw(10) : n, 4);
    for (uint32_t i = 0; i < n; i++)
        to = put_point(to, same ? head : (int)draw(2), pattern(), pattern());
    length = (size_t)(to - file);
    uint64_t harm = draw(8);
    if (harm == 0 && length > 0)
        file[draw(length)] ^= (uint8_t)(1 << draw(8));
    else if (harm == 1 && length > 0)
        length = draw(length);
    else if (harm == 2)
        file[length] = (uint8_t)draw(256), length++;
}

static void random_files(unsigned long files)
{
    unsigned long met[32] = {0};
    for (unsigned long i = 0; i < files && failures < 20; i++) {
        random_file();
        size_t points = length < 9 ? 0 : (length - 9) / 21, room = 2 * points + draw(6);
        met[held_to("a random file", draw(10) == 0 && room > 3 ? room - 3 : room) & 31]++;
    }
    printf("%lu random files against the second reader and writer: %lu read, %lu refused with 1, %lu with 2, %lu with 6, %lu with 21\n", files, met[0], met[1], met[2], met[6],
        met[21]);
    if (files > 10000 && !(met[0] && met[1] && met[2] && met[6] && met[21]))
        fail("an answer that no random file met", 0, 0);
}

/* ---- one file shown */

static int show(void)
{
    long got;
    while ((got = read(0, file + length, sizeof file - length)) > 0)
        length += (size_t)got;
    printf("number %u", run(2 * 65536));
    printf(" count %u\n", count);
    for (uint32_t i = 0; i < count; i++)
        printf("%016lX %016lX\n", (unsigned long)bits(sites[2 * i]), (unsigned long)bits(sites[2 * i + 1]));
    if (count == 0)
        return 0;
    write(2 * (size_t)count, sizeof out - SPARE);
    for (size_t i = 0; i < written; i++)
        printf("%02X", out[i]);
    printf("\n");
    return 0;
}

int main(int words, char **word)
{
    unsigned long files = 100000;
    if (words > 1 && word[1][0] == 's')
        return show();
    if (words > 1)
        for (files = 0; *word[1] >= '0' && *word[1] <= '9'; word[1]++)
            files = 10 * files + (unsigned long)(*word[1] - '0');
    orders();
    damage();
    counts();
    coordinates();
    writing();
    random_files(files);
    printf(failures ? "multipoint: %d FAILED\n" : "multipoint: all as the request says\n", failures);
    return failures != 0;
}
