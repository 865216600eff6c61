/* Forms that arrive in parts, through the C interface: every stored form at every cut, in single bytes, with empty blocks and in random cuttings,
 * beside a reading of its own; what sticks; what a lent slice too short changes; states that no reading leaves.
 *
 *   reader COUNT [SEED] <crates/test_forms/stdin    COUNT random cuttings of each form and COUNT random states; exit status 1 where something differs
 *
 * What must come out is written from docs/use/RULES.md ("The form"). Every list is compared to its last number and beyond. The C library's headers are
 * not used (tests/archive.sh says why). */
#include "../number.h"
#include "voronoi.h"

int printf(const char *format, ...);
long read(int file, void *bytes, size_t count);

enum { BOX, SITES, TRIANGLES, HALFEDGES, HULL, LISTS };
#define SPARE 3
#define MOST 70000
#define NOWHERE UINT64_MAX
#define WORDS (VORONOI_READER_WORDS + SPARE)

static const size_t room[LISTS] = {VORONOI_FORM_BOX, VORONOI_FORM_SITES, VORONOI_FORM_TRIANGLES, VORONOI_FORM_HALFEDGES, VORONOI_FORM_HULL};
typedef struct {
    double floats[2][VORONOI_FORM_SITES + SPARE];
    uint32_t links[3][VORONOI_FORM_TRIANGLES + SPARE];
} lists;
typedef struct {
    uint32_t number, clip, sites, triangles, hull;
    uint64_t at;
} answer;

static lists lent, right;
static answer got, due;
static uint64_t state[WORDS];
static uint8_t form[MOST];
static size_t length;
static int failures;
static uint64_t seed;
static const char *what = "";

static uint64_t random_word(void)
{
    seed += UINT64_C(0x9E3779B97F4A7C15);
    uint64_t z = seed;
    z = (z ^ (z >> 30)) * UINT64_C(0xBF58476D1CE4E5B9);
    z = (z ^ (z >> 27)) * UINT64_C(0x94D049BB133111EB);
    return z ^ (z >> 31);
}

static void fresh(lists *l)
{
    for (size_t i = 0; i < VORONOI_FORM_SITES + SPARE; i++)
        l->floats[0][i] = l->floats[1][i] = 1000.0 + (double)i;
    for (size_t i = 0; i < VORONOI_FORM_TRIANGLES + SPARE; i++)
        l->links[0][i] = l->links[1][i] = l->links[2][i] = (uint32_t)(77000 + i);
}

static uint64_t pattern(double x)
{
    union {
        double x;
        uint64_t bits;
    } u = {x};
    return x != x ? UINT64_C(0x7FF8000000000000) : u.bits;
}

static void fail(size_t cut)
{
    if (failures++ < 10)
        printf("reader: %s, %u bytes, at %u: answer %u at %llu, counts %u %u %u %u; due %u at %llu, %u %u %u %u\n", what, (unsigned)length, (unsigned)cut, got.number,
            (unsigned long long)got.at, got.clip, got.sites, got.triangles, got.hull, due.number, (unsigned long long)due.at, due.clip, due.sites, due.triangles, due.hull);
}

static int same_answer(void)
{
    return got.number == due.number && got.at == due.at && got.clip == due.clip && got.sites == due.sites && got.triangles == due.triangles && got.hull == due.hull;
}

static int same_lists(void)
{
    for (int k = 0; k < 2; k++)
        for (size_t i = 0; i < VORONOI_FORM_SITES + SPARE; i++)
            if (pattern(lent.floats[k][i]) != pattern(right.floats[k][i]))
                return 0;
    for (int k = 0; k < 3; k++)
        for (size_t i = 0; i < VORONOI_FORM_TRIANGLES + SPARE; i++)
            if (lent.links[k][i] != right.links[k][i])
                return 0;
    return 1;
}

/* ---- a reading of its own: record after record */

static uint64_t little(const uint8_t *b, int n)
{
    uint64_t x = 0;
    while (n--)
        x = 256 * x + b[n];
    return x;
}

static double number(const uint8_t *b)
{
    union {
        uint64_t bits;
        double x;
    } u = {little(b, 8)};
    return u.x;
}

/* The numbers of a record's body that have come whole: so many bytes of it. */
static void put_numbers(uint8_t kind, size_t bytes, const uint8_t *body)
{
    if (kind == 1 || kind == 7)
        for (size_t i = 0; 8 * i + 8 <= bytes; i++)
            right.floats[0][i] = number(body + 8 * i);
    if (kind == 2)
        for (size_t i = 0; 8 * i + 8 <= bytes; i++)
            right.floats[1][2 * due.sites + i] = number(body + 8 * i);
    if (kind == 3)
        for (size_t i = 0; 4 * i + 4 <= bytes; i++)
            right.links[i / 3][3 * due.triangles + i % 3] = (uint32_t)little(body + 4 * i, 4);
    if (kind == 4 && bytes == 4)
        right.links[2][due.hull] = (uint32_t)little(body, 4);
}

static void refuse_by(uint32_t number, size_t at)
{
    due = (answer){.number = number, .at = at};
}

static void refuse(size_t at) { refuse_by(VORONOI_REFUSED_FORM, at); }

/* What is due of the first n bytes: of a block that ends there, or of the whole where no more comes. */
static void expect(size_t n, int ends)
{
    static const size_t sizes[8] = {0, 32, 16, 24, 4, 0, 0, 32};
    uint8_t stage = 0;
    size_t at = 0;
    fresh(&right);
    due = (answer){.at = NOWHERE};
    while (at < n) {
        uint8_t kind = form[at];
        int opens = kind == 1 || kind == 7;
        int fits = stage == 0 ? opens : kind >= 2 && kind <= 5 && kind >= stage && stage != 5;
        if ((kind == 2 && due.sites == 96) || (kind == 3 && due.triangles == 192) || (kind == 4 && due.hull == 96))
            fits = 0;
        if (!fits) { /* the word that there is no box is refused by name, until the end */
            refuse_by(kind == 6 && stage != 5 ? VORONOI_REFUSED_UNCLIPPED : VORONOI_REFUSED_FORM, at);
            return;
        }
        if (opens)
            due.clip = kind;
        stage = opens ? 1 : kind;
        size_t bytes = n - at - 1 < sizes[kind] ? n - at - 1 : sizes[kind];
        put_numbers(kind, bytes, form + at + 1);
        at += 1 + bytes;
        if (bytes < sizes[kind])
            break;
        due.sites += kind == 2, due.triangles += kind == 3, due.hull += kind == 4;
    }
    if (ends && stage != 5)
        refuse(n);
    if (!ends)
        due = (answer){.at = NOWHERE};
}

/* ---- the calls */

#define LENT(l) (l).floats[0], room[BOX], (l).floats[1], room[SITES], (l).links[0], room[TRIANGLES], (l).links[1], room[HALFEDGES], (l).links[2], room[HULL]

static void begin(void)
{
    fresh(&lent);
    for (size_t i = 0; i < WORDS; i++)
        state[i] = random_word();
    if (voronoi_reader_begin(state, WORDS) != 0)
        fail(0);
    for (size_t i = VORONOI_READER_WORDS; i < WORDS; i++)
        if (state[i] != 0)
            fail(i);
    state[VORONOI_READER_WORDS] = 5; /* is left alone from here on */
}

static void feed(size_t from, size_t to)
{
    got = (answer){.at = 9};
    got.number = voronoi_reader_feed(state, WORDS, form + from, to - from, LENT(lent), &got.at);
}

static void end(void)
{
    got = (answer){9, 9, 9, 9, 9, 9};
    got.number = voronoi_reader_end(state, WORDS, &got.clip, &got.sites, &got.triangles, &got.hull, &got.at);
}

static void whole(void)
{
    fresh(&lent);
    got = (answer){9, 9, 9, 9, 9, 9};
    got.number = voronoi_read_form(form, length, LENT(lent), &got.clip, &got.sites, &got.triangles, &got.hull, &got.at);
}

static void check(size_t cut)
{
    if (!same_answer() || !same_lists() || state[VORONOI_READER_WORDS] != 5)
        fail(cut);
}

/* What was refused stays so: further blocks, the end, and the end again. */
static void sticks(size_t blocks)
{
    answer was = due;
    what = "after a refusal";
    for (size_t i = 0; i < blocks; i++) {
        size_t from = random_word() % (length + 1), to = from + random_word() % (length + 1 - from);
        feed(from, to);
        due = (answer){.number = was.number, .at = was.at};
        check(i);
    }
    end();
    due = was;
    check(blocks);
    end();
    check(blocks);
}

/* In two parts, and the first part ended. */
static void at_each_cut(void)
{
    for (size_t k = 0; k <= length; k++) {
        what = "cut in two";
        begin();
        feed(0, k);
        expect(k, 0);
        check(k);
        if (random_word() % 16 == 0) { /* an end too early is stored */
            end();
            expect(k, 1);
            check(k);
            if (due.number)
                sticks(3);
            continue;
        }
        feed(k, length);
        expect(length, 0);
        check(k);
        end();
        expect(length, 1);
        check(k);
    }
}

static void in_blocks(size_t most)
{
    size_t at = 0;
    begin();
    while (at < length) {
        size_t n = most == 1 ? random_word() % 2 : random_word() % (most + 1);
        n = n > length - at ? length - at : n;
        feed(at, at + n);
        at += n;
        expect(at, 0);
        check(at);
    }
    end();
    expect(length, 1);
    check(at);
    if (due.number)
        sticks(100);
    else { /* a sound end may be asked again, an empty block is no refusal, a byte is */
        end();
        check(at);
        feed(0, 0);
        due = (answer){.at = NOWHERE};
        check(at);
        feed(0, length ? 1 : 0);
        refuse(length);
        if (length)
            check(at);
    }
}

/* 2 comes before all else and changes nothing. */
static void too_short(void)
{
    what = "a slice too short";
    uint64_t kept[WORDS];
    size_t rooms[LISTS];
    for (int k = -1; k < LISTS; k++) {
        for (size_t i = 0; i < WORDS; i++)
            kept[i] = state[i];
        for (int j = 0; j < LISTS; j++)
            rooms[j] = room[j] - (j == k);
        got = (answer){.at = 9};
        got.number = voronoi_reader_feed(state, k < 0 ? VORONOI_READER_WORDS - 1 : WORDS, form, length, lent.floats[0], rooms[BOX], lent.floats[1], rooms[SITES],
            lent.links[0], rooms[TRIANGLES], lent.links[1], rooms[HALFEDGES], lent.links[2], rooms[HULL], &got.at);
        due = (answer){.number = VORONOI_REFUSED_ROOM, .at = NOWHERE};
        check(0);
        if (k >= 0) {
            got = (answer){9, 9, 9, 9, 9, 9};
            got.number = voronoi_read_form(form, length, lent.floats[0], rooms[BOX], lent.floats[1], rooms[SITES], lent.links[0], rooms[TRIANGLES], lent.links[1],
                rooms[HALFEDGES], lent.links[2], rooms[HULL], &got.clip, &got.sites, &got.triangles, &got.hull, &got.at);
            check(0);
        }
        for (size_t i = 0; i < WORDS; i++)
            if (state[i] != kept[i])
                fail(i);
    }
    got = (answer){9, 9, 9, 9, 9, 9};
    got.number = voronoi_reader_end(state, VORONOI_READER_WORDS - 1, &got.clip, &got.sites, &got.triangles, &got.hull, &got.at);
    check(0);
    if (voronoi_reader_begin(state, VORONOI_READER_WORDS - 1) != VORONOI_REFUSED_ROOM)
        fail(0);
    check(0);
}

/* ---- states that no reading leaves */

static void damaged(int fed_first)
{
    uint64_t other = state[WORDS - 1];
    fresh(&lent), fresh(&right);
    if (fed_first)
        feed(0, length), due = (answer){.number = VORONOI_REFUSED_FORM};
    else
        end(), refuse(0);
    check(0);
    refuse(0);
    sticks(3);
    if (state[WORDS - 1] != other)
        fail(0);
    begin();
    feed(0, length);
    end();
    expect(length, 1);
    check(0);
}

/* Words 0 to 8: stage, bytes to come, register, byte, refusal, kind, sites, triangles, hull; those after them are 0. */
static void named_damage(void)
{
    static const uint64_t rows[][9] = {
        {2, 0, 0, 1682, 0, 1, 97, 0, 0},           /* 97 sites */
        {2, 16, 0, 1666, 0, 1, 96, 0, 0},          /* a 97th under way */
        {2, 17, 0, 33, 0, 1, 0, 0, 0},             /* a body longer than its kind's */
        {1, 33, 0, 0, 0, 1, 0, 0, 0},              /* the same of the box */
        {1, 0, 0, 1, 0, 6, 0, 0, 0},               /* kind 6, as a reader of old would leave it */
        {5, 0, 0, 2, 0, 6, 0, 0, 0},               /* the same, ended */
        {5, 0, 0, 35, 0, 1, 0, 0, 0},              /* a byte that the records do not give */
        {5, 0, 0, 2, 0, 5, 0, 0, 0},               /* no kind that opens a form */
        {3, 0, 0, 33, 0, 1, 0, 0, 0},              /* triangles, and none has begun */
        {2, 0, 0, 75, 0, 1, 1, 1, 0},              /* a triangle before its stage */
        {6, 0, 0, 34, 0, 1, 0, 0, 0},              /* no stage */
        {0, 0, 1, 0, 0, 0, 0, 0, 0},               /* a register before any byte */
        {1, 30, UINT64_C(1) << 40, 3, 0, 1, 0, 0, 0}, /* a third byte in a register of two */
        {5, 0, 0, 34, 1, 1, 0, 0, 0},              /* a refusal that is none */
        {5, 0, 0, 34, 18, 1, 0, 0, 0},             /* another */
        {5, 0, 0, 34, 20, 1, 0, 0, 0},             /* 20 after the end */
        {1, 30, 0, 3, 20, 1, 0, 0, 0},             /* 20 amid a body */
        {0, 0, 0, UINT64_MAX, 17, 0, 0, 0, 0},     /* a byte past all counting */
        {UINT64_MAX, UINT64_MAX, UINT64_MAX, UINT64_MAX, UINT64_MAX, UINT64_MAX, UINT64_MAX, UINT64_MAX, UINT64_MAX},
    };
    what = "a damaged state";
    for (size_t k = 0; k < sizeof rows / sizeof rows[0]; k++)
        for (int first = 0; first < 2; first++) {
            begin();
            for (int i = 0; i < 9; i++)
                state[i] = rows[k][i];
            damaged(first);
        }
    for (int i = 9; i < VORONOI_READER_WORDS; i++) { /* a word that is kept for later */
        begin();
        state[i] = 1;
        damaged(i % 2);
    }
}

/* Any words: an answer, and nothing past the lists' ends. */
static void random_states(uint64_t count)
{
    what = "random words";
    for (uint64_t k = 0; k < count; k++) {
        begin();
        feed(0, random_word() % (length + 1));
        int all = random_word() % 2;
        for (int i = 0; i < VORONOI_READER_WORDS; i++)
            if (all || random_word() % 8 == 0)
                state[i] = random_word() >> (random_word() % 64);
        feed(0, length);
        if (got.number != 0 && got.number != VORONOI_REFUSED_FORM && got.number != VORONOI_REFUSED_UNCLIPPED)
            fail(k);
        end();
        fresh(&right);
        for (int j = 0; j < 2; j++)
            for (size_t i = j ? room[SITES] : room[BOX]; i < VORONOI_FORM_SITES + SPARE; i++)
                if (lent.floats[j][i] != right.floats[j][i])
                    fail(k);
        for (int j = 0; j < 3; j++)
            for (size_t i = j == 2 ? room[HULL] : room[TRIANGLES]; i < VORONOI_FORM_TRIANGLES + SPARE; i++)
                if (lent.links[j][i] != right.links[j][i])
                    fail(k);
    }
}

/* ---- rows by name */

static void row(const char *name, const uint8_t *bytes, size_t n, uint32_t number, uint64_t at)
{
    what = name;
    for (length = 0; length < n; length++)
        form[length] = bytes[length];
    expect(length, 1);
    if (due.number != number || due.at != at)
        fail(n);
    whole();
    state[VORONOI_READER_WORDS] = 5;
    check(n);
    at_each_cut();
    for (int k = 0; k < 20; k++)
        in_blocks(2);
}

static void rows(void)
{
    static const uint8_t box[34] = {7, [33] = 5};
    row("nothing", form, 0, VORONOI_REFUSED_FORM, 0);
    static uint8_t sixes[36] = {1};
    for (size_t i = 1; i < sizeof sixes; i++)
        sixes[i] = 6;
    row("6", (const uint8_t[]){6}, 1, VORONOI_REFUSED_UNCLIPPED, 0);
    row("6 5", (const uint8_t[]){6, 5}, 2, VORONOI_REFUSED_UNCLIPPED, 0);
    row("0", (const uint8_t[]){0}, 1, VORONOI_REFUSED_FORM, 0);
    row("5", (const uint8_t[]){5}, 1, VORONOI_REFUSED_FORM, 0);
    row("a box, 6", sixes, 34, VORONOI_REFUSED_UNCLIPPED, 33);
    row("a box cut", sixes, 32, VORONOI_REFUSED_FORM, 32);
    sixes[33] = 5;
    row("a box of sixes, 5", sixes, 34, 0, NOWHERE);
    row("a box of sixes, 5 6", sixes, 35, VORONOI_REFUSED_FORM, 34);
    row("a box by its edges", box, sizeof box, 0, NOWHERE);
    row("its first half", box, 17, VORONOI_REFUSED_FORM, 17);
}

static size_t take(void *bytes, size_t n)
{
    size_t done = 0;
    while (done < n) {
        long more = read(0, (char *)bytes + done, n - done);
        if (more <= 0)
            break;
        done += (size_t)more;
    }
    return done;
}

int main(int argc, char **argv)
{
    uint64_t count = 0;
    seed = 1;
    if (argc < 2 || argc > 3 || !number_of(argv[1], &count) || (argc == 3 && !number_of(argv[2], &seed)))
        return printf("reader COUNT [SEED] <forms\n"), 2;
    unsigned forms = 0, refused = 0;
    const size_t cut = count < 20 ? 200 : sizeof form; /* forms of more bytes are cut at random alone */
    uint8_t head[2];
    rows();
    while (take(head, 2) == 2) {
        length = head[0] + 256u * head[1];
        if (take(form, length) != length)
            return printf("reader: a form is cut\n"), 1;
        what = "whole";
        whole();
        expect(length, 1);
        state[VORONOI_READER_WORDS] = 5;
        check(0);
        forms++, refused += due.number != 0;
        if (length <= cut)
            at_each_cut();
        what = "in blocks";
        for (uint64_t k = 0; k < count; k++)
            in_blocks(k % 4 == 0 ? 1 : 1 + random_word() % 60);
        too_short();
    }
    named_damage();
    random_states(100 * count);
    printf("reader: %u forms, of which %u are refused, those of up to %u bytes at every cut, each in %u random cuttings; %d differ\n", forms, refused,
           (unsigned)cut, (unsigned)count, failures);
    return failures != 0 || forms < 500 || refused < 100;
}
