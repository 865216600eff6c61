/* Roots, magnitudes and signs of the archive against the processor's own square root, pattern by pattern.
 *
 *   roots COUNT [SEED]    compares at least COUNT patterns, class by class; exit status 1 where an answer differs or a class is empty
 *
 * Every positive root is also held to the exact inequality of a nearest root in whole numbers, so that an emulated processor is not trusted alone.
 * The C library's headers are not used (tests/archive.sh says why). */
#include "../number.h"
#include "voronoi.h"

int printf(const char *format, ...);

#define SIGN (UINT64_C(1) << 63)
#define LEAD (UINT64_C(1) << 52)
#define INFINITE UINT64_C(0x7FF0000000000000)
#define QUIET UINT64_C(0x7FF8000000000000)
#define ONE UINT64_C(0x3FF0000000000000)

typedef unsigned __int128 wide;

static double value(uint64_t b) { double x; __builtin_memcpy(&x, &b, sizeof x); return x; }
static uint64_t pattern(double x) { uint64_t b; __builtin_memcpy(&b, &x, sizeof b); return b; }
static int is_nan(uint64_t b) { return (b & ~SIGN) > INFINITE; }

static double processor_root(double x)
{
    double r;
    __asm__("sqrtsd %1, %0" : "=x"(r) : "x"(x));
    return r;
}

/* ---- what the answers must be */

static uint64_t expected_root(uint64_t b)
{
    uint64_t r = pattern(processor_root(value(b)));
    return is_nan(r) ? QUIET : r;
}

static uint64_t expected_signum(uint64_t b) { return is_nan(b) ? QUIET : ONE | (b & SIGN); }

/* How many roots were exact, and how many so near to a midpoint of two values that the squares' 108 digits differ in the last 16 alone: the generators must reach both. */
static uint64_t exact, tight;

/* b above 0 and finite is m * 2^p, its root q * 2^h with q of 53 digits: (2q - 1)^2 < 4n < (2q + 1)^2, where m * 2^p = n * 4^h. */
static int is_nearest(uint64_t b, uint64_t r)
{
    uint64_t m = b % LEAD, q = LEAD + r % LEAD;
    int p = (int)(b / LEAD) - 1075, h = (int)(r / LEAD) - 1075;
    if (b < LEAD)
        p++;
    else
        m += LEAD;
    if (r < LEAD || r >= INFINITE || p - 2 * h < 0 || p - 2 * h > 105)
        return 0;
    wide n = (wide)m << (p - 2 * h);
    if (n >> (p - 2 * h) != m || n >> 106 != 0)
        return 0;
    wide low = (wide)(2 * q - 1) * (2 * q - 1), high = (wide)(2 * q + 1) * (2 * q + 1);
    exact += (wide)q * q == n;
    tight += 4 * n - low < 1 << 16 || high - 4 * n < 1 << 16;
    return low < 4 * n && 4 * n < high;
}

/* ---- classes */

enum { CORNERS, POWERS, ZEROS, INFINITIES, SUBNORMALS, SQUARES, HALFWAYS, ONE_TO_FOUR, NANS, NEGATIVES, RANDOM, CLASSES };

static const char *const names[CLASSES] = {
    "corners of every exponent", "powers of two and neighbours", "zeros", "infinities", "subnormals", "squares and neighbours",
    "halfway neighbours", "from 1 to 4", "NaNs", "below 0", "any pattern",
};

static uint64_t compared[CLASSES], differing[CLASSES], all, printed;

static int same(const char *call, uint64_t b, uint64_t got, uint64_t want)
{
    if (got == want)
        return 1;
    if (printed++ < 20)
        printf("%s of %016llx: %016llx, and not %016llx\n", call, (unsigned long long)b, (unsigned long long)got, (unsigned long long)want);
    return 0;
}

static void compare(int class, uint64_t b)
{
    uint64_t root = voronoi_root_bits(b), want = expected_root(b);
    int ok = same("root_bits", b, root, want)
        & same("root", b, pattern(voronoi_root(value(b))), want)
        & same("magnitude_bits", b, voronoi_magnitude_bits(b), b & ~SIGN)
        & same("magnitude", b, pattern(voronoi_magnitude(value(b))), is_nan(b) ? QUIET : b & ~SIGN)
        & same("signum_bits", b, voronoi_signum_bits(b), expected_signum(b))
        & same("signum", b, pattern(voronoi_signum(value(b))), expected_signum(b));
    if (b != 0 && b < INFINITE)
        ok &= same("nearest root", b, (uint64_t)is_nearest(b, root), 1);
    compared[class]++;
    all++;
    differing[class] += !ok;
}

/* ---- patterns */

static uint64_t state;

static uint64_t any(void)
{
    uint64_t z = state += UINT64_C(0x9E3779B97F4A7C15);
    z = (z ^ z >> 30) * UINT64_C(0xBF58476D1CE4E5B9);
    z = (z ^ z >> 27) * UINT64_C(0x94D049BB133111EB);
    return z ^ z >> 31;
}

/* m * 4^h for an m below 2^54 and a random h, as the pattern of a normal value (cut to 53 digits) */
static uint64_t scaled(uint64_t m)
{
    int shift = 0;
    while (m < LEAD)
        m *= 2, shift++;
    while (m >= 2 * LEAD)
        m /= 2, shift--;
    uint64_t exponent = 2 * (any() % 1000) + 21 + (uint64_t)(shift & 1);
    return exponent * LEAD + m % LEAD;
}

static void corners(void)
{
    static const uint64_t digits[] = {
        0, 1, 2, LEAD - 1, LEAD - 2, LEAD / 2, LEAD / 2 - 1, LEAD / 2 + 1, UINT64_C(0x5555555555555), UINT64_C(0xAAAAAAAAAAAAA),
    };
    for (uint64_t top = 0; top < 4096; top++)
        for (size_t i = 0; i < sizeof digits / sizeof digits[0]; i++)
            compare(CORNERS, top * LEAD + digits[i]);
}

/* each power of two that there is, 2^-1074 to 2^1023, with the value below it and the value above */
static void powers(void)
{
    for (int k = 0; k < 52 + 2046; k++) {
        uint64_t b = k < 52 ? UINT64_C(1) << k : (uint64_t)(k - 51) * LEAD;
        for (uint64_t near = 0; near < 3; near++)
            compare(POWERS, b - 1 + near);
    }
}

static void square(void)
{
    uint64_t root = 1 + any() % ((UINT64_C(1) << 26) - 1), b = scaled(root * root);
    for (uint64_t near = 0; near < 5; near++)
        compare(SQUARES, b - 2 + near);
}

/* an odd y with y * y = c modulo 2^k, for a c that is 1 modulo 8: digit by digit */
static uint64_t root_modulo(int64_t c, int k)
{
    uint64_t y = 1;
    for (int i = 3; i < k; i++)
        y += ((y * y - (uint64_t)c) >> i & 1) << (i - 1);
    return y;
}

/* A midpoint of two neighbours is y / 2 for an odd y of 54 digits, and 4 times its square is y * y. A value m of 53 digits stands for m * 2^54 or, at
 * an odd exponent, m * 2^55. So y * y - c for a small c, where 2^54 or 2^55 divides it, is a value whose root lies beside a midpoint, to the last digit. */
static void halfway(void)
{
    int k = 54 + (int)(any() % 2);
    int64_t c = 8 * (((int64_t)(any() % 8192) - 4096) / (1 << any() % 12)) + 1;
    uint64_t y = root_modulo(c, k);
    for (int i = 0; i < 4; i++) {
        uint64_t odd = (i & 1 ? -y : y) + ((uint64_t)(i >> 1) << (k - 1));
        odd &= (UINT64_C(1) << k) - 1;
        uint64_t m = (uint64_t)(((wide)odd * odd - (wide)c) >> k);
        if (odd >> 53 == 1 && m >> 52 == 1)
            compare(HALFWAYS, scaled(k == 55 ? 2 * m : m));
    }
}

static void nan_of(uint64_t payload)
{
    compare(NANS, INFINITE | (payload & (SIGN | (LEAD - 1))) | (payload % (LEAD - 1) == 0));
}

int main(int count, char **words)
{
    uint64_t most = 0, seed = 754;
    if (count < 2 || count > 3 || !number_of(words[1], &most) || (count > 2 && !number_of(words[2], &seed))) {
        printf("usage: roots COUNT [SEED], whole numbers such as 20,000,000\n");
        return 2;
    }
    state = seed;

    corners();
    powers();
    compare(ZEROS, 0);
    compare(ZEROS, SIGN);
    compare(INFINITIES, INFINITE);
    compare(INFINITIES, SIGN | INFINITE);
    nan_of(1);
    nan_of(SIGN | 1);
    nan_of(QUIET);
    nan_of(SIGN | QUIET);
    for (uint64_t b = 1; b <= 1000; b++)
        compare(SUBNORMALS, b);

    while (all < most) {
        for (int i = 0; i < 4; i++) {
            uint64_t b = any() % LEAD >> any() % 52;
            compare(SUBNORMALS, b == 0 ? 1 : b);
        }
        square();
        for (int i = 0; i < 8; i++)
            halfway();
        for (int i = 0; i < 7; i++)
            compare(ONE_TO_FOUR, ONE + any() % (2 * LEAD));
        nan_of(any());
        nan_of(any());
        for (int i = 0; i < 2; i++) {
            uint64_t b = SIGN | any() % INFINITE;
            compare(NEGATIVES, b == SIGN ? b + 1 : b);
        }
        for (int i = 0; i < 8; i++)
            compare(RANDOM, any());
    }

    uint64_t wrong = 0, empty = 0;
    for (int class = 0; class < CLASSES; class++) {
        printf("%-28s %10llu compared, %llu differ\n", names[class], (unsigned long long)compared[class], (unsigned long long)differing[class]);
        wrong += differing[class];
        empty += compared[class] == 0;
    }
    printf("exact roots %llu, roots beside a midpoint %llu\n", (unsigned long long)exact, (unsigned long long)tight);
    printf("roots: %llu patterns, seed %llu, %llu differ, %llu classes empty\n", (unsigned long long)all, (unsigned long long)seed, (unsigned long long)wrong, (unsigned long long)empty);
    return wrong != 0 || empty != 0 || exact == 0 || tight == 0;
}
