/* The header alone, with no archive: every number has its words, and the macros are what docs/use/RULES.md says. */
#include "voronoi.h"

int printf(const char *format, ...);

static int same(const char *a, const char *b)
{
    for (; *a && *a == *b; a++, b++)
        ;
    return *a == *b;
}

enum { NOT_GIVEN = 15 }; /* no refusal has this number any more */

int main(void)
{
    for (uint32_t a = 0; a <= VORONOI_REFUSED_BORDER; a++) {
        if (a == NOT_GIVEN)
            continue;
        printf("%u %s\n", a, voronoi_words(a));
        for (uint32_t b = a + 1; b <= VORONOI_REFUSED_BORDER + 1; b++)
            if (b != NOT_GIVEN && same(voronoi_words(a), voronoi_words(b)))
                return 1;
    }
    return !same(voronoi_words(NOT_GIVEN), "no such number") || !same(voronoi_words(VORONOI_REFUSED_BORDER + 1), "no such number") ||
           !same(voronoi_words(VORONOI_EMPTY), "no such number") ||
           VORONOI_VERTEX_NUMBERS(2, 4) != 76 || VORONOI_INDEX_ROOM(2, 4) != 60 ||
           VORONOI_WKB_ROOM(2) != 9 || VORONOI_WKB_ROOM(3) != 77 ||
           VORONOI_CHANGE_NUMBERS(2, 4) != 30 || VORONOI_MULTIPOINT_ROOM(3) != 72;
}
