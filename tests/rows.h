/* Chance, steps of half-edges, and sites in rows with their triangles and hull, for the tests that make meshes. Declares nothing of the C library. */
#ifndef ROWS_H
#define ROWS_H

#include <stdint.h>

static uint64_t state; /* of chance; not 0 */

static inline uint32_t next(uint32_t e) { return e % 3 == 2 ? e - 2 : e + 1; }

static inline uint32_t random_below(uint32_t n)
{
    state ^= state << 13;
    state ^= state >> 7;
    state ^= state << 17;
    return (uint32_t)((state >> 11) % n);
}

/* a by b sites, two triangles for each square, the diagonal as chance has it; how many entries the triangles have */
static inline uint32_t rows_triangles(uint32_t a, uint32_t b, int chance, uint32_t *triangles)
{
    uint32_t n = 0;
    for (uint32_t y = 0; y + 1 < b; y++)
        for (uint32_t x = 0; x + 1 < a; x++) {
            uint32_t p = y * a + x, q = p + 1, r = q + a, s = p + a;
            int other = chance && random_below(2);
            uint32_t six[] = {p, s, other ? q : r, other ? q : p, other ? s : r, other ? r : q};
            for (int k = 0; k < 6; k++)
                triangles[n++] = six[k];
        }
    return n;
}

/* the hull round them: down the west, along the south, up the east, back along the north; how many places it has */
static inline uint32_t rows_hull(uint32_t a, uint32_t b, uint32_t *hull)
{
    uint32_t n = 0;
    for (uint32_t y = 0; y + 1 < b; y++)
        hull[n++] = y * a;
    for (uint32_t x = 0; x + 1 < a; x++)
        hull[n++] = (b - 1) * a + x;
    for (uint32_t y = b - 1; y > 0; y--)
        hull[n++] = y * a + a - 1;
    for (uint32_t x = a - 1; x > 0; x--)
        hull[n++] = x;
    return n;
}

#endif
