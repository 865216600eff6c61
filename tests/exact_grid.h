/* Sites on the grid in whole numbers of 128 bits: turns and circles, exact. */
#ifndef EXACT_GRID_H
#define EXACT_GRID_H

#include "largest.h"

typedef __int128 wide;

static int32_t grid[2 * SITES];

static wide x(uint32_t s) { return grid[2 * s]; }
static wide y(uint32_t s) { return grid[2 * s + 1]; }

static wide cross(uint32_t a, uint32_t b, uint32_t c) { return (x(b) - x(a)) * (y(c) - y(a)) - (y(b) - y(a)) * (x(c) - x(a)); }

/* below 0 where d is nearer to the center of the circle through a, b, c than a is: seen from a the center is u, v over w */
static wide against_the_circle(uint32_t a, uint32_t b, uint32_t c, uint32_t d)
{
    wide bx = x(b) - x(a), by = y(b) - y(a), cx = x(c) - x(a), cy = y(c) - y(a), w = 2 * (bx * cy - by * cx);
    wide bb = bx * bx + by * by, cc = cx * cx + cy * cy, u = cy * bb - by * cc, v = bx * cc - cx * bb;
    wide dx = (x(d) - x(a)) * w - u, dy = (y(d) - y(a)) * w - v;
    return dx * dx + dy * dy - (u * u + v * v);
}

#endif
