"""Colours: one for each piece that no neighbour has, or a shade by its size or by a value."""
from __future__ import annotations

import math
from typing import Optional

from .answer import Ring

PALE = ["#b8d8d2", "#f3e2b3", "#c9d3ea", "#e9c9bd", "#d3e3b5", "#e0cfe6", "#f6efe0", "#bcd7ea"]
LARGE, MIDDLE, SMALL = (246, 240, 222), (133, 187, 168), (26, 94, 105)  # the colour of the largest piece, of one between, of the smallest
DRY, DAMP, WET = (247, 245, 235), (123, 176, 214), (16, 60, 128)
NOTHING = "#d9d6d0"  # a piece without a value


def sides(ring: Ring) -> list[tuple[tuple[float, float], tuple[float, float]]]:
    return list(zip(ring, ring[1:] + ring[:1]))


def neighbours(rings: list[Ring]) -> list[set[int]]:
    """For each piece those that have a side in common with it."""
    at: dict[frozenset, list[int]] = {}
    near: list[set[int]] = [set() for _ in rings]
    for k, ring in enumerate(rings):
        for side in sides(ring):
            at.setdefault(frozenset(side), []).append(k)
    for both in at.values():
        for k in both:
            near[k].update(both)
    for k, others in enumerate(near):
        others.discard(k)
    return near


def apart(rings: list[Ring]) -> list[str]:
    """A colour for each piece that no neighbour has. The piece with the fewest neighbours is put aside, again and again, and they are coloured
    from the last one on: in the plane there is always one with five at most, so that six colours are enough."""
    near, aside = neighbours(rings), []
    left = {k: set(others) for k, others in enumerate(near)}
    while left:
        k = min(left, key=lambda k: (len(left[k]), k))
        aside.append(k)
        for other in left.pop(k):
            left[other].discard(k)
    chosen: dict[int, int] = {}
    used = [0] * len(PALE)
    for k in reversed(aside):
        taken = {chosen.get(other) for other in near[k]}
        free = [c for c in range(len(PALE)) if c not in taken] or [0]
        chosen[k] = min(free, key=lambda c: (used[c], c))
        used[chosen[k]] += 1
    return [PALE[chosen[k]] for k in range(len(rings))]


def mixed(u: float, low: tuple[int, int, int], middle: tuple[int, int, int], high: tuple[int, int, int]) -> str:
    a, b, t = (low, middle, 2 * u) if u < .5 else (middle, high, 2 * u - 1)
    return "#%02x%02x%02x" % tuple(round(p + (q - p) * t) for p, q in zip(a, b))


def by_size(u: float) -> str:
    """From the smallest (0) to the largest (1)."""
    return mixed(1 - u, LARGE, MIDDLE, SMALL)


def by_value(u: float) -> str:
    """From the least (0) to the greatest (1)."""
    return mixed(u, DRY, DAMP, WET)


def sizes(areas: list[float]) -> tuple[list[str], float, float]:
    """A shade for each piece by the logarithm of its size, and the sizes at both ends: all but the hundredth part on either side."""
    logs = [math.log(abs(a)) if a else None for a in areas]
    known = sorted(v for v in logs if v is not None) or [0.0]
    low, high = known[len(known) // 100], known[-1 - len(known) // 100]
    return ["#ffffff" if v is None else by_size(min(1, max(0, (v - low) / (high - low or 1)))) for v in logs], math.exp(low), math.exp(high)


def values(given: list[Optional[float]]) -> tuple[list[str], float, float]:
    """A shade for each value, and the values at both ends."""
    known = [v for v in given if v is not None]
    low, high = (min(known), max(known)) if known else (0.0, 1.0)
    low = min(0.0, low) if low > 0 and low < .5 * high else low
    return [NOTHING if v is None else by_value((v - low) / (high - low or 1)) for v in given], low, high
