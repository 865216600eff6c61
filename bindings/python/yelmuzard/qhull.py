"""The mesh by SciPy's Qhull, of the gauges alone: what voronoice's mesh is, but for its order. Its triangles are turned by their exact sign.

Qhull leaves out gauges that stand close together or nearly on a line between two, and gives nothing for gauges on a line: that is refused by 107
with the gauge. mesh/triangulate.c has none of this.
"""
from __future__ import annotations

from fractions import Fraction

import numpy

from . import rooms
from .refusal import BROKEN, TWIN, Place, Refusal

Lists = tuple[numpy.ndarray, numpy.ndarray, numpy.ndarray, numpy.ndarray]


class MissingScipy(ImportError):
    """SciPy is not there, in words with the way out."""


def lists(points: numpy.ndarray) -> Lists:
    """Sites, triangles, half-edges and hull of the points."""
    if not numpy.isfinite(points).all() or (numpy.abs(points) > rooms.FAR).any():
        raise Refusal(6)
    apart(points)
    if len(points) < rooms.LEAST_SITES:
        raise Refusal(1)
    triangles = turned(points, simplices(points))
    unused = numpy.setdiff1d(numpy.arange(len(points)), triangles)
    if not len(triangles):
        raise Refusal(BROKEN, Place(None, None, None, "all gauges stand on a line, or nearly: there is no triangle"))
    if len(unused):
        raise Refusal(BROKEN, at(points, int(unused[0]), "is so close to another gauge, or to the line between two, that Qhull leaves it out"))
    halfedges, hull = joined(points, triangles)
    return points, triangles, halfedges, hull


def at(points: numpy.ndarray, gauge: int, words: str) -> Place:
    x, y = map(float, points[gauge])
    return Place(gauge, x, y, f"gauge {gauge} at ({x:.10g}, {y:.10g}) {words}")


def apart(points: numpy.ndarray) -> None:
    """Nothing, where no two gauges stand at one place."""
    order = numpy.lexsort((numpy.arange(len(points)), points[:, 1] + 0.0, points[:, 0] + 0.0))
    same = (points[order][1:] == points[order][:-1]).all(1).nonzero()[0]
    if len(same):
        pairs = [(int(order[k + 1]), int(order[k])) for k in same]
        second, first = min(pairs)
        raise Refusal(TWIN, at(points, second, f"stands where gauge {first} does"))


def simplices(points: numpy.ndarray) -> numpy.ndarray:
    try:
        from scipy.spatial import Delaunay, QhullError
    except ImportError:
        raise MissingScipy("SciPy is missing (Debian package python3-scipy), and the library has no triangulate_gauges") from None
    # Qhull works with squares of coordinates: far from the origin it would lose the digits that tell gauges apart
    moved = points - (points.min(0) + points.max(0)) / 2
    moved = moved / (numpy.abs(moved).max() or 1)
    try:
        return Delaunay(moved).simplices.astype(numpy.int64)
    except (QhullError, ValueError):
        return numpy.zeros((0, 3), numpy.int64)


def turned(points: numpy.ndarray, found: numpy.ndarray) -> numpy.ndarray:
    """The triangles counter-clockwise with y downward, each from its lowest gauge on, in order; flat ones are left out."""
    a, b, c = (points[found[:, k]] for k in range(3))
    left, right = (b - a)[:, 0] * (c - a)[:, 1], (b - a)[:, 1] * (c - a)[:, 0]
    sign = numpy.sign(left - right)
    # below this bound rounding may have turned the sign (Shewchuk 1997, orient2d): there it is worked out exactly
    for k in (numpy.abs(left - right) <= 4e-16 * (numpy.abs(left) + numpy.abs(right))).nonzero()[0]:
        (ax, ay), (bx, by), (cx, cy) = (tuple(map(Fraction, points[site])) for site in found[k])
        turn = (bx - ax) * (cy - ay) - (by - ay) * (cx - ax)
        sign[k] = (turn > 0) - (turn < 0)
    kept = found[sign != 0]
    kept[sign[sign != 0] > 0] = kept[sign[sign != 0] > 0][:, ::-1]
    first = kept.argmin(1)
    kept = numpy.stack([kept[numpy.arange(len(kept)), (first + k) % 3] for k in range(3)], 1)
    return kept[numpy.lexsort((kept[:, 2], kept[:, 1], kept[:, 0]))].astype(numpy.uint32)


def joined(points: numpy.ndarray, triangles: numpy.ndarray) -> tuple[numpy.ndarray, numpy.ndarray]:
    """The pair of each half-edge, EMPTY where it has none, and the border."""
    count = len(points)
    flat = triangles.ravel().astype(numpy.int64)
    ends = triangles[:, [1, 2, 0]].ravel().astype(numpy.int64)
    way = flat * count + ends
    order = numpy.argsort(way, kind="stable")
    twice = (way[order][1:] == way[order][:-1]).nonzero()[0]
    if len(twice):
        gauge = int(flat[order[twice[0]]])
        raise Refusal(BROKEN, at(points, gauge, "has triangles that overlap by Qhull"))
    back = ends * count + flat
    place = numpy.searchsorted(way[order], back).clip(max=len(way) - 1)
    pairs = numpy.where(way[order[place]] == back, order[place], rooms.EMPTY).astype(numpy.uint32)
    border = (pairs == rooms.EMPTY).nonzero()[0]
    leads = dict(zip(flat[border].tolist(), ends[border].tolist()))
    if len(leads) < len(border):
        met = sorted(flat[border].tolist())
        gauge = next(a for a, b in zip(met, met[1:]) if a == b)
        raise Refusal(BROKEN, at(points, gauge, "stands nearly on a line with others, and two borders meet there"))
    hull = [min(leads)]
    while leads[hull[-1]] != hull[0]:
        hull.append(leads[hull[-1]])
    if len(hull) != len(leads):
        gauge = min(set(leads).difference(hull))
        raise Refusal(BROKEN, at(points, gauge, "is on a border within the border: gauges stand nearly on a line there"))
    return pairs.reshape(-1, 3), numpy.array(hull, numpy.uint32)
