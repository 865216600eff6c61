"""A mesh: the sites, their triangles, the pair of each half-edge and the hull, turned as the library needs them."""
from __future__ import annotations

import dataclasses
from typing import Any, Optional

import numpy

from . import lend, qhull, rooms, triangulate
from .library import library
from .refusal import Refusal


@dataclasses.dataclass(frozen=True)
class Mesh:
    """The gauges are the first `gauges` sites; what is after them are ghosts, which are nobody's and have no piece in the box.

    >>> square = Mesh.of([(-.5, -.5), (-.5, .5), (.5, .5), (.5, -.5)], [(0, 1, 2), (0, 2, 3)], [(-1, -1, 3), (2, -1, -1)], [0, 1, 2, 3])
    >>> square.gauges, len(square.triangles), square.check()
    (4, 2, 0)
    """

    sites: numpy.ndarray
    triangles: numpy.ndarray
    halfedges: numpy.ndarray
    hull: numpy.ndarray
    gauges: int

    @classmethod
    def of(cls, points: Any, triangles: Any, halfedges: Any, hull: Any) -> "Mesh":
        """A mesh from anywhere, delaunator's lists for one: three sites a triangle, counter-clockwise with y downward; -1 or 4294967295 for no pair."""
        sites = lend.points_of(points)
        return cls(sites, lend.indexes_of(triangles, (-1, 3)), lend.indexes_of(halfedges, (-1, 3)), lend.indexes_of(hull, (-1,)), len(sites))

    def lists(self) -> tuple[numpy.ndarray, ...]:
        """The four lists in the order in which every call takes them."""
        return self.sites, self.triangles, self.halfedges, self.hull

    def check(self) -> int:
        """0, or the number of the rule that the mesh breaks."""
        return library().call("voronoi_check", *self.lists(), numpy.empty(len(self.sites), numpy.uint32))[0]


def made(points: numpy.ndarray, box: tuple[float, float, float, float], ghosts: bool = True) -> Mesh:
    """The Delaunay mesh of the points: by mesh/triangulate.c with its ghosts where the library has it and they are wanted, else by SciPy's Qhull."""
    if len(points) > rooms.MOST_SITES - rooms.GHOSTS or not len(points):
        raise Refusal(1)
    if ghosts and library().has("triangulate_gauges"):
        lists = triangulate.lists(points, box)
    else:
        lists = qhull.lists(points)
    return Mesh(*lists, len(points))
