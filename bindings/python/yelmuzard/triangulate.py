"""The mesh by mesh/triangulate.c: exact, with 64 ghosts on a circle far outside, so that 1 and 2 gauges and gauges on a line have a mesh too."""
from __future__ import annotations

import numpy

from . import rooms
from .library import library
from .refusal import TWIN, Place, Refusal

Lists = tuple[numpy.ndarray, numpy.ndarray, numpy.ndarray, numpy.ndarray]


def lists(points: numpy.ndarray, box: tuple[float, float, float, float]) -> Lists:
    """Sites, triangles, half-edges and hull of the points and the ghosts behind them."""
    count = len(points)
    sites = numpy.empty((rooms.mesh_sites(count), 2))
    sites[:count] = points
    sites[count:] = 0
    triangles = numpy.empty((rooms.mesh_triangles(count), 3), numpy.uint32)
    halfedges = numpy.empty_like(triangles)
    hull = numpy.empty(rooms.GHOSTS, numpy.uint32)
    work = numpy.empty(rooms.mesh_work(count), numpy.uint32)
    number, first, second = library().call("triangulate_gauges", numpy.array(box), sites, triangles, halfedges, hull, work)
    if number == TWIN:
        x, y = points[second]
        raise Refusal(number, Place(int(second), float(x), float(y), f"gauges {first} and {second} at ({x:.10g}, {y:.10g})"))
    if number == 6 and first < count:
        x, y = points[first]
        raise Refusal(number, Place(int(first), float(x), float(y), f"gauge {first} at ({x:.10g}, {y:.10g})"))
    if number:
        raise Refusal(number)
    return sites, triangles, halfedges, hull
