"""Why a mesh is refused, a piece is empty, or a neighbour is none in the box: `voronoi_why`, with the gauge and its coordinates."""
from __future__ import annotations

from typing import Optional

import numpy

from . import rooms
from .library import library
from .mesh import Mesh
from .refusal import Place, Refusal
from .verdict import Reason

NO_FAULT, NUMBER, SITE, TRIANGLE, HALFEDGE, HULL_PLACE, EDGE, UNUSED, TRIES, DROPPED = range(10)


def why(mesh: Mesh, box: tuple[float, float, float, float], first: Optional[int] = None, second: Optional[int] = None) -> Reason:
    """The one reason, of the build; asked about a gauge, why its piece is empty; about two, that the second is no neighbour of the first in the box."""
    t, h, n = len(mesh.triangles), len(mesh.hull), len(mesh.sites)
    vertices = numpy.empty(rooms.vertex_numbers(t, h))
    slices = (numpy.empty(n, numpy.uint32), vertices, numpy.empty(rooms.index_room(t, h), numpy.uint32), numpy.empty(n + 1, numpy.uint32),
              numpy.empty(rooms.COUNTS, numpy.uint32))
    asked = 0 if first is None else 1 if second is None else 2
    number, kind, place, start, end = library().call("voronoi_why_by_edges", *box, *mesh.lists(), asked, first or 0, second or 0, *slices)
    if number == 4:
        raise Refusal(4)
    where = place_of(mesh, box, number, kind, place, start, end)
    said = str(Refusal(number, where)) if number else where.words if where else "no fault"
    return Reason(number, kind, where, said)


def named(mesh: Mesh, gauge: int, words: str) -> Place:
    """A place at a gauge; its words name it."""
    if gauge >= mesh.gauges:  # a ghost
        return Place(None, None, None, words.format("a point far outside that is no gauge"))
    x, y = map(float, mesh.sites[gauge])
    return Place(gauge, x, y, words.format(f"gauge {gauge} at ({x:.10g}, {y:.10g})"))


def corner_of(mesh: Mesh, box: tuple[float, float, float, float], vertex: int) -> Optional[tuple[float, float]]:
    """A circumcenter or a corner of the box, by a vertex's number; the builder has cleared its own list."""
    t = len(mesh.triangles)
    if vertex < t:
        number, x, y = library().call("voronoi_circumcenter", *mesh.sites[mesh.triangles[vertex]].ravel())
        return None if number else (x, y)
    left, top, right, bottom = box
    return ((left, top), (left, bottom), (right, bottom), (right, top))[vertex - t] if vertex < t + 4 else None


def place_of(mesh: Mesh, box: tuple[float, float, float, float], number: int, kind: int, place: int, start: int, end: int) -> Optional[Place]:
    if kind in (NO_FAULT, NUMBER):
        return None
    if kind == SITE:
        return named(mesh, place, "{}")
    if kind == TRIANGLE:
        corners = [int(site) for site in mesh.triangles[place]]
        if number == 7:
            return Place(None, None, None, f"triangle {place} of the sites {corners}")
        return named(mesh, corners[0], f"triangle {place} of gauges {', '.join(map(str, corners))}, the first {{}}")
    if kind == HALFEDGE:
        site = int(mesh.triangles.ravel()[place])
        return named(mesh, site, f"half-edge {place}, which starts at {{}}") if site < len(mesh.sites) else Place(None, None, None, f"half-edge {place}")
    if kind == HULL_PLACE:
        site = int(mesh.hull[place]) if place < len(mesh.hull) else len(mesh.sites)
        return named(mesh, site, f"hull place {place}, {{}}") if site < len(mesh.sites) else Place(None, None, None, f"hull place {place}")
    if kind == EDGE:
        ends = [corner_of(mesh, box, vertex) for vertex in (start, end)]
        inside = next((p for p in ends if p and box[0] <= p[0] <= box[2] and box[1] <= p[1] <= box[3]), None) or next((p for p in ends if p), None)
        return named(mesh, place, "in the piece of {}" + (f", at its corner ({inside[0]:.10g}, {inside[1]:.10g})" if inside else ""))
    if kind == UNUSED:
        return named(mesh, place, "the piece of {} is empty: it is in no triangle")
    if kind == TRIES:
        return named(mesh, place, "the piece of {} is empty: nothing of it lies in the box")
    return Place(None, None, None, f"neighbours in the mesh, and none in the box: their pieces share {place} corners there")
