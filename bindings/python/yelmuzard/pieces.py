"""Pieces: for each gauge the part of the box that lies nearest to it."""
from __future__ import annotations

import functools
import math
from typing import Any, Optional

import numpy

from . import clearance, joining, lend, mesh as meshes, polygons as shapes, reasons, rooms
from .library import library, nothing
from .mesh import Mesh
from .refusal import Refusal
from .verdict import AUDIT, CERTIFY, Certificate, Reason, Verdict

Box = tuple[float, float, float, float]
Made = tuple[numpy.ndarray, numpy.ndarray, numpy.ndarray, Optional[numpy.ndarray]]  # vertices, offsets, indexes, a build's counts
WAYS = ("cut", "voronoice")


def default_way() -> str:
    """`cut`, where the library has it."""
    return WAYS[0] if library().has("voronoi_cut_by_edges") else WAYS[1]


def pieces(points: Any, box: Any, mesh: Optional[Mesh] = None, way: Optional[str] = None) -> "Pieces":
    """The pieces of the points in the box, which is its least x, least y, greatest x and greatest y, kept to the bit.

    `mesh` is the points' Delaunay mesh, made where there is none. `way` is "cut", pieces that add up to the box, or "voronoice", the build that equals
    voronoice's bit for bit (and refuses by 13 and 14 what that panics on); without it "cut", where the library has it. A Refusal says why there are none.

    >>> found = pieces([(-.5, -.5), (-.5, .5), (.5, .5), (.5, -.5)], (-1, -1, 1, 1))
    >>> found.areas.tolist()
    [1.0, 1.0, 1.0, 1.0]
    >>> found.certify().sound
    True
    """
    edges = edges_of(box)
    gauges = lend.points_of(points)
    way = way or default_way()
    if way not in WAYS:
        raise ValueError(f"a way is one of {', '.join(WAYS)}, not {way!r}")
    if way == "cut" and not library().has("voronoi_cut_by_edges"):
        raise NotImplementedError(f"{library().path} has no voronoi_cut_by_edges")
    if mesh is None:
        mesh = meshes.made(gauges, edges, ghosts=way == "cut")
    elif len(gauges) != mesh.gauges or not numpy.array_equal(gauges, mesh.sites[:mesh.gauges]):
        raise ValueError("the mesh is of other points")
    return Pieces(edges, mesh, way, *(cut if way == "cut" else built)(edges, mesh))


def edges_of(box: Any) -> Box:
    edges = tuple(float(edge) for edge in box)
    if len(edges) != 4:
        raise ValueError("a box is four numbers: least x, least y, greatest x, greatest y")
    if not (all(map(math.isfinite, edges)) and edges[0] < edges[2] and edges[1] < edges[3]):
        raise Refusal(3)
    return edges  # type: ignore[return-value]


def built(box: Box, mesh: Mesh) -> Made:
    t, h, n = len(mesh.triangles), len(mesh.hull), len(mesh.sites)
    vertices, indexes, work = block(rooms.vertex_numbers(t, h), rooms.index_room(t, h), n)
    offsets, counts = numpy.empty(n + 1, numpy.uint32), numpy.empty(rooms.COUNTS, numpy.uint32)
    number, = library().call("voronoi_build_by_edges", *box, *mesh.lists(), work, vertices, indexes, offsets, counts)
    if number:
        raise Refusal(number, reasons.why(mesh, box).place)
    return (*trimmed(vertices, indexes, offsets, int(counts[rooms.COUNT_VERTICES])), counts)


def cut(box: Box, mesh: Mesh) -> Made:
    t, h, n = len(mesh.triangles), len(mesh.hull), len(mesh.sites)
    vertices, indexes, work = block(rooms.cut_vertex_numbers(t, h), rooms.cut_index_room(t, h), n)
    offsets = numpy.empty(n + 1, numpy.uint32)
    number, count = library().call("voronoi_cut_by_edges", *box, *mesh.lists(), work, vertices, indexes, offsets)
    if number:
        # `why` knows the build's rules; those of the mesh itself, 6 to 11, are the same
        raise Refusal(number, reasons.why(mesh, box).place if 6 <= number <= 11 else None)
    return (*trimmed(vertices, indexes, offsets, count), None)


def block(vertex_numbers: int, index_room: int, sites: int) -> tuple[numpy.ndarray, numpy.ndarray, numpy.ndarray]:
    """The rooms of vertices, indexes and work side by side in one block of memory, as include/voronoi_pieces.h has them. The C library's malloc gives back to the system what
    is free beyond twice the largest block that it had: with a block for each room it did so at every call, and 3,500 new pages were a tenth of the time at 65,472 gauges."""
    numbers, entries = 2 * vertex_numbers, 2 * vertex_numbers + index_room
    words = numpy.empty(entries + sites, numpy.uint32)
    return words[:numbers].view(numpy.float64), words[numbers:entries], words[entries:]


def trimmed(vertices: numpy.ndarray, indexes: numpy.ndarray, offsets: numpy.ndarray, count: int) -> tuple[numpy.ndarray, numpy.ndarray, numpy.ndarray]:
    """What is used, in arrays of their own: the rooms are several times as large."""
    return vertices[:2 * count].reshape(-1, 2).copy(), offsets, indexes[:int(offsets[-1])].copy()


def known(number: int) -> Optional[int]:
    """A number that a verdict names, or none."""
    return None if number == rooms.EMPTY else int(number)


class Pieces:
    """Pieces that were made; their gauges are numbered from 0, as the points were given.

    box, mesh, way: what they were made of. vertices, offsets, indexes: the corners of piece s are vertices[indexes[offsets[s]:offsets[s + 1]]].
    """

    def __init__(self, box: Box, mesh: Mesh, way: str, vertices: numpy.ndarray, offsets: numpy.ndarray, indexes: numpy.ndarray, counts: Optional[numpy.ndarray]) -> None:
        self.box, self.mesh, self.way = box, mesh, way
        self.vertices, self.indexes, self.counts = vertices, indexes, counts
        self._all_offsets = offsets
        self.offsets = offsets[:mesh.gauges + 1]

    def __len__(self) -> int:
        return self.mesh.gauges

    def __repr__(self) -> str:
        return f"<{len(self):,} pieces by {self.way} in the box {self.box}>"

    @property
    def points(self) -> numpy.ndarray:
        """x and y of each gauge."""
        return self.mesh.sites[:self.mesh.gauges]

    @property
    def box_area(self) -> float:
        return (self.box[2] - self.box[0]) * (self.box[3] - self.box[1])

    @functools.cached_property
    def areas(self) -> numpy.ndarray:
        """The area of each piece, exact and rounded once."""
        areas = numpy.empty(len(self))
        number, = library().call("voronoi_areas", self.vertices, self.offsets, self.indexes[:int(self.offsets[-1])], areas)
        if number:
            raise Refusal(number)
        return areas

    @property
    def lost(self) -> Optional[int]:
        """How many corners of the box are in no piece, of a build; None of pieces that were cut."""
        return None if self.counts is None else int(self.counts[rooms.COUNT_LOST])

    def corners(self, gauge: int) -> numpy.ndarray:
        """The corners of a piece in order round it, x and y each."""
        return self.vertices[self.indexes[self.offsets[gauge]:self.offsets[gauge + 1]]]

    def polygons(self, form: str = "wkb", crs: Any = None) -> Any:
        """The piece of each gauge: "wkb" bytes, "shapely" polygons, or a "geopandas" GeoSeries in the reference system `crs`; "buffer" is the bytes of all, one after
        the other, and where each begins, in two arrays."""
        if form not in ("wkb", "shapely", "geopandas", "buffer"):
            raise ValueError(f"a form is wkb, shapely, geopandas or buffer, not {form!r}")
        cells = self.vertices, self.offsets, self.indexes[:int(self.offsets[-1])]
        if form == "buffer":
            return shapes.buffer(*cells)
        wkb = shapes.images(*cells)
        return wkb if form == "wkb" else shapes.shapes(wkb) if form == "shapely" else shapes.series(wkb, crs)

    def neighbours(self) -> list[numpy.ndarray]:
        """For each gauge those whose pieces have a side in common with its own: as voronoice says of a build, by the sides' places of pieces that were cut."""
        cells = (self._all_offsets, self.indexes) if self.way == "voronoice" else (nothing("i"), nothing("i"))
        starts, others = self._near(*cells)
        if self.way == "cut":
            own = numpy.repeat(numpy.arange(len(starts) - 1), numpy.diff(starts))
            kept = self._sides(own, others)
            starts = numpy.concatenate([[0], numpy.cumsum(numpy.bincount(own[kept], minlength=len(starts) - 1))])
            others = others[kept]
        lists = numpy.split(others, starts[1:-1])[:len(self)]
        return [near[near < len(self)] for near in lists]

    def _near(self, offsets: numpy.ndarray, indexes: numpy.ndarray) -> tuple[numpy.ndarray, numpy.ndarray]:
        n = len(self.mesh.sites)
        starts = numpy.empty(n + 1, numpy.uint32)
        others = numpy.empty(rooms.neighbour_room(len(self.mesh.triangles), len(self.mesh.hull)), numpy.uint32)
        number, = library().call("voronoi_all_neighbours", *self.mesh.lists(), offsets, indexes, numpy.empty(n, numpy.uint32), starts, others)
        if number:
            raise Refusal(number)
        return starts.astype(numpy.int64), others[:int(starts[-1])].copy()

    def _sides(self, own: numpy.ndarray, others: numpy.ndarray) -> numpy.ndarray:
        """Of pairs of gauges, whether a side of the first one's piece runs the other way in the second one's."""
        lengths = numpy.diff(self._all_offsets.astype(numpy.int64))
        site = numpy.repeat(numpy.arange(len(lengths)), lengths)
        following = numpy.arange(1, len(self.indexes) + 1)
        last = self._all_offsets[1:][lengths > 0].astype(numpy.int64) - 1
        following[last] = self._all_offsets[:-1][lengths > 0]
        # equal places have equal numbers here, whatever their vertices' numbers are
        _, place = numpy.unique(self.vertices + 0.0, axis=0, return_inverse=True)
        start, end = place.ravel()[self.indexes], place.ravel()[self.indexes[following]]
        runs = dict(zip(zip(start.tolist(), end.tolist()), site.tolist()))
        shared = {(s, runs[b, a]) for (a, b), s in runs.items() if (b, a) in runs}
        return numpy.array([pair in shared for pair in zip(own.tolist(), others.tolist())], bool)

    def nearest(self, points: Any) -> numpy.ndarray:
        """The number of the gauge that is nearest to each of the points, by the mesh: for a radar picture at a time."""
        asked = lend.points_of(points)
        ends = numpy.empty(len(asked), numpy.uint32)
        n = len(self.mesh.sites)
        number, = library().call("voronoi_ends", *self.mesh.lists(), 0, asked, numpy.empty(n, numpy.uint32), ends)
        if number:
            raise Refusal(number)
        for k in (ends >= len(self)).nonzero()[0]:  # a ghost, for a point far outside the box
            ends[k] = ((self.points - asked[k]) ** 2).sum(1).argmin()
        return ends

    def certify(self, bits: int = rooms.CERTIFY_BITS) -> Certificate:
        """The certificate, over the gauges that were given: kind 0 says, by theorem, that these are their true pieces, to 2^-bits of the box's reach.

        Ghosts of the mesh are no gauges and have no pieces: the sites that are lent are the gauges, so that ground which a ghost took is missing and is named. Where there are
        one or two, ghosts without a piece make them three, which is the least that the library takes; a piece that they had would be left out, and named too.

        >>> found = pieces([(-.5, -.5), (-.5, .5), (.5, .5), (.5, -.5)], (-1, -1, 1, 1))
        >>> print(found.certify())
        certified: every place that is nearer to one gauge by more than 3.4e-10 is in its piece, once
        """
        count = max(len(self), rooms.LEAST_SITES)
        sites, offsets = self.mesh.sites[:count], numpy.minimum(self._all_offsets[:count + 1], self.offsets[-1])
        entries = self.indexes[:int(offsets[-1])]
        work = numpy.empty(rooms.certify_room(count, len(entries)), numpy.uint32)
        number, kind, site, vertex, other = library().call("voronoi_certify_by_edges", *self.box, sites, self.vertices, offsets, entries, bits, work)
        if number:
            raise Refusal(number)
        corner = None if vertex == rooms.EMPTY else self._place(vertex)
        return Certificate(kind, CERTIFY[kind], known(site), known(vertex), corner, known(other), bits, clearance.apart(self.box, sites, bits))

    def joined(self) -> "Pieces":
        """These with the corners joined that are within 2^-30 of the reach of each other, and put on the edges of the box that they are as near to: for a build, whose
        crossings are computed from both ends of a side and may differ by a last bit."""
        moved = joining.joined(self.box, self.vertices, self.indexes)
        return Pieces(self.box, self.mesh, self.way, moved, self._all_offsets, self.indexes, self.counts)

    def audit(self, bits: int = rooms.AUDIT_BITS, against_all: bool = False) -> Verdict:
        """The audit's five tests, to 2^-bits of the box: each piece against its gauge's neighbours in the mesh, or against all gauges. `certify` says more."""
        starts = others = nothing("i")
        if not against_all:
            begins, near = self._near(nothing("i"), nothing("i"))
            if numpy.diff(begins).all():  # a gauge in no triangle is nobody's neighbour: then against all
                starts, others = begins.astype(numpy.uint32), near
        number, kind, site, vertex, other, missing = library().call(
            "voronoi_audit_by_edges", *self.box, self.mesh.sites, self.vertices, self._all_offsets, self.indexes, starts, others, bits)
        if number:
            raise Refusal(number)
        return Verdict(kind, AUDIT[kind], known(site), None if vertex == rooms.EMPTY else self._place(vertex), known(other), missing, bits)

    def _place(self, vertex: int) -> tuple[float, float]:
        return float(self.vertices[vertex][0]), float(self.vertices[vertex][1])

    def why(self, first: Optional[int] = None, second: Optional[int] = None) -> Reason:
        """Of the build: why a gauge's piece is empty, or that the second gauge is no neighbour of the first in the box."""
        return reasons.why(self.mesh, self.box, first, second)
