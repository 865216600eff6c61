"""Pieces as polygons: Well-Known Binary by the library, shapely's geometries and geopandas' GeoSeries of it."""
from __future__ import annotations

import ctypes
from typing import Any, Optional

import numpy

from . import rooms
from .library import library
from .refusal import Refusal


def buffer(vertices: numpy.ndarray, offsets: numpy.ndarray, indexes: numpy.ndarray) -> tuple[numpy.ndarray, numpy.ndarray]:
    """The polygons of all cells in Well-Known Binary (little-endian), one after the other, byte for byte as voronoi_cell_wkb writes each; and where each begins, and
    the last ends: what Arrow calls a large binary array."""
    lengths = numpy.diff(offsets.astype(numpy.int64))
    sizes = numpy.where(lengths < 3, rooms.wkb_room(0), rooms.wkb_room(0) + 20 + 16 * lengths)
    starts = numpy.concatenate([[0], numpy.cumsum(sizes)]).astype(numpy.uint64)
    out = numpy.empty(int(starts[-1]), numpy.uint8)
    if library().has("voronoi_all_wkb"):
        number, _ = library().call("voronoi_all_wkb", vertices, offsets, indexes, starts, out)
        if number:
            raise Refusal(number)
    else:
        one_by_one(vertices, offsets, indexes, starts, out)
    return out, starts


def images(vertices: numpy.ndarray, offsets: numpy.ndarray, indexes: numpy.ndarray) -> list[bytes]:
    """The polygon of each cell."""
    out, starts = buffer(vertices, offsets, indexes)
    whole, places = out.tobytes(), starts.tolist()
    return [whole[a:b] for a, b in zip(places, places[1:])]


def one_by_one(vertices: numpy.ndarray, offsets: numpy.ndarray, indexes: numpy.ndarray, starts: numpy.ndarray, out: numpy.ndarray) -> None:
    """Each cell with offsets of its own, 0 and its length: so that the offsets of all are not gone over for each."""
    write = library().function("voronoi_cell_wkb")
    own, written = (ctypes.c_uint32 * 2)(0, 0), ctypes.c_size_t()
    at, to, size = vertices.ctypes.data, out.ctypes.data, vertices.size
    entries = indexes.ctypes.data
    begins, places = offsets.tolist(), starts.tolist()
    back = ctypes.byref(written)
    for cell in range(len(begins) - 1):
        own[1] = begins[cell + 1] - begins[cell]
        number = write(at, size, own, 2, entries + 4 * begins[cell], own[1], 0, to + places[cell], places[cell + 1] - places[cell], back)
        if number:
            raise Refusal(number)


def shapes(wkb: list[bytes]) -> Any:
    """shapely's polygons: an array by shapely 2, a list by shapely 1.8."""
    import shapely
    if hasattr(shapely, "from_wkb"):
        return shapely.from_wkb(wkb)
    from shapely import wkb as reader
    return [reader.loads(image) for image in wkb]


def series(wkb: list[bytes], crs: Optional[Any] = None) -> Any:
    """geopandas' GeoSeries."""
    import geopandas
    return geopandas.GeoSeries.from_wkb(wkb, crs=crs)
