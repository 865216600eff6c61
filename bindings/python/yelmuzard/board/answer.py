"""A map's answer: the gauges with their pieces, areas and shares, and what the certificate says; what every output is made of."""
from __future__ import annotations

import dataclasses
import functools
import math
import struct
from typing import Optional

from .. import clearance
from ..pieces import Pieces
from ..verdict import Certificate
from .boxes import Box
from .gauges import Gauges

SHORT = 2.0 ** -20  # what the pieces may differ from the box by, of it
Ring = list[tuple[float, float]]


@dataclasses.dataclass
class Answer:
    """`rings` are the corners of each piece, `areas` the exact ones; `values` are a day's readings or another column to colour by."""

    gauges: Gauges
    box: Box
    rings: list[Ring]
    areas: list[float]
    wkb: list[bytes]
    verdict: str
    sound: bool
    unit: str = "m"
    crs: str = ""
    values: Optional[list[Optional[float]]] = None
    value_name: str = ""

    @functools.cached_property
    def box_area(self) -> float:
        return (self.box[2] - self.box[0]) * (self.box[3] - self.box[1])

    @functools.cached_property
    def shares(self) -> list[float]:
        """The share of the box that each piece is."""
        return [area / self.box_area for area in self.areas]

    @functools.cached_property
    def whole(self) -> bool:
        """Whether the pieces add up to the box."""
        return abs(math.fsum(self.areas) / self.box_area - 1) <= SHORT


def of(gauges: Gauges, pieces: Pieces, verdict: Certificate, unit: str, crs: str) -> Answer:
    wkb = pieces.polygons()
    rings = [[(x, y) for x, y in pieces.corners(k).tolist()] for k in range(len(pieces))]
    said = f"certified to {clearance.words(verdict.apart, unit)}" if verdict.sound else verdict.told(gauges.called, unit)
    return Answer(gauges, pieces.box, rings, pieces.areas.tolist(), wkb, said, verdict.sound, unit, crs)


def ring_of(image: bytes) -> Ring:
    """The corners of a polygon in little-endian Well-Known Binary, each once; ValueError where it is none of one ring."""
    try:
        order, kind, rings = struct.unpack_from("<BII", image)
        count = struct.unpack_from("<I", image, 9)[0] if rings else 0
        if (order, kind) != (1, 3) or rings > 1 or len(image) != (13 + 16 * count if rings else 9):
            raise ValueError
        numbers = struct.unpack_from(f"<{2 * count}d", image, 13 if rings else 9)
    except (ValueError, struct.error):
        raise ValueError("the geometry is no little-endian polygon of one ring") from None
    if not all(map(math.isfinite, numbers)):
        raise ValueError("the geometry has a coordinate that is not finite")
    return list(zip(numbers[::2], numbers[1::2]))[:-1]
