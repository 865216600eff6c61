"""The pieces of a list of gauges, and what is said of them; a refusal names the gauge by its id, its name and its line."""
from __future__ import annotations

import math
from typing import Optional

from .. import rooms
from ..mesh import Mesh
from ..pieces import Pieces, pieces
from ..qhull import MissingScipy
from ..refusal import Refusal
from ..verdict import Certificate
from .boxes import Box
from .gauges import Gauges
from .told import FAILED, Told

HELP = {1: "at most 65,472 gauges are taken, and without cutting 3 at least",
        13: "a corner of a piece lies on a side of the box: make the box larger by an odd fraction, such as .375, or leave --as-voronoice out",
        14: "make the box smaller, or larger by an odd fraction, such as .375, or leave --as-voronoice out",
        25: "the mesh is no mesh of the plane that turns as it must (docs/use/RULES.md, \"Terms\", says how to turn one)",
        105: "leave one of them out"}


def told(refusal: Refusal, gauges: Gauges) -> Told:
    """A refusal in the list's own words."""
    place = refusal.place
    where = ""
    if place is not None:
        where = f", {place.words}"
        if place.gauge is not None:
            where = where.replace(f"gauge {place.gauge} at", f"{gauges.called(place.gauge)}, at")
    helps = HELP.get(refusal.number)
    return Told(f"refused {refusal.number}: {refusal.words}{where}" + (f": {helps}" if helps else "")
                + (f" (docs/use/RULES.md, rule {refusal.number}, says what to do)" if refusal.number < 100 else ""))


def made(gauges: Gauges, box: Box, way: Optional[str] = None, mesh: Optional[Mesh] = None) -> Pieces:
    """The pieces, or why there are none. Those of a build have their corners joined: what is joined is what is certified and printed."""
    try:
        return joined(pieces(gauges.points, box, mesh, way))
    except Refusal as refusal:
        raise told(refusal, gauges) from None
    except MissingScipy as missing:
        raise Told(str(missing), FAILED) from None


def joined(found: Pieces) -> Pieces:
    return found.joined() if found.way == "voronoice" else found


def bits_of(found: Pieces) -> int:
    """The certificate's bits, where none are asked for: pieces of a build were joined."""
    return rooms.JOINED_BITS if found.way == "voronoice" else rooms.CERTIFY_BITS


def certified(found: Pieces, gauges: Gauges, unit: str, bits: Optional[int] = None) -> tuple[Certificate, list[str]]:
    """The certificate, and the lines that are said of the whole."""
    try:
        verdict = found.certify(bits_of(found) if bits is None else bits)
    except Refusal as refusal:
        raise told(refusal, gauges) from None
    empty = int(((found.offsets[1:] - found.offsets[:-1]) < 3).sum())
    # of certified pieces the exact areas add up to exactly the box's (docs/trust/PUBLIC.md, voronoi_certify)
    missing = "0 of the box is missing, by proof" if verdict.sound else f"{1 - math.fsum(found.areas) / found.box_area:.3g} of the box is missing"
    lost = f"; {found.lost} of its corners lost" if found.lost is not None else ""
    lines = [f"{len(found):,} gauges; {missing}{lost}; {empty:,} pieces empty"]
    if verdict.sound:
        return verdict, lines + [verdict.told(gauges.called, unit)]
    if found.lost:
        lines.append("perhaps a side of a piece runs into a corner of the box: make the box larger by an odd fraction, such as .375")
    return verdict, lines + [f"FAULT: {verdict.told(gauges.called, unit)}"]


def turned(mesh: Mesh) -> str:
    """How many triangles turn the wrong way or are flat, in words; nothing where none does."""
    import numpy
    from ..library import library
    areas = numpy.empty(len(mesh.triangles))
    starts = numpy.arange(0, 3 * len(mesh.triangles) + 1, 3, dtype=numpy.uint32)
    number, = library().call("voronoi_areas", mesh.sites, starts, mesh.triangles, areas)
    wrong = (~(areas > 0)).nonzero()[0].tolist()
    if number or not wrong:
        return ""
    return (f"{len(wrong):,} of {len(areas):,} triangles turn the wrong way, or are flat; the lowest is triangle {wrong[0]} "
            "(docs/use/RULES.md, \"Terms\", says how to turn a mesh)")
