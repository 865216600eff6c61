"""The rollup: for each day and box the readings times the pieces, each certified, and whether the day is whole.

By default the pieces of a day are those of the gauges that reported: one mesh for each set of gauges, kept. With `fixed` they are those of all gauges, and
what a silent gauge's piece would have had is missing from the total: the share says how much. A total is the exact sum of the exact products of readings and areas,
rounded once, so that the order of rows makes no difference.
"""
from __future__ import annotations

import csv
import dataclasses
import io
import math
from typing import Optional

import numpy

from ..mesh import Mesh, made as mesh_of
from ..pieces import default_way, pieces
from ..refusal import Refusal
from . import making
from .boxes import Box
from .gauges import Gauges
from .progress import Progress
from .readings import Readings, calendar

SHORT = 2.0 ** -20
HEAD = ["day", "total", "mean", "gauges", "silent", "share", "verdict"]


@dataclasses.dataclass
class Row:
    """A day in a box. `total` and `mean` are None where no gauge reported."""

    day: str
    sheet: str
    total: Optional[float]
    mean: Optional[float]
    reported: int
    silent: int
    share: float
    verdict: str

    @property
    def whole(self) -> bool:
        return self.verdict == "whole"


def exact_sum(values: numpy.ndarray, areas: numpy.ndarray) -> float:
    """The sum of the products, exact and rounded once.

    >>> exact_sum(numpy.array([.1, .1, .1]), numpy.array([1e17, -1e17, 1.0]))
    0.1
    """
    product = values * areas
    # each product and what its rounding left (Dekker 1971): their sum is the exact product, where nothing over- or underflows
    big = 134217729.0
    high, other = values * big, areas * big
    a = high - (high - values)
    b = other - (other - areas)
    rest = (values - a) * (areas - b) - (((product - a * b) - (values - a) * b) - a * (areas - b))
    return math.fsum(product.tolist() + rest.tolist())


Areas = tuple[Optional[numpy.ndarray], str]


class Sheets:
    """The pieces of each set of gauges in each box, made once and kept."""

    def __init__(self, gauges: Gauges, boxes: list[tuple[str, Box]], way: Optional[str]) -> None:
        self.gauges, self.boxes, self.way = gauges, boxes, way or default_way()
        self.kept: dict[bytes, list[Areas]] = {}
        self.apart = 0.0  # of all certificates the largest length

    def areas(self, reported: numpy.ndarray) -> list[Areas]:
        """For each box the area of each gauge's piece (0 of those that did not report), None where they are refused; and a fault in words."""
        key = numpy.packbits(reported).tobytes()
        found = self.kept.get(key)
        if found is None:
            found = self.kept[key] = self.made(numpy.nonzero(reported)[0])
        return found

    def made(self, which: numpy.ndarray) -> list[Areas]:
        some = Gauges(self.gauges.file, [self.gauges.ids[k] for k in which], [self.gauges.names[k] for k in which], self.gauges.points[which],
                      [self.gauges.lines[k] for k in which], [], [[] for _ in which], self.gauges.known)
        mesh: Optional[Mesh] = None
        out: list[Areas] = []
        for _, box in self.boxes:
            try:
                mesh = mesh or mesh_of(some.points, self.extent(), ghosts=self.way == "cut")
                found = making.joined(pieces(some.points, box, mesh, self.way))
            except Refusal as refusal:
                out.append((None, str(making.told(refusal, some))))
                continue
            verdict = found.certify(making.bits_of(found))
            self.apart = max(self.apart, verdict.apart)
            areas = numpy.zeros(len(self.gauges))
            areas[which] = found.areas
            out.append((areas, "" if verdict.sound else f"fault: {verdict.told(some.called)}"))
        return out

    def extent(self) -> Box:
        """A box round all boxes: the mesh's ghosts are outside of it."""
        edges = numpy.array([box for _, box in self.boxes])
        return (*edges[:, :2].min(0).tolist(), *edges[:, 2:].max(0).tolist())  # type: ignore[return-value]


def rows(readings: Readings, sheets: Sheets, fixed: bool = False) -> list[Row]:
    """A row for each day and box."""
    boxes = sheets.boxes
    everyone = numpy.ones(len(readings.gauges), bool)
    days = calendar(list(readings.days))
    progress = Progress("the rollup", len(days))
    nothing = numpy.full(len(readings.gauges), math.nan)
    out = []
    for place, day in enumerate(days):
        progress.at(place)
        values = readings.days.get(day, nothing)
        reported = ~numpy.isnan(values)
        count = int(reported.sum())
        if not count:
            out += [Row(day, sheet, None, None, 0, len(values), 0.0, "no reading") for sheet, _ in boxes]
            continue
        for (sheet, box), (areas, fault) in zip(boxes, sheets.areas(everyone if fixed else reported)):
            if areas is None:
                out.append(Row(day, sheet, None, None, count, len(values) - count, 0.0, fault))
                continue
            total = exact_sum(values[reported], areas[reported])
            whole = (box[2] - box[0]) * (box[3] - box[1])
            heard = math.fsum(areas[reported].tolist()) / whole
            share = 1.0 if abs(heard - 1) <= 2.0 ** -40 else heard
            if fault:
                verdict = fault
            elif abs(1 - share) > SHORT:
                verdict = f"not whole: {100 * (1 - share):.4g} % of the box has no reading"
            else:
                verdict = "whole"
            out.append(Row(day, sheet, total, total / whole, count, len(values) - count, share, verdict))
    progress.end()
    return out


def csv_of(found: list[Row], sheeted: bool) -> str:
    """rollup.csv; numbers so that they are read back to the bit, the share to nine digits."""
    out = io.StringIO()
    writer = csv.writer(out, lineterminator="\n")
    writer.writerow(HEAD[:1] + ["sheet"] * sheeted + HEAD[1:])
    for row in found:
        numbers = ["" if value is None else repr(value) for value in (row.total, row.mean)]
        writer.writerow([row.day] + [row.sheet] * sheeted + numbers + [row.reported, row.silent, f"{row.share:.9f}", row.verdict])
    return out.getvalue()
