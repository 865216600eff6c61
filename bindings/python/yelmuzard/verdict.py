"""What the certificate, the audit and `why` say of pieces, in numbers and in words. Gauges are numbered from 0, as in the list of points."""
from __future__ import annotations

from typing import Callable, NamedTuple, Optional

from . import clearance
from .refusal import Place

AUDIT = ("sound", "a ring does not run once round", "a corner is outside the box", "a corner is nearer to another gauge", "the pieces do not add up to the box",
         "two gauges stand at one place")
CERTIFY = ("certified", "a corner is outside the box", "a side is no other piece's", "the pieces do not go round the box once",
           "a corner is nearer to another gauge", "two gauges stand at one place")


def certified(apart: float, unit: str = "") -> str:
    """
    >>> certified(.0019, "m")
    'certified: every place that is nearer to one gauge by more than 1.9 mm is in its piece, once'
    """
    return f"certified: every place that is nearer to one gauge by more than {clearance.words(apart, unit)} is in its piece, once"


class Certificate(NamedTuple):
    """Kind 0, `certified`: every place of the box that is nearer to one gauge than to any other by more than `apart`, in the coordinates' unit, lies in the piece of that
    gauge, once, and in no other. Else the first fault: its kind, the gauge, the vertex and where that is, the other gauge."""

    kind: int
    words: str
    gauge: Optional[int]
    vertex: Optional[int]
    corner: Optional[tuple[float, float]]
    other: Optional[int]
    bits: int
    apart: float

    @property
    def sound(self) -> bool:
        return self.kind == 0

    def told(self, called: Callable[[int], str], unit: str = "") -> str:
        """The verdict in words; `called` names a gauge by its number.

        >>> fault = Certificate(4, CERTIFY[4], 0, 17, (3.0, 4.0), 2, 32, 1e-9)
        >>> fault.told("gauge {}".format)
        'kind 4, the corner 3 4 (vertex 17) of the piece of gauge 0 is nearer to gauge 2'
        """
        if self.sound:
            return certified(self.apart, unit)
        own = "" if self.gauge is None else called(self.gauge)
        at = "" if self.corner is None else f"the corner {self.corner[0]:.9g} {self.corner[1]:.9g} (vertex {self.vertex}) of the piece of {own}"
        if self.kind == 1:
            return f"kind 1, {at} is outside the box"
        if self.kind == 2:
            return f"kind 2, the side that starts at {at} is no other piece's"
        if self.kind == 3:
            return f"kind 3, {self.words}"
        other = "" if self.other is None else called(self.other)
        return f"kind 4, {at} is nearer to {other}" if self.kind == 4 else f"kind 5, {other} and {own} stand at one place"

    def __str__(self) -> str:
        return self.told("gauge {}".format)


class Verdict(NamedTuple):
    """The audit's: `sound`, or the first fault: its kind, gauge, corner and the other gauge; `missing` is the share of the box that no piece covers."""

    kind: int
    words: str
    gauge: Optional[int]
    corner: Optional[tuple[float, float]]
    other: Optional[int]
    missing: float
    bits: int

    @property
    def sound(self) -> bool:
        return self.kind == 0

    def __str__(self) -> str:
        if self.sound:
            return f"sound to 2^-{self.bits}"
        if self.corner is not None:
            end = f" is nearer to gauge {self.other}" if self.other is not None else " is outside the box"
            return f"the corner {self.corner[0]:.9g} {self.corner[1]:.9g} of the piece of gauge {self.gauge}" + end
        if self.other is not None:
            return f"gauges {self.other} and {self.gauge} stand at one place"
        if self.gauge is not None:
            return f"the piece of gauge {self.gauge}: {self.words}"
        return self.words


class Reason(NamedTuple):
    """What `why` says: the refusal's number (0 for none), a kind, and the place."""

    number: int
    kind: int
    place: Optional[Place]
    words: str

    def __str__(self) -> str:
        return self.words
