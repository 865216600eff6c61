"""The one exception: a refusal, with its number, its words and its place."""
from __future__ import annotations

from typing import NamedTuple, Optional

TWIN, STOPPED, BROKEN = 105, 106, 107

WORDS = {
    1: "the sites, triangles or hull sites are too few or too many, or a list's length does not fit",
    2: "a lent slice is shorter than its room",
    3: "the box has a size that is not above 0, edges out of order, or a number that is too large or not finite",
    4: "there is no site of that number",
    5: "the destination has a coordinate above 2^100 or not finite",
    6: "a point has a coordinate above 2^100 or not finite",
    7: "a triangle names a site that is not there, or one site twice",
    8: "two half-edges that should be each other's pair are not",
    9: "the hull is not the round of all unpaired half-edges",
    10: "the triangles at a site are not one connected fan",
    11: "a triangle is so flat that its circumcenter is not finite or is above 2^400",
    12: "a hull edge is so short that it has no direction",
    13: "an edge that leaves the box was not found to cross it",
    14: "an edge with both ends outside the box was found to cross it once",
    16: "the cells' offsets do not cut the list of indexes",
    17: "the form is broken: a record cut, out of order, or one too many",
    18: "a cell names a vertex that is not there",
    19: "two half-edges run the same way between the same two sites",
    20: "the form has no box: the unclipped mode is gone",
    21: "the file is no MultiPoint in Well-Known Binary: a wrong mark or type, an early end, or bytes left over",
    22: "a site has a whole coordinate below -8,192 or above 8,192",
    23: "the half-edge cannot be flipped, or the table is not the leftmost table",
    24: "a vertex that a cell names has a coordinate above 2^400 or not finite",
    25: "the border does not turn exactly once, the right way",
}
# of making a mesh (mesh/triangulate.h), which stands outside the proved library
MESH_WORDS = {
    TWIN: "two gauges stand at one place",
    STOPPED: "making the mesh was stopped",
    BROKEN: "no mesh came of the gauges",
}


class Place(NamedTuple):
    """Where something is: the gauge by its number and coordinates, and in words."""

    gauge: Optional[int]
    x: Optional[float]
    y: Optional[float]
    words: str


class Refusal(ValueError):
    """What cannot be answered, and why.

    >>> error = Refusal(13, Place(88, -25.0, -25.0, "in the piece of gauge 88 at (-25, -25)"))
    >>> error.number, error.place.gauge
    (13, 88)
    >>> print(error)
    refused 13: an edge that leaves the box was not found to cross it, in the piece of gauge 88 at (-25, -25)
    """

    def __init__(self, number: int, place: Optional[Place] = None) -> None:
        self.number = int(number)
        self.words = WORDS.get(self.number) or MESH_WORDS.get(self.number) or "no such number"
        self.place = place
        super().__init__(f"refused {self.number}: {self.words}" + (f", {place.words}" if place else ""))
