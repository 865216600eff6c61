"""Where names go on a picture: beside the dot or elsewhere in the piece, over no dot and no other name; where that cannot be, a number with a key."""
from __future__ import annotations

import unicodedata
from typing import Optional

from .answer import Ring
from .colours import sides

Rectangle = tuple[float, float, float, float]
Held = tuple[float, float, str]  # where a line of text is held: at x, y, by its start, middle or end


def length(word: str, size: float) -> float:
    """How wide a word is drawn, about."""
    return size * sum(1.0 if unicodedata.east_asian_width(letter) in "WF" else .6 for letter in word)


def beyond(ring: Ring, x0: float, y0: float, x1: float, y1: float) -> int:
    """How many corners of the rectangle lie outside the ring, which is convex and turns as a sound piece does with y downward."""
    return sum(any((p[1] - y) * (q[0] - x) - (p[0] - x) * (q[1] - y) < 0 for p, q in sides(ring)) for x in (x0, x1) for y in (y0, y1))


def meets(a: Rectangle, b: Rectangle) -> bool:
    return a[0] < b[2] and b[0] < a[2] and a[1] < b[3] and b[1] < a[3]


class Names:
    """Places for names, one after the other."""

    def __init__(self, size: float, wide: float, tall: float, dots: list[Rectangle]) -> None:
        self.size, self.frame, self.cells = size, (2.0, 2.0, wide - 2, tall - 2), {}  # type: ignore[var-annotated]
        for dot in dots:
            self.take(dot)

    def squares(self, here: Rectangle) -> list[tuple[int, int]]:
        step = 40.0
        return [(i, j) for i in range(int(here[0] // step), int(here[2] // step) + 1) for j in range(int(here[1] // step), int(here[3] // step) + 1)]

    def take(self, here: Rectangle) -> None:
        for square in self.squares(here):
            self.cells.setdefault(square, []).append(here)

    def free(self, here: Rectangle) -> bool:
        return not any(meets(here, taken) for square in self.squares(here) for taken in self.cells.get(square, ()))

    def rectangle(self, x: float, y: float, anchor: str, long: float) -> Rectangle:
        x -= {"start": 0, "middle": long / 2, "end": long}[anchor]
        return x, y - .8 * self.size, x + long, y + .25 * self.size

    def fits(self, ring: Ring, here: Rectangle) -> bool:
        inside = self.frame[0] <= here[0] and self.frame[1] <= here[1] and here[2] <= self.frame[2] and here[3] <= self.frame[3]
        return inside and self.free(here) and not (len(ring) > 2 and beyond(ring, *here))

    def place(self, word: str, x: float, y: float, dot: float, ring: Ring, must: bool = False) -> Optional[Held]:
        """Where the word is held; None where it does not fit, unless it must."""
        long, size = length(word, self.size), self.size
        beside: list[Held] = [(x + dot + 4, y + .36 * size, "start"), (x - dot - 4, y + .36 * size, "end"), (x, y - dot - 5, "middle"), (x, y + dot + size, "middle")]
        best = next((at for at in beside if self.fits(ring, self.rectangle(*at, long))), None)
        if best is None and len(ring) > 2 and not beyond(ring, x, y, x, y):  # elsewhere in the piece, as near to the dot as can be
            xs, ys = [p[0] for p in ring], [p[1] for p in ring]
            grid: list[Held] = [(min(xs) + i * size / 2, min(ys) + j * size / 2, "middle") for i in range(min(60, int((max(xs) - min(xs)) / size * 2)))
                                for j in range(min(60, int((max(ys) - min(ys)) / size * 2)))]
            grid.sort(key=lambda at: (at[0] - x) ** 2 + 4 * (at[1] - y) ** 2)
            best = next((at for at in grid if self.fits(ring, self.rectangle(*at, long))), None)
        if best is None and must:
            best = next((at for at in beside if self.free(self.rectangle(*at, long))), beside[0])
        if best is not None:
            self.take(self.rectangle(*best, long))
        return best
