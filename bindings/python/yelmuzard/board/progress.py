"""A line of progress on a terminal, for what takes over a second."""
from __future__ import annotations

import sys
import time


class Progress:
    """Says every half second how far it is, from the first second on; nothing where standard error is no terminal."""

    def __init__(self, what: str, whole: int) -> None:
        self.what, self.whole = what, max(1, whole)
        self.began = self.last = time.monotonic()
        self.shown = False
        self.terminal = sys.stderr.isatty()

    def at(self, done: int) -> None:
        now = time.monotonic()
        if not self.terminal or now - self.began < 1 or now - self.last < .5:
            return
        self.last, self.shown = now, True
        left = (now - self.began) * (self.whole - done) / max(1, done)
        sys.stderr.write(f"\r{self.what}: {100 * done // self.whole} %, some {left:.0f} s left \x1b[K")
        sys.stderr.flush()

    def end(self) -> None:
        if self.shown:
            sys.stderr.write("\r\x1b[K")
            sys.stderr.flush()
