"""What is told: statuses, the exception that ends a word with one line, and lines on standard error."""
from __future__ import annotations

import sys

DONE, REFUSED, FAILED, FAULT = 0, 1, 2, 3


class Told(Exception):
    """Why a word ends without its answer, in one line; `status` is the program's."""

    def __init__(self, words: str, status: int = REFUSED) -> None:
        super().__init__(words)
        self.status = status


def say(words: str) -> None:
    """A line on standard error. Where that cannot be written there is nobody to tell."""
    try:
        sys.stderr.write(words + "\n")
        sys.stderr.flush()
    except (OSError, ValueError):
        pass


def counted(count: int, one: str, more: str) -> str:
    """
    >>> counted(1, "gauge", "gauges"), counted(2000, "gauge", "gauges")
    ('1 gauge', '2,000 gauges')
    """
    return f"{count:,} {one if count == 1 else more}"


def some(words: list[str], most: int = 5) -> str:
    """
    >>> some(["a", "b", "c"], 2)
    'a, b ..'
    """
    return ", ".join(words[:most]) + (" .." if len(words) > most else "")
