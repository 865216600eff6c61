"""A table as boards have them: commas, semicolons or tabs between the columns, Excel's `sep=`, quoted fields whole, comments, a header or none."""
from __future__ import annotations

import csv
import dataclasses
import math
import re
from typing import Iterator, Optional

from ..rooms import FAR
from .told import Told

MARKS = "\t;,"
LIKE_A_NUMBER = re.compile(r"[+-]?[.,]?\d[\d.,]*([eE][+-]?\d+)?|[+-]?(nan|inf(inity)?)", re.I | re.ASCII)
DECIMAL_COMMA = re.compile(r"[+-]?[\d.]*,\d+", re.ASCII)
THOUSANDS = re.compile(r"[+-]?\d{1,3}(,\d{3})+\.\d*", re.ASCII)
CONTROL = re.compile(r"[\0-\x1f\x7f-\x9f\u2028\u2029]")
WIDEST = 1 << 17


@dataclasses.dataclass
class Table:
    """The header, where there is one, and the rows with the line that each begins on. Cells are stripped."""

    name: str
    header: Optional[list[str]]
    rows: list[tuple[int, list[str]]]
    mark: str


def number(word: str) -> Optional[float]:
    """The finite number that the word is; None where it is none, or is beyond 2^100.

    >>> number("5812774.6"), number("1_0"), number("nan"), number("1e31")
    (5812774.6, None, None, None)
    """
    if not word.isascii() or "_" in word:
        return None
    try:
        value = float(word)
    except ValueError:
        return None
    return value if math.isfinite(value) and abs(value) <= FAR else None


def no_number(column: str, word: str) -> str:
    """Why a cell is no number, with the way out."""
    if THOUSANDS.fullmatch(word):
        why = "commas between the thousands: write it without them"
    elif DECIMAL_COMMA.fullmatch(word):
        why = "a decimal comma: write a point"
    else:
        why = "no finite number of at most 2^100"
    return f"{column} is {word[:40]!r}, {why}"


def text_of(name: str, data: bytes) -> str:
    try:
        return data.decode("utf-8-sig")
    except UnicodeDecodeError as error:
        line = data.count(b"\n", 0, error.start) + 1
        raise Told(f"{name}, line {line}: a byte that is no UTF-8: save the file as UTF-8") from None


def records(text: str) -> Iterator[tuple[int, str]]:
    """The records of a text with the line of each: a quoted field may run over lines, a line that begins with # is a comment."""
    held, began, quoted = "", 0, False
    for line, words in enumerate(re.split(r"\r\n|\r|\n", text), 1):
        if not quoted and (not words.strip() or words.lstrip().startswith("#")):
            continue
        if not quoted:
            held, began = words, line
        else:
            held += "\n" + words
        quoted = held.count('"') % 2 == 1
        if not quoted:
            yield began, held
        elif len(held) > WIDEST:
            raise Told(f"line {began}: a quote that is not closed, or a field of more than {WIDEST:,} letters")
    if quoted:
        raise Told(f"line {began}: a quote that is not closed")


def cells_of(record: str, mark: str) -> list[str]:
    """
    >>> cells_of('7;"Pumpwerk #3; Nord";2', ";")
    ['7', 'Pumpwerk #3; Nord', '2']
    """
    cells = next(csv.reader([record] if "\n" not in record else record.splitlines(True), delimiter=mark, skipinitialspace=True))
    return [" ".join(cell.split()) if "\n" in cell or "\t" in cell else cell.strip() for cell in cells]


def mark_of(record: str) -> str:
    """What stands between the columns of the first record: that which gives the most columns, of those whose first two are both numbers or both words."""
    found = []
    for mark in MARKS:
        cells = cells_of(record, mark)
        if len(cells) > 1:
            found.append((all(number(cell) is not None for cell in cells[:2]), mark in "\t;", len(cells), mark))
    return max(found)[3] if found else ","


def is_header(cells: list[str]) -> bool:
    """Whether a first row is one: no cell of it looks like a number, and one is not empty."""
    return any(cells) and not any(LIKE_A_NUMBER.fullmatch(cell) for cell in cells)


def read(name: str, data: bytes, header: Optional[bool] = None) -> Table:
    """The table of a file's bytes; `header` says whether it has one, and is found out where it is not said."""
    rows, head, mark, first = [], None, None, True
    shown = name.split("/")[-1]
    old = csv.field_size_limit(WIDEST)
    try:
        for line, record in records(text_of(shown, data)):
            try:
                if first and re.fullmatch(r'"?sep=(.)"?', record.strip(" "), re.I):
                    mark = record.strip(" \"")[4:] if record.strip(" \"")[4:] in MARKS else None
                    continue
                mark = mark or mark_of(record)
                cells = cells_of(record, mark)
            except csv.Error as error:
                raise Told(f"line {line}: {error}") from None
            if any(CONTROL.search(cell) for cell in cells):
                cell = next(cell for cell in cells if CONTROL.search(cell))
                raise Told(f"line {line}: {cell[:40]!r} has a control character")
            if first and (is_header(cells) if header is None else header):
                head, first = cells, False
                continue
            first = False
            rows.append((line, cells))
    except Told as told:
        raise Told(f"{shown}, {told}" if str(told).startswith("line ") else str(told), told.status) from None
    finally:
        csv.field_size_limit(old)
    if head is not None:
        while head and not head[-1]:
            head = head[:-1]
    return Table(shown, head, rows, mark or ",")
