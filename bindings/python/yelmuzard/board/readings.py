"""Readings: long (gauge, day, mm) or wide (a day and a column for each gauge). What is no reading is told by its line and never summed."""
from __future__ import annotations

import csv
import datetime
import io
import math
from typing import Iterator, Optional

import numpy

from . import columns, files, table
from .gauges import Gauges
from .progress import Progress
from .told import Told, counted, some, say

MISSING = {"", "na", "n/a", "nan", "null", "none", "-", "--", "-999", "-999.0", "-9999", "-9999.0", "-99", "-99.9", "-999.9"}
MOST_TOLD = 5  # lines of each kind of fault


class Readings:
    """For each day a reading for each gauge, NaN where it has none. `faults` counts what was told and makes a difference."""

    def __init__(self, gauges: Gauges) -> None:
        self.gauges = gauges
        self.days: dict[str, numpy.ndarray] = {}
        self.told: dict[str, list[str]] = {}
        self.missing = self.count = 0
        self.heard = numpy.zeros(len(gauges), bool)
        by_name: dict[str, list[int]] = {}
        for k, name in enumerate(gauges.names):
            by_name.setdefault(name, []).append(k)
        self.place = {name: places[0] for name, places in by_name.items() if name and len(places) == 1}
        self.place.update({id_: k for k, id_ in enumerate(gauges.ids)})
        self.doubled: set[tuple[str, int]] = set()

    def tell(self, kind: str, words: str) -> None:
        self.told.setdefault(kind, []).append(words)

    def day(self, day: str) -> numpy.ndarray:
        row = self.days.get(day)
        if row is None:
            row = self.days[day] = numpy.full(len(self.gauges), math.nan)
        return row

    def put(self, line: int, day: str, row: numpy.ndarray, gauge: int, word: str) -> None:
        """One cell."""
        self.count += 1
        try:
            value = float(word)
        except ValueError:
            value = math.nan
        if not 0 <= value < 1e30 or "_" in word:
            if word.lower() in MISSING:
                self.missing += 1
            elif value < 0:
                self.tell("negative", f"line {line}: {self.gauges.ids[gauge]} on {day}: {word} is below 0 and is taken as no reading")
            else:
                self.tell("no number", f"line {line}: {self.gauges.ids[gauge]} on {day}: {table.no_number('the reading', word)}; it is taken as none")
            return
        held = row[gauge]
        if held == held:
            if held == value:
                self.tell("twice", f"line {line}: {self.gauges.ids[gauge]} on {day} stands twice, both times {word}: it counts once")
            else:
                self.doubled.add((day, gauge))
                self.tell("doubled", f"line {line}: {self.gauges.ids[gauge]} on {day} has two readings, {held:g} and {word}: neither counts")
            return
        row[gauge] = value
        self.heard[gauge] = True

    def end(self) -> None:
        """Readings that contradict each other are none."""
        for day, gauge in self.doubled:
            self.days[day][gauge] = math.nan

    @property
    def faults(self) -> int:
        return sum(len(lines) for kind, lines in self.told.items() if kind != "twice")

    def say(self) -> None:
        for lines in self.told.values():
            for words in lines[:MOST_TOLD]:
                say(words)
            if len(lines) > MOST_TOLD:
                say(f"  .. and {len(lines) - MOST_TOLD:,} more such")
        silent = [self.gauges.ids[k] for k in numpy.nonzero(~self.heard)[0]]
        if silent:
            say(f"{counted(len(silent), 'gauge has', 'gauges have')} no reading on any day: {some(silent)}")
        quiet = sum(int(numpy.isnan(row).sum()) for row in self.days.values())
        if quiet:
            say(f"{counted(quiet, 'reading is', 'readings are')} missing: {self.missing:,} empty, NA or -999, {quiet - self.missing:,} without a line or told above")


def read(name: str, gauges: Gauges, day: Optional[str] = None, value: Optional[str] = None, gauge: Optional[str] = None) -> Readings:
    """The readings of a file. `day`, `value` and `gauge` name columns."""
    data = files.read(name)
    shown = name.split("/")[-1]
    head, mark = head_of(shown, data)
    found = Readings(gauges)
    taken = columns.named(head, day, "--day", shown) if day else columns.found(head, columns.DAY, shown)
    who = columns.named(head, gauge, "--gauge", shown) if gauge else columns.found(head, columns.ID + columns.NAME, shown)
    what = columns.named(head, value, "--value", shown) if value else columns.found(head, columns.VALUE, shown)
    wide = [(place, found.place[cell]) for place, cell in enumerate(head) if cell in found.place and place != taken]
    if taken is None:
        if len(wide) and 0 not in [place for place, _ in wide]:
            taken = 0
        else:
            raise Told(f"{shown}: no column is called day or date; there are {', '.join(head[:12])}: say which it is with --day NAME")
    progress = Progress(f"reading {shown}", data.count(b"\n") + 1)
    if (who is None or what is None) and wide and value is None:
        read_wide(found, data, mark, head, taken, wide, shown, progress)
    elif who is None or what is None:
        missing = "the gauge (--gauge NAME)" if who is None else "the reading (--value NAME)"
        raise Told(f"{shown}: no column has {missing}, and no column is called as a gauge is; there are {', '.join(head[:12])}")
    else:
        read_long(found, data, mark, taken, who, what, shown, progress)
    progress.end()
    found.end()
    if not found.days:
        raise Told(f"{shown}: no reading")
    return found


def head_of(shown: str, data: bytes) -> tuple[list[str], str]:
    """The header's cells, and what stands between them."""
    first = table.read(shown, b"\n".join(data[:1 << 20].splitlines()[:20]), header=True)
    if not first.header or len(first.header) < 2:
        raise Told(f"{shown}: a first line that names the columns is wanted, such as gauge,day,mm")
    return first.header, first.mark


def rows_of(shown: str, data: bytes, mark: str, progress: Progress) -> Iterator[tuple[int, list[str]]]:
    """The rows after the header with their lines; much faster than table.read and with no copy of the text, for there are millions."""
    reader = csv.reader(io.TextIOWrapper(io.BytesIO(data), encoding="utf-8-sig", newline=""), delimiter=mark, skipinitialspace=True)
    began = False
    try:
        for row in reader:
            line = reader.line_num
            if not row or row[0].startswith("#") or not began and row[0].lower().startswith("sep="):
                continue
            if not began:
                began = True
                continue
            if line % 4096 == 0:
                progress.at(line)
            yield line, row
    except csv.Error as error:
        raise Told(f"{shown}, line {reader.line_num}: {error}") from None
    except UnicodeDecodeError:
        table.text_of(shown, data)  # says where


def read_long(found: Readings, data: bytes, mark: str, day: int, who: int, what: int, shown: str, progress: Progress) -> None:
    last, row = None, numpy.zeros(0)
    least = max(day, who, what)
    unknown: dict[str, int] = {}
    for line, cells in rows_of(shown, data, mark, progress):
        if len(cells) <= least:
            if any(cells):
                found.tell("short", f"line {line}: {len(cells)} columns, too few")
            continue
        name = cells[day].strip()
        if name != last:
            last, row = name, found.day(name)
        gauge = found.place.get(cells[who].strip())
        if gauge is None:
            word = cells[who].strip()
            if word not in unknown:
                found.tell("unknown", f"line {line}: {word!r} is no gauge of {found.gauges.file}, and what it has read is not counted")
            unknown[word] = unknown.get(word, 0) + 1
            continue
        found.put(line, name, row, gauge, cells[what].strip())


def read_wide(found: Readings, data: bytes, mark: str, head: list[str], day: int, wide: list[tuple[int, int]], shown: str, progress: Progress) -> None:
    known = {place for place, _ in wide} | {day}
    for place, name in enumerate(head):
        if place not in known and name:
            found.tell("unknown", f"{shown}: the column {name!r} is no gauge of {found.gauges.file}, and is not counted")
    seen: dict[int, int] = {}
    for place, gauge in wide:
        if gauge in seen:
            raise Told(f"{shown}: two columns, {head[seen[gauge]]!r} and {head[place]!r}, are one gauge's")
        seen[gauge] = place
    for line, cells in rows_of(shown, data, mark, progress):
        name = cells[day].strip() if day < len(cells) else ""
        row = found.day(name)
        for place, gauge in wide:
            found.put(line, name, row, gauge, cells[place].strip() if place < len(cells) else "")


def calendar(days: list[str]) -> list[str]:
    """The days in order; where all are dates, those between the first and the last that have no line at all too.

    >>> calendar(["2026-03-01", "2026-02-27"])
    ['2026-02-27', '2026-02-28', '2026-03-01']
    >>> calendar(["b", "a"])
    ['a', 'b']
    """
    try:
        dates = sorted(datetime.date.fromisoformat(day) for day in days)
    except ValueError:
        return sorted(days)
    if (dates[-1] - dates[0]).days > 40 * 366:
        return sorted(days)
    return [(dates[0] + datetime.timedelta(k)).isoformat() for k in range((dates[-1] - dates[0]).days + 1)]
