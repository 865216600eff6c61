"""Values to colour a map by: a day's readings, or a column of the list itself."""
from __future__ import annotations

import math
from typing import Optional

from . import columns, readings
from .gauges import Gauges
from .table import number
from .told import Told

Column = tuple[str, list[Optional[float]]]


def wanted(gauges: Gauges, file: Optional[str], value: Optional[str], day: Optional[str]) -> Optional[Column]:
    """The name of what is coloured by, and the value of each gauge; None where nothing is asked for."""
    if file:
        return of_readings(gauges, file, value, day)
    if not value:
        return None
    place = columns.named(gauges.more, value, "--value", gauges.file)
    return clear(gauges, gauges.more[place]), [number(cells[place]) for cells in gauges.cells]


def clear(gauges: Gauges, name: str) -> str:
    """A name that no column of the tables has."""
    return f"{name}_value" if name in gauges.more or name in ("id", "name", "x", "y", "area", "share") else name


def of_readings(gauges: Gauges, file: str, value: Optional[str], day: Optional[str]) -> Column:
    try:
        found = readings.read(file, gauges, value=value)
    except Told as told:
        if "no column is called day" not in str(told):
            raise
        found = without_day(gauges, file, value)
    found.say()
    days = sorted(found.days)
    if day is None and len(days) > 1:
        raise Told(f"{file}: {len(days):,} days, from {days[0]} to {days[-1]}: say which one with --day DAY")
    if day is not None and day not in found.days:
        raise Told(f"{file}: no reading on {day}; there are {days[0]} to {days[-1]}")
    row = found.days[day or days[0]]
    name = " ".join(filter(None, [value or "mm", day or (days[0] if days[0] else "")]))
    return clear(gauges, name), [None if math.isnan(v) else float(v) for v in row]


def without_day(gauges: Gauges, file: str, value: Optional[str]) -> readings.Readings:
    """A table of gauge and value alone: one day without a name."""
    from . import files, table
    given = table.read(file, files.read(file), header=True)
    head = given.header or []
    who = columns.found(head, columns.ID + columns.NAME, given.name)
    what = columns.named(head, value, "--value", given.name) if value else columns.found(head, columns.VALUE, given.name)
    if who is None or what is None:
        raise Told(f"{given.name}: the columns gauge and mm are wanted; there are {', '.join(head)}: say which has the value with --value NAME")
    found = readings.Readings(gauges)
    row = found.day("")
    for line, cells in given.rows:
        gauge = found.place.get(cells[who]) if who < len(cells) else None
        if gauge is None:
            found.tell("unknown", f"line {line}: {cells[who] if who < len(cells) else ''!r} is no gauge of {gauges.file}")
        else:
            found.put(line, "", row, gauge, cells[what] if what < len(cells) else "")
    return found
