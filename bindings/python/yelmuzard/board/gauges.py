"""A list of gauges: each with its id, its name, its coordinates, the line that it stands on, and every other column as it came in."""
from __future__ import annotations

import dataclasses
import math
from typing import Optional

import numpy

from ..rooms import MOST_SITES
from . import columns
from .table import Table, no_number, number
from .told import Told, counted

OWN = ("id", "name", "x", "y", "area", "share", "geometry")
DEGREES = ("degrees are no plane: a piece in degrees is not the nearest ground. Project the list first, into metres, such as\n"
           "  ogr2ogr -f CSV gauges_m.csv {file} -oo X_POSSIBLE_NAMES={x} -oo Y_POSSIBLE_NAMES={y} -s_srs EPSG:4326 -t_srs EPSG:32633 -lco GEOMETRY=AS_XY\n"
           "  (EPSG:32633 is UTM 33 north: take your own zone), or say --degrees to have pieces by degrees all the same")


@dataclasses.dataclass
class Gauges:
    """The gauges of a list, in its order. `more` names the other columns, `cells` has them for each gauge. `known` says what an id is: "id", "name" or "place"."""

    file: str
    ids: list[str]
    names: list[str]
    points: numpy.ndarray
    lines: list[int]
    more: list[str]
    cells: list[list[str]]
    known: str

    def __len__(self) -> int:
        return len(self.ids)

    def called(self, gauge: int) -> str:
        """A gauge in words: its id, its name where that is another, and its line."""
        name = f" ({self.names[gauge]})" if self.names[gauge] and self.names[gauge] != self.ids[gauge] else ""
        return f"gauge {self.ids[gauge]}{name}, line {self.lines[gauge]}"


@dataclasses.dataclass
class Asked:
    """The columns that options name."""

    x: Optional[str] = None
    y: Optional[str] = None
    id: Optional[str] = None
    name: Optional[str] = None
    degrees: bool = False


def of(table: Table, asked: Asked = Asked()) -> Gauges:
    """The gauges of a table."""
    if not table.rows:
        raise Told(f"{table.name}: no gauge: a header and a line for each gauge are wanted")
    places = by_header(table, asked) if table.header else by_place(table, asked)
    found = read(table, *places)
    if len(found) > MOST_SITES:
        raise Told(f"{table.name}: {len(found):,} gauges: at most {MOST_SITES:,} are taken; cut the area into sheets that overlap")
    return found


Places = tuple[int, int, Optional[int], Optional[int]]


def by_header(table: Table, asked: Asked) -> Places:
    """The places of x, y, id and name, by the header."""
    header, name = table.header or [], table.name
    x = columns.named(header, asked.x, "--x", name) if asked.x else columns.found(header, columns.X, name)
    y = columns.named(header, asked.y, "--y", name) if asked.y else columns.found(header, columns.Y, name)
    if x is None or y is None:
        lon, lat = columns.found(header, columns.LON, name), columns.found(header, columns.LAT, name)
        if lon is not None and lat is not None and x is None and y is None:
            if not asked.degrees:
                raise Told(f"{name}: the columns {header[lat]} and {header[lon]} are degrees, and " + DEGREES.format(file=name, x=header[lon], y=header[lat]))
            x, y = lon, lat
        else:
            what = "x and y" if x is None and y is None else "x" if x is None else "y"
            raise Told(f"{name}: no column is called {what} (or easting, northing, rechtswert, hochwert ..); there are {', '.join(header)}: "
                       "say which they are with --x NAME --y NAME")
    if x == y:
        raise Told(f"{name}: x and y are one column, {header[x]!r}")
    own = (x, y)
    id_ = columns.named(header, asked.id, "--id", name) if asked.id else columns.found(header, columns.ID, name, own)
    called = columns.named(header, asked.name, "--name", name) if asked.name else columns.found(header, columns.NAME, name, own + ((id_,) if id_ is not None else ()))
    return x, y, id_, called


def by_place(table: Table, asked: Asked) -> Places:
    """x, y and perhaps a name, where there is no header: a list that counts its lines, or has more columns, is refused with the way out."""
    if asked.x or asked.y or asked.id or asked.name:
        raise Told(f"{table.name}: no line names the columns, so --x, --y, --id and --name name nothing: write a first line such as id,name,x,y")
    wide = max(len(row) for _, row in table.rows)
    counts = [number(row[0]) for _, row in table.rows]
    if wide > 2 and len(counts) > 2 and all(c is not None for c in counts) and all(b - a == 1 for a, b in zip(counts, counts[1:])):  # type: ignore[operator]
        raise Told(f"{table.name}: no line names the columns, and the first counts {counts[0]:g}, {counts[1]:g}, {counts[2]:g} ..: an id? "
                   "Write a first line such as id,x,y or x,y,name")
    if wide > 3:
        line = next(line for line, row in table.rows if len(row) == wide)
        raise Told(f"{table.name}, line {line}: {wide} columns, and no line names them: write a first line such as id,name,x,y (or are there decimal commas?)")
    first = table.rows[0][1]
    if len(first) > 1 and any(number(cell) is None for cell in first[:2]) and number(first[0]) is None and len(first) > 2 and number(first[1]) is not None:
        raise Told(f"{table.name}: no line names the columns, and the first is no number: write a first line such as name,x,y")
    return 0, 1, None, 2 if wide > 2 else None


def read(table: Table, x: int, y: int, id_: Optional[int], name: Optional[int]) -> Gauges:
    header = table.header
    width = len(header) if header else 3
    others = [place for place in range(len(header) if header else 0) if place not in (x, y, id_, name)]
    points, ids, names, lines, cells = [], [], [], [], []
    called = [header[x], header[y]] if header else ["x", "y"]
    for line, row in table.rows:
        while len(row) > width and not row[-1]:
            row = row[:-1]
        if len(row) > width:
            raise Told(f"{table.name}, line {line}: {len(row)} columns, and the header has {width}: are there decimal commas?" if header
                       else f"{table.name}, line {line}: {len(row)} columns, and x, y and a name are wanted")
        row = row + [""] * (width - len(row))
        both = []
        for place, axis in ((x, called[0]), (y, called[1])):
            value = number(row[place])
            if value is None:
                if not row[place]:
                    raise Told(f"{table.name}, line {line}: {axis} is empty" + ("" if header else ": x and y are wanted, with commas, semicolons or tabs between them"))
                raise Told(f"{table.name}, line {line}: {no_number(axis, row[place])}")
            both.append(value)
        points.append(both)
        lines.append(line)
        ids.append(row[id_] if id_ is not None else "")
        names.append(row[name] if name is not None else "")
        cells.append([row[place] for place in others])
    known = identify(table.name, ids, names, lines, id_ is not None)
    return Gauges(table.name, ids, names, numpy.array(points, float).reshape(-1, 2) + 0.0, lines, kept_names([header[p] for p in others] if header else []), cells, known)


def identify(file: str, ids: list[str], names: list[str], lines: list[int], has_id: bool) -> str:
    """Ids that are none yet become the names, where each has one of its own, else the place in the list, from 1 on; two gauges of one id are told."""
    if has_id:
        seen: dict[str, int] = {}
        for id_, line in zip(ids, lines):
            if not id_:
                raise Told(f"{file}, line {line}: the id is empty")
            if id_ in seen:
                raise Told(f"{file}, line {line}: the id {id_!r} stands on line {seen[id_]} too")
            seen[id_] = line
        return "id"
    if all(names) and len(set(names)) == len(names):
        ids[:] = names
        return "name"
    ids[:] = [str(place) for place in range(1, len(ids) + 1)]
    return "place"


def kept_names(names: list[str]) -> list[str]:
    """The other columns' names, each once and none of our own.

    >>> kept_names(["area", "since", "since", ""])
    ['area_in', 'since', 'since_2', 'column']
    """
    out: list[str] = []
    for name in names:
        name = name or "column"
        name = f"{name}_in" if name.lower() in OWN + ("fid", "geom") else name
        base, again = name, 2
        while name.lower() in [o.lower() for o in out]:
            name, again = f"{base}_{again}", again + 1
        out.append(name)
    return out


def twins(gauges: Gauges, box: tuple[float, float, float, float]) -> list[str]:
    """Pairs of gauges that stand closer together than a ten-thousandth of the box's diagonal, in words; at one place they are refused."""
    near = math.hypot(box[2] - box[0], box[3] - box[1]) / 10000
    at: dict[tuple[int, int], list[int]] = {}
    told = []
    for k, (x, y) in enumerate(gauges.points.tolist()):
        i, j = math.floor(x / near), math.floor(y / near)
        for other in [o for a in (i - 1, i, i + 1) for b in (j - 1, j, j + 1) for o in at.get((a, b), ())]:
            u, v = gauges.points[other]
            apart = math.hypot(x - u, y - v)
            if apart == 0:
                raise Told(f"{gauges.file}, line {gauges.lines[k]}: stands where line {gauges.lines[other]} does ({gauges.ids[other]} and {gauges.ids[k]}): "
                           "leave one of them out, or give both readings' mean to one")
            if apart < near:
                told.append(f"lines {gauges.lines[other]} and {gauges.lines[k]}: {gauges.ids[other]} and {gauges.ids[k]} are probably one gauge, {apart:.3g} apart")
        at.setdefault((i, j), []).append(k)
    return told


def where(gauges: Gauges, box: tuple[float, float, float, float]) -> str:
    """How many gauges are in the box and how many outside; refused where x and y seem to be exchanged, or none could matter."""
    x, y = gauges.points[:, 0], gauges.points[:, 1]
    inside = int(((x >= box[0]) & (x <= box[2]) & (y >= box[1]) & (y <= box[3])).sum())
    turned = int(((y >= box[0]) & (y <= box[2]) & (x >= box[1]) & (x <= box[3])).sum())
    if turned > inside and turned * 2 > len(gauges):
        raise Told(f"{gauges.file}: {inside:,} of {len(gauges):,} gauges are in the box, and {turned:,} would be with x and y exchanged: "
                   "name the columns with --x NAME --y NAME, or the box as WEST SOUTH EAST NORTH")
    outside = len(gauges) - inside
    return counted(len(gauges), "gauge", "gauges") + (f", {outside:,} outside the box, which count too: a piece in the box may be theirs" if outside else "")
