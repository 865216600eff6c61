"""Boxes: one by its edges or round the gauges, or several sheets by a table or a GeoPackage layer."""
from __future__ import annotations

import json
import math
import subprocess
from typing import Optional

from . import columns, files, table
from .gauges import Gauges
from .told import FAILED, Told

Box = tuple[float, float, float, float]
SHARE = .05  # of the extent, round all gauges


def checked(edges: list[float], where: str) -> Box:
    """The box, where its edges are in order."""
    west, south, east, north = edges
    if not all(map(math.isfinite, edges)) or max(abs(edge) for edge in edges) > 2.0 ** 100:
        raise Told(f"{where}: an edge is no finite number of at most 2^100")
    if not (west < east and south < north):
        turned = " (the order is WEST SOUTH EAST NORTH)" if west < north and south < east else ""
        raise Told(f"{where}: WEST must be below EAST and SOUTH below NORTH{turned}")
    if not (east - west) * (north - south) > 0 or math.isinf((east - west) * (north - south)):
        raise Told(f"{where}: a box of no area that can be reckoned with")
    return west, south, east, north


def around(gauges: Gauges, share: float) -> Box:
    """A box round all gauges; each side has a little more than the one before, so that on even lists no side of a piece runs into a corner."""
    (west, south), (east, north) = gauges.points.min(0).tolist(), gauges.points.max(0).tolist()
    wide = (east - west) or (north - south) or 1.0
    tall = (north - south) or (east - west) or 1.0
    across, down = share * wide, share * tall
    return checked([west - across, south - down * (1 + 1 / 37), east + across * (1 + 2 / 37), north + down * (1 + 3 / 37)], "the box round the gauges")


def size(box: Box, unit: str) -> str:
    """
    >>> size((320000, 5800000, 430000, 5890000), "m")
    'the box 320000 5800000 430000 5890000, 110 by 90 km'
    """
    across, down = box[2] - box[0], box[3] - box[1]
    if unit == "m" and max(across, down) >= 1000:
        across, down, unit = across / 1000, down / 1000, "km"
    return f"the box {' '.join(f'{edge:.12g}' for edge in box)}, {across:.6g} by {down:.6g} {unit}".rstrip()


def sheets(name: str) -> list[tuple[str, Box]]:
    """The sheets of a table with the columns name, west, south, east, north (or xmin, ymin, xmax, ymax), or of a GeoPackage layer FILE.gpkg[:LAYER]."""
    file, _, layer = name.partition(".gpkg:")
    if name.endswith(".gpkg") or layer:
        found = of_layer(file + (".gpkg" if layer else ""), layer or None)
    else:
        found = of_table(table.read(name, files.read(name), header=True))
    if not found:
        raise Told(f"{name}: no sheet")
    seen: set[str] = set()
    for sheet, _ in found:
        if sheet in seen:
            raise Told(f"{name}: two sheets are called {sheet!r}")
        seen.add(sheet)
    return found


def of_table(given: table.Table) -> list[tuple[str, Box]]:
    header = given.header or []
    called = columns.found(header, columns.SHEET, given.name)
    edges = [columns.found(header, names, given.name) for names in (columns.WEST, columns.SOUTH, columns.EAST, columns.NORTH)]
    if called is None or None in edges:
        raise Told(f"{given.name}: the columns name, west, south, east and north are wanted (or xmin, ymin, xmax, ymax); there are {', '.join(header)}")
    out = []
    for line, row in given.rows:
        values = []
        for place in (edge for edge in edges if edge is not None):
            word = row[place] if place < len(row) else ""
            value = table.number(word)
            if value is None:
                raise Told(f"{given.name}, line {line}: {table.no_number(header[place], word)}")
            values.append(value)
        out.append((row[called], checked(values, f"{given.name}, line {line}")))
    return out


def of_layer(name: str, layer: Optional[str]) -> list[tuple[str, Box]]:
    """By GDAL: each feature is a rectangle with its sides along the axes, named by its column name, sheet or id."""
    files.read(name)
    words = ["ogr2ogr", "-f", "GeoJSON", "/vsistdout/", name] + ([layer] if layer else []) + ["-lco", "COORDINATE_PRECISION=17", "-lco", "RFC7946=NO"]
    try:
        ran = subprocess.run(words, stdout=subprocess.PIPE, stderr=subprocess.PIPE)
    except FileNotFoundError:
        raise Told("ogr2ogr is missing (Debian package gdal-bin)", FAILED) from None
    if ran.returncode:
        raise Told(f"{name}: {ran.stderr.decode(errors='replace').strip().splitlines()[-1:] or ['ogr2ogr failed']}", FAILED)
    out = []
    for place, feature in enumerate(json.loads(ran.stdout)["features"], 1):
        facts = {columns.plain(key): value for key, value in (feature.get("properties") or {}).items()}
        sheet = str(next((facts[key] for key in columns.SHEET if facts.get(key) is not None), place))
        out.append((sheet, checked(rectangle(feature.get("geometry") or {}, f"{name}, sheet {sheet}"), f"{name}, sheet {sheet}")))
    return out


def rectangle(geometry: dict, where: str) -> list[float]:
    rings = geometry.get("coordinates") or []
    if geometry.get("type") == "MultiPolygon" and len(rings) == 1:
        rings = rings[0]
    ring = {tuple(point[:2]) for point in rings[0]} if len(rings) == 1 else set()
    xs, ys = sorted({x for x, _ in ring}), sorted({y for _, y in ring})
    if len(xs) != 2 or len(ys) != 2 or len(ring) != 4:
        raise Told(f"{where}: no rectangle along the axes: cut the pieces by its shape afterwards (ST_Intersection, or QGIS's Clip)")
    return [xs[0], ys[0], xs[1], ys[1]]
