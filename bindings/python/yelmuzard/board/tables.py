"""Pieces as tables: CSV with Well-Known Binary, and GeoJSON. Every row has id, name, x, y, area, share and all that came in; nothing goes by row number."""
from __future__ import annotations

import csv
import io
import json
from typing import Any, Union

from .answer import Answer

FIRST = ["id", "name", "x", "y", "area", "share"]


def head(answer: Answer) -> list[str]:
    """The columns before the geometry."""
    value = [answer.value_name] if answer.values is not None else []
    return FIRST + value + answer.gauges.more


def row(answer: Answer, k: int) -> list[Any]:
    gauges = answer.gauges
    x, y = gauges.points[k].tolist()
    value = [answer.values[k]] if answer.values is not None else []
    return [gauges.ids[k], gauges.names[k], x, y, answer.areas[k], answer.shares[k], *value, *gauges.cells[k]]


def csv_of(answer: Answer) -> str:
    """pieces.csv: `id,name,x,y,area,share,..,geometry`, numbers so that they are read back to the bit."""
    out = io.StringIO()
    writer = csv.writer(out, lineterminator="\n")
    writer.writerow(head(answer) + ["geometry"])
    for k in range(len(answer.gauges)):
        cells = ["" if cell is None else repr(cell) if isinstance(cell, float) else cell for cell in row(answer, k)]
        writer.writerow(cells + [answer.wkb[k].hex()])
    return out.getvalue()


def typed(column: list[str]) -> list[Union[None, int, float, str]]:
    """A column that came in as text: whole numbers or numbers, where all are written as such, else as it is. 007 stays a word.

    >>> typed(["1", "", "20"]), typed(["007", "12"]), typed(["1.50", "-3"])
    ([1, None, 20], ['007', '12'], [1.5, -3.0])
    """
    filled = [cell for cell in column if cell]
    plain = lambda cell: cell.lstrip("-").isascii() and not (cell.lstrip("-").startswith("0") and len(cell.lstrip("-").split(".")[0]) > 1)
    if filled and all(plain(cell) and cell.lstrip("-").isdigit() and len(cell) < 18 for cell in filled):
        return [int(cell) if cell else None for cell in column]
    if filled and all(plain(cell) and cell.lstrip("-").replace(".", "", 1).isdigit() for cell in filled):
        return [float(cell) if cell else None for cell in column]
    return list(column)


def columns_of(answer: Answer) -> list[list[Any]]:
    """The columns of `head`, one after the other; those that came in by what they look like."""
    rows = [row(answer, k) for k in range(len(answer.gauges))]
    columns = [list(column) for column in zip(*rows)]
    own = len(columns) - len(answer.gauges.more)
    return columns[:own] + [typed(column) for column in columns[own:]]


def geojson_of(answer: Answer) -> str:
    """A FeatureCollection; rings run counter-clockwise where y points up. A reference system is named as GDAL reads it, for RFC 7946 has degrees alone."""
    names, columns = head(answer), columns_of(answer)
    lines = ['{"type": "FeatureCollection", "name": "pieces",']
    if answer.crs:
        authority, _, code = answer.crs.partition(":")
        lines.append('"crs": ' + json.dumps({"type": "name", "properties": {"name": f"urn:ogc:def:crs:{authority}::{code}"}}) + ",")
    lines.append('"features": [')
    features = []
    for k, ring in enumerate(answer.rings):
        around = [list(point) for point in reversed(ring)]
        shape = {"type": "Polygon", "coordinates": [around + around[:1]] if len(around) > 2 else []}
        facts = {name: column[k] for name, column in zip(names, columns)}
        features.append(json.dumps({"type": "Feature", "properties": facts, "geometry": shape}, ensure_ascii=False))
    return "\n".join(lines) + "\n" + ",\n".join(features) + "\n]}\n"
