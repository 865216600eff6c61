"""The style that a GeoPackage carries for QGIS: seven classes by area, or by a value, with the gauges' names as labels. And the date of a map."""
from __future__ import annotations

import datetime
import math
import os
from html import escape

from . import colours
from .answer import Answer

CLASSES = 7
MOST_LABELS = 500


def now() -> datetime.datetime:
    """The present, or the moment that SOURCE_DATE_EPOCH names, so that a file can be made again to the byte."""
    given = os.environ.get("SOURCE_DATE_EPOCH", "")
    zone = datetime.timezone.utc
    return datetime.datetime.fromtimestamp(int(given), zone) if given.isdigit() else datetime.datetime.now(zone)


def steps(answer: Answer) -> tuple[str, list[float]]:
    """The column that is coloured by, and the bounds of its classes."""
    if answer.values is not None:
        known = [v for v in answer.values if v is not None] or [0.0]
        low, high = min(known), max(known)
        return answer.value_name, [low + (high - low) * k / CLASSES for k in range(CLASSES + 1)]
    sizes = [a for a in answer.areas if a > 0] or [1.0]
    low, high = math.log(min(sizes)), math.log(max(sizes))
    bounds = [math.exp(low + (high - low) * k / CLASSES) for k in range(CLASSES + 1)]
    return "area", [0.0] + bounds[1:-1] + [max(sizes) * (1 + 1e-12)]


def qml(answer: Answer) -> str:
    """QGIS's own words for it."""
    column, bounds = steps(answer)
    shade = colours.by_value if answer.values is not None else colours.by_size
    out = ['<!DOCTYPE qgis PUBLIC \'http://mrcc.com/qgis.dtd\' \'SYSTEM\'>', '<qgis version="3.22" styleCategories="Symbology|Labeling">',
           f'<renderer-v2 type="graduatedSymbol" attr="{escape(column)}" graduatedMethod="GraduatedColor" symbollevels="0" enableorderby="0" forceraster="0">', "<ranges>"]
    unit = f" {answer.unit}²" if answer.unit and answer.values is None else ""
    for k, (low, high) in enumerate(zip(bounds, bounds[1:])):
        out.append(f'<range symbol="{k}" lower="{low!r}" upper="{high!r}" label="{low:,.4g} to {high:,.4g}{escape(unit)}" render="true"/>')
    out += ["</ranges>", "<symbols>"]
    for k in range(CLASSES):
        red, green, blue = (int(shade(k / (CLASSES - 1))[i:i + 2], 16) for i in (1, 3, 5))
        options = {"color": f"{red},{green},{blue},255", "outline_color": "70,84,95,255", "outline_width": "0.2", "outline_style": "solid", "style": "solid"}
        out.append(f'<symbol type="fill" name="{k}" alpha="1" clip_to_extent="1" force_rhr="0"><layer class="SimpleFill" enabled="1" pass="0" locked="0"><Option type="Map">'
                   + "".join(f'<Option type="QString" name="{key}" value="{value}"/>' for key, value in options.items()) + "</Option>"
                   + "".join(f'<prop k="{key}" v="{value}"/>' for key, value in options.items()) + "</layer></symbol>")
    out += ["</symbols>", "</renderer-v2>"]
    if len(answer.gauges) <= MOST_LABELS:
        field = "name" if any(answer.gauges.names) else "id"
        out.append(f'<labeling type="simple"><settings calloutType="simple"><text-style fieldName="{field}" fontSize="8" fontFamily="Sans" textColor="34,49,63,255" isExpression="0">'
                   '<text-buffer bufferDraw="1" bufferSize="0.8" bufferColor="255,255,255,255"/></text-style></settings></labeling>')
    return "\n".join(out + ["<layerGeometryType>2</layerGeometryType>", "</qgis>"]) + "\n"
