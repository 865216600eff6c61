"""The words of the command line: map, rollup, and the three steps gauges, pieces, picture."""
from __future__ import annotations

import argparse
import csv
import math
import re
from typing import Callable, Optional

from ..library import MissingLibrary
from ..verdict import certified
from ..version import VERSION
from . import answer as answers, boxes, files, gauges as lists, making, meshtext, outputs, picture, plot, readings, rollup, table, tables, values
from .boxes import Box
from .gauges import Asked, Gauges
from .told import DONE, FAILED, FAULT, REFUSED, Told, counted, say, some

Parser = argparse.ArgumentParser
MOST_TWINS = 5
AS_VORONOICE = "the build that equals voronoice's, which refuses what that panics on; its corners are joined where they are within 2^-30 of the box's reach"


def fewer(words: list[str]) -> list[str]:
    """-1e5 is a number and no option."""
    return [" " + word if re.match(r"-[\d.]", word) else word for word in words]


def list_words(parser: Parser) -> None:
    """The options of every word that reads a list of gauges."""
    parser.add_argument("file", metavar="GAUGES.csv", help="the list; its header is read")
    for name, what in (("x", "x, easting, rechtswert"), ("y", "y, northing, hochwert"), ("id", "id, station_id, gauge"), ("name", "name, station_name")):
        parser.add_argument(f"--{name}", metavar="NAME", dest=f"{name}_column", help=f"the column of {name}, where it is not called {what} or the like")
    parser.add_argument("--degrees", action="store_true", help="take lat and lon as they are: pieces by degrees, which are no plane")


def box_words(parser: Parser, several: bool) -> None:
    way = parser.add_mutually_exclusive_group()
    way.add_argument("--box", nargs=4, type=float, metavar=("WEST", "SOUTH", "EAST", "NORTH"), help="least x, least y, greatest x, greatest y; kept to the bit")
    if several:
        way.add_argument("--boxes", metavar="SHEETS", help="several: a CSV with name, west, south, east, north, or a layer of rectangles FILE.gpkg[:LAYER]")
    way.add_argument("--margin", type=float, metavar="SHARE", help="round all gauges, with so much of their extent (.05)")


def listed(given: argparse.Namespace) -> Gauges:
    asked = Asked(given.x_column, given.y_column, given.id_column, given.name_column, given.degrees)
    return lists.of(table.read(given.file, files.read(given.file)), asked)


def boxed(given: argparse.Namespace, gauges: Gauges) -> Box:
    if given.box:
        return boxes.checked(given.box, "--box")
    share = boxes.SHARE if given.margin is None else given.margin
    if not 0 <= share <= 1000:
        raise Told("--margin is a share from 0 to 1000", FAILED)
    return boxes.around(gauges, share)


def told_of(gauges: Gauges, box: Box, unit: str) -> None:
    """What is said before anything is made: the box, who is outside, probable twins."""
    say(boxes.size(box, unit))
    twins = lists.twins(gauges, box)
    say(lists.where(gauges, box))
    for words in twins[:MOST_TWINS]:
        say(words)
    if len(twins) > MOST_TWINS:
        say(f"  .. and {len(twins) - MOST_TWINS:,} more such pairs")


# ---- map


def map_words(parser: Parser) -> None:
    list_words(parser)
    box_words(parser, False)
    parser.add_argument("-o", "--output", action="append", required=True, metavar="FILE", help="map.gpkg, map.svg, pieces.csv or pieces.geojson; as many as are wanted")
    parser.add_argument("--crs", default="", metavar="EPSG:CODE", help="the reference system that the coordinates are in")
    parser.add_argument("--unit", default="m", help="of the coordinates: m (unless it is given), km ..")
    parser.add_argument("--title", default="", help="of the picture")
    parser.add_argument("--south-up", action="store_true", help="y points down, as in a picture: the picture is drawn so")
    parser.add_argument("--values", metavar="FILE.csv", help="colour the pieces by a reading of each gauge: columns gauge and mm, and day where there are several")
    parser.add_argument("--value", metavar="COLUMN", help="the column of --values, or a column of the list itself")
    parser.add_argument("--day", metavar="DAY", help="the day of --values")
    parser.add_argument("--as-voronoice", action="store_true", help=AS_VORONOICE)


def map_(given: argparse.Namespace) -> int:
    for name in given.output:
        if not outputs.known(name):
            raise Told(f"{name}: the ending says what is made, one of {', '.join(outputs.ENDINGS[:4])}", FAILED)
    gauges = listed(given)
    box = boxed(given, gauges)
    told_of(gauges, box, given.unit)
    column = values.wanted(gauges, given.values, given.value, given.day)
    found = making.made(gauges, box, "voronoice" if given.as_voronoice else None)
    verdict, lines = making.certified(found, gauges, given.unit)
    answer = answers.of(gauges, found, verdict, given.unit, given.crs)
    if column:
        answer.value_name, answer.values = column
    outputs.write(given.output, answer, given.title, not given.south_up)
    for words in lines:
        say(words)
    return DONE if verdict.sound else FAULT


# ---- rollup


def rollup_words(parser: Parser) -> None:
    list_words(parser)
    parser.add_argument("readings", metavar="READINGS.csv", help="long: gauge, day, mm; or wide: day and a column for each gauge")
    box_words(parser, True)
    parser.add_argument("-o", "--output", default="-", metavar="ROLLUP.csv", help="standard output, unless it is given")
    parser.add_argument("--day", metavar="COLUMN", help="the readings' column of the day")
    parser.add_argument("--value", metavar="COLUMN", help="the readings' column of the reading")
    parser.add_argument("--gauge", metavar="COLUMN", help="the readings' column of the gauge")
    parser.add_argument("--fixed", action="store_true", help="keep the pieces of all gauges on every day: what silent gauges would have read is missing from the total")
    parser.add_argument("--plot", metavar="ROLLUP.svg", help="the daily means as bars, days that are not whole in red")
    parser.add_argument("--title", default="", help="of the plot")
    parser.add_argument("--unit", default="m", help="of the coordinates: m (unless it is given), km ..")
    parser.add_argument("--as-voronoice", action="store_true", help=AS_VORONOICE)


def rollup_(given: argparse.Namespace) -> int:
    gauges = listed(given)
    if gauges.known == "place":
        raise Told(f"{gauges.file}: the gauges have no id and no names of their own, so that no reading can be theirs: write a column id")
    sheets = boxes.sheets(given.boxes) if given.boxes else [("", boxed(given, gauges))]
    for sheet, box in sheets[:20]:
        say((f"{sheet}: " if sheet else "") + boxes.size(box, given.unit))
    extent = (min(b[0] for _, b in sheets), min(b[1] for _, b in sheets), max(b[2] for _, b in sheets), max(b[3] for _, b in sheets))
    for words in lists.twins(gauges, extent)[:MOST_TWINS]:
        say(words)
    say(lists.where(gauges, extent))
    read = readings.read(given.readings, gauges, given.day, given.value, given.gauge)
    read.say()
    made = rollup.Sheets(gauges, sheets, "voronoice" if given.as_voronoice else None)
    found = rollup.rows(read, made, given.fixed)
    if given.plot:
        files.write(given.plot, plot.draw(found, given.title))
    files.write(given.output, rollup.csv_of(found, bool(given.boxes)))
    if made.apart and not any(row.verdict.startswith("fault") for row in found):
        say(certified(made.apart, given.unit))
    return concluded(read, found, given.fixed)


def concluded(read: readings.Readings, found: list[rollup.Row], fixed: bool) -> int:
    """The last lines, and the status."""
    short = list(dict.fromkeys(row.day for row in found if not row.whole))
    days = len(dict.fromkeys(row.day for row in found))
    for day in short[:MOST_TWINS]:
        row = next(row for row in found if row.day == day and not row.whole)
        quiet = [read.gauges.ids[k] for k, value in enumerate(read.days.get(day, [math.nan] * len(read.gauges))) if math.isnan(value)]
        say(f"{day}{', ' + row.sheet if row.sheet else ''}: {row.verdict}" + (f"; silent: {some(quiet)}" if row.reported else ""))
    if len(short) > MOST_TWINS:
        say(f"  .. and {len(short) - MOST_TWINS:,} more such days")
    mended = len({row.day for row in found if row.whole and row.silent})
    say(f"{counted(days, 'day', 'days')}: {days - len(short):,} whole, {len(short):,} not"
        + (f"; on {mended:,} the pieces are those of the gauges that reported" if mended and not fixed else ""))
    if found and all(row.verdict.startswith("refused") for row in found):
        return REFUSED
    if read.faults:
        say(f"{counted(read.faults, 'reading', 'readings')} told above did not count: mend the file")
    return FAULT if short or read.faults else DONE


# ---- the three steps


def gauges_words(parser: Parser) -> None:
    list_words(parser)
    box_words(parser, False)
    parser.add_argument("-o", "--output", default="-", metavar="MESH.txt", help="standard output, unless it is given")


def gauges_(given: argparse.Namespace) -> int:
    from ..mesh import made
    from ..qhull import MissingScipy
    from ..refusal import Refusal
    gauges = listed(given)
    box = boxed(given, gauges)
    told_of(gauges, box, "")
    try:
        mesh = made(gauges.points, box, ghosts=False)
    except Refusal as refusal:
        raise making.told(refusal, gauges) from None
    except MissingScipy as missing:
        raise Told(str(missing), FAILED) from None
    files.write(given.output, meshtext.text_of(gauges, box, mesh))
    say(f"{counted(len(gauges), 'gauge', 'gauges')}, {counted(len(mesh.triangles), 'triangle', 'triangles')}, {len(mesh.hull):,} gauges on the border")
    return DONE


def pieces_words(parser: Parser) -> None:
    parser.add_argument("file", metavar="MESH", help="a mesh as a text or as a form; - is standard input")
    parser.add_argument("--bits", type=int, metavar="N", help="the certificate's tolerance is 2^-N of the box's reach, N from 0 to 52 (32; with --as-voronoice 28)")
    parser.add_argument("--as-voronoice", action="store_true", help=AS_VORONOICE)
    parser.add_argument("-o", "--output", default="-", metavar="PIECES.csv", help="standard output, unless it is given")


def pieces_(given: argparse.Namespace) -> int:
    if given.bits is not None and not 0 <= given.bits <= 52:
        raise Told("--bits is a whole number from 0 to 52", FAILED)
    gauges, box, mesh = meshtext.read(given.file, files.read(given.file))
    found = making.made(gauges, box, "voronoice" if given.as_voronoice else None, mesh)
    verdict, lines = making.certified(found, gauges, "", given.bits)
    files.write(given.output, tables.csv_of(answers.of(gauges, found, verdict, "", "")))
    wrong = making.turned(mesh)
    for words in lines[:1] + ([wrong] if wrong else []) + lines[1:]:
        say(words)
    return DONE if verdict.sound else FAULT


def picture_words(parser: Parser) -> None:
    parser.add_argument("pieces", metavar="PIECES.csv")
    parser.add_argument("mesh", metavar="MESH.txt")
    parser.add_argument("--title", default="")
    parser.add_argument("--unit", default="", help="of the coordinates")
    parser.add_argument("--crs", default="", metavar="EPSG:CODE")
    parser.add_argument("--y", choices=["up", "down"], default="down", help="where y points in the mesh: up for northings")
    parser.add_argument("-o", "--output", default="-", metavar="MAP.svg", help="standard output, unless it is given")


def picture_(given: argparse.Namespace) -> int:
    gauges, box, _ = meshtext.read(given.mesh, files.read(given.mesh))
    answer = pieces_of(given.pieces, gauges, box)
    answer.unit, answer.crs = given.unit, given.crs
    files.write(given.output, picture.draw(answer, given.title, given.y == "up"))
    return DONE


def pieces_of(name: str, gauges: Gauges, box: Box) -> answers.Answer:
    """The pieces of a table that `pieces` or `export` printed, of these gauges and no others."""
    csv.field_size_limit(1 << 30)
    shown = name.split("/")[-1]
    rows = list(csv.DictReader(table.text_of(shown, files.read(name)).splitlines()))
    if rows and "geometry" not in rows[0]:
        raise Told(f"{shown}: no column is called geometry; there are {', '.join(map(str, rows[0]))}")
    if len(rows) != len(gauges):
        raise Told(f"{len(rows):,} pieces in {shown} and {len(gauges):,} gauges in {gauges.file}")
    by_id = {row.get("id"): (line, row) for line, row in enumerate(rows, 2)}
    rings, areas, wkb = [], [], []
    for k, (x, y) in enumerate(gauges.points.tolist()):
        line, row = by_id.get(gauges.ids[k], (0, {})) if "id" in rows[0] else (k + 2, rows[k])
        if not row:
            raise Told(f"{shown}: no piece of {gauges.called(k)} of {gauges.file}: the table is not this mesh's")
        try:
            if "x" in row and (float(row["x"]), float(row["y"])) != (x, y):
                raise Told(f"{shown}, line {line}: {gauges.ids[k]} stands at {row['x']} {row['y']}, and in {gauges.file} at {x!r} {y!r}: the table is not this mesh's")
            ring = answers.ring_of(bytes.fromhex(row["geometry"] or ""))
            area = float(row["area"]) if row.get("area") else area_of(ring)
            if not math.isfinite(area):
                raise ValueError("the area is no number")
        except (ValueError, TypeError) as error:
            raise Told(f"{shown}, line {line}: {error}") from None
        rings.append(ring)
        areas.append(area)
        wkb.append(bytes.fromhex(row["geometry"]))
    return answers.Answer(gauges, box, rings, areas, wkb, "", False)


def area_of(ring: answers.Ring) -> float:
    """From the first corner, so that far coordinates lose nothing."""
    if len(ring) < 3:
        return 0.0
    x, y = ring[0]
    rest = [(u - x, v - y) for u, v in ring[1:]]
    return math.fsum(a[1] * b[0] - a[0] * b[1] for a, b in zip(rest, rest[1:])) / 2


# ---- all words

STATUS = "Status: 0 done; 1 refused, with its reason; 2 unknown words, something missing, or reading or writing failed; 3 a fault."
WORDS: dict[str, tuple[Callable[[Parser], None], Callable[[argparse.Namespace], int], str]] = {
    "map": (map_words, map_, "From a list of gauges to a map: the piece of the box that lies nearest to each gauge, as a GeoPackage, a picture, a table or GeoJSON. "
            "On standard error the box, gauges outside it, probable twins, and the certificate."),
    "rollup": (rollup_words, rollup_, "From readings to a rollup: for each day the total (mm times area), the mean over the box, the gauges that reported, the share of the box that "
               "had a reading, and whether the day is whole. Silent gauges: the pieces of a day are those of the gauges that reported. Status 3 where a day is not whole, or a "
               "reading was told and did not count."),
    "gauges": (gauges_words, gauges_, "From a list of gauges to a mesh text, which pieces, picture and tools/mesh read."),
    "pieces": (pieces_words, pieces_, "The pieces of a mesh text with their areas: id,name,x,y,area,share,geometry, and on standard error the certificate."),
    "picture": (picture_words, picture_, "A picture of what pieces (or ./yelmuzard export) printed and the mesh text that it was made of."),
}


def parser_of(word: str) -> Parser:
    parser = Parser(prog=f"yelmuzard {word}", description=WORDS[word][2], epilog=STATUS)
    WORDS[word][0](parser)
    return parser


def main(words: list[str]) -> int:
    """The status of a word with its own."""
    if words[:1] == ["--version"]:
        print(f"yelmuzard {VERSION}")
        return DONE
    word = words[0] if words else ""
    if word not in WORDS:
        say(f"yelmuzard: {'there is no word ' + word + '; ' if word and not word.startswith('-') else ''}the words are {', '.join(WORDS)}; each has --help")
        return DONE if word in ("--help", "-h") else FAILED
    given = parser_of(word).parse_args(fewer(words[1:]))
    try:
        return WORDS[word][1](given)
    except Told as told:
        say(f"{word}: {told}")
        return told.status
    except MissingLibrary as missing:
        say(f"{word}: {missing}")
        return FAILED
    except MemoryError:
        say(f"{word}: there is no memory for this")
        return FAILED
    except KeyboardInterrupt:
        say(f"{word}: stopped")
        return 130
