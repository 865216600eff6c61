"""The mesh as a text, which `gauges` writes and `pieces` and `picture` read; tools/mesh says how it looks. A gauge's comment is its id and its name.

A comment without a tab is the name, which is the id too; with one, what is before it is the id and what is after it the name.
"""
from __future__ import annotations

import math
import re
import struct

import numpy

from ..mesh import Mesh
from ..rooms import EMPTY
from . import meshform
from .boxes import Box
from .gauges import Gauges
from .table import CONTROL
from .told import Told


def text_of(gauges: Gauges, box: Box, mesh: Mesh) -> str:
    """The text of a mesh without ghosts."""
    lines = [f"# {len(gauges)} gauges of {CONTROL.sub('?', gauges.file)}", "edges " + " ".join(map(repr, box))]
    for k, (x, y) in enumerate(gauges.points.tolist()):
        id_, name = gauges.ids[k], gauges.names[k]
        remark = "" if gauges.known == "place" and not name else f"  # {name}" if id_ == name else f"  # {id_}\t{name}"
        lines.append(f"site {x!r} {y!r}{remark}")
    word = lambda pair: "E" if pair == EMPTY else str(pair)
    pairs = mesh.halfedges.tolist()
    lines += ["triangle %d %d %d  %s %s %s" % (*corners, *map(word, pairs[k])) for k, corners in enumerate(mesh.triangles.tolist())]
    hull = mesh.hull.tolist()
    lines += ["hull " + " ".join(map(str, hull[k:k + 20])) for k in range(0, len(hull), 20)]
    return "\n".join(lines) + "\n"


NUMBER = re.compile(r"[+-]?(\d+\.?\d*|\.\d+)([eE][+-]?\d+)?", re.ASCII)


def value(word: str) -> float:
    """A decimal number, a power 2^-50, a sum of both, or a pattern of sixteen hexadecimal digits, as tools/mesh has them."""
    if word[:2] in ("0x", "0X"):
        if not re.fullmatch(r"[0-9a-fA-F]{16}", word[2:]):
            raise Told(f"{word}: a pattern has sixteen hexadecimal digits")
        return struct.unpack("<d", struct.pack("<Q", int(word, 16)))[0]
    terms = []
    for part in re.split(r"(?<=[^eE^+-])(?=[+-])", word):
        power = re.fullmatch(r"([+-]?)2\^([+-]?\d{1,5})", part)
        if power:
            if not -1074 <= int(power[2]) <= 1023:
                raise Told(f"{part}: powers go from 2^-1074 to 2^1023")
            one = math.copysign(math.ldexp(1.0, int(power[2])), -1 if power[1] == "-" else 1)
        elif NUMBER.fullmatch(part):
            one = float(part)
        else:
            raise Told(f"{part} is no number")
        terms.append(one)
    total = terms[0]
    for one in terms[1:]:
        total += one
    if not math.isfinite(total):
        raise Told(f"{word} is no finite number")
    return total


def read(name: str, data: bytes) -> tuple[Gauges, Box, Mesh]:
    """The gauges, the box and the mesh of a text, or of a form."""
    shown = name.split("/")[-1]
    if meshform.is_form(data):
        data = meshform.text_of(shown, data).encode()
    try:
        text = data.decode()
    except UnicodeDecodeError as error:
        raise Told(f"{shown}: byte {error.start} is no text, and no form either") from None
    box, points, remarks, lines, triangles, pairs, hull = None, [], [], [], [], [], []
    for line, words in enumerate(text.split("\n"), 1):
        body, _, remark = words.partition("#")
        word, *numbers = body.split() or [""]
        try:
            if word in ("box", "edges"):
                four = [value(n) for n in numbers]
                if len(four) != 4 or box is not None:
                    raise Told(f"{word} takes 4 numbers, and stands once")
                x, y, across, down = four
                box = four if word == "edges" else [x - across / 2, y - down / 2, x + across / 2, y + down / 2]
            elif word == "site":
                if len(numbers) != 2:
                    raise Told(f"site takes 2 numbers, not {len(numbers)}")
                points.append([value(n) for n in numbers])
                remarks.append(remark.strip(" \r"))
                lines.append(line)
            elif word == "triangle":
                if len(numbers) != 6:
                    raise Told(f"triangle takes 6 numbers, not {len(numbers)}")
                six = [whole(n) for n in numbers]
                triangles.append(six[:3])
                pairs.append(six[3:])
            elif word == "hull":
                hull += [whole(n) for n in numbers]
            elif word == "unclipped":
                raise Told("refused 20: the form has no box: the unclipped mode is gone")
            elif word not in ("", "path", "why", "mend", "answer"):
                raise Told(f"no record is called {word}")
        except Told as told:
            raise Told(f"{shown}, line {line}: {told}") from None
    if box is None or not points:
        raise Told(f"{shown}: no box, or no sites")
    if not (box[0] < box[2] and box[1] < box[3]):
        raise Told(f"{shown}: the edges of the box are out of order")
    split = [remark.split("\t", 1) if "\t" in remark else [remark or str(k), remark] for k, remark in enumerate(remarks)]
    known = "place" if not any(remarks) else "id" if any("\t" in remark for remark in remarks) else "name"
    ids, names = [i for i, _ in split], [n for _, n in split]
    if len(set(ids)) < len(ids):
        again = next(k for k, i in enumerate(ids) if i in ids[:k])
        raise Told(f"{shown}, line {lines[again]}: {ids[again]!r} stands on line {lines[ids.index(ids[again])]} too")
    gauges = Gauges(shown, ids, names, numpy.array(points).reshape(-1, 2), lines, [], [[] for _ in ids], known)
    none = numpy.zeros((0, 3), int)
    left, top, right, bottom = box
    return gauges, (left, top, right, bottom), Mesh.of(gauges.points, triangles or none, pairs or none, hull)


def whole(word: str) -> int:
    if word == "E":
        return EMPTY
    if not re.fullmatch(r"[0-9]{1,10}", word) or int(word) > EMPTY:
        raise Told(f"{word} is neither E nor a whole number from 0 to {EMPTY}")
    return int(word)
