#!/usr/bin/env python3
"""Write the rows of two crates, specs/Rows*.antt: the meshes of rows/, each with what the Rust's release build answers for it.

  make.py ORACLE      ORACLE is the harness's program `oracle`

`definition` has the rows that refuse an edit of its must-fail/, `build_laws` the others.
A row has its file's name, and the file's first line, a comment, is the row's. The vertices (bit for bit), cells, owners and the
numbers 13 and 14 are the Rust's; marks, lost corners, reused points, 11 and 12 are the harness's reading of docs/use/RULES.md, as `oracle` prints them.
A refused mesh has its whole fault: the place, and for 13 and 14 the edge's two vertices, are that reading's too (`oracle --place`);
the Rust's panics have none.
A file's imports stay as they stand there. No line has more than 200 bytes, and `rt fmt` leaves the files as they are written here.
"""
import os
import re
import struct
import subprocess
import sys

CRATES = os.path.join(os.path.dirname(os.path.abspath(__file__)), "..", "..")
WITH_ROWS = ("definition", "build_laws")
EMPTY = 4294967295

REFUSED = {
    "11": "refusedCircumcenter",
    "12": "refusedExtension",
    "13": "refusedNoCrossing",
    "14": "refusedOneCrossing",
}


def number(word):
    """A float as the text form has it: decimal, a pattern 0x.., a power 2^k, or a sum of such."""
    if word.startswith("0x"):
        return struct.unpack("<d", struct.pack("<Q", int(word, 16)))[0]
    parts = []
    for t in re.findall(r"[+-]?(?:2\^-?\d+|[\d.]+(?:[eE][+-]?\d+)?)", word):
        sign, t = (-1.0, t[1:]) if t[0] == "-" else (1.0, t.lstrip("+"))
        parts.append(sign * (2.0 ** int(t[2:]) if t.startswith("2^") else float(t)))
    total = parts[0]
    for p in parts[1:]:
        total += p
    return total


def bits(value):
    n = struct.unpack("<Q", struct.pack("<d", value))[0]
    return "0x%x" % n if n else "0"


def chain(items):
    return " ∷ ".join(list(items) + ["[]"])


def broken(text, indent, room=180):
    """A chain over lines of at most so many bytes, each but the last ending in a ∷."""
    lines, line = [], ""
    for part in text.split(" ∷ "):
        more = part if not line else line + " ∷ " + part
        if line and len(more.encode()) > room:
            lines.append(line + " ∷")
            more = part
        line = more
    return ("\n" + indent).join(lines + [line])


def index(n):
    return "EMPTY" if n == EMPTY else str(n)


def read(path):
    """The mesh as the definition's call, and the file's comment."""
    box, sites, tri, he, hull = None, [], [], [], []
    lines = open(path).read().split("\n")
    for line in lines:
        kind, *rest = line.split("#")[0].split() or [""]
        if kind == "box":
            box = [bits(number(w)) for w in rest]
        elif kind == "site":
            sites += [bits(number(w)) for w in rest]
        elif kind == "triangle":
            tri += [int(w) for w in rest[:3]]
            he += [EMPTY if w == "E" else int(w) for w in rest[3:]]
        elif kind == "hull":
            hull += [int(w) for w in rest]
    mesh = [f"(floats\n    ({broken(chain(sites), '    ')}))"] + [f"({broken(chain(index(n) for n in l), '    ')})" for l in (tri, he, hull)]
    call = "\n    ".join(["build", "(mesh"] + mesh[:3] + [mesh[3] + ")"] + [f"(rowBox {' '.join(box)})"])
    return call, lines[0].lstrip("# ")


def told(out):
    """The answer of a build as an Outcome."""
    numbers = [bits(number(v)) for p in re.findall(r"^vertex \d+: (0x\w+) (0x\w+)", out, re.M) for v in p]
    cells = [chain(f"{e[-1]} {e[:-1]}" for e in c.split()) for c in re.findall(r"^marks \d+:(.*)$", out, re.M)]
    corners = re.search(r"^corners:(.*) lost (\d+)$", out, re.M)
    owners = [int(w) for w in corners.group(1).split()] if corners else [EMPTY] * 4
    lost = corners.group(2) if corners else "0"
    reused = re.search(r"^reused (\d+) (\d+) (\d+)$", out, re.M)
    parts = {
        "vertices": f"floats\n          ({broken(chain(numbers), ' ' * 10)})",
        "cells": broken(chain(f"({c})" for c in cells), " " * 10),
        "owners": chain(index(n) for n in owners),
        "lost": lost,
        "again": chain(reused.groups()),
    }
    return "ok (record {\n" + "".join(f"      {k} = {v};\n" for k, v in parts.items()) + "    })"


def fault(out, placed):
    """The fault of `oracle --place`; 11 and 12 have no edge, which the definition writes 0 0. Its number is that of `oracle`."""
    n, *places = placed.split()
    if n != re.search(r"^refused (\d+)", out, re.M).group(1):
        raise SystemExit(f"refused by another number: {placed}")
    return f"refused (fault {REFUSED[n]} {' '.join('0' if w == 'E' else w for w in places)})"


def main():
    oracle = sys.argv[1]

    def ask(*words):
        return subprocess.run([oracle, *words], capture_output=True, text=True, check=True).stdout

    def refusal(path):
        return fault(ask(path), ask("--place", path))

    groups = (("built", "Built", lambda path: told(ask(path))), ("refused", "Refused", refusal))
    for crate in WITH_ROWS:
        meshes = os.path.join(CRATES, crate, "rows")
        for group, file, answer in groups:
            specs = os.path.join(CRATES, crate, "specs", f"Rows{file}.antt")
            old = open(specs, encoding="utf-8").read()
            rows = [old[: old.index("\n\n") + 1]]
            for entry in sorted(f for f in os.listdir(meshes) if f.startswith(group + "_")):
                path = os.path.join(meshes, entry)
                name = entry[len(group) + 1 : -len(".txt")]
                call, comment = read(path)
                rows.append(f"-- {comment}\npub {name} :\n    rowOf\n    ({call})\n    ≡ {answer(path)}\nunfolding rowOf\n{name} = refl\n")
            with open(specs, "w", encoding="utf-8") as o:
                o.write("\n".join(rows))


if __name__ == "__main__":
    main()
