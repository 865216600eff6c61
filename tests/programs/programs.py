"""tests/programs/programs.py WORD ..: runs target/bin/NAME behind these words for each of the seven programs.

The longest form has 96 sites, 192 triangles and 96 hull records, 6,946 bytes: each program must read it whole. It is made sound so far as it goes, so that a program which stops reading
early answers 17, and one that reads all answers what its mesh is refused with. With a byte after its end it is refused with 17 by each.
Then 96 gauges in 12 rows of 8 with their Delaunay triangles, a sound mesh: the answers are those of the mesh, not of its beginning."""
import pathlib
import struct
import subprocess
import sys

EMPTY = 2**32 - 1


def form(box, sites, triangles, pairs, hull):
    out = b"\x07" + struct.pack("<4d", *box)
    out += b"".join(b"\x02" + struct.pack("<2d", *s) for s in sites)
    out += b"".join(b"\x03" + struct.pack("<6I", *t, *p) for t, p in zip(triangles, pairs))
    return out + b"".join(b"\x04" + struct.pack("<I", h) for h in hull) + b"\x05"


def rows(columns, lines):
    """Gauges in rows, each square cut by one diagonal: counter-clockwise with y downward."""
    sites = [(float(x), float(y)) for y in range(lines) for x in range(columns)]
    at = lambda x, y: y * columns + x
    triangles = []
    for y in range(lines - 1):
        for x in range(columns - 1):
            a, b, c, d = at(x, y), at(x, y + 1), at(x + 1, y + 1), at(x + 1, y)
            triangles += [(a, b, c), (a, c, d)]
    edges = {(t[i], t[(i + 1) % 3]): 3 * k + i for k, t in enumerate(triangles) for i in range(3)}
    pairs = [tuple(edges.get((t[(i + 1) % 3], t[i]), EMPTY) for i in range(3)) for t in triangles]
    left = [at(0, y) for y in range(lines)]
    bottom = [at(x, lines - 1) for x in range(1, columns)]
    right = [at(columns - 1, y) for y in range(lines - 2, -1, -1)]
    top = [at(x, 0) for x in range(columns - 2, 0, -1)]
    return sites, triangles, pairs, left + bottom + right + top


def run(name, words, data):
    ran = subprocess.run([*sys.argv[1:], f"target/bin/{name}", *words], input=data, stdout=subprocess.PIPE, check=True)
    return ran.stdout


wrong, runs = [], 0


def must(name, words, data, test, what):
    global runs
    runs += 1
    said = run(name, words, data)
    if not test(said):
        wrong.append(f"{name} {' '.join(words)} on {what}: {said[:120]!r}")


PROGRAMS = ("cells", "export", "why", "mend", "nearest", "audit", "certify")
# the longest: 192 triangles name the last site and the last half-edge, so that what is read last decides; rule 7 on triangle 191, whose site is none
sites = [(float(i % 8), float(i // 8)) for i in range(96)]
triangles = [(0, 8, 1)] * 191 + [(0, 8, 96)]
pairs = [(EMPTY, EMPTY, EMPTY)] * 192
longest = form((-1, -1, 9, 13), sites, triangles, pairs, range(96))
assert len(longest) == 6946, len(longest)
for name in PROGRAMS:
    # pairs of equal triangles are no pairs, but 7 comes before 8: the mesh is refused by its last triangle
    expected = b"refused 7: triangle 191\n" if name == "why" else b"refused 7\n"
    must(name, (), longest, lambda said: said == expected, "the longest form")
    must(name, (), longest + b"\x05", lambda said: said == b"refused 17\n", "the longest form and a byte")
    must(name, (), longest[:-1], lambda said: said == b"refused 17\n", "the longest form without its end")
must("mend", ("form",), longest, lambda said: said == b"refused 7\n", "the longest form")

# 96 gauges, in a box of half-whole edges
mesh = rows(8, 12)
sound = form((-0.5, -0.5, 7.5, 11.5), *mesh)
assert len(mesh[0]) == 96 and len(mesh[1]) == 154 and len(mesh[3]) == 36
lines = lambda said: said.decode().splitlines()
must("cells", (), sound, lambda said: lines(said)[0].startswith("sites 96 triangles 154 vertices ") and len(lines(said)) == 99 and lines(said)[96].startswith("cell 95: "), "96 gauges")
must("export", (), sound, lambda said: len(lines(said)) == 97 and lines(said)[96].startswith("95,0103000000"), "96 gauges")
must("why", (), sound, lambda said: said == b"no fault\n", "96 gauges")
must("why", ("95",), sound, lambda said: said == b"no fault\n", "96 gauges")
must("mend", (), sound, lambda said: said == b"pairs 0 hull 0\n", "96 gauges")
must("mend", ("form",), sound, lambda said: said == sound, "96 gauges")
must("nearest", (), sound, lambda said: said == b"nearest\n", "96 gauges")
must("audit", (), sound, lambda said: said == b"sound\n", "96 gauges")
must("certify", (), sound, lambda said: said == b"certified\n", "96 gauges")
if wrong:
    sys.exit("\n".join(wrong))
print(f"programs: {runs} runs of {len(PROGRAMS)} programs, the longest form of {len(longest)} bytes and 96 gauges in {len(sound)}")
