#!/usr/bin/env python3
"""The exact test of a mesh, and of the two signs that make it, by Python's whole numbers: nothing of mesh/triangulate.c is used here.

  tests/callers/triangulate.py meshes <BYTES    meshes as `triangulate write` writes them, one after the other
  tests/callers/triangulate.py signs <LINES     lines as `triangulate signs` writes them

Of a mesh: each half-edge's pair is its pair and runs the other way; each triangle turns as voronoi.h wants it; no site lies inside the circle of a triangle beside
it; every site stands in a triangle; the hull is the round of the half-edges without a pair, and it is the ghosts. Exit status 1 where something differs.
"""
import collections
import struct
import sys

GHOSTS = 64
NONE = 0xFFFFFFFF


def whole(numbers):
    """The floats as whole multiples of one power of two."""
    pairs = [x.as_integer_ratio() for x in numbers]
    most = max(q for _, q in pairs)
    return [p * (most // q) for p, q in pairs]


def sign(x):
    return (x > 0) - (x < 0)


def turn(a, b, c):
    """Above 0 where a, b, c run counter-clockwise with y upward."""
    return sign((b[0] - a[0]) * (c[1] - a[1]) - (b[1] - a[1]) * (c[0] - a[0]))


def circle(a, b, c, d):
    """Above 0 where d lies inside the circle of a, b, c, if these run counter-clockwise with y upward: the determinant of x, y, x^2 + y^2, 1, in full."""
    rows = [(p[0] - d[0], p[1] - d[1]) for p in (a, b, c)]
    (ax, ay), (bx, by), (cx, cy) = rows
    squares = [x * x + y * y for x, y in rows]
    return sign(ax * (by * squares[2] - squares[1] * cy) - ay * (bx * squares[2] - squares[1] * cx) + squares[0] * (bx * cy - by * cx))


def look_at(n, t, sites, triangles, halfedges, hull):
    """What is wrong with a mesh, as words; and how many edges were tried."""
    places = list(zip(sites[::2], sites[1::2]))
    after = [e + 1 if e % 3 != 2 else e - 2 for e in range(3 * t)]
    wrong, tried = [], 0
    for e, f in enumerate(halfedges):
        a, b, c = triangles[e], triangles[after[e]], triangles[after[after[e]]]
        if e % 3 == 0 and turn(places[a], places[b], places[c]) >= 0:
            wrong.append(f"triangle {e // 3} turns the other way")
        if f == NONE:
            continue
        if halfedges[f] != e or triangles[f] != b or triangles[after[f]] != a:
            wrong.append(f"half-edge {e} and its pair")
        elif e < f:
            tried += 1
            if circle(places[a], places[b], places[c], places[triangles[after[after[f]]]]) < 0:
                wrong.append(f"half-edge {e} is not Delaunay")
    if set(triangles) != set(range(n + GHOSTS)):
        wrong.append("a site is in no triangle")
    border = {triangles[e]: triangles[after[e]] for e in range(3 * t) if halfedges[e] == NONE}
    if border != {a: hull[(i + 1) % GHOSTS] for i, a in enumerate(hull)} or sorted(hull) != list(range(n, n + GHOSTS)):
        wrong.append("the hull")
    if t != 2 * n + 62:
        wrong.append("the number of triangles")
    return wrong, tried


def meshes(data):
    at, many, edges, bad = 0, 0, 0, 0
    while at < len(data):
        n, t = struct.unpack_from("<2I", data, at)
        at += 8
        sites = struct.unpack_from(f"<{2 * (n + GHOSTS)}d", data, at)
        at += 16 * (n + GHOSTS)
        lists = []
        for length in (3 * t, 3 * t, GHOSTS):
            lists.append(struct.unpack_from(f"<{length}I", data, at))
            at += 4 * length
        wrong, tried = look_at(n, t, whole(sites), *lists)
        for words in wrong[:5]:
            print(f"FAILED: mesh {many} of {n} gauges: {words}")
        many, edges, bad = many + 1, edges + tried, bad + (wrong != [])
    print(f"triangulate.py: {many} meshes, {edges} edges: each passes the exact test in whole numbers" if not bad else f"triangulate.py: {bad} FAILED")
    return bad or many == 0


def signs(lines):
    bad, of = 0, collections.Counter()
    for line in lines:
        words = line.split()
        numbers = whole([struct.unpack(">d", bytes.fromhex(w))[0] for w in words[2:]])
        a, b, c, d = (numbers[i : i + 2] for i in (0, 2, 4, 6))
        must = turn(a, b, c), circle(a, b, c, d)
        of[must] += 1
        if must != (int(words[0]), int(words[1])):
            bad += 1
            if bad < 6:
                print(f"FAILED: {line.strip()} must be {must}")
    zeros = sum(k for (x, y), k in of.items() if x == 0), sum(k for (x, y), k in of.items() if x and not y)
    print(f"triangulate.py: {sum(of.values())} times both signs, {zeros[0]} turns of 0 and {zeros[1]} circles of 0 among them" if not bad else f"triangulate.py: {bad} FAILED")
    return bad or min(zeros) < 100


if __name__ == "__main__":
    if sys.argv[1:] == ["meshes"]:
        sys.exit(bool(meshes(sys.stdin.buffer.read())))
    if sys.argv[1:] == ["signs"]:
        sys.exit(bool(signs(sys.stdin)))
    sys.exit(__doc__)
