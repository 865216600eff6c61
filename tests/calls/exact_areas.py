"""Areas in exact whole numbers, rounded once by Python's own division; what tests/calls/exact_areas.c says is held to them, bit for bit.

  exact_areas.py make COUNT SEED     rings for `exact_areas rings`: coordinates from 5e-324 to 2^400, ties, flat ones, corners repeated, -0
  exact_areas.py hold RINGS SAID     what it said of them
  exact_areas.py mesh SAID           what `exact_areas mesh` said of a mesh: every cell and every triangle; prints their sums
"""
import random
import struct
import sys

UNIT = 1 << 1074


def of(bits):
    return struct.unpack("<d", struct.pack("<Q", bits))[0]


def bits(x):
    return struct.unpack("<Q", struct.pack("<d", x))[0]


def units(x):
    """x as a whole number of 2^-1074."""
    top, bottom = x.as_integer_ratio()
    return top * (UNIT // bottom)


def twice(ring):
    """Twice the exact area, as a whole number of 2^-2148."""
    whole = [(units(x), units(y)) for x, y in ring]
    return sum(y * u - x * v for (x, y), (u, v) in zip(whole, whole[1:] + whole[:1]))


def area(ring):
    """Whole numbers are divided exactly and rounded once, to the nearest and at a tie to the even one."""
    return twice(ring) / (1 << 2149)


def rings(count, seed):
    at = random.Random(seed)
    scales = [-1074, -1060, -1022, -600, -537, -530, -300, -52, 0, 10, 300, 399]

    def coordinate(kind, scale):
        if kind == 0:  # any pattern within 2^400
            return of(at.randrange(0x58F0000000000001) | at.randrange(2) << 63)
        if kind == 1:  # few digits, so that sums are exact and ties come up
            return at.choice([-1, 1]) * at.randrange(9) * 2.0 ** min(scale, 397)
        if kind == 2:
            return at.choice([0.0, -0.0, 5e-324, -5e-324, 2.0 ** 400, -(2.0 ** 400), 1.0, -1.0])
        if kind == 3:  # a piece of a map
            return at.uniform(-1000, 1000)
        return at.choice([-1, 1]) * at.random() * 2.0 ** (scale + at.randrange(2))

    for _ in range(count):
        kind, scale = at.randrange(5), at.choice(scales)
        ring = [(coordinate(kind, scale), coordinate(kind, scale)) for _ in range(at.choice([0, 1, 2, 3, 3, 3, 4, 5, 6, 8, 12]))]
        way = at.randrange(14)
        if ring and way == 0:  # a corner again
            i = at.randrange(len(ring))
            ring.insert(i, ring[i])
        elif ring and way == 1:  # there and back
            ring += ring[::-1]
        elif ring and way == 2:  # on one line
            ring = [(x, x) for x, _ in ring]
        elif len(ring) > 1 and way == 3:  # nearly there and back
            ring += ring[::-1]
            x, y = ring[-1]
            ring[-1] = (x, 5e-324 if y == 0 else y / 2 if abs(y) == 2.0 ** 400 else of(bits(y) ^ 1))
        yield ring


def hold(rings_file, said_file):
    many = flat = tiny = below = 0
    for line, said in zip(open(rings_file), open(said_file), strict=True):
        words = line.split()
        numbers = [of(int(w, 16)) for w in words[1:]]
        want = area(list(zip(numbers[::2], numbers[1::2])))
        number, got = said.split()
        if number != "0" or int(got, 16) != bits(want):
            sys.exit(f"ring {line.strip()}: {said.strip()}, must be 0 {bits(want):x}")
        many += 1
        flat += want == 0
        tiny += 0 < abs(want) < 2.0 ** -1022
        below += want < 0
    if min(flat, tiny, below) * 50 < many:
        sys.exit(f"too few of a kind: {flat} of area 0, {tiny} subnormal, {below} below 0 among {many}")
    print(f"{many} rings, {below} of them below 0, {tiny} subnormal, {flat} of area 0: every area is the exact one, rounded once")


def mesh(said_file):
    vertices, cells, turned, box, exact = [], [], 0, 0.0, 0
    for line in open(said_file):
        word, *rest = line.split()
        if word in ("build", "cells", "triangles") and rest != ["0"]:
            sys.exit(f"refused: {line.strip()}")
        if word == "box":
            box = of(int(rest[0], 16)) * of(int(rest[1], 16))
        if word == "vertex":
            vertices.append((of(int(rest[0], 16)), of(int(rest[1], 16))))
        if word == "cell":
            ring = [vertices[int(i)] for i in rest[1:]]
            exact += twice(ring)
        if word == "triangle":
            numbers = [of(int(w, 16)) for w in rest[1:]]
            ring = list(zip(numbers[::2], numbers[1::2]))
        if word in ("cell", "triangle"):
            if int(rest[0], 16) != bits(area(ring)):
                sys.exit(f"{line.strip()}: must be {bits(area(ring)):x}")
            if word == "cell":
                cells.append(area(ring))
            else:
                turned += area(ring) <= 0
    total = 0.0
    for a in cells:
        total += a
    print(f"{len(cells)} cells, {sum(a < 0 for a in cells)} below 0; total {total!r}, exactly {exact / (1 << 2149)!r}, {100 * total / box:.1f} % of the box; "
          f"{turned} triangles not above 0")


def main():
    words = sys.argv[1:]
    if len(words) == 3 and words[0] == "make":
        for ring in rings(int(words[1].replace(",", "")), int(words[2])):
            print(len(ring), *("%x" % bits(n) for p in ring for n in p))
    elif len(words) == 3 and words[0] == "hold":
        hold(*words[1:])
    elif len(words) == 2 and words[0] == "mesh":
        mesh(words[1])
    else:
        sys.exit(__doc__)


main()
