"""What kind 0 of a certificate means (docs/use/RULES.md, "Certificate"), at exact places: sheets that were certified, from `certify_truth places` on standard input.

At every place the windings of all pieces add up to exactly 1 (`covered`); a piece with a winding has a gauge that is nearest but for the bound (`owner`); where every
other gauge is farther by more than the bound, its own piece has 1 and every other 0 (`certified`); the exact areas add up to the box (`whole`). Places are corners of
pieces, places on their sides (the middle, a third), gauges, the box's first corner, and places in between, all of them whole numbers of one unit of the sheet: nothing
is rounded. A count at the end says how many there were of each, and it is a failure where one is missing.
"""
import fractions
import random
import sys

UNDERFLOW = fractions.Fraction(1, 1 << 1073)


def read(lines):
    """[(edges, bits, [(site, ring)])], each number a float."""
    sheets = []
    for line in lines:
        word, *rest = line.split()
        if word == "sheet":
            sheets.append(([float.fromhex(x) for x in rest[:4]], int(rest[4]), []))
        else:
            numbers = [float.fromhex(x) for x in rest]
            points = list(zip(numbers[::2], numbers[1::2]))
            sheets[-1][2].append((points[0], points[1:]))
    return sheets


def sides(ring):
    return list(zip(ring, ring[1:] + ring[:1]))


def winding(ring, x, y):
    """The sides that pass the height of the place strictly right of it: those that come up less those that go down. y points down."""
    total = 0
    for (ax, ay), (bx, by) in sides(ring):
        sign = (by <= y) - (ay <= y)
        if sign:
            (lx, ly), (hx, hy) = sorted([(ax, ay), (bx, by)], key=lambda q: q[1])
            if (hy - ly) * x < lx * (hy - y) + hx * (y - ly):
                total += sign
    return total


def places(at, box, rings, sites):
    """Places of the box with what they are, in units of a sixth of the sheet's last bit."""
    left, top, right, bottom = box
    lines = [side for ring in rings for side in sides(ring) if side[0] != side[1]]
    corners = [corner for ring in rings for corner in ring]
    found = [("the box's first corner", (left, top))]
    found += [("a corner", at.choice(corners)) for _ in range(12)]
    found += [("a gauge", site) for site in at.sample(sites, min(6, len(sites)))]
    for part in (2, 3):
        for (ax, ay), (bx, by) in (at.choice(lines) for _ in range(8)):
            found.append(("on a side", (ax + (bx - ax) // part, ay + (by - ay) // part)))
    found += [("between", (at.randrange(left, right), at.randrange(top, bottom))) for _ in range(16)]
    return [(what, (x, y)) for what, (x, y) in found if left <= x < right and top <= y < bottom]


def hold(sheet, at, seen, wrong):
    edges, bits, pieces = sheet
    numbers = [*edges, *(x for site, ring in pieces for p in [site, *ring] for x in p)]
    unit = 6 * max(x.as_integer_ratio()[1] for x in numbers)

    def whole(x):
        top, bottom = x.as_integer_ratio()
        return top * (unit // bottom)

    box = [whole(x) for x in edges]
    sites = [tuple(map(whole, site)) for site, _ in pieces]
    rings = [[tuple(map(whole, p)) for p in ring] for _, ring in pieces]
    reach = max(map(abs, box))
    furthest = max([reach] + [abs(p[k] - s[k]) for ring in rings for p in ring for s in sites for k in (0, 1)])
    far = fractions.Fraction(reach, 1 << bits) + fractions.Fraction(furthest, 1 << 49)

    def bound(s, o):
        along = abs(sites[o][0] - sites[s][0]) + abs(sites[o][1] - sites[s][1])
        return far * along + UNDERFLOW * unit * (unit + along)

    def squared(s, x, y):
        return (x - sites[s][0]) ** 2 + (y - sites[s][1]) ** 2

    area = sum(a[1] * b[0] - a[0] * b[1] for ring in rings for a, b in sides(ring))
    if area != 2 * (box[2] - box[0]) * (box[3] - box[1]):
        wrong.append("the exact areas do not add up to the box")
    count = range(len(sites))
    for what, (x, y) in places(at, box, rings, sites):
        often = [winding(ring, x, y) for ring in rings]
        seen[what] = seen.get(what, 0) + 1
        if sum(often) != 1:
            wrong.append(f"{what}: the windings add up to {sum(often)}")
        away = [squared(s, x, y) for s in count]
        for s in count:
            if often[s] and any(away[s] > away[o] + bound(s, o) for o in count):
                wrong.append(f"{what}: piece {s} has the winding {often[s]}, and another gauge is nearer by more than the bound")
        nearest = min(count, key=lambda s: away[s])
        if all(away[nearest] + bound(o, nearest) < away[o] for o in count if o != nearest):
            seen["clear"] = seen.get("clear", 0) + 1
            if often[nearest] != 1 or any(often[o] for o in count if o != nearest):
                wrong.append(f"{what}: gauge {nearest} is nearest by more than the bound, and the windings are {often}")
        else:
            seen["in the band"] = seen.get("in the band", 0) + 1
        if any(k not in (0, 1) for k in often):
            seen["a winding that is neither 0 nor 1"] = seen.get("a winding that is neither 0 nor 1", 0) + 1


def main():
    at, seen, wrong = random.Random(1), {}, []
    sheets = read(sys.stdin)
    for sheet in sheets:
        hold(sheet, at, seen, wrong)
    for what in ("a corner", "on a side", "a gauge", "between", "the box's first corner", "clear", "in the band"):
        if not seen.get(what):
            wrong.append(f"no place was {what}")
    print("\n".join(wrong[:20]) or f"certify: the theorem at exact places of {len(sheets)} sheets: " + ", ".join(f"{count} {what}" for what, count in seen.items()))
    sys.exit(bool(wrong))


main()
