"""Random boxes over one mesh: what `nearest` says of their corners beside the definition in fractions, and where it says `nearest` the owners that `cells` names beside a full scan.

  python3 tests/programs/nearest/boxes.py MESH        MESH is a mesh as text that gets `nearest`
"""
import random
import re
import subprocess
import sys
from fractions import Fraction

(MESH,) = sys.argv[1:]
COUNT = 150


def run(program, form):
    return subprocess.run(["sh", "tests/archive.sh", "run", "target/bin/" + program], input=form, capture_output=True, check=True).stdout.decode()


def admitted(x, y):
    """Both are a / 2^k, with a + 8,192 * 2^k below 2^26, for one k."""
    return any(all((abs(n) * 2**k).denominator == 1 and abs(n) * 2**k + 8192 * 2**k < 2**26 for n in (x, y)) for k in range(40))


def number(rng):
    """An edge: of few or many digits behind the point, near or far, at a limit or beside it."""
    k = rng.randrange(15)
    size = rng.choice([8, 200, 5000, 2**26 // 2**k, 2**27 // 2**k])
    near = Fraction(2**26 - 8192 * 2**k + rng.randrange(-2, 3), 2**k)
    n = rng.choice([Fraction(rng.randrange(-size * 2**k, size * 2**k + 1), 2**k), near, -near, Fraction(rng.randrange(-size, size + 1))])
    return Fraction(float(n)) if n else n


def main():
    rng = random.Random(1)
    text = open(MESH).read()
    sites = [tuple(Fraction(n) for n in s) for s in re.findall(r"^site (\S+) (\S+)", text, re.M)]
    told, owned = {}, 0
    while sum(told.values()) < COUNT:
        left, right = sorted(number(rng) for _ in range(2))
        top, bottom = sorted(number(rng) for _ in range(2))
        if left == right or top == bottom:
            continue
        corners = [(left, top), (left, bottom), (right, bottom), (right, top)]
        off = next((c for c, p in enumerate(corners) if not admitted(*p)), 4)
        must = "nearest\n" if off == 4 else "corner %d is not admitted\n" % off
        edges = "edges %r %r %r %r" % tuple(float(n) for n in (left, top, right, bottom))
        form = subprocess.run(["tools/mesh", "encode"], input=re.sub(r"^(box|edges) .*", edges, text, flags=re.M).encode(), capture_output=True, check=True).stdout
        said = run("nearest", form)
        if said != must:
            sys.exit("nearest: %s: %r, must be %r" % (edges, said, must))
        told[said] = told.get(said, 0) + 1
        listing = run("cells", form) if off == 4 else ""
        if not listing.startswith("refused") and listing:
            owners = [int(n) for n in re.search(r"^corners (\d+) (\d+) (\d+) (\d+) ", listing, re.M).groups()]
            for (x, y), owner in zip(corners, owners):
                far = [(x - a) ** 2 + (y - b) ** 2 for a, b in sites]
                if far[owner] != min(far):
                    sys.exit("nearest: %s: the corner (%s, %s) goes to %d" % (edges, x, y, owner))
            owned += 1
    if len(told) < 4 or owned < COUNT // 10:
        sys.exit("nearest: too few of each kind: %s, %d with owners" % (told, owned))
    print("nearest: %d boxes, %d of them with nearest owners by a full scan" % (sum(told.values()), owned))


main()
