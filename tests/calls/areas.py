"""Holds what examples/areas.c printed to the areas of the nearest pieces of the box, computed in exact fractions from the gauges alone:
the box cut by the line midway to each other gauge. No mesh, no float.

  areas.py TEXT SAID
"""
import re
import sys
from fractions import Fraction


def piece(site, sites, box):
    x, y, width, height = box
    ring = [(x - width / 2, y - height / 2), (x - width / 2, y + height / 2), (x + width / 2, y + height / 2), (x + width / 2, y - height / 2)]
    for other in sites:
        if other == site:
            continue
        # nearer to the site: side >= 0
        dx, dy = site[0] - other[0], site[1] - other[1]
        half = (site[0] ** 2 + site[1] ** 2 - other[0] ** 2 - other[1] ** 2) / 2
        side = [dx * px + dy * py - half for px, py in ring]
        cut = []
        for i, (p, s) in enumerate(zip(ring, side)):
            q, t = ring[(i + 1) % len(ring)], side[(i + 1) % len(ring)]
            if s >= 0:
                cut.append(p)
            if (s > 0 > t) or (s < 0 < t):
                cut.append((p[0] + (q[0] - p[0]) * s / (s - t), p[1] + (q[1] - p[1]) * s / (s - t)))
        ring = cut
    return abs(sum(p[0] * q[1] - q[0] * p[1] for p, q in zip(ring, ring[1:] + ring[:1]))) / 2


def main():
    records = [line.split() for line in open(sys.argv[1]) if re.match("box|site", line)]
    box = [[Fraction(word) for word in r[1:]] for r in records if r[0] == "box"][0]
    sites = [tuple(Fraction(word) for word in r[1:]) for r in records if r[0] == "site"]
    said = open(sys.argv[2]).read().splitlines()
    want = ["site %d: area %.6f" % (i, piece(site, sites, box)) for i, site in enumerate(sites)]
    want.append("total %.6f, the box %.6f, corners lost 0" % ((box[2] * box[3],) * 2))
    for line, right in zip(said + [""] * len(want), want):
        if line != right:
            sys.exit(f"{sys.argv[1]}: '{line}', must be '{right}'")
    if len(said) != len(want):
        sys.exit(f"{sys.argv[1]}: {len(said)} lines, must be {len(want)}")
    print(f"{sys.argv[1]}: {len(sites)} areas and their total as they must be")


main()
