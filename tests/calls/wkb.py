"""Reads polygons in Well-Known Binary, from OGC 06-103r4 (8.2) alone, and holds them to a build's vertices bit for bit.

  wkb.py DUMP [LINES]      DUMP: what `wkb dump` (tests/calls/wkb.c) printed of a form; LINES: what the program `export` printed of it
"""
import struct
import sys


def read(image):
    """The rings of a Polygon: a list of lists of points, each a pair of patterns."""
    order, kind, rings = struct.unpack_from("<BII", image)
    assert (order, kind) == (1, 3), "no little-endian polygon"
    at = 9
    polygon = []
    for _ in range(rings):
        (count,) = struct.unpack_from("<I", image, at)
        numbers = struct.unpack_from("<%dQ" % (2 * count), image, at + 4)
        at += 4 + 16 * count
        polygon.append(list(zip(numbers[::2], numbers[1::2])))
    assert at == len(image), "bytes are left over"
    return polygon


def others(images):
    """The same through shapely, where it is installed: its name and what it is asked."""
    try:
        from shapely import wkb
    except ImportError:
        return False
    for image in images:
        polygon = wkb.loads(image)
        points = [] if polygon.is_empty else list(polygon.exterior.coords)
        mine = [struct.unpack("<2d", struct.pack("<2Q", *p)) for ring in read(image) for p in ring]
        assert points == mine, "shapely reads other points"
    return True


def main():
    lines = [line.split() for line in open(sys.argv[1])]
    number = int(lines[0][1])
    vertices = [(int(x, 16), int(y, 16)) for word, x, y in (line for line in lines if line[0] == "vertex")]
    cells = [[int(entry) for entry in line[1:]] for line in lines if line[0] == "cell"]
    images = [bytes.fromhex(line[1]) for line in lines if line[0] == "image"]
    assert len(cells) == len(images)
    for cell, image in zip(cells, images):
        points = [vertices[entry] for entry in cell]
        owed = [points + points[:1]] if len(points) >= 3 else []
        assert read(image) == owed, "a cell's points differ"
        assert len(image) == (29 + 16 * len(points) if owed else 9)
    if len(sys.argv) > 2:
        text = "refused %d\n" % number
        if number == 0:
            text = "site,geometry\n" + "".join("%d,%s\n" % (site, image.hex()) for site, image in enumerate(images))
        assert open(sys.argv[2]).read() == text, "`export` prints something else"
    print(number, len(cells), "shapely" if others(images) else "")


main()
