"""The package's processor time beside that of a caller in C (tests/callers/caller.c) on the same gauges: PYTHONPATH=. python3 tests/times.py CALLER [GAUGES].

Both make the mesh, the pieces, their areas and their polygons, each with memory of its own, a round of one and a round of the other in turn, so that other work on the machine
disturbs both; the best round of each counts. Status 1 where Python takes more than 1.2 times as long.
"""
import struct
import subprocess
import sys
import time

import numpy

import yelmuzard

ROUNDS, LIMIT = 40, 1.2


def mine(points, box):
    """Milliseconds of a round, and the total of the areas."""
    began = time.process_time()
    found = yelmuzard.pieces(points, box)
    total, images = found.areas.sum(), found.polygons("buffer")
    del found, images
    return 1e3 * (time.process_time() - began), total


def c_callers(caller):
    caller.stdin.write(b".")
    caller.stdin.flush()
    taken, total = caller.stdout.readline().split()
    return float(taken), float(total)


def main(program, count):
    box = (320000.0, 5800000.0, 430000.0, 5890000.0)
    points = numpy.random.default_rng(1).uniform(box[:2], box[2:], (count, 2))
    with subprocess.Popen([program], stdin=subprocess.PIPE, stdout=subprocess.PIPE) as caller:
        caller.stdin.write(struct.pack("<Q4d", count, *box) + points.tobytes())
        c, python = [], []
        for _ in range(ROUNDS):
            (taken, total), (own, same) = c_callers(caller), mine(points, box)
            assert abs(total / same - 1) < 1e-12 and abs(same / 9.9e9 - 1) < 1e-12, (total, same)
            c.append(taken)
            python.append(own)
    ratio = min(python) / min(c)
    print(f"{count:,} gauges, mesh, pieces, areas and polygons: {min(python):.1f} ms from Python, {min(c):.1f} from C, {ratio:.2f} times as long")
    return ratio > LIMIT


if __name__ == "__main__":
    sys.exit(main(sys.argv[1], int(sys.argv[2]) if len(sys.argv) > 2 else 65472))
