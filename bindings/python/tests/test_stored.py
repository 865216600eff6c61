"""The meshes and pictures of docs/maps are what the words make of the lists, byte for byte. `test_stored.py write` makes the pictures again."""
import os
import re
import sys
import unittest

os.environ["SOURCE_DATE_EPOCH"] = "1794830400"  # 16 November 2026

from asked import ROOT, SHEET, ask, folder  # noqa: E402

MAPS = ROOT / "docs" / "maps"
BOARD = ROOT / "examples" / "board"
BOX = ["--box", "380000", "5810000", "440000", "5850000"]
BUILD = "--as-voronoice"  # of the two meshes whose faults are shown


def meshes(here):
    """The mesh texts that are made of lists."""
    yield "thirty.txt", ["gauges", ROOT / "examples" / "thirty.csv", "--box", "0", "0", "100", "80", "-o", here / "thirty.txt"], 0
    yield "board.txt", ["gauges", ROOT / "examples" / "board.csv", *SHEET, "-o", here / "board.txt"], 0


def pictures(here):
    """The name of each picture, its words, and their status."""
    yield "thirty.svg", ["map", ROOT / "examples" / "thirty.csv", "--box", "0", "0", "100", "80", "--unit", "km", "--south-up", "--title", "Thirty gauges of a river basin",
                         "-o", here / "thirty.svg"], 0
    yield "board.svg", ["map", ROOT / "examples" / "board.csv", *SHEET, "--title", "2,000 gauges of a water board", "-o", here / "board.svg"], 0
    yield "sixty.svg", ["map", BOARD / "gauges.csv", *BOX, "--crs", "EPSG:32633", "--title", "Sixty gauges of a board", "-o", here / "sixty.svg"], 0
    yield "silent.svg", ["rollup", BOARD / "gauges.csv", BOARD / "readings.csv", *BOX, "--fixed", "-o", here / "fixed.csv", "--plot", here / "silent.svg",
                         "--title", "The week in which two gauges were silent"], 3
    for name, title, more in (("turned", "The same gauges, wound the wrong way", ["--unit", "km"]), ("lost", "A gauge in no triangle, and a lost corner", [])):
        ask("pieces", MAPS / f"{name}.txt", BUILD, "-o", here / f"{name}.csv")
        yield f"{name}.svg", ["picture", here / f"{name}.csv", MAPS / f"{name}.txt", "--title", title, *more, "-o", here / f"{name}.svg"], 0


def unversioned(name):
    """The bytes of a picture without the version that drew it."""
    return re.sub(rb"Yelmuzard [0-9.]+", b"Yelmuzard", name.read_bytes())


class Stored(unittest.TestCase):
    def test_pictures(self):
        with folder() as here:
            for name, words, want in pictures(here):
                status, said = ask(*words)
                self.assertEqual(status, want, said)
                self.assertEqual(unversioned(here / name), unversioned(MAPS / name), f"docs/maps/{name} is not what is drawn")

    def test_meshes(self):
        with folder() as here:
            for name, words, want in meshes(here):
                status, said = ask(*words)
                self.assertEqual(status, want, said)
                self.assertEqual((here / name).read_bytes(), (MAPS / name).read_bytes(), f"docs/maps/{name} is not what is made")

    def test_faults_are_red(self):
        said = (MAPS / "turned.svg").read_text()
        self.assertIn("the pieces add up to -62.22 % of the box · 1 corner lost · 26 pieces turn the wrong way", said)
        said = (MAPS / "lost.svg").read_text()
        self.assertIn("4 gauges · the pieces add up to 68.75 % of the box · 1 corner lost · 1 gauge without a piece", said)


if __name__ == "__main__":
    if sys.argv[1:] == ["write"]:
        with folder() as made:
            for picture, given, _ in pictures(made):
                ask(*given)
                (MAPS / picture).write_bytes((made / picture).read_bytes())
                print(MAPS / picture)
    else:
        unittest.main()
