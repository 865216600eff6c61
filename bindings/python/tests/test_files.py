"""Output that cannot be written: told with status 2, whatever is between; a file that was there stays as it was."""
import os
import pathlib
import subprocess
import unittest

from asked import ROOT, folder, run

LIST = ROOT / "examples" / "board" / "gauges.csv"
BOX = ["--box", "380000", "5810000", "440000", "5850000"]
FULL = pathlib.Path("/dev/full")


@unittest.skipUnless(FULL.exists(), "there is no /dev/full here")
class FullDisk(unittest.TestCase):
    def told(self, *words, **more):
        ran = run(*words, **more)
        self.assertEqual(ran.returncode, 2, ran.stderr)
        self.assertNotIn(b"Traceback", ran.stderr)
        self.assertIn(b"could not be written", ran.stderr)

    def test_each_output(self):
        for unbuffered in ({}, {"PYTHONUNBUFFERED": "1"}):
            with FULL.open("wb") as full:
                self.told("gauges", LIST, *BOX, stdout=full, environment=unbuffered)
                self.told("rollup", LIST, LIST.parent / "readings.csv", *BOX, stdout=full, environment=unbuffered)
                self.told("pieces", ROOT / "docs" / "maps" / "thirty.txt", "--as-voronoice", stdout=full, environment=unbuffered)
            self.told("gauges", LIST, *BOX, "-o", FULL, environment=unbuffered)

    def test_links_that_end_in_a_full_disk(self):
        with folder() as here:
            for name in ("map.svg", "pieces.csv", "pieces.geojson", "map.gpkg"):
                os.symlink(FULL, here / name)
                self.told("map", LIST, *BOX, "-o", here / name)

    def test_no_such_folder(self):
        for name in ("map.svg", "pieces.csv", "map.gpkg"):
            ran = run("map", LIST, *BOX, "-o", f"/nowhere/{name}")
            self.assertEqual(ran.returncode, 2, ran.stderr)
            self.assertNotIn(b"Traceback", ran.stderr)


class Whole(unittest.TestCase):
    def test_a_limit_on_the_size(self):
        """A disk that fills in the middle: the old file is there, byte for byte."""
        with folder(map_svg=b"old", pieces_csv=b"old", map_gpkg=b"old") as here:
            for name in ("map.svg", "pieces.csv", "map.gpkg"):
                command = f"ulimit -f 8; trap '' XFSZ; exec \"$@\""
                words = ["sh", "-c", command, "sh", *run_words("map", LIST, *BOX, "-o", here / name)]
                ran = subprocess.run(words, stderr=subprocess.PIPE, env=environment())
                self.assertEqual(ran.returncode, 2, (name, ran.stderr))
                self.assertEqual((here / name).read_bytes(), b"old")
            self.assertEqual(sorted(os.listdir(here)), ["map.gpkg", "map.svg", "pieces.csv"])

    def test_a_pipe_that_closes(self):
        ran = subprocess.run(["sh", "-c", '"$@" | head -c 10 >/dev/null', "sh", *run_words("gauges", ROOT / "examples" / "board.csv", "--margin", ".1")],
                             stderr=subprocess.PIPE, env=environment())
        self.assertNotIn(b"Traceback", ran.stderr)


def run_words(*words):
    import sys
    return [sys.executable, "-m", "yelmuzard", *map(str, words)]


def environment():
    path = os.pathsep.join([str(ROOT / "bindings" / "python"), os.environ.get("PYTHONPATH", "")])
    return {**os.environ, "PYTHONPATH": path, "PYTHONDONTWRITEBYTECODE": "1"}


if __name__ == "__main__":
    unittest.main()
