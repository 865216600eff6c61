"""The rollup: against exact fractions on random tables with silent gauges, doubled and missing readings; both forms; sheets; what is told; statuses."""
import csv
import io
import random
import unittest
from fractions import Fraction

import numpy

import yelmuzard
from asked import ROOT, ask, folder, rows
from yelmuzard.board import gauges, readings, rollup, table
from yelmuzard.library import library

BOARD = ROOT / "examples" / "board"
BOX = (380000.0, 5810000.0, 440000.0, 5850000.0)
EDGES = ["--box", "380000", "5810000", "440000", "5850000"]


def listed():
    return gauges.of(table.read("gauges.csv", (BOARD / "gauges.csv").read_bytes()))


def written(found, long=True, order=None):
    """A table of readings {(day, id): word} in one of the two forms."""
    days = sorted({day for day, _ in found})
    ids = list(dict.fromkeys(id_ for _, id_ in found))
    out = io.StringIO()
    writer = csv.writer(out, lineterminator="\n")
    if long:
        lines = [[id_, day, word] for (day, id_), word in found.items()]
        (order or random.Random(0)).shuffle(lines)
        writer.writerows([["gauge", "day", "mm"], *lines])
    else:
        writer.writerows([["day", *ids], *([day, *(found.get((day, id_), "") for id_ in ids)] for day in days)])
    return out.getvalue()


class Exact(unittest.TestCase):
    def test_random_tables(self):
        """Total, mean and share as fractions say them, whatever the order of rows; the pieces are those of the gauges that reported."""
        some, at = listed(), random.Random(3)
        for turn in range(6):
            days = [f"2026-04-{d:02}" for d in range(1, at.randrange(2, 8))]
            found, held = {}, {}
            for day in days:
                silent = set(at.sample(some.ids, at.choice([0, 0, 1, 2, 9])))
                for id_ in some.ids:
                    if id_ in silent:
                        if at.random() < .7:
                            found[day, id_] = at.choice(["", "NA", "-999", "nan"])
                    else:
                        word = f"{at.expovariate(.2):.{at.choice([0, 1, 3])}f}"
                        found[day, id_], held[day, id_] = word, float(word)
            for long in (True, False):
                with folder(in_csv=written(found, long, at)) as here:
                    status, said = ask("rollup", BOARD / "gauges.csv", here / "in.csv", *EDGES, "-o", here / "out.csv")
                    self.assertEqual(status, 0, said)
                    self.assertIn("certified: every place that is nearer to one gauge by more than 2 mm is in its piece, once\n", said)
                    for row in rows(here / "out.csv"):
                        mine = [k for k, id_ in enumerate(some.ids) if (row["day"], id_) in held]
                        areas = yelmuzard.pieces(some.points[mine], BOX).areas
                        total = sum((Fraction(held[row["day"], some.ids[k]]) * Fraction(area) for k, area in zip(mine, areas.tolist())), Fraction(0))
                        self.assertEqual(float(row["total"]), float(total))
                        self.assertEqual(float(row["mean"]), float(total) / 2.4e9)
                        self.assertEqual((int(row["gauges"]), int(row["silent"]), row["share"], row["verdict"]), (len(mine), 60 - len(mine), "1.000000000", "whole"))

    def test_fixed(self):
        some = listed()
        areas = yelmuzard.pieces(some.points, BOX).areas
        found = {(day, id_): "5" for day in ("2026-04-01", "2026-04-02") for id_ in some.ids}
        for k in (3, 9, 30):
            del found["2026-04-02", some.ids[k]]
        with folder(in_csv=written(found)) as here:
            status, said = ask("rollup", BOARD / "gauges.csv", here / "in.csv", *EDGES, "--fixed", "-o", here / "out.csv")
            self.assertEqual(status, 3, said)
            one, two = rows(here / "out.csv")
            self.assertEqual((one["verdict"], float(one["mean"])), ("whole", 5.0))
            share = 1 - sum(Fraction(areas[k]) for k in (3, 9, 30)) / Fraction(2400000000)
            self.assertAlmostEqual(float(two["share"]), float(share), delta=1e-9)
            self.assertIn("of the box has no reading", two["verdict"])
            self.assertAlmostEqual(float(two["mean"]), 5 * float(share), delta=1e-8)
            # by default even rain is even on every day
            status, said = ask("rollup", BOARD / "gauges.csv", here / "in.csv", *EDGES, "-o", here / "out.csv")
            self.assertEqual(status, 0, said)
            self.assertEqual([round(float(row["mean"]), 12) for row in rows(here / "out.csv")], [5.0, 5.0])

    def test_the_accident(self):
        """What README tells: in the week of the two silent gauges a join of readings and fixed areas misses 10 to 18 percent of the rain."""
        with folder() as here:
            self.assertEqual(ask("rollup", BOARD / "gauges.csv", BOARD / "readings.csv", *EDGES, "-o", here / "whole.csv")[0], 0)
            self.assertEqual(ask("rollup", BOARD / "gauges.csv", BOARD / "readings.csv", *EDGES, "--fixed", "-o", here / "fixed.csv")[0], 3)
            pairs = [(a, b) for a, b in zip(rows(here / "whole.csv"), rows(here / "fixed.csv")) if b["verdict"] != "whole"]
        self.assertEqual([a["day"] for a, _ in pairs], [f"2026-05-{day}" for day in range(11, 18)])
        missed = [1 - float(b["total"]) / float(a["total"]) for a, b in pairs]
        self.assertEqual((round(min(missed), 2), round(max(missed), 2)), (.1, .18))
        self.assertEqual([f"{float(row['mean']):.2f}" for row in pairs[0]], ["13.09", "11.80"])

    def test_neighbouring_sheets_add_up(self):
        with folder(both_csv="name,west,south,east,north\nall,380000,5810000,440000,5850000\n") as here:
            self.assertEqual(ask("rollup", BOARD / "gauges.csv", BOARD / "readings.csv", "--boxes", BOARD / "sheets.csv", "-o", here / "sheets.csv")[0], 0)
            self.assertEqual(ask("rollup", BOARD / "gauges.csv", BOARD / "readings.csv", "--boxes", here / "both.csv", "-o", here / "all.csv")[0], 0)
            parts = {}
            for row in rows(here / "sheets.csv"):
                parts.setdefault(row["day"], []).append(Fraction(row["total"]))
            whole = {row["day"]: Fraction(row["total"]) for row in rows(here / "all.csv")}
            self.assertEqual(len(whole), 96)
            for day, total in whole.items():
                self.assertEqual(len(parts[day]), 2)
                self.assertLessEqual(abs(sum(parts[day]) - total), total / 10 ** 13)

    def test_sheets_of_a_layer(self):
        import json
        import subprocess
        square = lambda w, s, e, n: [[w, s], [e, s], [e, n], [w, n], [w, s]]
        features = [{"type": "Feature", "properties": {"name": name}, "geometry": {"type": "Polygon", "coordinates": [square(*box)]}}
                    for name, box in (("west", (380000, 5810000, 410000, 5850000)), ("east", (410000, 5810000, 440000, 5850000)))]
        odd = {"type": "Feature", "properties": {"name": "odd"}, "geometry": {"type": "Polygon", "coordinates": [[[0, 0], [1, 0], [0, 1], [0, 0]]]}}
        with folder(in_geojson=json.dumps({"type": "FeatureCollection", "features": features}),
                    odd_geojson=json.dumps({"type": "FeatureCollection", "features": features + [odd]})) as here:
            for name in ("in", "odd"):
                subprocess.run(["ogr2ogr", "-f", "GPKG", here / f"{name}.gpkg", here / f"{name}.geojson", "-nln", "sheets", "-a_srs", "EPSG:32633"], check=True, stderr=subprocess.DEVNULL)
            for boxes in (here / "in.gpkg", f"{here / 'in.gpkg'}:sheets"):
                status, said = ask("rollup", BOARD / "gauges.csv", BOARD / "readings.csv", "--boxes", boxes, "-o", here / "out.csv")
                self.assertEqual(status, 0, said)
            status, said = ask("rollup", BOARD / "gauges.csv", BOARD / "readings.csv", "--boxes", BOARD / "sheets.csv", "-o", here / "two.csv")
            self.assertEqual((here / "out.csv").read_text(), (here / "two.csv").read_text())
            status, said = ask("rollup", BOARD / "gauges.csv", BOARD / "readings.csv", "--boxes", here / "odd.gpkg", "-o", here / "out.csv")
            self.assertEqual(status, 1)
            self.assertIn("sheet odd: no rectangle along the axes", said)


@unittest.skipUnless(library().has("voronoi_cut_by_edges") and library().has("triangulate_gauges"), "days of one or two gauges: no voronoi_cut_by_edges in this library")
class Told(unittest.TestCase):
    def asked(self, text, *more):
        with folder(in_csv=text, list_csv="id,name,x,y\nA,Wehr,1,1\nB,Furt,9,1\nC,Nord,5,8\n") as here:
            status, said = ask("rollup", here / "list.csv", here / "in.csv", "--box", "0", "0", "10", "10", "-o", here / "out.csv", *more)
            return status, said, rows(here / "out.csv") if (here / "out.csv").exists() else []

    def test_each_with_its_line(self):
        status, said, out = self.asked("gauge,day,mm\nA,1,5\nB,1,-3\nC,1,7\nC,1,8\nA,2,5\nB,2,5\nC,2,5\nC,2,5.0\nD,2,9\nA,3,many\nB,3,\nC,3,1,5\nNord,4,2\n")
        self.assertEqual(status, 3)
        for words in ("line 3: B on 1: -3 is below 0 and is taken as no reading", "line 5: C on 1 has two readings, 7 and 8: neither counts",
                      "line 9: C on 2 stands twice, both times 5.0: it counts once", "line 10: 'D' is no gauge of list.csv, and what it has read is not counted",
                      "line 11: A on 3: the reading is 'many', no finite number", "4 days: 4 whole, 0 not"):
            self.assertIn(words, said)
        self.assertEqual([(row["day"], float(row["mean"]), row["gauges"]) for row in out], [("1", 5.0, "1"), ("2", 5.0, "3"), ("3", 1.0, "1"), ("4", 2.0, "1")])

    def test_days_without_any_reading(self):
        status, said, out = self.asked("gauge,day,mm\nA,2026-01-01,5\nA,2026-01-04,5\nA,2026-01-03,NA\n")
        self.assertEqual(status, 3)
        self.assertEqual([(row["day"], row["verdict"], row["total"]) for row in out][1:3], [("2026-01-02", "no reading", ""), ("2026-01-03", "no reading", "")])
        self.assertIn("2 gauges have no reading on any day: B, C", said)
        self.assertIn("4 days: 2 whole, 2 not", said)

    def test_wide(self):
        status, said, out = self.asked("date;A;Furt;C;D\n2026-01-01;5;5;5;5\n2026-01-02;;5;5;5\n")
        self.assertEqual(status, 3)
        self.assertIn("the column 'D' is no gauge of list.csv, and is not counted", said)
        self.assertEqual([(float(row["mean"]), row["gauges"]) for row in out], [(5.0, "3"), (5.0, "2")])
        self.assertEqual(self.asked("date;A;A\n2026-01-01;5;5\n")[0], 1)

    def test_columns(self):
        self.assertEqual(self.asked("station;when;depth_mm\nA;1;5\n", "--day", "when", "--value", "depth_mm")[0], 0)
        for text, words in (("gauge,mm\nA,5\n", "no column is called day or date"), ("gauge,day,height\nA,1,5\n", "no column has the reading (--value NAME)"),
                            ("", "a first line that names the columns is wanted"), ("gauge,day,mm\n", "no reading")):
            status, said, _ = self.asked(text)
            self.assertEqual(status, 1, text)
            self.assertIn(words, said)
        status, said, _ = self.asked("station;when;mm\nA;1;5\n", "--day", "never")
        self.assertEqual((status, "no column is called 'never' (--day); there are station, when, mm" in said), (1, True))

    def test_bytes_and_marks(self):
        for text in ("\ufeffgauge;day;mm\r\nA;1;5\r\n", "sep=;\ngauge;day;mm\nA;1;5\n", "# from the logger\ngauge\tday\tmm\nA\t1\t5\n", 'gauge,day,mm\n"A", 1 , 5 \n'):
            status, said, out = self.asked(text)
            self.assertEqual((status, [row["mean"] for row in out]), (0, ["5.0"]), said)
        with folder(in_csv=b"gauge,day,mm\nA,1,5\nB,1,\xe4\n", list_csv="id,x,y\nA,1,1\n") as here:
            status, said = ask("rollup", here / "list.csv", here / "in.csv", "-o", here / "out.csv")
            self.assertEqual((status, "in.csv, line 3: a byte that is no UTF-8" in said), (1, True), said)

    def test_gauges_without_names(self):
        with folder(in_csv="gauge,day,mm\n1,1,5\n", list_csv="x,y\n1,1\n9,1\n5,8\n") as here:
            status, said = ask("rollup", here / "list.csv", here / "in.csv", "-o", here / "out.csv")
            self.assertEqual((status, "no reading can be theirs: write a column id" in said), (1, True), said)

    def test_plot(self):
        import xml.etree.ElementTree
        with folder() as here:
            status, said = ask("rollup", BOARD / "gauges.csv", BOARD / "readings.csv", *EDGES, "--fixed", "--plot", here / "out.svg", "-o", here / "out.csv")
            self.assertEqual(status, 3)
            root = xml.etree.ElementTree.parse(here / "out.svg").getroot()
            bars = [rect.get("fill") for rect in root.iter("{http://www.w3.org/2000/svg}rect")][1:]
            self.assertEqual((len(bars), bars.count("#c8102e")), (96, 7))


class Refused(unittest.TestCase):
    def test_a_day_that_cannot_be_built(self):
        """As voronoice, two gauges have no pieces: that day is refused with its words, the others stand."""
        lines = "".join(f"{id_},{day},5\n" for day in ("2026-01-01", "2026-01-02") for id_ in "ABCD"[:4 if day.endswith("1") else 2])
        with folder(in_csv="gauge,day,mm\n" + lines, list_csv="id,x,y\nA,1,1\nB,9,1.5\nC,5,8\nD,2,7\n") as here:
            status, said = ask("rollup", here / "list.csv", here / "in.csv", "--box", "0", "0", "10", "10", "--as-voronoice", "-o", here / "out.csv")
            self.assertEqual(status, 3, said)
            one, two = rows(here / "out.csv")
            self.assertEqual((one["verdict"], one["mean"]), ("whole", "5.0"))
            self.assertEqual((two["total"], two["share"], two["verdict"][:10]), ("", "0.000000000", "refused 1:"))


class Shown(unittest.TestCase):
    def test_what_readme_shows(self):
        """The row that README shows is the command's, but for last digits."""
        shown = [line.strip().split(",") for line in (ROOT / "README.md").read_text().splitlines() if line.startswith("    2026-") or line.startswith("    day,sheet,")]
        self.assertGreater(len(shown), 1)
        with folder() as here:
            self.assertEqual(ask("rollup", BOARD / "gauges.csv", BOARD / "readings.csv", "--boxes", BOARD / "sheets.csv", "-o", here / "out.csv")[0], 0)
            found = {(row["day"], row["sheet"]): row for row in rows(here / "out.csv")}
        for cells in shown[1:]:
            told = dict(zip(shown[0], cells))
            row = found[told["day"], told["sheet"]]
            for name, word in told.items():
                if name in ("total", "mean"):
                    self.assertAlmostEqual(float(row[name]) / float(word), 1, delta=1e-12)
                else:
                    self.assertEqual(row[name], word)


class Sums(unittest.TestCase):
    def test_rounded_once(self):
        at = random.Random(5)
        for _ in range(200):
            values = numpy.array([round(at.expovariate(.1), 1) for _ in range(60)])
            areas = numpy.array([at.uniform(0, 1) * 10.0 ** at.randrange(-3, 9) for _ in range(60)])
            exact = sum(Fraction(v) * Fraction(a) for v, a in zip(values.tolist(), areas.tolist()))
            self.assertEqual(rollup.exact_sum(values, areas), float(exact))

    def test_a_mesh_for_each_set_is_made_once(self):
        read = readings.read(str(BOARD / "readings.csv"), listed())
        sheets = rollup.Sheets(read.gauges, [("", BOX)], None)
        for values in read.days.values():
            sheets.areas(~numpy.isnan(values))
        self.assertEqual(len(sheets.kept), 2)

    def test_what_is_not_certified_is_told(self):
        """Pieces that a wrong mesh made: every day of them is a fault, and nothing is said to be certified."""
        from unittest import mock
        honest = rollup.pieces

        def flipped(points, box, mesh, way):
            found = honest(points, box, mesh, way)
            found.mesh.sites[[0, 7]] = found.mesh.sites[[7, 0]]
            return found

        with mock.patch.object(rollup, "pieces", flipped):
            read = readings.read(str(BOARD / "readings.csv"), listed())
            found = rollup.rows(read, rollup.Sheets(read.gauges, [("", BOX)], None))
            self.assertEqual({row.verdict.split(", the corner ")[0] for row in found}, {"fault: kind 4"})
            self.assertFalse(any(row.whole for row in found))


if __name__ == "__main__":
    unittest.main()
