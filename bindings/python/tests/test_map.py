"""What `map` writes, read back: the table, GeoJSON, the GeoPackage by GDAL and shapely, the pictures."""
import json
import re
import shutil
import sqlite3
import struct
import subprocess
import unittest
import xml.etree.ElementTree
from fractions import Fraction

from asked import ROOT, SHEET, ask, folder, rows as rows_of
from yelmuzard.board import answer as answers

BOARD = ROOT / "examples" / "board"
BOX = ["--box", "380000", "5810000", "440000", "5850000"]
SVG = "{http://www.w3.org/2000/svg}"


def mapped(here, *more):
    status, said = ask("map", BOARD / "gauges.csv", *BOX, "--crs", "EPSG:32633", *more)
    return status, said


class Tables(unittest.TestCase):
    def test_csv(self):
        with folder() as here:
            status, said = mapped(here, "-o", here / "pieces.csv")
            self.assertEqual(status, 0, said)
            rows = rows_of((here / "pieces.csv"))
            self.assertEqual(list(rows[0]), "id,name,x,y,area,share,elevation_m,since,geometry".split(","))
            listed = {row["station_id"]: row for row in rows_of((BOARD / "gauges.csv"))}
            self.assertEqual({row["id"] for row in rows}, set(listed))
            for row in rows:
                own = listed[row["id"]]
                self.assertEqual((row["name"], row["elevation_m"], row["since"]), (own["name"], own["elevation_m"], own["since"]))
                self.assertEqual((float(row["x"]), float(row["y"])), (float(own["easting"]), float(own["northing"])))
                self.assertEqual(float(row["share"]), float(row["area"]) / 2.4e9)
            self.assertAlmostEqual(sum(Fraction(row["area"]) for row in rows) / 2400000000, 1, delta=1e-13)

    def test_geojson(self):
        with folder() as here:
            status, said = mapped(here, "-o", here / "pieces.geojson", "-o", here / "pieces.csv")
            self.assertEqual(status, 0, said)
            found = json.loads((here / "pieces.geojson").read_text())
            self.assertEqual(found["crs"]["properties"]["name"], "urn:ogc:def:crs:EPSG::32633")
            rows = {row["id"]: row for row in rows_of((here / "pieces.csv"))}
            for feature in found["features"]:
                facts = feature["properties"]
                row = rows[facts["id"]]
                self.assertEqual((facts["name"], facts["x"], facts["elevation_m"], facts["since"]), (row["name"], float(row["x"]), float(row["elevation_m"]), row["since"]))
                ring = [tuple(p) for p in feature["geometry"]["coordinates"][0]] if feature["geometry"]["coordinates"] else []
                own = answers.ring_of(bytes.fromhex(row["geometry"]))
                self.assertEqual(set(ring), set(own))
                if ring:
                    self.assertEqual(ring[0], ring[-1])
                    self.assertGreater(sum(x * v - y * u for (x, y), (u, v) in zip(ring, ring[1:])), 0)  # counter-clockwise with y up

    def test_an_id_stays_text(self):
        with folder(in_csv="id,name,x,y,code\n007,a,1,1,01\n008,b,9,1,02\n010,c,5,8,3\n") as here:
            outs = [here / name for name in ("out.csv", "out.geojson", "out.gpkg")]
            status, said = ask("map", here / "in.csv", "--box", "0", "0", "10", "10", *[word for out in outs for word in ("-o", out)])
            self.assertEqual(status, 0, said)
            self.assertEqual([row["id"] for row in rows_of(outs[0])], ["007", "008", "010"])
            self.assertEqual([f["properties"]["code"] for f in json.loads(outs[1].read_text())["features"]], ["01", "02", "3"])
            base = sqlite3.connect(outs[2])
            self.assertEqual(base.execute("SELECT id, code FROM pieces ORDER BY fid").fetchall(), [("007", "01"), ("008", "02"), ("010", "3")])
            base.close()

    def test_any_number_of_columns_and_values(self):
        with folder(in_csv="id,x,y,mm\na,1,1,5\nb,9,1,\nc,5,8,7.5\n") as here:
            status, said = ask("map", here / "in.csv", "--box", "0", "0", "10", "10", "--value", "mm", "-o", here / "out.csv", "-o", here / "out.svg")
            self.assertEqual(status, 0, said)
            self.assertEqual([row["mm_value"] for row in rows_of((here / "out.csv"))], ["5.0", "", "7.5"])
            self.assertIn("1 without a value", (here / "out.svg").read_text())


@unittest.skipUnless(shutil.which("ogr2ogr"), "GDAL is not installed (Debian package gdal-bin)")
class GeoPackage(unittest.TestCase):
    def test_read_back(self):
        import shapely.geometry
        import shapely.ops
        import shapely.wkb
        with folder() as here:
            status, said = mapped(here, "-o", here / "map.gpkg", "-o", here / "pieces.csv")
            self.assertEqual(status, 0, said)
            info = subprocess.run(["ogrinfo", "-ro", "-so", str(here / "map.gpkg"), "pieces"], stdout=subprocess.PIPE, check=True).stdout.decode()
            self.assertIn('ID["EPSG",32633]', info)
            self.assertIn("Feature Count: 60", info)
            for column in ("id: String", "name: String", "x: Real", "y: Real", "area: Real", "share: Real", "elevation_m: Real", "since: String"):
                self.assertIn(column, info)
            ran = subprocess.run(["ogr2ogr", "-f", "GeoJSON", "/vsistdout/", str(here / "map.gpkg"), "pieces", "-lco", "COORDINATE_PRECISION=17", "-lco", "RFC7946=NO"],
                                 stdout=subprocess.PIPE, check=True)
            rows = {row["id"]: row for row in rows_of((here / "pieces.csv"))}
            shapes = []
            for feature in json.loads(ran.stdout)["features"]:
                row, facts = rows.pop(feature["properties"]["id"]), feature["properties"]
                self.assertEqual((facts["name"] or "", facts["x"], facts["y"], facts["area"], facts["share"]),
                                 (row["name"], float(row["x"]), float(row["y"]), float(row["area"]), float(row["share"])))
                shape = shapely.wkb.loads(bytes.fromhex(row["geometry"]))
                if not feature["geometry"] or shape.is_empty:
                    continue
                self.assertTrue(shapely.geometry.shape(feature["geometry"]).equals(shape))
                self.assertTrue(shape.is_valid)
                shapes.append(shape)
            self.assertEqual(rows, {})
            box = shapely.geometry.box(380000, 5810000, 440000, 5850000)
            self.assertEqual(shapely.ops.unary_union(shapes).symmetric_difference(box).area, 0)

    def test_index_and_style(self):
        with folder() as here:
            self.assertEqual(mapped(here, "-o", here / "map.gpkg")[0], 0)
            base = sqlite3.connect(here / "map.gpkg")
            self.assertEqual(base.execute("SELECT count(*) FROM gpkg_extensions WHERE extension_name = 'gpkg_rtree_index'").fetchone(), (1,))
            self.assertEqual(base.execute("SELECT min(miny) >= 5810000 - 1 FROM rtree_pieces_geom").fetchone(), (1,))
            name, column, default, qml = base.execute("SELECT f_table_name, f_geometry_column, useAsDefault, styleQML FROM layer_styles").fetchone()
            base.close()
            self.assertEqual((name, column, default), ("pieces", "geom", 1))
            style = xml.etree.ElementTree.fromstring(qml.split("\n", 1)[1])
            ranges = [(float(r.get("lower")), float(r.get("upper"))) for r in style.iter("range")]
            self.assertEqual(len(ranges), 7)
            self.assertTrue(all(a[1] == b[0] for a, b in zip(ranges, ranges[1:])))
            self.assertEqual(len({s.find(".//Option[@name='color']").get("value") for s in style.iter("symbol")}), 7)
            info = subprocess.run(["ogrinfo", "-ro", str(here / "map.gpkg")], stdout=subprocess.PIPE, stderr=subprocess.PIPE, check=True)
            self.assertEqual(info.stderr, b"")


class Pictures(unittest.TestCase):
    def drawn(self, *words):
        with folder() as here:
            status, said = ask("map", *words, "-o", here / "map.svg")
            self.assertIn(status, (0, 3), said)
            return xml.etree.ElementTree.parse(here / "map.svg").getroot()

    def texts(self, root):
        return ["".join(text.itertext()) for text in root.iter(SVG + "text")]

    def test_every_gauge_is_named_or_in_the_key(self):
        root = self.drawn(BOARD / "gauges.csv", *BOX, "--crs", "EPSG:32633", "--title", "A board")
        said = " ".join(self.texts(root))
        rows = rows_of((BOARD / "gauges.csv"))
        for row in rows:
            if 380000 <= float(row["easting"]) <= 440000 and 5810000 <= float(row["northing"]) <= 5850000:
                self.assertIn(row["name"], said)
        self.assertIn("all of the box", said)
        self.assertRegex(said, r"\d{4}-\d\d-\d\d · EPSG:32633 · Yelmuzard [\d.]+ · certified to 2 mm")
        self.assertIn(" N ", said)
        self.assertIn("10 km", said)
        self.assertIn("390\u202f000", said)

    def test_neighbours_have_other_colours(self):
        root = self.drawn(ROOT / "examples" / "thirty.csv", "--box", "0", "0", "100", "80", "--unit", "km")
        drawn = [path for path in root.iter(SVG + "path") if path.get("fill", "")[:1] == "#" and path.get("d", "").endswith("Z")]
        self.assertEqual(len(drawn), 30)
        at = {}
        for k, path in enumerate(drawn):
            ring = re.split("[ML]", path.get("d").rstrip("Z"))[1:]
            for side in zip(ring, ring[1:] + ring[:1]):
                at.setdefault(frozenset(side), []).append(k)
        for both in at.values():
            self.assertEqual(len({drawn[k].get("fill") for k in both}), len(both))

    def test_many_have_a_legend_in_one_unit(self):
        said = " ".join(self.texts(self.drawn(ROOT / "examples" / "board.csv", *SHEET)))
        self.assertIn("km² a piece, logarithmic", said)
        self.assertIn("2,000 gauges · all of the box", said)

    def test_values(self):
        with folder() as here:
            status, said = ask("map", BOARD / "gauges.csv", *BOX, "--values", BOARD / "readings.csv", "--day", "2026-05-12", "-o", here / "map.svg")
            self.assertEqual(status, 0, said)
            words = " ".join(self.texts(xml.etree.ElementTree.parse(here / "map.svg").getroot()))
            self.assertIn("mm 2026-05-12", words)
            self.assertIn("2 without a value", words)
            status, said = ask("map", BOARD / "gauges.csv", *BOX, "--values", BOARD / "readings.csv", "-o", here / "map.svg")
            self.assertEqual(status, 1)
            self.assertIn("96 days, from 2026-03-01 to 2026-06-04: say which one with --day DAY", said)


class Steps(unittest.TestCase):
    """gauges, pieces, picture: the three steps of map."""

    def test_they_give_what_map_gives(self):
        with folder() as here:
            self.assertEqual(ask("map", BOARD / "gauges.csv", *BOX, "--as-voronoice", "-o", here / "one.csv")[0], 0)
            self.assertEqual(ask("gauges", BOARD / "gauges.csv", *BOX, "-o", here / "mesh.txt")[0], 0)
            status, said = ask("pieces", here / "mesh.txt", "--as-voronoice", "-o", here / "two.csv")
            self.assertEqual(status, 0, said)
            one, two = (rows_of((here / name)) for name in ("one.csv", "two.csv"))
            for a, b in zip(one, two):
                self.assertEqual([a[key] for key in ("id", "name", "x", "y", "area", "share", "geometry")], [b[key] for key in b])
            status, said = ask("picture", here / "two.csv", here / "mesh.txt", "--unit", "m", "--y", "up", "-o", here / "map.svg")
            self.assertEqual(status, 0, said)
            # a table that is not this mesh's: a gauge moved, and another list
            moved = (here / "two.csv").read_text().replace("414545.3", "414545.4", 1)
            (here / "moved.csv").write_text(moved)
            status, said = ask("picture", here / "moved.csv", here / "mesh.txt", "-o", here / "map.svg")
            self.assertEqual(status, 1)
            self.assertIn("the table is not this mesh's", said)
            status, said = ask("picture", here / "two.csv", ROOT / "docs" / "maps" / "thirty.txt", "-o", here / "map.svg")
            self.assertEqual(status, 1)
            self.assertIn("60 pieces in two.csv and 30 gauges in thirty.txt", said)
            (here / "turned.csv").write_text("\n".join([moved.split("\n")[0]] + moved.split("\n")[:0:-1]).strip() + "\n")
            status, said = ask("picture", here / "two.csv", here / "mesh.txt", "-o", "/nowhere/map.svg")
            self.assertEqual(status, 2)

    def test_stored_meshes(self):
        """The meshes of docs/maps as voronoice builds them: sound, wound the wrong way, and with a lost corner; and the accident, by cutting too."""
        whole = "certified: every place that is nearer to one gauge by more than"
        for name, way, status, words in (
                ("docs/maps/thirty", ["--as-voronoice"], 0, f"{whole} 5.3e-07 is in its piece, once"), ("docs/maps/thirty", [], 0, f"{whole} 3.4e-08 is in its piece, once"),
                ("docs/maps/board", ["--as-voronoice"], 0, "2,000 gauges; 0 of the box is missing, by proof; 0 of its corners lost; 0 pieces empty"),
                ("docs/maps/turned", ["--as-voronoice"], 3, "50 of 50 triangles turn the wrong way, or are flat; the lowest is triangle 0"),
                ("docs/maps/turned", ["--as-voronoice"], 3, "FAULT: kind 2, the side that starts at the corner "),
                ("docs/maps/lost", ["--as-voronoice"], 3, "0.312 of the box is missing; 1 of its corners lost; 1 pieces empty"),
                ("docs/maps/lost", ["--as-voronoice"], 3, "FAULT: kind "), ("examples/accident", ["--as-voronoice"], 3, "FAULT: kind 2, "),
                ("examples/accident", [], 3, "FAULT: kind 4, the corner "), ("docs/maps/turned", [], 1, "refused 25")):
            with folder() as here:
                got, said = ask("pieces", ROOT / f"{name}.txt", *way, "-o", here / "pieces.csv")
                self.assertEqual(got, status, said)
                self.assertIn(words, said)

    def test_forms(self):
        with folder(cut_form=(ROOT / "examples" / "square.form").read_bytes()[:100], old_form=b"\6\5") as here:
            for file in ("square.form", "square.txt"):
                status, said = ask("pieces", ROOT / "examples" / file, "--as-voronoice", "--bits", "52", "-o", here / "out.csv")
                self.assertEqual(status, 0, said)
                self.assertEqual([row["area"] for row in rows_of((here / "out.csv"))], ["1.0"] * 4)
            status, said = ask("pieces", here / "cut.form", "-o", here / "out.csv")
            self.assertEqual((status, "the form is broken at byte 100" in said), (1, True), said)
            status, said = ask("pieces", here / "old.form", "-o", here / "out.csv")
            self.assertEqual((status, "refused 20" in said), (1, True), said)


if __name__ == "__main__":
    unittest.main()
