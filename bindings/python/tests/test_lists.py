"""Lists of gauges: those that failed at boards, each with its words and status, and those that are read."""
import random
import unittest

from asked import ROOT, SHEET, ask, folder, rows as rows_of
from yelmuzard.board import gauges, table
from yelmuzard.board.told import Told

NAMES = ["Große Spree-Wehr", "Łęg, Brücke", "Ems O'Neill", 'Müritz "Nord"', "Oder km 12", "Pumpwerk #3", "Wehr 7", "Bad Saarow", "Kläranlage Süd", "Żagań"]


def places(count=40, seed=20261116):
    at = random.Random(seed)
    return [(round(at.uniform(320100, 429900), 1), round(at.uniform(5800100, 5889900), 1)) for _ in range(count)]


def quoted(name):
    return '"' + name.replace('"', '""') + '"'


def read(data, **asked):
    return gauges.of(table.read("in.csv", data if isinstance(data, bytes) else data.encode()), gauges.Asked(**asked))


SQUARE = "0,0,a\n10,0,b\n10,10,c\n0,10,d\n"
# a list, the words that it is told with; each with status 1
TOLD = [
    ("", "no gauge: a header and a line for each gauge are wanted"),
    ("x,y\n", "no gauge"),
    ("lat,lon,name\n52.1,13.2,a\n52.2,13.3,b\n52.3,13.1,c\n", "the columns lat and lon are degrees, and degrees are no plane"),
    ("name,longitude,latitude\na,13.2,52.1\nb,13.3,52.2\nc,13.1,52.3\n", "-s_srs EPSG:4326 -t_srs EPSG:32633"),
    ("a,b,c\n1,2,u\n3,4,v\n5,7,w\n", "no column is called x and y (or easting, northing, rechtswert, hochwert ..); there are a, b, c: say which they are with --x NAME --y NAME"),
    ("x,height,name\n1,2,u\n", "no column is called y "),
    ("x,x,y\n1,2,3\n", "2 columns are called 'x'"),
    ("1,397361.7,5822224.0\n2,424250.4,5888007.0\n3,377958.6,5824387.0\n", "no line names the columns, and the first counts 1, 2, 3 ..: an id? Write a first line such as id,x,y"),
    ("0,1,5\n1,9,2\n2,4,4\n", "counts 0, 1, 2"),
    ("DE1,Wehr,397361.7,5822224.0,12\n", "line 1: 5 columns, and no line names them: write a first line such as id,name,x,y"),
    ("Wehr,397361.7,5822224.0\nNord,377958.6,5824387.0\n", "no line names the columns, and the first is no number: write a first line such as name,x,y"),
    ("id,x,y\n7,1,2\n8,3,4\n7,5,7\n", "line 4: the id '7' stands on line 2 too"),
    ("id,x,y\n7,1,2\n,3,4\n", "line 3: the id is empty"),
    (SQUARE + "7\n", "line 5: y is empty"),
    (SQUARE + "seven,8\n", "line 5: x is 'seven', no finite number of at most 2^100"),
    (SQUARE + "7,,name\n", "line 5: y is empty"),
    (SQUARE + "7,nan\n", "line 5: y is 'nan', no finite number"),
    (SQUARE + "-inf,7\n", "line 5: x is '-inf', no finite number"),
    (SQUARE + "1e31,7\n", "line 5: x is '1e31', no finite number"),
    (SQUARE + "1_0,7\n", "line 5: x is '1_0', no finite number"),
    (SQUARE + "٣,7\n", "line 5: x is '٣', no finite number"),
    ("x;y;name\n1,5;2,5;A\n3,5;4;B\n4;5;C\n", "line 2: x is '1,5', a decimal comma: write a point"),
    ('x,y\n"1,5",2\n3,4\n5,5\n', "line 2: x is '1,5', a decimal comma"),
    ("x;y;name\n397,361.7;5,822,224.0;A\n", "line 2: x is '397,361.7', commas between the thousands: write it without them"),
    ("x,y,name\n397361,7,5822224,0,A\n", "line 2: 5 columns, and the header has 3: are there decimal commas?"),
    ("x,y\n1,2\n3,4\n1,2\n", "line 4: stands where line 2 does (1 and 3): leave one of them out"),
    ("x,y\n0,0\n-0.0,5\n4,4\n-0.0,-0\n", "line 5: stands where line 2 does"),
    (SQUARE.encode() + b"7,8,\xe4\n", "line 5: a byte that is no UTF-8: save the file as UTF-8"),
    (SQUARE + "7,8,na\x07me\n", "line 5: 'na\\x07me' has a control character"),
    (SQUARE + '7,8,"open\n', "line 5: a quote that is not closed"),
]


class Told1(unittest.TestCase):
    def test_each_has_its_words_and_its_status(self):
        for data, words in TOLD:
            with folder(in_csv=data) as here:
                status, said = ask("map", here / "in.csv", "-o", here / "out.csv")
                self.assertEqual(status, 1, (data[-60:], said))
                self.assertIn(words, said)
                self.assertTrue(said.splitlines()[-1].startswith("map: ") or "\n  ogr2ogr" in said, said)
                self.assertFalse((here / "out.csv").exists())

    def test_too_many(self):
        data = "x,y\n" + "".join(f"{k},{k * k % 65537}\n" for k in range(65537))
        with folder(in_csv=data) as here:
            status, said = ask("map", here / "in.csv", "-o", here / "out.csv")
            self.assertEqual(status, 1)
            self.assertIn("65,537 gauges: at most 65,536 are taken; cut the area into sheets that overlap", said)

    def test_exchanged_columns(self):
        rows = "".join(f"{y},{x}\n" for x, y in places())
        with folder(in_csv="x,y\n" + rows) as here:
            status, said = ask("map", here / "in.csv", *SHEET, "-o", here / "out.csv")
            self.assertEqual(status, 1)
            self.assertIn("0 of 40 gauges are in the box, and 40 would be with x and y exchanged", said)
        with folder(in_csv="y,x\n" + rows) as here:
            self.assertEqual(ask("map", here / "in.csv", *SHEET, "-o", here / "out.csv")[0], 0)

    def test_box(self):
        with folder(in_csv="x,y,name\n" + SQUARE) as here:
            for edges, words in ((("0", "0", "0", "1"), "WEST must be below EAST"), (("10", "0", "0", "10"), "WEST must be below EAST"),
                                 (("0", "0", "nan", "1"), "no finite number"), (("0", "5", "10", "1"), "WEST must be below EAST and SOUTH below NORTH")):
                status, said = ask("map", here / "in.csv", "--box", *edges, "-o", here / "out.csv")
                self.assertEqual(status, 1, said)
                self.assertIn(words, said)
            for more in (["--box", "1"], ["--margin", "-1"], ["--tall"], ["--box", "0", "0", "9", "9", "--margin", "1"], ["-o", here / "out.pdf"]):
                self.assertEqual(ask("map", here / "in.csv", "-o", here / "out.csv", *more)[0], 2, more)
            self.assertEqual(ask("map", here / "in.csv", "--box", "-1e1", "-.5", "2e1", "19", "-o", here / "out.csv")[0], 0)
            self.assertEqual(ask("map", here / "nowhere.csv", "-o", here / "out.csv")[0], 2)


class Read(unittest.TestCase):
    def test_id_x_y(self):
        found = read("id,x,y\n" + "".join(f"{40000 + 7 * k},{x},{y}\n" for k, (x, y) in enumerate(places())))
        self.assertEqual(found.ids[:2], ["40000", "40007"])
        self.assertEqual(found.points.tolist(), [list(p) for p in places()])

    def test_six_columns_of_a_database(self):
        rows = [f"DE{40000 + 7 * k},{quoted(NAMES[k % 10] + f' {k}')},{x},{y},{k}.5,1951-04-01" for k, (x, y) in enumerate(places())]
        found = read("station_id,name,easting,northing,elevation_m,since\n" + "\n".join(rows) + "\n")
        self.assertEqual((found.ids[3], found.names[3], found.names[5]), ("DE40021", 'Müritz "Nord" 3', "Pumpwerk #3 5"))
        self.assertEqual((found.more, found.cells[3], found.known), (["elevation_m", "since"], ["3.5", "1951-04-01"], "id"))

    def test_names_of_columns(self):
        for head in ("Rechtswert;Hochwert;Name", "Easting [m];Northing [m];Station", "X-Koordinate;Y-Koordinate;Bezeichnung", "utm_e;utm_n;label", "E;N;gauge"):
            found = read(head + "\n1;2;a\n3;4;b\n")
            self.assertEqual((found.points.tolist(), found.ids), ([[1, 2], [3, 4]], ["a", "b"]), head)
        found = read("here,there,what\n1,2,a\n", x="there", y="here", id="what")
        self.assertEqual((found.points.tolist(), found.ids), ([[2, 1]], ["a"]))
        with self.assertRaises(Told):
            read("x,y\n1,2\n", id="station")

    def test_both_plane_and_degrees(self):
        found = read("id,lat,lon,easting,northing\n7,52.1,13.2,389000,5773000\n")
        self.assertEqual((found.points.tolist(), found.more), ([[389000, 5773000]], ["lat", "lon"]))
        self.assertEqual(read("lat,lon\n52.1,13.2\n", degrees=True).points.tolist(), [[13.2, 52.1]])

    def test_marks(self):
        for data in ("x\ty\tname\n1\t2\ta, b\n", 'sep=;\nx;y;name\n1;2;"a, b"\n', '"sep=;"\r\nx;y;name\r\n1;2;a, b\r\n', 'x,y,name\n1,2,"a, b"\n', "\ufeffx;y;name\n1;2;a, b",
                     "# a comment\n\nx;y;name\n  # one more\n1 ; 2 ; a, b ;\n", 'x,y,name\n 1 , +2. ,"a, b"\n', "x;y;name\r1;2;a, b\r"):
            found = read(data)
            self.assertEqual((found.points.tolist(), found.names), ([[1, 2]], ["a, b"]), data)

    def test_a_quoted_mark(self):
        found = read('x,y,name\n1,2,"Pumpwerk #3"\n3,4,Pumpwerk #4\n5,6,"one\ntwo"\n')
        self.assertEqual(found.names, ["Pumpwerk #3", "Pumpwerk #4", "one two"])
        self.assertEqual(found.lines, [2, 3, 4])

    def test_no_header(self):
        found = read("1.5,2\n3,4\n5,5\n")
        self.assertEqual((found.ids, found.known), (["1", "2", "3"], "place"))
        found = read(SQUARE)
        self.assertEqual((found.ids, found.known), (["a", "b", "c", "d"], "name"))
        self.assertEqual(read("0,0,a;b\n10,0,b\n").names, ["a;b", "b"])
        self.assertEqual(read("x,y,name\n1,2,same\n3,4,same\n").ids, ["1", "2"])


class Said(unittest.TestCase):
    def test_twins(self):
        rows = places() + [(places()[3][0] + .5, places()[3][1])]
        with folder(in_csv="id,x,y\n" + "".join(f"G{k},{x},{y}\n" for k, (x, y) in enumerate(rows))) as here:
            status, said = ask("map", here / "in.csv", *SHEET, "-o", here / "out.csv")
            self.assertEqual(status, 0, said)
            self.assertIn("lines 5 and 42: G3 and G40 are probably one gauge, 0.5 apart", said)

    def test_box_and_outside(self):
        with folder(in_csv="id,x,y\n" + "".join(f"G{k},{x},{y}\n" for k, (x, y) in enumerate(places()))) as here:
            status, said = ask("map", here / "in.csv", "--box", "330000", "5800000", "430000", "5890000", "-o", here / "out.csv")
            outside = sum(x < 330000 for x, _ in places())
            self.assertIn("the box 330000 5800000 430000 5890000, 100 by 90 km", said)
            self.assertIn(f"40 gauges, {outside} outside the box, which count too", said)
            self.assertIn("certified: every place that is nearer to one gauge by more than 2 mm is in its piece, once", said)

    def test_refusal_names_the_gauge(self):
        with folder(in_csv="id,name,x,y\nA7,Wehr,-.5,0\nA8,Nord,.5,.5\nA9,Furt,.75,.5\n") as here:
            status, said = ask("map", here / "in.csv", "--box", "-1", "-1", "1", "1", "--as-voronoice", "-o", here / "out.csv")
            self.assertEqual(status, 1)
            self.assertRegex(said, r"refused 13: an edge that leaves the box was not found to cross it, in the piece of gauge A\d \((Wehr|Nord|Furt)\), line \d, at \(")
            self.assertIn("rule 13, says what to do", said)

    def test_lists_that_a_build_refuses(self):
        """Ordinary lists on whole hundreds of metres: 13 and 14 as voronoice, and whole by cutting."""
        from yelmuzard.library import library
        for seed in range(3):
            at = random.Random(seed)
            rows = {(at.randrange(3200, 4300) * 100, at.randrange(58000, 58900) * 100) for _ in range(500)}
            with folder(in_csv="x,y\n" + "".join(f"{x},{y}\n" for x, y in sorted(rows))) as here:
                status, said = ask("map", here / "in.csv", *SHEET, "--as-voronoice", "-o", here / "out.csv")
                self.assertIn(status, (0, 1), said)
                if library().has("voronoi_cut_by_edges"):
                    status, said = ask("map", here / "in.csv", *SHEET, "-o", here / "out.csv")
                    self.assertEqual(status, 0, said)


class Damaged(unittest.TestCase):
    def test_nothing_is_a_traceback(self):
        at = random.Random(11)
        plain = (ROOT / "examples" / "board" / "gauges.csv").read_bytes()
        seen = {0: 0, 1: 0, 3: 0}
        for turn in range(150):
            data = bytearray(plain)
            for _ in range(at.choice([1, 1, 2, 5, 20])):
                place, way = at.randrange(len(data) + 1), at.randrange(6)
                if way == 0:
                    data[place:place + at.randrange(1, 9)] = b""
                elif way == 1:
                    data[place:place] = bytes(at.randrange(256) for _ in range(at.randrange(1, 5)))
                elif way == 2:
                    del data[place:]
                elif way == 3:
                    data[place:place] = at.choice([b"\0", b'"', b"#", b";", b",", b"\n", b"\r", b"\xef\xbb\xbf", b"\xe2\x80\xa8", b"nan", b"1e400", b"-", b"\t"])
                elif way == 4:
                    lines = data.split(b"\n")
                    lines.insert(at.randrange(len(lines) + 1), at.choice(lines))
                    data = bytearray(b"\n".join(lines))
                else:
                    data = bytearray(data.replace(*at.choice([(b".", b","), (b",", b";"), (b",", b"\t"), (b"\n", b"\r"), (b"0", b""), (b",", b",,")])))
            with folder(in_csv=bytes(data)) as here:
                status, said = ask("map", here / "in.csv", "-o", here / "out.svg", "-o", here / "out.csv")
                self.assertIn(status, seen, (turn, said))
                self.assertTrue(said.strip(), turn)
                seen[status] += 1
                if status == 0:
                    self.assertEqual(len(rows_of((here / "out.csv"))), len(gauges.of(table.read("in.csv", bytes(data)))))
        self.assertGreater(seen[0], 5)
        self.assertGreater(seen[1], 20)


if __name__ == "__main__":
    unittest.main()
