"""The rollup against SQL in PostGIS, to the last digit, on a server of its own.

The tables that `map` writes are loaded as they are; SQL joins readings and pieces by the gauge's id and sums them as numeric. There a float8 must be written out in
full, for PostgreSQL's cast to numeric keeps 15 digits: the readings and areas go in as the exact decimals of their floats, so that SQL's sum is exact, and its one
rounding to float8 is ours. PostGIS's own areas of the same polygons are held to ours beside it.
"""
import csv
import decimal
import glob
import io
import os
import pathlib
import shutil
import subprocess
import tempfile
import unittest

from asked import ROOT, ask, folder, rows

BOARD = ROOT / "examples" / "board"
EDGES = ["--box", "380000", "5810000", "440000", "5850000"]
BIN = (sorted(glob.glob("/usr/lib/postgresql/*/bin")) or [""])[-1]
POSTGIS = bool(glob.glob("/usr/share/postgresql/*/extension/postgis.control"))


class Server:
    """A server in a folder of its own, on a socket there and no port; as root it runs as the user postgres."""

    def __enter__(self):
        self.folder = pathlib.Path(tempfile.mkdtemp(prefix="yelmuzard-"))
        self.before = []
        if os.getuid() == 0:
            shutil.chown(self.folder, "postgres")
            self.before = ["runuser", "-u", "postgres", "--"]
        self.run([f"{BIN}/initdb", "-D", str(self.folder / "data"), "-A", "trust", "-U", "postgres", "--no-sync", "-E", "UTF8", "--locale=C"])
        try:
            self.run([f"{BIN}/pg_ctl", "-D", str(self.folder / "data"), "-w", "-l", str(self.folder / "log"), "-o",
                      f"-c listen_addresses='' -c unix_socket_directories='{self.folder}' -c fsync=off", "start"])
        except BaseException:
            shutil.rmtree(self.folder)
            raise
        return self

    def __exit__(self, *_):
        self.run([f"{BIN}/pg_ctl", "-D", str(self.folder / "data"), "-m", "immediate", "stop"])
        shutil.rmtree(self.folder)

    def run(self, words):
        ran = subprocess.run(self.before + words, stdout=subprocess.PIPE, stderr=subprocess.STDOUT, cwd="/")
        if ran.returncode:
            raise RuntimeError(ran.stdout.decode(errors="replace"))

    def sql(self, text):
        """The rows that a script prints, as lists of words."""
        ran = subprocess.run([f"{BIN}/psql", "-h", str(self.folder), "-U", "postgres", "-X", "-q", "-A", "-t", "-F", "\t", "-v", "ON_ERROR_STOP=1"],
                             input=text.encode(), stdout=subprocess.PIPE, stderr=subprocess.PIPE)
        if ran.returncode:
            raise RuntimeError(ran.stderr.decode(errors="replace"))
        return [line.split("\t") for line in ran.stdout.decode().splitlines()]


def exact(number):
    return format(decimal.Decimal(number), "f")


def copied(table, lines):
    out = io.StringIO()
    csv.writer(out, lineterminator="\n").writerows(lines)
    return f"COPY {table} FROM STDIN WITH (FORMAT csv);\n{out.getvalue()}\\.\n"


@unittest.skipUnless(BIN and POSTGIS, "PostgreSQL with PostGIS is not installed (Debian packages postgresql, postgresql-15-postgis-3)")
class Sql(unittest.TestCase):
    @classmethod
    def setUpClass(cls):
        cls.server = Server().__enter__()

    @classmethod
    def tearDownClass(cls):
        cls.server.__exit__()

    def test_rollup_to_the_last_digit(self):
        """With the pieces of all gauges kept, so that SQL can join them: each of the 96 totals, and the share that had a reading."""
        with folder() as here:
            status, said = ask("map", BOARD / "gauges.csv", *EDGES, "-o", here / "pieces.csv")
            self.assertEqual(status, 0, said)
            status, said = ask("rollup", BOARD / "gauges.csv", BOARD / "readings.csv", *EDGES, "--fixed", "-o", here / "rollup.csv")
            self.assertEqual(status, 3, said)
            pieces, ours = rows(here / "pieces.csv"), rows(here / "rollup.csv")
        read = [(row["station_id"], row["day"], exact(float(row["mm"]))) for row in rows(BOARD / "readings.csv") if row["mm"] not in ("NA", "-999")]
        theirs = self.server.sql(
            "CREATE EXTENSION IF NOT EXISTS postgis;\nCREATE TABLE pieces (id text PRIMARY KEY, area numeric, float_area float8, geometry text);\n"
            "CREATE TABLE readings (id text, day date, mm numeric);\n"
            + copied("pieces", [(row["id"], exact(float(row["area"])), row["area"], row["geometry"]) for row in pieces]) + copied("readings", read)
            + "SET extra_float_digits = 3;\n"
            "SELECT day, sum(mm * area)::float8, count(*), sum(area)::float8 / 2.4e9 FROM readings JOIN pieces USING (id) GROUP BY day ORDER BY day;\n")
        self.assertEqual(len(theirs), 96)
        for (day, total, count, share), row in zip(theirs, ours):
            self.assertEqual((row["day"], float(row["total"]), row["gauges"]), (day, float(total), count))
            self.assertAlmostEqual(float(row["share"]), float(share), delta=1e-9)
        (worst, valid, total), = self.server.sql(
            "SELECT max(abs(ST_Area(g) / float_area - 1)), sum(ST_IsValid(g)::int), sum(ST_Area(g)) FROM "
            "(SELECT float_area, ST_SetSRID(ST_GeomFromWKB(decode(geometry, 'hex')), 32633) AS g FROM pieces WHERE float_area > 0) AS shapes;\n")
        self.assertLess(float(worst), 1e-14)
        self.assertEqual(int(valid), sum(float(row["area"]) > 0 for row in pieces))
        self.assertAlmostEqual(float(total) / 2.4e9, 1, delta=1e-12)

    def test_days_with_silent_gauges(self):
        """On the days of the silent week PostGIS's own Voronoi polygons of the gauges that reported give our mean, to what its floats allow."""
        with folder() as here:
            status, said = ask("rollup", BOARD / "gauges.csv", BOARD / "readings.csv", *EDGES, "-o", here / "rollup.csv")
            self.assertEqual(status, 0, said)
            ours = {row["day"]: row for row in rows(here / "rollup.csv")}
        read = [(row["station_id"], row["day"], row["mm"]) for row in rows(BOARD / "readings.csv") if row["mm"] not in ("NA", "-999")]
        theirs = self.server.sql(
            "CREATE EXTENSION IF NOT EXISTS postgis;\nCREATE TABLE gauges (id text PRIMARY KEY, p geometry);\nCREATE TABLE days (id text, day date, mm float8);\n"
            + copied("gauges", [(row["station_id"], f"POINT({row['easting']} {row['northing']})") for row in rows(BOARD / "gauges.csv")]) + copied("days", read)
            + """WITH box AS (SELECT ST_MakeEnvelope(380000, 5810000, 440000, 5850000) AS b),
                cells AS (SELECT day, (ST_Dump(ST_VoronoiPolygons(ST_Collect(p), 0, (SELECT ST_Expand(b, 1e5) FROM box)))).geom AS g
                          FROM days JOIN gauges USING (id) WHERE day BETWEEN '2026-05-09' AND '2026-05-19' GROUP BY day)
                SELECT c.day, sum(mm * ST_Area(ST_Intersection(g, b))) / 2.4e9 FROM cells c JOIN days d ON d.day = c.day JOIN gauges u ON u.id = d.id AND ST_Intersects(g, p), box
                GROUP BY c.day ORDER BY c.day;\n""")
        self.assertEqual(len(theirs), 11)
        for day, mean in theirs:
            self.assertAlmostEqual(float(ours[day]["mean"]), float(mean), delta=1e-9 * max(1, float(mean)))
            self.assertEqual(ours[day]["verdict"], "whole")


if __name__ == "__main__":
    unittest.main()
