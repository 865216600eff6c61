"""The package over the library: pieces, areas, polygons, neighbours, nearest, certificate, audit, refusals, with shapely as a second opinion."""
import doctest
import importlib
import math
import os
import pathlib
import pkgutil
import random
import threading
import unittest
from fractions import Fraction

import numpy

import yelmuzard
from yelmuzard import lend, qhull, rooms
from yelmuzard.library import library

SQUARE = [(-.5, -.5), (-.5, .5), (.5, .5), (.5, -.5)]
LISTS = ([(0, 1, 2), (0, 2, 3)], [(-1, -1, 3), (2, -1, -1)], [0, 1, 2, 3])
CUT = library().has("voronoi_cut_by_edges") and library().has("triangulate_gauges")
WAYS = ["voronoice"] + ["cut"] * CUT


def scattered(count, seed, box=(320000.0, 5800000.0, 430000.0, 5890000.0)):
    at = random.Random(seed)
    return numpy.array([(at.uniform(box[0], box[2]), at.uniform(box[1], box[3])) for _ in range(count)]), box


def exact(ring):
    """The exact area of a ring, counter-clockwise with y downward."""
    points = [(Fraction(x), Fraction(y)) for x, y in ring]
    return sum(y * u - x * v for (x, y), (u, v) in zip(points, points[1:] + points[:1])) / 2


class Documents(unittest.TestCase):
    def test_every_docstring(self):
        modules = [yelmuzard] + [importlib.import_module(found.name) for found in pkgutil.walk_packages(yelmuzard.__path__, "yelmuzard.") if "__main__" not in found.name]
        tried = 0
        for module in modules:
            self.assertTrue(module.__doc__, module.__name__)
            result = doctest.testmod(module, optionflags=doctest.ELLIPSIS | doctest.IGNORE_EXCEPTION_DETAIL)
            self.assertEqual(result.failed, 0, module.__name__)
            tried += result.attempted
        self.assertGreater(tried, 20)
        readme = pathlib.Path(__file__).parents[1] / "README.md"
        self.assertEqual(doctest.testfile(str(readme), module_relative=False).failed, 0)


class Pieces(unittest.TestCase):
    def test_square(self):
        for mesh in (None, yelmuzard.Mesh.of(SQUARE, *LISTS)):
            for way in WAYS:
                found = yelmuzard.pieces(SQUARE, (-1, -1, 1, 1), mesh, way)
                self.assertEqual(found.areas.tolist(), [1.0] * 4)
                self.assertTrue(found.certify(52).sound)
                self.assertTrue(found.audit(52, True).sound)
                self.assertEqual(len(found), 4)
                self.assertIn("4 pieces", repr(found))

    def test_areas_are_exact_and_add_up(self):
        for way in WAYS:
            points, box = scattered(300, 1)
            found = yelmuzard.pieces(points, box, way=way)
            total = Fraction(0)
            for k in range(len(found)):
                area = exact(found.corners(k).tolist())
                self.assertEqual(found.areas[k], float(area))
                total += area
            whole = (Fraction(box[2]) - Fraction(box[0])) * (Fraction(box[3]) - Fraction(box[1]))
            self.assertLess(abs(total / whole - 1), 1e-12)
            if way == "cut":
                self.assertEqual(total, whole)

    def test_shapely_says_the_same(self):
        import shapely.geometry
        import shapely.ops
        for way in WAYS:
            points, box = scattered(200, 2)
            found = yelmuzard.pieces(points, box, way=way)
            shapes = list(found.polygons("shapely"))
            self.assertTrue(all(shape.is_valid for shape in shapes))
            for area, shape in zip(found.areas, shapes):
                self.assertAlmostEqual(shape.area / area, 1, delta=1e-9)
            union = shapely.ops.unary_union(shapes)
            self.assertAlmostEqual(union.symmetric_difference(shapely.geometry.box(*box)).area / found.box_area, 0, delta=1e-12)
            for point, shape in zip(points, shapes):
                self.assertTrue(shape.contains(shapely.geometry.Point(point)))
            middles = [shape.representative_point() for shape in shapes]
            asked = numpy.array([(p.x, p.y) for p in middles])
            self.assertEqual(found.nearest(asked).tolist(), list(range(200)))
            near = found.neighbours()
            for k in range(0, 200, 7):
                mine = {j for j in range(200) if j != k and shapes[k].intersection(shapes[j]).length > 1e-3}
                self.assertEqual(mine, set(near[k].tolist()) if way == "cut" else mine & set(near[k].tolist()) | mine, k)

    def test_geopandas(self):
        points, box = scattered(20, 3)
        series = yelmuzard.pieces(points, box).polygons("geopandas", crs="EPSG:32633")
        self.assertEqual(len(series), 20)
        self.assertEqual(series.crs.to_epsg(), 32633)

    def test_images_are_the_library_s(self):
        points, box = scattered(50, 4)
        found = yelmuzard.pieces(points, box)
        for k, image in enumerate(found.polygons()):
            out = numpy.zeros(len(image), numpy.uint8)
            number, written = library().call("voronoi_cell_wkb", found.vertices, found.offsets, found.indexes, k, out)
            self.assertEqual((number, written, out.tobytes()), (0, len(image), image))
        out, starts = found.polygons("buffer")
        self.assertEqual((out.tobytes(), starts[0], int(starts[-1]), len(starts)), (b"".join(found.polygons()), 0, len(out), 51))
        self.assertEqual(out[int(starts[7]):int(starts[8])].tobytes(), found.polygons()[7])

    def test_nearest(self):
        points, box = scattered(500, 5)
        found = yelmuzard.pieces(points, box)
        asked, _ = scattered(2000, 6, (box[0] - 5e4, box[1] - 5e4, box[2] + 5e4, box[3] + 5e4))
        far = ((asked[:, None, :] - points[None]) ** 2).sum(2)
        self.assertEqual(found.nearest(asked).tolist(), far.argmin(1).tolist())
        self.assertEqual(found.nearest([(1e9, 1e9)]).tolist(), [((points - 1e9) ** 2).sum(1).argmin()])
        self.assertEqual(found.nearest(numpy.zeros((0, 2))).tolist(), [])

    def test_neighbouring_boxes_meet(self):
        """Sheets that share an edge on a tenth of a metre: 100,000 pairs, each cut over one mesh. By center and size many would not meet."""
        at, mesh, apart = random.Random(7), yelmuzard.Mesh.of(SQUARE, *LISTS), 0
        pieces = lambda left, right: yelmuzard.pieces(mesh.sites, (left, -1.0, right, 1.0), mesh, WAYS[-1])
        for turn in range(100000):
            left = at.randrange(1, 100000)
            middle = left + at.randrange(1, 100000)
            right = middle + at.randrange(1, 100000)
            west, east = pieces(left / 10, middle / 10), pieces(middle / 10, right / 10)
            self.assertEqual(west.vertices[west.indexes, 0].max(), east.vertices[east.indexes, 0].min(), turn)
            apart += (middle / 10 + right / 10) / 2 - (right / 10 - middle / 10) / 2 != middle / 10
        self.assertGreater(apart, 10000)

    @unittest.skipUnless(CUT, "no voronoi_cut_by_edges in this library")
    def test_few_gauges_and_lines(self):
        for points in ([(5, 5)], [(1, 2), (7, 3)], [(1, 1), (2, 2), (3, 3)], [(k, 5) for k in range(9)], [(50, 50)], [(-5, 5), (5, 5), (50, 50)]):
            found = yelmuzard.pieces(points, (0, 0, 10, 10))
            self.assertEqual(math.fsum(found.areas), 100.0, points)
            self.assertTrue(found.certify(40).sound, points)
            self.assertTrue(found.audit(40, True).sound)
            self.assertEqual(len(found.polygons()), len(points))
            self.assertEqual(len(found.neighbours()), len(points))

    @unittest.skipUnless(CUT, "no voronoi_cut_by_edges in this library")
    def test_whole_metres(self):
        for seed in range(5):
            at = random.Random(seed)
            points = list({(10 * at.randrange(200), 10 * at.randrange(200)) for _ in range(1000)})
            found = yelmuzard.pieces(points, (0, 0, 2000, 2000))
            self.assertEqual(sum(Fraction(a) for a in map(exact, (found.corners(k).tolist() for k in range(len(found))))), 4000000)


class Certificates(unittest.TestCase):
    def damaged(self, change, mesh=None):
        """The kind of the pieces of "square" after a change of their arrays."""
        found = yelmuzard.pieces(SQUARE, (-1, -1, 1, 1), mesh or yelmuzard.Mesh.of(SQUARE, *LISTS), "cut")
        change(found)
        verdict = found.certify()
        self.assertEqual((verdict.words, verdict.bits, verdict.sound), (yelmuzard.verdict.CERTIFY[verdict.kind], 32, False))
        self.assertTrue(str(verdict).startswith(f"kind {verdict.kind}, "), str(verdict))
        return verdict

    def test_every_kind(self):
        def swapped(found):
            first, last = found.indexes[found.offsets[1]:found.offsets[1] + 2]
            found.indexes[found.offsets[1]:found.offsets[1] + 2] = last, first

        def nobody(found):
            found._all_offsets[:] = 0

        outside = self.damaged(lambda found: found.vertices.__setitem__(found.indexes[0], (-1.5, 0)))
        self.assertEqual((outside.kind, outside.gauge, outside.corner, outside.other), (1, 0, (-1.5, 0.0), None))
        self.assertIn("the corner -1.5 0 (vertex ", str(outside))
        side = self.damaged(swapped)
        self.assertEqual((side.kind, side.other), (2, None))
        self.assertIn("is no other piece's", str(side))
        border = self.damaged(nobody)
        self.assertEqual((border.kind, border.gauge, border.vertex, border.corner, border.other), (3, None, None, None, None))
        flipped = yelmuzard.Mesh.of([(0, 0), (0, 8), (8, 8), (5, 1)], *LISTS)
        nearer = yelmuzard.pieces(flipped.sites, (-1, -1, 9, 9), flipped).certify()
        self.assertEqual((nearer.kind, nearer.gauge, nearer.corner, nearer.other), (4, 0, (4.0, 4.0), 3))
        twice = yelmuzard.Mesh.of(SQUARE + [SQUARE[1]], *LISTS)
        twin = yelmuzard.pieces(twice.sites, (-1, -1, 1, 1), twice, "cut").certify()
        self.assertEqual((twin.kind, twin.gauge, twin.vertex, twin.other), (5, 4, None, 1))
        self.assertIn("gauge 1 and gauge 4 stand at one place", str(twin))
        with self.assertRaises(yelmuzard.Refusal) as caught:
            yelmuzard.pieces(SQUARE, (-1, -1, 1, 1)).certify(53)
        self.assertEqual(caught.exception.number, 1)

    def test_a_ghost_that_took_ground(self):
        """Sites behind the gauges are nobody's: with the last one of three, four or two of "square" a ghost, its ground is missing."""
        for count in (1, 2, 3):
            mesh = yelmuzard.Mesh.of(SQUARE, *LISTS)
            mesh = yelmuzard.Mesh(*mesh.lists(), count)
            found = yelmuzard.pieces(SQUARE[:count], (-1, -1, 1, 1), mesh, "cut")
            self.assertEqual(found.areas.tolist(), [1.0] * count)
            self.assertIn(found.certify().kind, (2, 3))
            # in a box that is the first one's alone they have no ground, and nothing is named
            self.assertTrue(yelmuzard.pieces(SQUARE[:count], (-.75, -.75, -.25, -.25), mesh, "cut").certify().sound)

    def test_the_theorem_at_places(self):
        """Of places that are clear by more than `apart`, by exact fractions, each is in the piece of its gauge by shapely, and in no other."""
        import shapely.geometry
        at = random.Random(11)
        for seed in range(4):
            points, box = scattered(40, seed)
            found = yelmuzard.pieces(points, box)
            verdict = found.certify()
            self.assertTrue(verdict.sound)
            self.assertLess(verdict.apart, .00195)
            shapes = list(found.polygons("shapely"))
            far = lambda x, y, k: math.hypot(points[k][0] - x, points[k][1] - y)
            for _ in range(200):
                x, y = at.uniform(box[0], box[2]), at.uniform(box[1], box[3])
                order = sorted(range(40), key=lambda k: far(x, y, k))
                if far(x, y, order[1]) - far(x, y, order[0]) > verdict.apart + 1e-8:
                    here = shapely.geometry.Point(x, y)
                    self.assertEqual([k for k in range(40) if shapes[k].intersects(here)], order[:1])

    def test_the_length(self):
        """By the box's reach and the bits, and by a gauge far off."""
        for box, bits, want in (((0, 0, 1, 1), 32, 1.42 * 2.0 ** -32), ((-8, 0, 1, 1), 20, 1.42 * 8 * 2.0 ** -20), ((0, 0, 1, 1), 52, 1.42 * (2.0 ** -52 + 2.0 ** -49))):
            found = yelmuzard.pieces([(.25, .25), (.75, .5), (.5, .75)], box).certify(bits)
            self.assertAlmostEqual(found.apart / want, 1, delta=1e-4)
        off = yelmuzard.pieces([(.25, .25), (.75, .5), (1e6, .75)], (0, 0, 1, 1)).certify(52)
        self.assertAlmostEqual(off.apart / (1.42 * 1e6 * 2.0 ** -49), 1, delta=1e-4)

    def test_joined(self):
        """A flat strip: a build's sides end beside each other; joined they are certified, and no corner has moved by more than twice 2^-30 of the reach along an axis."""
        at, named = random.Random(3), 0
        for _ in range(30):
            points = [(at.uniform(0, 1000), at.uniform(0, 1)) for _ in range(30)]
            box = (0.0, -2.0, 1000.0, 3.0)
            found = yelmuzard.pieces(points, box, way="voronoice")
            named += found.certify(28).kind == 2
            joined = found.joined()
            self.assertTrue(joined.certify(28).sound, str(joined.certify(28)))
            self.assertLessEqual(numpy.abs(joined.vertices - found.vertices).max(), 2000 * 2.0 ** -30)
            self.assertAlmostEqual(math.fsum(joined.areas), 5000, delta=1e-9)
        self.assertGreater(named, 20)
        # what is certified by itself stays as it is, and so do corners that no piece names
        found = yelmuzard.pieces(SQUARE, (-1, -1, 1, 1), way="voronoice")
        self.assertTrue(numpy.array_equal(found.joined().vertices, found.vertices))

    def test_large_sets(self):
        """No false alarm: scattered, whole metres, a lattice, a strip."""
        at = numpy.random.default_rng(2)
        lattice = numpy.array([(x, y) for x in range(50) for y in range(50)], float)
        for points, box in ((at.uniform(0, 1, (5000, 2)), (0, 0, 1, 1)), (numpy.unique(at.integers(0, 3000, (5000, 2)), axis=0), (0, 0, 3000, 3000)),
                            (lattice, (-.5, -.5, 49.5, 49.5)), (lattice, (0, 0, 49, 49)), (at.uniform(0, 1, (3000, 2)) * (1e6, 1e3), (0, 0, 1e6, 1e3))):
            self.assertTrue(yelmuzard.pieces(points, box).certify().sound)


class Refusals(unittest.TestCase):
    def refused(self, number, *words, **more):
        with self.assertRaises(yelmuzard.Refusal) as caught:
            yelmuzard.pieces(*words, **more)
        self.assertEqual(caught.exception.number, number)
        self.assertIn(f"refused {number}: ", str(caught.exception))
        self.assertNotIn("no such number", str(caught.exception))
        return caught.exception

    def test_box(self):
        for box in ((0, 0, 0, 1), (0, 0, 1, 0), (1, 0, 0, 1), (0, 0, math.nan, 1), (0, 0, math.inf, 1)):
            self.refused(3, SQUARE, box)
        with self.assertRaises(ValueError):
            yelmuzard.pieces(SQUARE, (0, 0, 1))

    def test_points(self):
        self.refused(1, [], (0, 0, 1, 1))
        self.refused(105, SQUARE + [(.5, .5)], (-1, -1, 1, 1))
        self.refused(6, SQUARE + [(math.nan, .5)], (-1, -1, 1, 1))
        self.refused(105, SQUARE + [(0, 0), (-0., 0)], (-1, -1, 1, 1))
        for wrong in ([1, 2, 3], [[1, 2, 3]], "points"):
            with self.assertRaises((ValueError, TypeError)):
                yelmuzard.pieces(wrong, (0, 0, 1, 1))

    def test_place(self):
        error = self.refused(13, [(-.5, 0), (.5, .5), (.75, .5)], (-1, -1, 1, 1), way="voronoice")
        self.assertIsNotNone(error.place.gauge)
        self.assertIn("in the piece of gauge", error.place.words)
        self.assertEqual((error.place.x, error.place.y), [(-.5, 0), (.5, .5), (.75, .5)][error.place.gauge])
        mesh = yelmuzard.Mesh.of(SQUARE, LISTS[0], LISTS[1], [0, 1, 2])
        for way in WAYS:
            self.assertIn("hull place 2", self.refused(9, SQUARE, (-1, -1, 1, 1), mesh, way).place.words)

    def test_mesh_of_others(self):
        mesh = yelmuzard.Mesh.of(SQUARE, *LISTS)
        with self.assertRaises(ValueError):
            yelmuzard.pieces([(0, 0), (1, 0), (0, 1)], (-1, -1, 1, 1), mesh)
        with self.assertRaises(ValueError):
            yelmuzard.pieces(SQUARE, (-1, -1, 1, 1), way="quick")
        with self.assertRaises(TypeError):
            yelmuzard.Mesh.of(SQUARE, [(0.5, 1, 2)], LISTS[1], LISTS[2])
        with self.assertRaises(ValueError):
            yelmuzard.Mesh.of(SQUARE, [(-7, 1, 2)], LISTS[1], LISTS[2])

    def test_audit_tells(self):
        turned = yelmuzard.Mesh.of(SQUARE, [(0, 2, 1), (0, 3, 2)], [(5, -1, -1), (-1, -1, 0)], [3, 2, 1, 0])
        found = yelmuzard.pieces(SQUARE, (-1, -1, 1, 1), turned, "voronoice")
        verdict = found.audit()
        self.assertEqual((verdict.kind, verdict.gauge, verdict.sound), (1, 0, False))
        self.assertIn("gauge 0", str(verdict))

    def test_why(self):
        found = yelmuzard.pieces(SQUARE, (-1, -1, 1, 1), yelmuzard.Mesh.of(SQUARE, *LISTS), "voronoice")
        self.assertEqual(str(found.why()), "no fault")
        self.assertEqual(found.why(0, 1).number, 0)
        with self.assertRaises(yelmuzard.Refusal):
            found.why(99)
        small = yelmuzard.pieces(SQUARE, (-.6, -.6, -.4, -.4), yelmuzard.Mesh.of(SQUARE, *LISTS), "voronoice")
        self.assertIn("the piece of gauge 2 at (0.5, 0.5) is empty", str(small.why(2)))

    def test_lent_arrays(self):
        for wrong in (numpy.zeros(4, numpy.float32), numpy.zeros(4, ">f8"), numpy.zeros(8)[::2], [1.0]):
            with self.assertRaises(TypeError):
                lend.slice_of(wrong, "f", False)
        kept = numpy.zeros(4)
        kept.flags.writeable = False
        self.assertEqual(lend.slice_of(kept, "f", False)[1], 4)
        with self.assertRaises(TypeError):
            lend.slice_of(kept, "f", True)
        points = numpy.ascontiguousarray(SQUARE)
        self.assertIs(lend.points_of(points), points)


class Meshes(unittest.TestCase):
    def test_qhull_is_turned_and_sound(self):
        for seed in range(20):
            points, box = scattered(60, seed)
            mesh = yelmuzard.Mesh(*qhull.lists(points), 60)
            self.assertEqual(mesh.check(), 0)
            self.assertTrue(yelmuzard.pieces(points, box, mesh, "voronoice").audit(40, True).sound)

    def test_qhull_tells(self):
        for points in ([(0, 0), (1, 1), (2, 2)], [(0, 0), (100, 0), (100, 100), (0, 100), (50, 50), (50, 50.00000000000001)]):
            with self.assertRaises(yelmuzard.Refusal) as caught:
                qhull.lists(numpy.array(points, float))
            self.assertEqual(caught.exception.number, 107)

    @unittest.skipUnless(CUT, "no triangulate_gauges in this library")
    def test_ghosts_have_no_piece(self):
        for seed in range(10):
            points, box = scattered(40, seed)
            found = yelmuzard.pieces(points, box)
            self.assertEqual(len(found.mesh.sites), 40 + rooms.GHOSTS)
            self.assertEqual(found.mesh.check(), 0)
            self.assertEqual(found._all_offsets[-1], found.offsets[-1])
            other = yelmuzard.pieces(points, box, way="voronoice")
            self.assertLess(numpy.abs(other.areas / found.areas - 1).max(), 1e-9)


class Together(unittest.TestCase):
    def test_threads(self):
        lists = [scattered(400, seed) for seed in range(8)]
        want = [yelmuzard.pieces(points, box).areas for points, box in lists]
        wrong = []

        def run(k):
            for _ in range(10):
                if not numpy.array_equal(yelmuzard.pieces(*lists[k]).areas, want[k]):
                    wrong.append(k)

        threads = [threading.Thread(target=run, args=(k,)) for k in range(8)]
        for thread in threads:
            thread.start()
        for thread in threads:
            thread.join()
        self.assertEqual(wrong, [])

    def test_memory_is_flat(self):
        """10,000 builds: what Python holds, and the resident size, stay."""
        import gc
        import tracemalloc
        points, box = scattered(50, 9)
        page = os.sysconf("SC_PAGE_SIZE")
        resident = lambda: int(pathlib.Path("/proc/self/statm").read_text().split()[1]) * page

        def some(count):
            for _ in range(count):
                found = yelmuzard.pieces(points, box)
                found.areas, found.certify(), found.audit(), found.polygons(), found.neighbours(), found.nearest(points)

        some(300)
        gc.collect()
        before = resident()
        some(8500)
        gc.collect()
        self.assertLess(resident() - before, 1 << 20)
        tracemalloc.start()
        some(500)  # numpy keeps some small objects for the next time
        gc.collect()
        before = tracemalloc.get_traced_memory()[0]
        some(1000)
        gc.collect()
        after = tracemalloc.get_traced_memory()[0]
        tracemalloc.stop()
        self.assertLess(after - before, 20000)


if __name__ == "__main__":
    unittest.main()
