"""The package's numbers and words are include/voronoi.h's."""
import pathlib
import re
import unittest

from yelmuzard import rooms, verdict
from yelmuzard.library import CALLS, library
from yelmuzard.refusal import MESH_WORDS, WORDS

ROOT = pathlib.Path(__file__).resolve().parents[3]
HEADER = (ROOT / "include" / "voronoi.h").read_text()


def defined(name):
    found = re.search(rf"^#define {name} (?:UINT32_C\()?(\d+)", HEADER, re.M)
    return int(found[1]) if found else None


def room(name, **values):
    """A room's macro, reckoned with Python: None where the header has none of that name."""
    found = re.search(rf"^#define {name}\(([\w, ]+)\) (.*)$", HEADER, re.M)
    if not found:
        return None
    body = found[2]
    while "VORONOI_" in body:
        inner = re.search(r"(VORONOI_\w+)\(([\w, ]+)\)", body)
        body = body.replace(inner[0], str(room(inner[1], **values)))
    body = re.sub(r"\(size_t\)", "", body)
    body = re.sub(r"^\((.*) \? (.*) : (.*)\)$", r"(\2 if \1 else \3)", body)
    return eval(body, {}, values)


class Header(unittest.TestCase):
    def test_words(self):
        names = {name: int(number) for name, number in re.findall(r"^#define (VORONOI_REFUSED_\w+) (\d+)", HEADER, re.M)}
        said = {names[name]: words for name, words in re.findall(r'case (VORONOI_REFUSED_\w+): return "(.*)";', HEADER)}
        self.assertGreater(len(said), 20)
        for number, words in said.items():
            self.assertEqual(WORDS.get(number), words, number)
        self.assertEqual(set(WORDS), set(said) - {0})
        self.assertFalse(set(WORDS) & set(MESH_WORDS))

    def test_limits(self):
        for name, value in (("EMPTY", rooms.EMPTY), ("LEAST_SITES", rooms.LEAST_SITES), ("MOST_SITES", rooms.MOST_SITES), ("MOST_TRIANGLES", rooms.MOST_TRIANGLES),
                            ("COUNTS", rooms.COUNTS), ("COUNT_VERTICES", rooms.COUNT_VERTICES), ("COUNT_OWNERS", rooms.COUNT_OWNERS), ("COUNT_LOST", rooms.COUNT_LOST),
                            ("AUDIT_BITS", rooms.AUDIT_BITS), ("CERTIFY_BITS", rooms.CERTIFY_BITS)):
            self.assertEqual(defined(f"VORONOI_{name}"), value, name)
        kinds = [defined(f"VORONOI_AUDIT_{kind}") for kind in ("SOUND", "RING", "OUTSIDE", "NEARER", "TOTAL", "TWIN")]
        self.assertEqual(kinds, list(range(len(verdict.AUDIT))))
        kinds = [defined(f"VORONOI_CERTIFY_{kind}") for kind in ("SOUND", "OUTSIDE", "SIDE", "BORDER", "NEARER", "TWIN")]
        self.assertEqual(kinds, list(range(len(verdict.CERTIFY))))

    def test_rooms(self):
        for t, h, n in ((1, 3, 3), (2, 4, 4), (3981, 17, 2000)):
            both = {"T": t, "H": h}
            self.assertEqual(room("VORONOI_VERTEX_NUMBERS", **both), rooms.vertex_numbers(t, h))
            self.assertEqual(room("VORONOI_INDEX_ROOM", **both), rooms.index_room(t, h))
            self.assertEqual(room("VORONOI_NEIGHBOUR_ROOM", **both), rooms.neighbour_room(t, h))
            for name, own in (("VORONOI_CUT_VERTEX_NUMBERS", rooms.cut_vertex_numbers), ("VORONOI_CUT_INDEX_ROOM", rooms.cut_index_room)):
                self.assertEqual(room(name, **both), own(t, h), name)
            self.assertEqual(room("VORONOI_CERTIFY_ROOM", N=n, M=t), rooms.certify_room(n, t))
        for n in (0, 2, 3, 7):
            self.assertEqual(room("VORONOI_WKB_ROOM", n=n), rooms.wkb_room(n))

    @unittest.skipUnless((ROOT / "mesh" / "triangulate.h").exists(), "there is no mesh/triangulate.h here")
    def test_triangulate(self):
        text = (ROOT / "mesh" / "triangulate.h").read_text()
        value = lambda name: int(re.search(rf"^#define {name} (\d+)", text, re.M)[1])
        self.assertEqual((value("TRIANGULATE_GHOSTS"), value("TRIANGULATE_MOST_GAUGES")), (rooms.GHOSTS, rooms.MOST_SITES - rooms.GHOSTS))
        self.assertEqual({value("TRIANGULATE_TWIN"), value("TRIANGULATE_STOPPED"), value("TRIANGULATE_BROKEN")}, set(MESH_WORDS))
        for name, own in (("TRIANGULATE_SITES", rooms.mesh_sites), ("TRIANGULATE_TRIANGLES", rooms.mesh_triangles), ("TRIANGULATE_WORK_ROOM", rooms.mesh_work)):
            body = re.search(rf"^#define {name}\(N\) (.*)$", text, re.M)[1].replace("(size_t)", "").replace("TRIANGULATE_GHOSTS", "64")
            for count in (1, 60, 65472):
                self.assertEqual(eval(body, {}, {"N": count}), own(count), name)

    def test_calls(self):
        """Each call has as many slices and numbers as the header says, in that order."""
        text = re.sub(r"/\*.*?\*/", "", HEADER, flags=re.S)
        for name, letters in CALLS.items():
            found = re.search(rf"\b{name}\((.*?)\);", text, re.S)
            if not found:
                self.assertEqual(name, "triangulate_gauges")  # mesh/triangulate.h's
                continue
            want = []
            for letter in letters:
                kind = {"d": "double", "u": "uint32_t", "F": "const double *", "I": "const uint32_t *", "f": "double *", "i": "uint32_t *", "b": "uint8_t *",
                        "l": "uint64_t *", "U": "uint32_t *", "D": "double *", "Z": "size_t *"}[letter]
                want += [kind] + ["size_t"] * (letter in "FIfibl")
            given = [re.sub(r"\w+$", "", " ".join(word.split())).strip() for word in found[1].split(",")] if found[1] != "void" else []
            self.assertEqual([w.strip() for w in want], given, name)


if __name__ == "__main__":
    unittest.main()
