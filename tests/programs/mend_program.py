"""Runs the program `mend`, given by its words, on damaged meshes, and holds its lines and its forms to a second program, written here from the request.
The first rows are the requests' own, those of the option that gives a form of old a box among them; then meshes are damaged at random, always in the same way."""
import pathlib
import random
import struct
import subprocess
import sys

EMPTY = 0xFFFFFFFF
BOX = struct.pack("<B4d", 1, 0, 0, 2, 2)


def run(form, *words):
    done = subprocess.run([*sys.argv[1:], *words], input=form, stdout=subprocess.PIPE, stderr=subprocess.PIPE, check=True)
    return done.stdout, done.stderr


def form_of(first, sites, triangles, pairs, hull):
    """The form's bytes: the first record as it is, sites as (x, y), triangles and pairs as lists of half-edges."""
    out = first + b"".join(struct.pack("<B2d", 2, *site) for site in sites)
    for t in range(0, len(triangles), 3):
        out += struct.pack("<B6I", 3, *triangles[t:t + 3], *pairs[t:t + 3])
    return out + b"".join(struct.pack("<BI", 4, s) for s in hull) + b"\x05"


def following(e):
    return e - 2 if e % 3 == 2 else e + 1


def mended(sites, triangles, hull):
    """The number of the refusal, or pairs and hull."""
    n, count = len(sites), len(triangles)
    if not (3 <= n <= 65536 and 3 <= count <= 3 * 131072 and 3 <= len(hull) <= n):
        return 1, None, None
    if any(not abs(x) <= 2.0**100 for site in sites for x in site):
        return 6, None, None
    if any(s >= n for s in triangles) or any(len(set(triangles[t:t + 3])) < 3 for t in range(0, count, 3)):
        return 7, None, None
    runs = {}
    for e in range(count):
        runs.setdefault((triangles[e], triangles[following(e)]), []).append(e)
    if any(len(same) > 1 for same in runs.values()):
        return 19, None, None
    pairs = [runs.get((triangles[following(e)], triangles[e]), [EMPTY])[0] for e in range(count)]
    leads = {}
    for e in range(count):
        if pairs[e] == EMPTY:
            leads.setdefault(triangles[e], []).append(triangles[following(e)])
    if not leads or any(len(to) > 1 for to in leads.values()):
        return 9, None, None
    site = begin = hull[0] if hull[0] in leads else min(leads)
    loop = [begin]
    while (site := leads.get(site, [begin])[0]) != begin and len(loop) <= n:
        loop.append(site)
    if len(loop) < 3 or sorted(loop) != sorted(leads):
        return 9, None, None
    for s in set(triangles):
        into = {e for e in range(count) if triangles[following(e)] == s}
        e = next((e for e in into if pairs[e] == EMPTY), min(into))
        while e in into:
            into.remove(e)
            e = pairs[following(e)]
        if into:
            return 10, None, None
    return 0, pairs, loop


def lines(label, old, new):
    def word(values, i):
        return "none" if i >= len(values) or values[i] == EMPTY else str(values[i])

    differ = [i for i in range(max(len(old), len(new))) if i >= min(len(old), len(new)) or old[i] != new[i]]
    return [f"{label} {i}: {word(old, i)} {word(new, i)}\n" for i in differ]


def expected(first, sites, triangles, pairs, hull):
    """What is printed without a word, and with the word `form`."""
    number, new_pairs, new_hull = mended(sites, triangles, hull)
    if number:
        return f"refused {number}\n".encode(), f"refused {number}\n".encode(), number
    a, b = lines("pair", pairs, new_pairs), lines("hull", hull, new_hull)
    return "".join([*a, *b, f"pairs {len(a)} hull {len(b)}\n"]).encode(), form_of(first, sites, triangles, new_pairs, new_hull), 0


def compare(first, sites, triangles, pairs, hull, words=None):
    form = form_of(first, sites, triangles, pairs, hull)
    text, bytes_, number = expected(first, sites, triangles, pairs, hull)
    if words is not None and text.decode() != words:
        sys.exit(f"the second program is wrong: {text.decode()!r}, must be {words!r}")
    for asked, must in (((), text), (("form",), bytes_)):
        said, err = run(form, *asked)
        if (said, err) != (must, b""):
            sys.exit(f"mend {' '.join(asked)} on sites {sites} triangles {triangles} pairs {pairs} hull {hull}: {said!r}, must be {must!r}; {err!r}")
    if not number and run(bytes_)[0] != b"pairs 0 hull 0\n":
        sys.exit(f"what was mended is mended again on triangles {triangles}")
    return number


# ---- the request's rows

E = EMPTY
square = [(-0.5, -0.5), (-0.5, 0.5), (0.5, 0.5), (0.5, -0.5)]
two, right = [0, 1, 2, 0, 2, 3], [E, E, 3, 2, E, E]
compare(BOX, square, two, [E] * 6, [0, 1, 2, 3], "pair 2: none 3\npair 3: none 2\npairs 2 hull 0\n")
compare(BOX, square, two, right, [1, 2, 0], "hull 2: 0 3\nhull 3: none 0\npairs 0 hull 2\n")
compare(BOX, square, two, right, [9, 1, 2, 3], "hull 0: 9 0\npairs 0 hull 1\n")
compare(BOX, square, two, right, [0, 1, 2, 3], "pairs 0 hull 0\n")
compare(BOX, square, two[:3], [E] * 3, [0, 1, 2, E], "hull 3: none none\npairs 0 hull 1\n")
compare(BOX, square, [0, 1, 2, 0, 1, 3], [E] * 6, [0, 1, 2, 3], "refused 19\n")
closed = [0, 1, 2, 0, 2, 3, 0, 3, 1, 1, 3, 2]
many = [(float(i), float(i * i)) for i in range(12)]
compare(BOX, square, closed, [E] * 12, [0, 1, 2, 3], "refused 9\n")
compare(BOX, many, [0, 1, 2, 0, 3, 4], [E] * 6, [0, 1, 2, 3], "refused 9\n")
compare(BOX, many, [0, 1, 2, 3, 4, 5], [E] * 6, [0, 1, 2], "refused 9\n")
compare(BOX, many, [9, 8, 0, *closed], [E] * 15, [9, 8, 0], "refused 10\n")
compare(BOX, square, [0, 1, 1, 0, 2, 3], [E] * 6, [0, 1, 2, 3], "refused 7\n")
compare(BOX, square, two, right, [0, 1], "refused 1\n")
compare(BOX, [*square[:3], (2.0**101, 0.0)], two, right, [0, 1, 2, 3], "refused 6\n")

# the first record as it is: a box that rule 3 would refuse, patterns of NaN
for first in (struct.pack("<B4d", 1, 0, 0, 0, 0), b"\x01" + bytes.fromhex("010000000000f07f" "efbeadde0000f8ff") + bytes(16)):
    compare(first, square, two, [E] * 6, [1, 2, 0])

# what is no form, and words that mean nothing
whole = form_of(BOX, square, two, [E] * 6, [0, 1, 2, 3])
for broken in (b"", whole[:-1], whole[1:], whole + b"\x05", whole + bytes(20000)):
    for asked in ((), ("form",)):
        if run(broken, *asked) != (b"refused 17\n", b""):
            sys.exit(f"{broken[:40].hex()}.. is not refused with 17")
for old in (b"\x06", form_of(b"\x06", square, two, [E] * 6, [0, 1, 2, 3]), whole[:33] + b"\x06", whole[:-1] + b"\x06"):
    for asked in ((), ("form",)):
        if run(old, *asked) != (b"refused 20\n", b""):
            sys.exit(f"{old[:40].hex()}.. is not refused with 20")
HEX = BOX.hex()
wrong = [HEX[:-1], HEX[:-2], HEX + "0", HEX + "00", HEX * 50, "", HEX.replace("4", "G"), HEX[:64] + "4A", " " + HEX[1:], "0x" + HEX[2:]]
wrong += [f"{kind:02x}" + HEX[2:] for kind in range(256) if kind not in (1, 7)]
for asked in (("form", "form"), ("forms",), ("for",), ("",), ("form" * 1000,), ("Form",), ("--help",), ("form", ""), ("box",), ("form", "box"), ("boxes", HEX),
              ("", HEX), ("box" * 10, HEX), (HEX, "box"), ("box", HEX, "form"), ("box", HEX, ""), ("form", "box", HEX, ""), ("form", "form", "box", HEX),
              ("", "box", HEX), ("box", "box", HEX), (HEX,), ("form", HEX), *(("box", word) for word in wrong), *(("form", "box", word) for word in wrong[:20])):
    said, err = run(whole, *asked)
    if said or err.count(b"\n") != 1 or not err.startswith(b"usage: mend [form] [box HEX]"):
        sys.exit(f"mend {asked}: {said!r} {err!r}")

# ---- the option: a box in the place of kind 6


def box_line(first):
    """The line of a box that was put in."""
    return f"box 0: 6 {first[0]} " + " ".join(first[i:i + 8][::-1].hex() for i in range(1, 33, 8)) + "\n"


def box_kept(first):
    """Rule 3 of a record."""
    a, b, c, d = struct.unpack("<4d", first[1:])
    if first[0] == 7:
        return all(abs(x) <= 2.0**101 for x in (a, b, c, d)) and a < c and b < d
    apart = a - c / 2 < a + c / 2 and b - d / 2 < b + d / 2
    return apart and abs(a) <= 2.0**100 and abs(b) <= 2.0**100 and 0 < c <= 2.0**100 and 0 < d <= 2.0**100


def with_box(first, sites, triangles, pairs, hull, words=None):
    """A form of old with this option: the box first, then what is printed for the mesh with that box; 3 comes after 1 and before all others."""
    old = form_of(b"\6", sites, triangles, pairs, hull)
    text, bytes_, number = expected(first, sites, triangles, pairs, hull)
    if not box_kept(first) and number != 1:
        text = bytes_ = b"refused 3\n"
    elif not number:
        text = box_line(first).encode() + text
    if words is not None and text.decode() != words:
        sys.exit(f"the second program is wrong: {text.decode()!r}, must be {words!r}")
    for asked, must in ((("box", first.hex()), text), (("form", "box", first.hex()), bytes_)):
        said, err = run(old, *asked)
        if (said, err) != (must, b""):
            sys.exit(f"mend {' '.join(asked)} on sites {sites} triangles {triangles} pairs {pairs} hull {hull}: {said!r}, must be {must!r}; {err!r}")
    for asked in ((), ("form",)):
        if run(old, *asked) != (b"refused 20\n", b""):
            sys.exit(f"without the option the form of old is not refused with 20, triangles {triangles}")
    own = struct.pack("<B4d", 1, 0, 0, 0, 8)  # the form's own box stays, and is not tried
    for kind in (own, b"\7" + own[1:]):
        form = form_of(kind, sites, triangles, pairs, hull)
        for asked in ((), ("form",)):
            if run(form, *asked) != run(form, *asked, "box", first.hex()):
                sys.exit(f"the option changes a form that has a box, triangles {triangles}")
    return text


EDGES = struct.pack("<B4d", 7, -1, -1, 1, 1)
FLAT = struct.pack("<B4d", 1, 0, 0, 0, 2)  # a width of 0
ZERO, TWO = "0" * 16, "4" + "0" * 15
with_box(BOX, square, two, right, [0, 1, 2, 3], f"box 0: 6 1 {ZERO} {ZERO} {TWO} {TWO}\npairs 0 hull 0\n")
with_box(EDGES, square, two, right, [0, 1, 2, 3], "box 0: 6 7 bff0000000000000 bff0000000000000 3ff0000000000000 3ff0000000000000\npairs 0 hull 0\n")
with_box(BOX, square, two, [E] * 6, [0, 1, 2, 0], f"box 0: 6 1 {ZERO} {ZERO} {TWO} {TWO}\npair 2: none 3\npair 3: none 2\nhull 3: 0 3\npairs 2 hull 1\n")
with_box(FLAT, square, two, right, [0, 1], "refused 1\n")
with_box(FLAT, square, two, right, [0, 1, 2, 3], "refused 3\n")
with_box(FLAT, [*square[:3], (2.0**101, 0.0)], two, right, [0, 1, 2, 3], "refused 3\n")
with_box(FLAT, square, [0, 1, 1, 0, 2, 3], [E] * 6, [0, 1, 2, 3], "refused 3\n")
with_box(FLAT, square, [0, 1, 2, 0, 1, 3], [E] * 6, [0, 1, 2, 3], "refused 3\n")
with_box(BOX, [*square[:3], (2.0**101, 0.0)], two, right, [0, 1, 2, 3], "refused 6\n")
with_box(BOX, square, [0, 1, 1, 0, 2, 3], [E] * 6, [0, 1, 2, 3], "refused 7\n")
with_box(BOX, square, [0, 1, 2, 0, 1, 3], [E] * 6, [0, 1, 2, 3], "refused 19\n")
with_box(BOX, square, closed, [E] * 12, [0, 1, 2, 3], "refused 9\n")
with_box(EDGES, many, [9, 8, 0, *closed], [E] * 15, [9, 8, 0], "refused 10\n")
for first in (struct.pack("<B4d", 7, 1, 0, 1, 2), struct.pack("<B4d", 7, 0, 0, float("inf"), 2), struct.pack("<B4d", 1, float("nan"), 0, 2, 2),
              struct.pack("<B4d", 7, -2.0**101, -1, 2.0**101, 1), struct.pack("<B4d", 1, 0.1, -0.0, 1e-300, 2.0**100),
              struct.pack("<B4d", 1, 0.1, -0.0, 1e-3, 2.0**100), b"\1" + bytes.fromhex("010000000000f07f") + bytes(24)):
    with_box(first, square, two, [E] * 6, [1, 2, 0])
square_form = pathlib.Path(__file__).parents[2].joinpath("examples/square.form").read_bytes()
if run(b"\6" + square_form[33:], "form", "box", HEX)[0] != square_form:
    sys.exit("the old square with its box is not examples/square.form")

# with the option too, what is no form: a second 6 before the end is 20, after it 17, and every other byte 17
old = b"\6" + square_form[33:]
for broken, number in ((b"", 17), (b"\6", 17), (b"\6\6", 20), (b"\5", 17), (b"\0", 17), (old[:-1], 17), (old[:-1] + b"\6", 20), (old + b"\6", 17), (old + b"\5", 17),
                       (b"\6" + old, 20), (old[:1] + b"\6" + old[1:], 20), (old[:18] + b"\6" + old[18:], 20), (square_form[:33] + b"\6", 20), (old[1:], 17), (old + bytes(20000), 17)):
    for asked in (("box", HEX), ("form", "box", HEX), ("box", FLAT.hex())):
        if run(broken, *asked) != (b"refused %d\n" % number, b""):
            sys.exit(f"{broken[:40].hex()}.. is not refused with {number} by mend {asked}")
if run(b"\6\5", "box", HEX)[0] != b"refused 1\n":
    sys.exit("an empty form of old is not refused with 1")

# ---- meshes that were accepted, damaged

dice = random.Random(5)


def read(path):
    """A form that is sound: its parts."""
    data = pathlib.Path(path).read_bytes()
    first, at = (data[:33], 33) if data[0] == 1 else (data[:1], 1)
    sites, triangles, pairs, hull = [], [], [], []
    while data[at] != 5:
        size, kind = {2: "2d", 3: "6I", 4: "I"}[data[at]], data[at]
        values = struct.unpack_from("<" + size, data, at + 1)
        at += 1 + struct.calcsize("<" + size)
        if kind == 2:
            sites.append(values)
        elif kind == 3:
            triangles += values[:3]
            pairs += values[3:]
        else:
            hull += values
    return first, sites, triangles, pairs, hull


def damaged(mesh):
    first, sites, triangles, pairs, hull = mesh[0], *map(list, mesh[1:])
    for _ in range(dice.choice((1, 1, 2, 4))):
        way, k = dice.randrange(9), dice.randrange(len(pairs))
        if way == 0:
            pairs = [EMPTY] * len(pairs)
        elif way == 1:
            pairs[k] = dice.choice((EMPTY, dice.randrange(len(pairs)), 70000))
        elif way == 2:
            hull = hull[len(hull) // 2:] + hull[:len(hull) // 2]
        elif way == 3 and len(hull) > 3:
            del hull[dice.randrange(len(hull))]
        elif way == 4 and len(hull) < len(sites):
            hull.insert(dice.randrange(len(hull)), dice.choice((EMPTY, 0, len(sites), 12)))
        elif way == 5 and len(triangles) > 3:
            t = dice.randrange(len(triangles) // 3) * 3
            del triangles[t:t + 3], pairs[t:t + 3]
        elif way == 6:
            t = dice.randrange(len(triangles) // 3) * 3
            triangles[t:t + 3] = [triangles[t + 1], triangles[t + 2], triangles[t]]
        elif way == 7 and dice.random() < 0.3:
            triangles[k] = dice.randrange(len(sites))
        elif way == 8 and dice.random() < 0.3:
            t = dice.randrange(len(triangles) // 3) * 3
            triangles[t:t + 3] = [triangles[t], triangles[t + 2], triangles[t + 1]]
    return first, sites, triangles, pairs, hull


meshes = [read(path) for path in sorted(pathlib.Path(__file__).parents[2].glob("examples/*.form"))]
numbers = {}
for _ in range(120):
    mesh = damaged(dice.choice(meshes))
    number = compare(*mesh)
    if dice.random() < 0.3:
        with_box(dice.choice((BOX, EDGES, FLAT, mesh[0])), *mesh[1:])
    numbers[number] = numbers.get(number, 0) + 1
if numbers.get(0, 0) < 40 or len(numbers) < 4:
    sys.exit(f"too few of each answer: {numbers}")
print("mend: the requests' rows, and 120 damaged meshes as a second program has them: " + ", ".join(f"{k}: {v}" for k, v in sorted(numbers.items())))
