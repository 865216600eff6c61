"""A picture of pieces, in SVG. Up to 200 gauges each piece has a colour that no neighbour has, and the gauge its name, or a number with a key below where
the name does not fit; above, a piece is the darker the smaller it is. With values a piece is coloured by its value.

What is wrong is red: what no piece covers is hatched, a corner of the box that no piece has is a square, a gauge in the box without a piece has a ring, a
piece that turns the wrong way is dashed, and the line below counts them and says what share of the box the pieces add up to.
"""
from __future__ import annotations

import dataclasses
import math
import re
from html import escape

from ..version import VERSION
from . import colours, labels, style
from .answer import Answer, Ring
from .told import counted

INK, FAINT, ALARM, PAPER = "#22313f", "#5d6b76", "#c8102e", "#fbfaf7"
FONT = "'DejaVu Sans', Helvetica, Arial, sans-serif"
NAMED = 200  # up to so many gauges have names, and pieces colours
WIDE, TALL, LEAST = 1000.0, 1250.0, 640.0  # of the drawn box at most, and of what stands below it at least
EDGE = 46.0
NO_XML = re.compile("[^\t\n\r\x20-\ud7ff\ue000-\ufffd\U00010000-\U0010ffff]")


def shown(words: str) -> str:
    """Words as SVG has them."""
    return escape(NO_XML.sub("\ufffd", words))


def step(length: float, parts: float) -> float:
    """A round length near a part of it: 1, 2 or 5 times a power of ten."""
    raw = length / parts
    ten = 10.0 ** math.floor(math.log10(raw))
    return max([m * ten for m in (1, 2, 5) if m * ten <= raw] or [ten])


def lengthy(length: float, unit: str) -> str:
    return f"{length / 1000:g} km" if unit == "m" and length >= 1000 else f"{length:g} {unit}".strip()


def written(value: float) -> str:
    """A coordinate with thin blanks between its thousands."""
    return f"{value:,.10g}".replace(",", "\u202f")


@dataclasses.dataclass
class Sheet:
    """The drawing: the box to scale, its lines so far, and how far down it reaches."""

    answer: Answer
    up: bool
    title: str

    def __post_init__(self) -> None:
        left, top, right, bottom = self.answer.box
        self.across, self.down = right - left, bottom - top
        self.scale = min(WIDE / self.across, TALL / self.down)
        self.wide, self.tall, self.many = self.across * self.scale, self.down * self.scale, len(self.answer.gauges)
        self.full = max(self.wide, LEAST)
        self.fine = 2 if self.many <= NAMED else 1
        self.out: list[str] = []
        self.low = self.tall

    def at(self, point: tuple[float, float]) -> tuple[float, float]:
        y = (point[1] - self.answer.box[1]) * self.scale
        return (point[0] - self.answer.box[0]) * self.scale, self.tall - y if self.up else y

    def path(self, ring: Ring, close: str = "Z") -> str:
        return "M" + "L".join(f"{x:.{self.fine}f} {y:.{self.fine}f}" for x, y in map(self.at, ring)) + close

    def text(self, x: float, y: float, words: str, size: float, more: str = "") -> None:
        self.out.append(f'<text x="{x:.6g}" y="{y:.6g}" font-size="{size:g}"{more or f" fill={chr(34)}{INK}{chr(34)}"}>{shown(words)}</text>')


def draw(answer: Answer, title: str = "", up: bool = True) -> str:
    """The picture of an answer; `up` says that y points up, as northings do."""
    sheet = Sheet(answer, up, title)
    faults = Faults(answer)
    named = sheet.many <= NAMED and answer.values is None
    shades, low, high = (colours.values(answer.values) if answer.values is not None else
                         (colours.apart(answer.rings), 0.0, 0.0) if named else colours.sizes(answer.areas))
    pieces(sheet, faults, shades)
    coordinates(sheet)
    key = gauges(sheet, faults)
    scale_bar(sheet)
    if not named:
        legend(sheet, low, high)
    sheet.low = sheet.tall + 50
    keyed(sheet, key)
    said(sheet, faults)
    return framed(sheet)


class Faults:
    """What is wrong with the pieces of an answer."""

    def __init__(self, answer: Answer) -> None:
        left, top, right, bottom = answer.box
        points, rings = answer.gauges.points.tolist(), answer.rings
        self.inside = [left <= x <= right and top <= y <= bottom for x, y in points]
        self.empty = [k for k in range(len(rings)) if self.inside[k] and len(rings[k]) < 3]
        self.turned = [k for k in range(len(rings)) if answer.areas[k] < 0]
        has = {p for ring in rings for p in ring}
        self.lost = [c for c in ((left, top), (left, bottom), (right, bottom), (right, top)) if c not in has]

    def __bool__(self) -> bool:
        return bool(self.empty or self.turned or self.lost)

    def words(self) -> list[str]:
        told: list[tuple[list, str, str]] = [(self.lost, "corner lost", "corners lost"), (self.empty, "gauge without a piece", "gauges without a piece"),
                (self.turned, "piece turns the wrong way", "pieces turn the wrong way")]
        return [counted(len(which), one, more) for which, one, more in told if which]


def pieces(sheet: Sheet, faults: Faults, shades: list[str]) -> None:
    """The box is hatched, and the pieces are laid over it: what none of them covers is seen."""
    rings, out = sheet.answer.rings, sheet.out
    frame = f'<rect width="{sheet.wide:.6g}" height="{sheet.tall:.6g}"'
    out.append(f'{frame} fill="url(#bare)"/>')
    drawn = [k for k in range(sheet.many) if len(rings[k]) > 2]
    # each is drawn a hair wider in its own colour, so that no seam shows between neighbours
    out.append('<g stroke-width=".4">')
    out += [f'<path fill="{shades[k]}" stroke="{shades[k]}" d="{sheet.path(rings[k])}"/>' for k in drawn]
    out.append("</g>")
    edges = dict.fromkeys(tuple(sorted(side)) for k in drawn for side in colours.sides(rings[k]))
    line = 1.3 if sheet.many <= 60 else 1.0 if sheet.many <= NAMED else max(.25, 16 / sheet.many ** .5)
    # ink that lets the pieces through is darker than the lighter piece, whatever the two are
    out.append(f'<path fill="none" stroke="{INK}" stroke-opacity=".45" stroke-width="{line:.3g}" stroke-linecap="round" d="' + "".join(sheet.path(list(e), "") for e in edges) + '"/>')
    if faults.turned:
        out.append(f'<g fill="{ALARM}" fill-opacity=".10" stroke="{ALARM}" stroke-width="1.4" stroke-dasharray="5 3">')
        out.extend([f'<path d="{sheet.path(rings[k])}"/>' for k in faults.turned] + ["</g>"])
    out.append(f'{frame} fill="none" stroke="{INK}" stroke-width="1.5"/>')
    for x, y in map(sheet.at, faults.lost):
        out.append(f'<rect x="{x - 7:.6g}" y="{y - 7:.6g}" width="14" height="14" fill="{ALARM}"/>')


def coordinates(sheet: Sheet) -> None:
    """Ticks at the frame, with their coordinates."""
    left, top, right, bottom = sheet.answer.box
    ticks, words = [], []
    for axis, (least, most) in enumerate(((left, right), (top, bottom))):
        gap = step(max(most - least, 260 / sheet.scale), 5)
        value = math.ceil(least / gap) * gap
        while value <= most:
            x, y = sheet.at((value, top) if axis == 0 else (left, value))
            # at the frame's ends a word is held by its end, so that none runs into another
            if axis == 0:
                held = "start" if x < 30 else "end" if x > sheet.wide - 30 else "middle"
                ticks.append(f"M{x:.6g} {sheet.tall:.6g}v5")
                words.append(f'<text x="{x:.6g}" y="{sheet.tall + 16:.6g}" text-anchor="{held}">{written(round(value, 9) + 0.0)}</text>')
            else:
                held = "start" if y > sheet.tall - 30 else "end" if y < 30 else "middle"
                ticks.append(f"M0 {y:.6g}h-5")
                words.append(f'<text transform="translate(-8 {y:.6g}) rotate(-90)" text-anchor="{held}">{written(round(value, 9) + 0.0)}</text>')
            value += gap
    sheet.out.append(f'<path d="{"".join(ticks)}" fill="none" stroke="{INK}" stroke-width="1"/>')
    sheet.out.append(f'<g font-size="10" fill="{FAINT}">{"".join(words)}</g>')


def gauges(sheet: Sheet, faults: Faults) -> list[tuple[int, str]]:
    """The dots and names; answers the numbers that stand for names, with the names."""
    answer, many, out = sheet.answer, sheet.many, sheet.out
    dot = 4.2 if many <= 60 else 3.0 if many <= NAMED else max(.8, 43 / many ** .5)
    # a dot would hide its piece where there is no room
    dotted = [k for k in range(many) if faults.inside[k] and (many <= NAMED or len(answer.rings[k]) < 3 or abs(answer.areas[k]) * sheet.scale ** 2 >= 30 * dot * dot)]
    spots = [sheet.at((x, y)) for x, y in answer.gauges.points.tolist()]
    out.append(f'<g fill="{INK}"' + (f' stroke="#ffffff" stroke-width="{dot / 3.5:.2g}">' if many <= NAMED else ">"))
    out += [f'<circle cx="{spots[k][0]:.2f}" cy="{spots[k][1]:.2f}" r="{dot:.3g}"/>' for k in dotted] + ["</g>"]
    for k in faults.empty:
        out.append(f'<circle cx="{spots[k][0]:.2f}" cy="{spots[k][1]:.2f}" r="{dot + 4:.3g}" fill="none" stroke="{ALARM}" stroke-width="2.4"/>')
    return names(sheet, faults, dot, dotted, spots) if many <= NAMED else []


def names(sheet: Sheet, faults: Faults, dot: float, dotted: list[int], spots: list[tuple[float, float]]) -> list[tuple[int, str]]:
    answer, many, out = sheet.answer, sheet.many, sheet.out
    room = labels.Names(13 if many <= 60 else 10 if many <= 120 else 8.5, sheet.wide, sheet.tall,
                        [(spots[k][0] - dot - 1, spots[k][1] - dot - 1, spots[k][0] + dot + 1, spots[k][1] + dot + 1) for k in dotted])
    rings = {k: [sheet.at(p) for p in answer.rings[k]] for k in dotted}
    rings = {k: ring[::-1] if sheet.up != (answer.areas[k] < 0) else ring for k, ring in rings.items()}
    key, left = [], []
    out.append(f'<g font-size="{room.size:g}" fill="{INK}" stroke="#ffffff" stroke-opacity=".75" stroke-width="3" stroke-linejoin="round" paint-order="stroke">')

    def put(k: int, word: str, held: labels.Held) -> None:
        x, y, anchor = held
        out.append(f'<text x="{x:.2f}" y="{y:.2f}" text-anchor="{anchor}"' + (f' fill="{ALARM}"' if k in faults.empty else "") + f">{shown(word)}</text>")

    for k in sorted(dotted, key=lambda k: (len(answer.gauges.names[k] or answer.gauges.ids[k]), k)):
        word = answer.gauges.names[k] or answer.gauges.ids[k]
        held = room.place(word, *spots[k], dot + 5 * (k in faults.empty), rings[k])
        if held is None:
            left.append(k)
        else:
            put(k, word, held)
    for number, k in enumerate(sorted(left), 1):
        held = room.place(str(number), *spots[k], dot + 5 * (k in faults.empty), rings[k], must=True)
        put(k, str(number), held)  # type: ignore[arg-type]
        key.append((number, answer.gauges.names[k] or answer.gauges.ids[k]))
    out.append("</g>")
    return key


def scale_bar(sheet: Sheet) -> None:
    """The scale, and where y points up an arrow to the north."""
    long, y = step(max(sheet.across, 400 / sheet.scale), 6), sheet.tall + 38
    sheet.out.append(f'<path d="M0 {y - 5:.6g}V{y:.6g}H{long * sheet.scale:.6g}V{y - 5:.6g}" fill="none" stroke="{INK}" stroke-width="1.5"/>')
    sheet.text(long * sheet.scale + 8, y + 2, lengthy(long, sheet.answer.unit), 13)
    if sheet.up:
        x = sheet.full - 4
        sheet.out.append(f'<path d="M{x:.6g} -34l6 18l-6 -5l-6 5z" fill="{INK}"/><text x="{x:.6g}" y="-4" font-size="11" text-anchor="middle" fill="{INK}">N</text>')


def legend(sheet: Sheet, low: float, high: float) -> None:
    """The shades with their ends and middle, in one unit, and that they go by the logarithm."""
    answer = sheet.answer
    by_value = answer.values is not None
    shade = colours.by_value if by_value else colours.by_size
    unit, factor = answer.value_name if by_value else f"{answer.unit}²" if answer.unit else "", 1.0
    if not by_value and answer.unit == "m" and high >= 1e5:
        unit, factor = "km²", 1e6
    middle = (low + high) / 2 if by_value else math.sqrt(low * high)
    y, width = sheet.tall + 38, 200.0
    x = max(step(max(sheet.across, 400 / sheet.scale), 6) * sheet.scale + 130, 0)
    sheet.out.append('<linearGradient id="sizes">' + "".join(f'<stop offset="{u}" stop-color="{shade(u)}"/>' for u in (0, .25, .5, .75, 1)) + "</linearGradient>"
                     f'<rect x="{x:.6g}" y="{y - 10:.6g}" width="{width:g}" height="10" fill="url(#sizes)" stroke="{FAINT}" stroke-width=".5"/>')
    for u, value in ((0, low), (.5, middle), (1, high)):
        sheet.text(x + u * width, y + 13, f"{float(f'{value / factor:.2g}'):,g}", 11, f' text-anchor="middle" fill="{INK}"')
    words = unit if by_value else f"{unit} a piece, logarithmic".strip()
    sheet.text(x + width + 14, y, words, 12)
    missing = sum(v is None for v in answer.values or [])
    if missing:
        at = x + width + 24 + labels.length(words, 12)
        sheet.out.append(f'<rect x="{at:.6g}" y="{y - 10:.6g}" width="16" height="10" fill="{colours.NOTHING}" stroke="{FAINT}" stroke-width=".5"/>')
        sheet.text(at + 22, y, f"{missing:,} without a value", 12)


def keyed(sheet: Sheet, key: list[tuple[int, str]]) -> None:
    """The names that numbers stand for, in columns."""
    if not key:
        return
    size = 11.0
    wide = max(labels.length(f"{number}  {name}", size) for number, name in key) + 14
    columns = max(1, min(len(key), int(sheet.full // wide)))
    rows = -(-len(key) // columns)
    top = sheet.low + 22
    for place, (number, name) in enumerate(key):
        x, y = place // rows * (sheet.full / columns), top + place % rows * 15
        sheet.out.append(f'<text x="{x:.6g}" y="{y:.6g}" font-size="{size:g}" fill="{INK}"><tspan font-weight="600">{number}</tspan>  {shown(name)}</text>')
    sheet.low = top + (rows - 1) * 15 + 4


def said(sheet: Sheet, faults: Faults) -> None:
    """What there is to say of the whole, and where the map comes from."""
    answer = sheet.answer
    share = math.fsum(answer.areas) / answer.box_area
    percent = f"{100 * share:.4g}" if f"{100 * share:.4g}" != "100" else f"{100 * share:.8g}"
    outside = sheet.many - sum(faults.inside)
    words = [counted(sheet.many, "gauge", "gauges")] + ([f"{outside:,} outside the box"] if outside else []) \
        + ["all of the box" if answer.whole else f"the pieces add up to {percent} % of the box"] + faults.words()
    wrong = not answer.whole or bool(faults)
    sheet.text(0, sheet.low + 24, " · ".join(words), 13, f' class="whole" fill="{ALARM if wrong else INK}"')
    source = [style.now().strftime("%Y-%m-%d")] + ([answer.crs] if answer.crs else []) + [f"Yelmuzard {VERSION}"] + ([answer.verdict] if answer.verdict else [])
    sheet.text(0, sheet.low + 42, " · ".join(source), 11, f' fill="{FAINT if answer.sound or not answer.verdict else ALARM}"')
    sheet.low += 54


def framed(sheet: Sheet) -> str:
    """All of it, with the paper and the title."""
    head = 64.0 if sheet.title else 44.0
    wide, tall = sheet.full + 2 * EDGE, sheet.low + head
    size = f'width="{wide:.6g}" height="{tall:.6g}"'
    top = [f'<svg xmlns="http://www.w3.org/2000/svg" viewBox="{-EDGE:g} {-head:g} {wide:.6g} {tall:.6g}" {size} font-family="{FONT}">',
           '<defs><pattern id="bare" width="8" height="8" patternUnits="userSpaceOnUse" patternTransform="rotate(45)"><rect width="8" height="8" fill="#fdecea"/>'
           f'<rect width="2.6" height="8" fill="{ALARM}" fill-opacity=".75"/></pattern></defs>',
           f'<rect x="{-EDGE:g}" y="{-head:g}" {size} fill="{PAPER}"/>']
    if sheet.title:
        room = sheet.full - 40
        fit = min(24.0, room / max(1.0, labels.length(sheet.title, 1)))
        top.append(f'<text x="0" y="-24" font-size="{fit:.3g}" font-weight="600" fill="{INK}">{shown(sheet.title)}</text>')
    return "\n".join(top + sheet.out + ["</svg>"]) + "\n"
