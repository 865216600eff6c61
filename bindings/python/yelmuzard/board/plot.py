"""The rollup as a picture: the daily means as bars, days that are not whole in red."""
from __future__ import annotations

from ..version import VERSION
from . import style
from .picture import ALARM, FAINT, FONT, INK, PAPER, shown, step
from .rollup import Row

BAR, WIDE, TALL = "#3f7fb5", 1000.0, 220.0


def draw(found: list[Row], title: str = "") -> str:
    """A panel for each sheet, one below the other."""
    sheets = list(dict.fromkeys(row.sheet for row in found))
    head, gap = (58.0 if title else 26.0), 64.0
    tall = head + len(sheets) * (TALL + gap) + 30
    out = [f'<svg xmlns="http://www.w3.org/2000/svg" viewBox="-56 0 {WIDE + 80:g} {tall:g}" width="{WIDE + 80:g}" height="{tall:g}" font-family="{FONT}">',
           f'<rect x="-56" width="{WIDE + 80:g}" height="{tall:g}" fill="{PAPER}"/>']
    if title:
        out.append(f'<text x="0" y="32" font-size="20" font-weight="600" fill="{INK}">{shown(title)}</text>')
    for place, sheet in enumerate(sheets):
        panel(out, [row for row in found if row.sheet == sheet], sheet, head + place * (TALL + gap))
    short = len({row.day for row in found if not row.whole})
    words = f"{len({row.day for row in found}):,} days · " + ("all whole" if not short else f"{short:,} not whole, in red")
    out.append(f'<text x="0" y="{tall - 26:g}" font-size="12" fill="{ALARM if short else INK}">{words}</text>')
    out.append(f'<text x="{WIDE:g}" y="{tall - 26:g}" font-size="11" text-anchor="end" fill="{FAINT}">{style.now():%Y-%m-%d} · Yelmuzard {VERSION}</text>')
    return "\n".join(out + ["</svg>"]) + "\n"


def panel(out: list[str], rows: list[Row], sheet: str, top: float) -> None:
    most = max([row.mean for row in rows if row.mean is not None] or [1.0]) or 1.0
    low, wide = top + TALL, WIDE / max(1, len(rows))
    gap = step(most, 4)
    value = 0.0
    while value <= most * 1.0001:
        y = low - value / most * (TALL - 24)
        out.append(f'<path d="M0 {y:.6g}H{WIDE:g}" stroke="{FAINT}" stroke-opacity=".25" stroke-width="1"/>'
                   f'<text x="-6" y="{y + 4:.6g}" font-size="10" text-anchor="end" fill="{FAINT}">{value:g}</text>')
        value += gap
    out.append(f'<text x="-48" y="{top + 12:.6g}" font-size="11" fill="{FAINT}">mm</text>')
    if sheet:
        out.append(f'<text x="0" y="{top + 12:.6g}" font-size="13" font-weight="600" fill="{INK}">{shown(sheet)}</text>')
    for place, row in enumerate(rows):
        tall = (row.mean or 0) / most * (TALL - 24)
        x, bar = place * wide + .1 * wide, .8 * wide
        colour = BAR if row.whole else ALARM
        if row.mean is None:
            out.append(f'<rect x="{x:.2f}" y="{low - TALL + 24:.2f}" width="{bar:.2f}" height="{TALL - 24:.2f}" fill="{ALARM}" fill-opacity=".18"/>')
        out.append(f'<rect x="{x:.2f}" y="{low - max(tall, 0 if row.whole else 3):.2f}" width="{bar:.2f}" height="{max(tall, 0 if row.whole else 3):.2f}" fill="{colour}"/>')
    out.append(f'<path d="M0 {low:.6g}H{WIDE:g}" stroke="{INK}" stroke-width="1"/>')
    each = max(1, -(-len(rows) // 10))
    for place in range(0, len(rows), each):
        out.append(f'<text x="{(place + .5) * wide:.6g}" y="{low + 16:.6g}" font-size="10" text-anchor="middle" fill="{FAINT}">{shown(rows[place].day)}</text>')
