"""The mesh as a form (docs/use/RULES.md, "The form"), of any length: turned into the text that it says the same as."""
from __future__ import annotations

import struct

from ..rooms import EMPTY
from .told import Told

BODY = {1: "<4d", 2: "<2d", 3: "<6I", 4: "<I", 7: "<4d"}
WORD = {1: "box", 2: "site", 3: "triangle", 4: "hull", 7: "edges"}


def is_form(data: bytes) -> bool:
    """Whether bytes are a form and no text: no text begins with such a byte."""
    return data[:1] in (b"\1", b"\5", b"\6", b"\7", b"")


def text_of(name: str, data: bytes) -> str:
    """The text of a form, or where it is broken."""
    at, last = 0, 0
    lines: list[str] = []
    while at < len(data):
        kind = data[at]
        if kind == 5 and last:
            if at + 1 == len(data):
                return "\n".join(lines) + "\n"
            at += 1
            break
        if kind == 6:
            raise Told("refused 20: the form has no box: the unclipped mode is gone (docs/use/RULES.md, rule 20, says what to do)")
        if kind not in BODY or (kind < last or kind in (1, 7) if last else kind not in (1, 7)):
            break
        size = struct.calcsize(BODY[kind])
        if len(data) - at - 1 < size:
            at = len(data)
            break
        numbers = struct.unpack_from(BODY[kind], data, at + 1)
        lines.append(WORD[kind] + " " + " ".join("E" if n == EMPTY else repr(n) for n in numbers))
        last = 1 if kind == 7 else kind
        at += 1 + size
    raise Told(f"{name}: the form is broken at byte {at}: refused 17 (docs/use/RULES.md, rule 17, says what to do)")
