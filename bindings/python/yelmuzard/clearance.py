"""How far apart a certificate tells places: the length by which every other gauge must be farther, from the box's reach and the bits."""
from __future__ import annotations

import decimal

import numpy

METRES = {"m": 1, "km": 1000}


def apart(box: tuple[float, float, float, float], sites: numpy.ndarray, bits: int) -> float:
    """In the coordinates' unit: 1.42 (reach 2^-bits + 2^-49 m). The reach is the largest magnitude of the box's edges, m the larger of it and of the distances along an
    axis from a place of the box to a site; 1.42 is above the root of 2, and that much above it that no rounding here matters (docs/use/PYTHON.md, "The certificate").

    >>> round(apart((320000.0, 5800000.0, 430000.0, 5890000.0), numpy.array([(350000.0, 5850000.0)]), 32), 6)
    0.001947
    """
    left, top, right, bottom = box
    reach = max(abs(edge) for edge in box)
    least, greatest = sites.min(0), sites.max(0)
    far = max(reach, right - least[0], greatest[0] - left, bottom - least[1], greatest[1] - top)
    return 1.42 * (reach * 2.0 ** -bits + float(far) * 2.0 ** -49)


def up(length: decimal.Decimal) -> str:
    """Two digits, rounded up.

    >>> up(decimal.Decimal("1.9474")), up(decimal.Decimal("0.0331")), up(decimal.Decimal("31.2")), up(decimal.Decimal("0.99"))
    ('2', '0.034', '32', '0.99')
    """
    step = decimal.Decimal(1).scaleb(length.adjusted() - 1)
    return f"{float(length.quantize(step, decimal.ROUND_CEILING)):g}"


def words(length: float, unit: str) -> str:
    """A length as it is said: metres and kilometres in millimetres, where it is below a metre.

    >>> words(0.001947, "m"), words(3.31e-8, "km"), words(3.31e-8, ""), words(20.31, "m")
    ('2 mm', '0.034 mm', '3.4e-08', '21 m')
    """
    if unit in METRES:
        metres = decimal.Decimal(length) * METRES[unit]
        return f"{up(metres * 1000)} mm" if metres < 1 else f"{up(metres)} m"
    return f"{up(decimal.Decimal(length))} {unit}".strip()
