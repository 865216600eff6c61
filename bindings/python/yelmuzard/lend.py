"""Numpy arrays as slices: checked for type and contiguity and lent as they are, never copied in silence."""
from __future__ import annotations

from typing import Any

import numpy

DTYPES: dict[str, numpy.dtype] = {"f": numpy.dtype(numpy.float64), "i": numpy.dtype(numpy.uint32), "b": numpy.dtype(numpy.uint8), "l": numpy.dtype(numpy.uint64)}


def slice_of(array: numpy.ndarray, kind: str, written: bool) -> tuple[int, int]:
    """The address and the length of an array that is lent: `kind` is a key of DTYPES, and what is written to must be writable.

    >>> slice_of(numpy.zeros(4), "f", True)[1]
    4
    >>> slice_of(numpy.zeros((4, 2))[:, 0], "f", False)
    Traceback (most recent call last):
    ..
    TypeError: a lent array must be contiguous (numpy.ascontiguousarray)
    >>> slice_of(numpy.zeros(4), "i", False)
    Traceback (most recent call last):
    ..
    TypeError: a lent array must have the type uint32, not float64
    """
    if not isinstance(array, numpy.ndarray):
        raise TypeError(f"a numpy array is wanted, not {type(array).__name__}")
    if array.dtype != DTYPES[kind] or not array.dtype.isnative:
        raise TypeError(f"a lent array must have the type {DTYPES[kind].name}, not {array.dtype}")
    if not array.flags.c_contiguous:
        raise TypeError("a lent array must be contiguous (numpy.ascontiguousarray)")
    if written and not array.flags.writeable:
        raise TypeError("an array that is written to must be writable")
    return array.ctypes.data, array.size


def points_of(points: Any) -> numpy.ndarray:
    """Points as an array of n rows x, y in float64; one that is so already is not copied.

    >>> points_of([(0, 1), (2, 3)]).shape
    (2, 2)
    """
    array = numpy.ascontiguousarray(points, dtype=numpy.float64)
    if array.ndim == 1 and array.size == 0:
        array = array.reshape(0, 2)
    if array.ndim != 2 or array.shape[1] != 2:
        raise ValueError(f"points are rows of x and y, not an array of shape {array.shape}")
    return array


def indexes_of(numbers: Any, shape: tuple[int, ...]) -> numpy.ndarray:
    """Numbers of sites or half-edges as uint32; -1 is EMPTY."""
    array = numpy.asarray(numbers)
    if array.dtype != numpy.uint32:
        if array.size and not numpy.issubdtype(array.dtype, numpy.integer):
            raise TypeError(f"whole numbers are wanted, not {array.dtype}")
        if array.size and (array.min() < -1 or array.max() > 0xFFFFFFFF):
            raise ValueError("a number of a site or half-edge is from 0 to 4294967295, or -1 for none")
        array = array.astype(numpy.int64).astype(numpy.uint32)
    return numpy.ascontiguousarray(array).reshape(shape)
