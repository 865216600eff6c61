"""The shared library: where it is found, which version it must have, and its calls by their names.

It is the first of these that is there: the file that YELMUZARD_LIBRARY names; libvoronoi.so in this package (a wheel carries it); the one that
`./yelmuzard shared` makes in the repository; an installed libvoronoi.so.0. ctypes releases Python's lock during a call, so calls in several threads run
beside each other.
"""
from __future__ import annotations

import ctypes
import ctypes.util
import os
import pathlib
import platform
from typing import Any, Optional

import numpy

from . import lend
from .version import NUMBER, VERSION

# A call's arguments, a letter each: numbers d (f64) and u (u32); slices f (f64), i (u32), b (bytes), l (u64), a capital one being only read;
# numbers that come back U (u32), D (f64), Z (size); 4 is an address of four f64 without a length, 0 an address that is NULL.
MESH = "FIII"
BUILT = "ifi" + "ii"  # work, vertices, indexes, offsets, counts
CALLS = {
    "voronoi_version": "",
    "voronoi_check": MESH + "i",
    "voronoi_build_by_edges": "dddd" + MESH + BUILT,
    "voronoi_cut_by_edges": "dddd" + MESH + "ifiiU",
    "voronoi_why_by_edges": "dddd" + MESH + "uuu" + BUILT + "UUUU",
    "voronoi_areas": "FII" + "f",
    "voronoi_cell_wkb": "FIIu" + "bZ",
    "voronoi_all_wkb": "FII" + "lbZ",
    "voronoi_all_neighbours": MESH + "II" + "iii",
    "voronoi_ends": MESH + "uF" + "ii",
    "voronoi_audit_by_edges": "dddd" + "FFIIII" + "uUUUUD",
    "voronoi_certify_by_edges": "dddd" + "FFII" + "uiUUUU",
    "voronoi_circumcenter": "dddddd" + "DD",
    "triangulate_gauges": "4fiiii" + "00" + "UU",
}
BACK: dict[str, Any] = {"U": ctypes.c_uint32, "D": ctypes.c_double, "Z": ctypes.c_size_t}


class MissingLibrary(ImportError):
    """There is no library, or it is another version's, in words with the way out."""


def candidates() -> list[str]:
    """Where the library is looked for, in order."""
    here = pathlib.Path(__file__).resolve().parent
    machine = platform.machine()
    found = [os.environ.get("YELMUZARD_LIBRARY"), here / "libvoronoi.so"]
    if here.parent.name == "python" and len(here.parents) > 2:
        found.append(here.parents[2] / "target" / "shared" / machine / "libvoronoi.so")
    if len(here.parents) > 2:
        found.append(here.parents[2] / "libvoronoi.so.0")  # PREFIX/lib/python3/dist-packages/yelmuzard
    named = [str(path) for path in found if path and os.path.exists(path)]
    if os.environ.get("YELMUZARD_LIBRARY"):
        return named[:1]
    installed = ctypes.util.find_library("voronoi")
    return named + ([installed] if installed else [])


class Library:
    """The calls of one shared library."""

    def __init__(self, path: str) -> None:
        self.path = path
        self.handle = ctypes.CDLL(path)
        self.known: dict[str, Any] = {}

    def has(self, name: str) -> bool:
        """Whether the library has the call."""
        return hasattr(self.handle, name)

    def version(self) -> Optional[int]:
        """10000 major + 100 minor + patch; None of a library that does not say it."""
        return self.call("voronoi_version")[0] if self.has("voronoi_version") else None

    def function(self, name: str) -> Any:
        function = self.known.get(name)
        if function is None:
            function = getattr(self.handle, name)
            function.restype = ctypes.c_uint32
            types: list[Any] = []
            for letter in CALLS[name]:
                if letter in "du":
                    types.append(ctypes.c_double if letter == "d" else ctypes.c_uint32)
                elif letter in BACK:
                    types.append(ctypes.POINTER(BACK[letter]))
                elif letter in "04":
                    types.append(ctypes.c_void_p)
                else:
                    types += [ctypes.c_void_p, ctypes.c_size_t]
            function.argtypes = types
            self.known[name] = function
        return function

    def call(self, name: str, *arguments: Any) -> tuple[Any, ...]:
        """The call's number, then the numbers that came back. `arguments` are those that go in: floats, numbers and arrays."""
        function = self.function(name)
        words: list[Any] = []
        back: list[Any] = []
        given = iter(arguments)
        for letter in CALLS[name]:
            if letter in BACK:
                back.append(BACK[letter]())
                words.append(ctypes.byref(back[-1]))
            elif letter in "du":
                words.append(next(given))
            elif letter == "0":
                words.append(None)
            elif letter == "4":
                words.append(lend.slice_of(next(given), "f", False)[0])
            else:
                words += lend.slice_of(next(given), letter.lower(), letter.islower())
        number = function(*words)
        return (number, *(value.value for value in back))


_library: Optional[Library] = None


def library() -> Library:
    """The library, loaded once; MissingLibrary where there is none or it is another version's."""
    global _library
    if _library is None:
        found = candidates()
        if not found:
            raise MissingLibrary("the shared library of Yelmuzard is not there: run ./yelmuzard shared in its repository, install it, or name it in YELMUZARD_LIBRARY")
        try:
            loaded = Library(found[0])
        except OSError as error:
            raise MissingLibrary(f"{found[0]} cannot be loaded: {error}") from None
        version = loaded.version()
        if version is not None and version != NUMBER:
            raise MissingLibrary(f"{found[0]} is version {version // 10000}.{version // 100 % 100}.{version % 100}, and this package is {VERSION}: install both from one release")
        _library = loaded
    return _library


def nothing(kind: str) -> numpy.ndarray:
    """An empty slice: a length of 0 with an address that is not NULL."""
    return numpy.zeros(1, lend.DTYPES[kind])[:0]
