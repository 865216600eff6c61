"""Files as they are read and written. What is written is whole or told: a full disk and a short write end with status 2, and a file that was there stays."""
from __future__ import annotations

import os
import stat
import sys
import tempfile
from typing import Union

from .told import FAILED, Told


def reason(error: OSError) -> str:
    return f"{error.strerror or error}{': ' + str(error.filename) if error.filename else ''}"


def read(name: str) -> bytes:
    """All bytes of a file; - is standard input."""
    try:
        if name == "-":
            return sys.stdin.buffer.read()
        with open(name, "rb") as file:
            return file.read()
    except OSError as error:
        raise Told(reason(error), FAILED) from None


def write_all(handle: int, data: bytes) -> None:
    """Every byte, by as many writes as it takes: one write may be short."""
    view = memoryview(data)
    while len(view):
        view = view[os.write(handle, view):]


def write(name: str, data: Union[bytes, str]) -> None:
    """The file with these bytes; - is standard output. A plain file is written beside itself and then takes its name."""
    data = data.encode() if isinstance(data, str) else data
    try:
        if name == "-":
            sys.stdout.flush()
            write_all(sys.stdout.fileno(), data)
        elif os.path.exists(name) and not stat.S_ISREG(os.stat(name).st_mode):
            handle = os.open(name, os.O_WRONLY)
            try:
                write_all(handle, data)
            finally:
                os.close(handle)
        else:
            beside(name, data)
    except OSError as error:
        raise Told(f"{'standard output' if name == '-' else name} could not be written: {error.strerror} (is the disk full?)", FAILED) from None


def beside(name: str, data: bytes) -> None:
    name = os.path.realpath(name)
    handle, made = tempfile.mkstemp(prefix=".yelmuzard-", dir=os.path.dirname(name))
    try:
        try:
            write_all(handle, data)
            os.fsync(handle)
        finally:
            os.close(handle)
        mask = os.umask(0)
        os.umask(mask)
        os.chmod(made, 0o666 & ~mask)
        os.replace(made, name)
    except BaseException:
        os.unlink(made)
        raise
