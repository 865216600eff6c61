"""A word of the command line, asked in this process: its status, its words on standard error, and what it printed."""
import contextlib
import io
import os
import pathlib
import subprocess
import sys
import tempfile

from yelmuzard.board import words

ROOT = pathlib.Path(__file__).resolve().parents[3]
SHEET = ["--box", "320000", "5800000", "430000", "5890000"]


def ask(*given):
    """The status, and the words on standard error."""
    said = io.StringIO()
    with contextlib.redirect_stderr(said), contextlib.redirect_stdout(io.StringIO()):
        try:
            status = words.main([str(word) for word in given])
        except SystemExit as left:
            status = left.code
    return status, said.getvalue()


def run(*given, **more):
    """The same as a program of its own."""
    path = os.pathsep.join([str(ROOT / "bindings" / "python"), os.environ.get("PYTHONPATH", "")])
    environment = {**os.environ, "PYTHONPATH": path, "PYTHONDONTWRITEBYTECODE": "1", **more.pop("environment", {})}
    return subprocess.run([sys.executable, "-m", "yelmuzard", *map(str, given)], stderr=subprocess.PIPE, env=environment, **more)


@contextlib.contextmanager
def folder(**files):
    """A folder with these files, and for `_` in a name a point."""
    with tempfile.TemporaryDirectory() as name:
        for file, data in files.items():
            (pathlib.Path(name) / file.replace("_", ".")).write_bytes(data if isinstance(data, bytes) else data.encode())
        yield pathlib.Path(name)


def rows(name):
    """The rows of a CSV, by their header."""
    import csv
    csv.field_size_limit(1 << 30)
    with open(name, encoding="utf-8", newline="") as file:
        return list(csv.DictReader(file))
