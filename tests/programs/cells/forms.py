"""Runs a program, given by its words, on each form stored for the program `test_forms`: it must print `refused 17` where that says so, and only there.
An input that goes on after the longest form is refused too."""
import pathlib
import struct
import subprocess
import sys

forms = pathlib.Path(__file__).parents[3] / "crates/test_forms"
data, verdicts = (forms / "stdin").read_bytes(), (forms / "stdout").read_text().splitlines()
cases, at = [], 0
for verdict in verdicts:
    length, = struct.unpack_from("<H", data, at)
    cases.append((data[at + 2:at + 2 + length], verdict.startswith("refused 17")))
    at += 2 + length
longest = max((form for form, broken in cases if not broken), key=len)
cases.append((longest + bytes(100000), True))

for form, broken in cases:
    said = subprocess.run(sys.argv[1:], input=form, stdout=subprocess.PIPE, check=True).stdout
    if (said == b"refused 17\n") != broken or not said:
        sys.exit(f"on {form[:40].hex()}.. of {len(form)} bytes: {said.decode()}")
print(f"cells: {len(cases)} forms, of which {sum(broken for _, broken in cases)} are refused with 17")
