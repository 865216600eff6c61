#!/usr/bin/env python3
"""The stored files of tests/calls/multipoint: multipoint.py THREE.CSV THREE.WKB OURS.TXT SHOWN OURS.CSV

THREE.CSV has the points that GDAL was given, THREE.WKB the bytes that it wrote, OURS.TXT the line that it printed of the bytes that we write, SHOWN what
`multipoint show` printed of THREE.WKB. Our bytes are written to OURS.CSV, for GDAL. Coordinates are compared as patterns of 64 bits.
"""
import re
import struct
import sys

given, wrote, ours, shown, to = sys.argv[1:]


def numbers(text):
    return [float(x) for x in re.findall(r"[-+0-9.eE]+", text[text.index("(") :])]


def patterns(values):
    return [struct.pack(">d", v).hex().upper() for v in values]


points = patterns(numbers(open(given).read()))
lines = open(shown).read().split("\n")
sites = " ".join(lines[1:4]).split()
written = bytes.fromhex(lines[4])
wrong = []
if lines[0] != "number 0 count 3":
    wrong.append(f"the file is not read: {lines[0]}")
if sites != points:
    wrong.append(f"other sites than GDAL was given: {sites}")
if written != open(wrote, "rb").read():
    wrong.append("it is not written again as the same bytes")
if patterns(numbers(open(ours).read())) != points:
    wrong.append("GDAL read other coordinates from our bytes")
with open(to, "w") as out:
    out.write(f"name,geometry\ngauges,{written.hex()}\n")
for line in wrong:
    print("FAILED:", line)
if wrong:
    sys.exit(1)
print(f"multipoint: GDAL's {len(written)} bytes are read and written again; GDAL read the same coordinates from ours")
