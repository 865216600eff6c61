#!/usr/bin/env python3
"""Gives each plain struct and enum of crates/ that port.py marked `#[derive(Drop)]` the derives `Clone, Copy`, as today's Rattle copies only what says so.

usage: tools/port_copy.py      at the top of the repository, once, after port_names.py
A type is plain where each field is a number, a float, a bool, a char, a shared borrow, an array of those, or another plain type.
"""
import os
import re

ITEM = re.compile(r"#\[derive\(Drop\)\]\n((?:pub(?:\([a-z]+\))? )?(?:struct|enum)) (\w+)(<[^>{]*>)?\s*(\{.*?^\}|\([^)]*\);|;)", re.S | re.M)
SCALAR = re.compile(r"^(u8|u16|u32|u64|u128|usize|i8|i16|i32|i64|i128|isize|f32|f64|bool|char|\(\))$")


def fields(kind, body):
    body = re.sub(r"//[^\n]*", "", body)
    if "struct" in kind:
        if body.startswith("{"):
            inner = re.sub(r"ghost (?:invariant )?\w*:? *\{[^}]*\},?", "", body[1:-1])
            return [m[1].strip() for m in re.finditer(r"\w+:\s*((?:[^,\[<(]|\[[^\]]*\]|<[^>]*>|\([^)]*\))+),?", inner)]
        return [f.strip().removeprefix("pub ") for f in body.strip("();\n").split(",") if f.strip()]
    out = []
    for m in re.finditer(r"\w+\s*(?:\(([^)]*)\)|\{([^}]*)\})?\s*,?", body[1:-1]):
        for part in (m[1] or "").split(","):
            if part.strip():
                out.append(part.strip())
        for part in (m[2] or "").split(","):
            if part.strip():
                out.append(part.split(":", 1)[1].strip())
    return out


texts = {}
for folder, dirs, names in os.walk("crates"):
    dirs[:] = [d for d in dirs if d != "out"]
    for n in names:
        if n.endswith(".rt"):
            p = os.path.join(folder, n)
            texts[p] = open(p, encoding="utf-8").read()
types = {}
for p, t in texts.items():
    for m in ITEM.finditer(t):
        types.setdefault(m[2], []).append((p, fields(m[1], m[4])))


def plain(ty, seen=()):
    ty = ty.strip()
    if SCALAR.match(ty):
        return True
    if ty.startswith("&") and "mut" not in ty:
        return True
    m = re.match(r"\[(.*);[^;]*\]$", ty)
    if m:
        return plain(m[1], seen)
    name = ty.split("::")[-1].split("<")[0]
    if name in seen or name not in types:
        return False
    return all(all(plain(f, (*seen, name)) for f in fs) for _, fs in types[name])


count = 0
for p, t in texts.items():
    def turn(m):
        global count
        if all(plain(f, (m[2],)) for f in fields(m[1], m[4])):
            count += 1
            return m[0].replace("#[derive(Drop)]", "#[derive(Clone, Copy)]", 1)
        print("stays:", p, m[2], fields(m[1], m[4]))
        return m[0]
    out = ITEM.sub(turn, t)
    if out != t:
        open(p, "w", encoding="utf-8").write(out)
print("copied:", count)
