#!/usr/bin/env python3
"""Brings the repository's own definitions and lemmas to the spelling of today's Rattle, in place: a dash or a prime in a name becomes `_` or `'`.

usage: tools/port_names.py [--check]      at the top of the repository, once, right after port.py

It reads what crates/*/specs declare (definitions, lemmas, constructors, fields), and respells those names in each .antt and .rt file of crates/, in the edits,
and between backquotes in the pages. A name that a file takes from the kit's libraries keeps its spelling there. With --check it prints what would fall together,
and writes nothing. Code of src/, strings and exported names are left alone: no name of theirs has a dash.
"""
import os
import re
import sys

OWN = re.compile(r"^Rattle\.(\w+)\.")
NAME = r"[^\s(){};,.«»\"`]+"
TOKEN = re.compile(NAME)
CRATES = sorted(os.listdir("crates"))


# Lemmas in snake case already, whose definition, in camel case until now, stands in the same files.
LEMMAS = "box_twice cross_at on_edge cut_all leaves_by both_at closed_at on_in read_word but_last".split()


def new_name(name):
    if name[0].islower():
        name = re.sub(r"(?<=[a-z0-9])[A-Z](?=[a-z])", lambda m: "_" + m[0].lower(), name)
        name = re.sub(r"(?<=[a-z0-9])[A-Z](?![a-z])", lambda m: "_" + m[0].lower(), name)
    return re.sub(r"(?<=[\w'])-(?=[\w'])", "_", name.replace("′", "'"))


def plain_form(name):
    return name.replace("-", "_").rstrip("0123456789")


def wants(name):
    return new_name(name) != name and re.match(r"[A-Za-z_\u0370-\u03ff\u2100-\u214f][^→←]*$", name)


def read(path):
    with open(path, encoding="utf-8") as f:
        return f.read()


def files(*endings):
    for folder, dirs, names in os.walk("crates"):
        dirs[:] = sorted(d for d in dirs if d != "out")
        for n in sorted(names):
            if n.endswith(endings):
                yield os.path.join(folder, n)


def code_and_rest(text, comment):
    """Yields (is_code, text) parts: comments and strings are no code."""
    pattern = re.compile(r'"(?:[^"\\\n]|\\.)*"|' + (r"(?m:(?<![^\s(){};,])--.*$)" if comment == "--" else r"(?m://.*$)"))
    at = 0
    for m in pattern.finditer(text):
        yield True, text[at:m.start()]
        yield False, m[0]
        at = m.end()
    yield True, text[at:]


def code(text, comment):
    return "".join(t if c else re.sub(r"[^\n]", " ", t) for c, t in code_and_rest(text, comment))


def declared():
    found = {}
    for p in files(".antt"):
        if "/specs/" not in p and p.endswith("/Proof.antt"):
            continue
        t = code(read(p), "--")
        for m in re.finditer(rf"(?m)^(?:  +)?(?:(?:abbrev|unfoldable|axiom|pub|record|data|ruleset|opaque) +)*({NAME})(?= *(?::|\(|\{{|=|$))|[|;{{] *(?:pub )?({NAME}) :", t):
            name = m[1] or m[2]
            if wants(name):
                found.setdefault(name, p)
    return found


def plain_names():
    """Returns the top-level names that the specs declare and that keep their spelling."""
    found = set()
    for p in files(".antt"):
        if "/specs/" in p:
            t = code(read(p), "--")
            found |= {m[1] for m in re.finditer(rf"(?m)^(?:(?:abbrev|unfoldable|pub|record|data) +)*({NAME}) +:", t) if not wants(m[1])}
    return found


def clauses(text):
    """Returns the ghost texts of a .rt file: its clauses, and what it brings for them."""
    return re.findall(r"(?:requires|ensures|ghost)\b[^{;]*\{[^{}]*(?:\{[^{}]*\}[^{}]*)*\}", text) + re.findall(r"fn \w+\(([^)]*)\)", text)


def foreign(text):
    """Returns the names that the file takes from modules of the kit."""
    found = set()
    for m in re.finditer(r"(?m)^\s*(?:pub )?(?:ghost )?(?:pub )?use ([\w.'-]+)\.\{([^}]*)\}", text):
        own = OWN.match(m[1])
        if own and own[1] in CRATES:
            continue
        for one in m[2].split(","):
            found.add(one.split(" as ")[0].strip())
    return found


def main():
    check = "--check" in sys.argv
    names = declared()
    new = {n: new_name(n) for n in names}
    # A lemma that would have its function's name gets `_lem`: the names that stood with a `_` already, and those in camel case, are the functions'.
    taken = {new[n] for n in names if "-" not in n} | plain_names()
    for p in files(".antt"):
        plain = code(read(p), "--")
        brought, tokens = foreign(plain), set(TOKEN.findall(plain))
        taken |= {new[a] for a in tokens & set(new) if a not in brought and new[a] in brought}
    for n in names:
        if "-" in n and new[n] in taken:
            new[n] += "_lem"
            print(f"lem: {n}: {new[n]}")
    back = {}
    for a, b in new.items():
        back.setdefault(b, []).append(a)
    for b, many in back.items():
        if len(many) > 1:
            print(f"fall together: {b}: {many}")
    changed = 0
    functions = {plain_form(f) for p in files(".rt") for f in re.findall(r"\bfn (\w+)", read(p))}
    for p in files(".antt", ".rt"):
        text = read(p)
        comment = "--" if p.endswith(".antt") else "//"
        keep = foreign(code(text, comment))
        plain = code(text, comment)
        tokens = {m[0] for m in TOKEN.finditer(plain) if not plain[: m.start()].endswith(".")} if p.endswith(".antt") else set(TOKEN.findall(" ".join(clauses(plain))))
        for a in tokens & set(new):
            if a not in keep and new[a] in tokens:
                print(f"beside: {p}: {a} and {new[a]}")
            if a in keep:
                print(f"kept: {p}: {a}")
        proof = p.endswith("/Proof.antt")

        def turn(m):
            name, before = m[0], m.string[: m.start()]
            # what the toolchain generates: goals, and in a proof that walks the code the steps, which are named after functions
            if name in keep or before.endswith("tie.") or (proof and before.endswith(".") and plain_form(name) in functions):
                return name
            if name in LEMMAS and p.endswith(".antt") and not before.endswith(".") and not m.string[m.end() :].startswith("."):
                return name + "_lem"
            return new.get(name, name)

        # in a comment a name stands between backquotes
        quoted = lambda m: "`" + TOKEN.sub(turn, m[1]) + "`"
        out = "".join(TOKEN.sub(turn, t) if c else re.sub(r"`([^`\n]*)`", quoted, t) for c, t in code_and_rest(text, comment))
        if out != text:
            changed += 1
            if not check:
                with open(p, "w", encoding="utf-8") as f:
                    f.write(out)
    turn = lambda m: new.get(m[0], m[0])
    for p in files(".edit"):
        text = read(p)
        out = re.sub(r"(?m)^(old|new|twin): (.*)$", lambda m: f"{m[1]}: {TOKEN.sub(turn, m[2])}", text)
        out = re.sub(r"`([^`\n]*)`", lambda m: "`" + TOKEN.sub(turn, m[1]) + "`", out)
        if out != text:
            changed += 1
            if not check:
                with open(p, "w", encoding="utf-8") as f:
                    f.write(out)
    print(f"names: {len(new)}, files: {changed}{' would change' if check else ' changed'}")


main()
