"""Writes each C snippet of README.md, and of docs/use/C.md where that is there, into the program of tests/papers/snippets whose first line has a text of it: FOLDER/NAME.c, and FOLDER/names.
A whole program is itself. The program's line `@@` is where the snippet goes."""
import pathlib
import re
import sys

folder = pathlib.Path(sys.argv[1])
papers = [p for p in (pathlib.Path("README.md"), pathlib.Path("docs/use/C.md")) if p.exists()]
snippets = [(p, m) for p in papers for m in re.findall(r"(?ms)^```c\n(.*?)^```$", p.read_text())]
programs = {}
for path in sorted(pathlib.Path("tests/papers/snippets").glob("*.c")):
    first, _, rest = path.read_text().partition("\n")
    programs[path.stem] = (re.fullmatch(r"/\* KEY (.*) \*/", first)[1], rest)

names, wrong = [], []
for paper, snippet in snippets:
    found = [name for name, (key, _) in programs.items() if key in snippet]
    if len(found) != 1:
        wrong.append(f"{paper}: the snippet that begins with '{snippet.splitlines()[0]}' has {len(found)} programs in tests/papers/snippets")
        continue
    name = found[0] if found[0] not in names else f"{found[0]}_{names.count(found[0]) + 1}"
    margin, before = re.search(r"(?m)^( *)@@\n", programs[found[0]][1])[1], programs[found[0]][1]
    placed = re.sub(r"(?m)^(?=.)", margin, snippet)
    (folder / f"{name}.c").write_text(snippet if "int main(" in snippet else before.replace(f"{margin}@@\n", placed))
    names.append(found[0])
wrong += [f"tests/papers/snippets/{name}.c: no snippet has its key" for name in programs if name not in names]
(folder / "names").write_text("".join(f"{n}\n" for n in dict.fromkeys(names)))
if wrong:
    sys.exit("\n".join(wrong))
