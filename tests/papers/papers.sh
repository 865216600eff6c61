#!/bin/sh
# The papers agree with what they speak of: the version, the examples and listings that they show, README's length, the refusals' words and rules, the kinds of a certificate, the page on the root, that the harness asks each call, links to files;
# each claim of README and the header stands in PUBLIC.md with a theorem that is there; each snippet of README has its program (tests/papers/snippets.sh runs them).
. "$(dirname "$0")/../head.sh"
folder=$(mktemp -d)
trap 'rm -rf "$folder"' EXIT

gcc -std=c11 -Wall -Wextra -Wpedantic -Werror -I include -o "$folder/words" tests/papers/words.c
"$folder/words" >"$folder/numbers"

sh tests/papers/snippets.sh --list >/dev/null

python3 - "$folder/numbers" <<'END'
import pathlib
import re
import sys

wrong = []


def read(name):
    return pathlib.Path(name).read_text()


header, readme, rules = read("include/voronoi.h"), read("README.md"), read("docs/use/RULES.md")
version = read("VERSION").strip()
parts = [re.search(rf"#define VORONOI_VERSION_{part} (\d+)", header)[1] for part in ("MAJOR", "MINOR", "PATCH")]
if ".".join(parts) != version or f'#define VORONOI_VERSION "{version}"' not in header:
    wrong.append("include/voronoi.h has another version than the file VERSION")
number = sum(int(part) * weight for part, weight in zip(parts, (10000, 100, 1)))
if not re.search(rf"^#define VORONOI_VERSION_NUMBER {number}\b", header, re.M):
    wrong.append(f"include/voronoi.h has another VORONOI_VERSION_NUMBER than {number}")
if f"\n    {number}\n" not in read("crates/library_version/src/lib.rt"):
    wrong.append(f"crates/library_version/src/lib.rt answers another number than {number}")
if not re.search(rf"^## {re.escape(version)}\b", read("CHANGELOG.md"), re.M):
    wrong.append(f"CHANGELOG.md says nothing of {version}")

for name, line in (("voronoi.pc", f"Version: {version}"), ("bindings/python/yelmuzard/version.py", f'VERSION = "{version}"'), ("bindings/rust/Cargo.toml", f'version = "{version}"'), ("bindings/rust/Cargo.lock", f'version = "{version}"')):
    if line not in read(name).splitlines():
        wrong.append(f"{name} has another version than the file VERSION")

# what README and the pages on use show is what is there
for example in ("areas.c", "plan.c"):
    if "```c\n" + read(f"examples/{example}") + "```" not in read("docs/use/C.md"):
        wrong.append(f"docs/use/C.md does not show examples/{example} as it is")
shown = re.search(r"```c\n(.*?)```", readme, re.S)[1].splitlines()
wrong += [f"README.md shows C that is not in examples/plan.c: {line}" for line in shown if line.split(" /*")[0] not in read("examples/plan.c")]
if len(readme.splitlines()) > 150:
    wrong.append(f"README.md has {len(readme.splitlines())} lines, at most 150 are wanted")
rust = re.search(r"```rust\n(.*?)```", readme, re.S)[1]
if re.sub(r"(?m)^", "    ", rust).rstrip() not in read("bindings/rust/examples/plan.rs"):
    wrong.append("README.md does not show the lines of bindings/rust/examples/plan.rs as they are")
indented = "".join("    " + line + "\n" for line in read("tests/programs/cells/square.out").splitlines())
for name, text in (("docs/use/SHELL.md", read("docs/use/SHELL.md")), ("docs/use/RULES.md", rules)):
    if indented not in text:
        wrong.append(f"{name} does not show the listing of square as it is")

# each number has a rule of its own, with the header's words and with what to do about it
numbers = dict(line.split(" ", 1) for line in read(sys.argv[1]).splitlines())
for number, words in numbers.items():
    entry = re.search(rf"^### Rule {number}\b.*?(?=^##)", rules + "\n##", re.M | re.S)
    if number == "0":
        continue
    if not entry:
        wrong.append(f"docs/use/RULES.md has no rule {number}")
    elif f"*{words[0].upper()}{words[1:]}.*" not in entry[0]:
        wrong.append(f"docs/use/RULES.md, rule {number}, has not the header's words: {words}")
    elif "What to do:" not in entry[0]:
        wrong.append(f"docs/use/RULES.md, rule {number}, does not say what to do")

# the kinds of a certificate are the header's
section = re.search(r"(?ms)^## Certificate\n(.*?)^## ", rules)[1]
kinds = re.findall(r"^#define VORONOI_CERTIFY_(OUTSIDE|SIDE|BORDER|NEARER|TWIN) (\d)$", header, re.M)
if len(kinds) != 5:
    wrong.append("include/voronoi.h has not the five kinds of a certificate")
wrong += [f"docs/use/RULES.md, Certificate, has no row '{number} {name.lower()}'" for name, number in kinds if f"\n| {number} {name.lower()} | " not in section]

# docs/trust/ROOT.md: its rows are the run's, its lines of code the code's, its bounds and facts the proof's
page, code = read("docs/trust/ROOT.md"), read("crates/root/src/whole_root.rt")
*rows, rounded = read("crates/test_digits/stdout").splitlines()
if "\n".join(rows[:8]) + "\n" not in page or rows[52] + "\n" not in page or len(rows) != 53:
    wrong.append("docs/trust/ROOT.md does not show the rows of crates/test_digits/stdout")
if f"the answer is {rounded.split()[1]}." not in page:
    wrong.append(f"docs/trust/ROOT.md does not say that the root of 2 is {rounded}")
for row in rows:
    turn, _, _, _, _, root, left, _ = [int(number) for number in row.strip("| ").split("|")]
    if root * root + left != 2**53 * 4**turn >> 54 or left > 2 * root:
        wrong.append(f"crates/test_digits/stdout: turn {turn} breaks the schoolbook's identity")
lines = re.findall(r"^\| [^|`]+ \| `([^`]+)` \|$", page, re.M)
wrong += [f"docs/trust/ROOT.md: `{line}` is no line of crates/root/src/whole_root.rt" for line in lines if line not in re.split(r"\n *", code)]
proved = re.findall(r"pub ([\w-]+) : .*([<≤]) 2 \^ (\d+)$", read("crates/root/specs/whole_root/Widths.antt"), re.M)
shown = re.findall(r"\| ([<≤]) 2\^(\d+) \| `([\w-]+)` \|$", page, re.M)
if len(lines) != 8 or {(name, sign, power) for name, sign, power in proved} != {(name, sign, power) for sign, power, name in shown}:
    wrong.append("docs/trust/ROOT.md has other bounds than crates/root/specs/whole_root/Widths.antt, or not eight lines of code")
for names, path in re.findall(r"\(((?:`[\w-]+`, )+)(crates/[\w/]+\.antt)\)", page):
    wrong += [f"docs/trust/ROOT.md: {path} has no {name}" for name in re.findall(r"`(.+?)`", names) if not re.search(rf"^ *pub {re.escape(name)} :", read(path), re.M)]

# every call of the header is asked by the harness
asked = [name for line in read("harness/parts.txt").splitlines() if not line.startswith("#") for name in line.split()[2:]]
calls = re.findall(r"^(?:uint32_t|uint64_t|double) (voronoi_\w+)\(", header, re.M)
wrong += [f"harness/parts.txt has {name} in {asked.count(name)} lines" for name in calls if asked.count(name) != 1]
wrong += [f"harness/parts.txt has {name}, which is no call of include/voronoi.h" for name in asked if name not in calls]

# claims: each has a row in docs/trust/PUBLIC.md, each row's words are there, and so is what it names
plain = re.sub(r"(?m)^    .*$", "", re.sub(r"(?ms)^```.*?^```$", "", readme))
sentences = []
for part in re.split(r"\n\s*\n|\n(?=[-|#] |\d+\. )", plain):
    sentences += re.split(r"(?<=[.!?:;])\s+(?=[A-Z`*\[(])", " ".join(part.split()))
section = re.search(r"(?ms)^## What README and the header claim\n(.*?)^## ", read("docs/trust/PUBLIC.md"))[1]
claims = [[cell.strip() for cell in row.strip("|").split(" | ")] for row in section.splitlines() if row.startswith("| ") and not row.startswith("| Claim")]
said = {"README": " ".join(plain.split()), "header": " ".join(re.sub(r"(?m)^ \* ?", "", header).split())}
for sentence in sentences:
    if re.search(r"\b(proved?|proves|theorems?|always|never|every)\b", sentence, re.I) and not any(where == "README" and text in sentence for text, where, _ in claims):
        wrong.append(f"README.md claims, and docs/trust/PUBLIC.md has no row for it: {sentence[:100]}")
declared = {name for path in pathlib.Path("crates").rglob("specs/**/*.antt") for name in re.findall(r"(?m)^ *(?:pub |unfoldable |abbrev )*(?:record |data )?([^\s:(){}]+) ", path.read_text())}
for text, where, shown in claims:
    if text not in said[where]:
        wrong.append(f"docs/trust/PUBLIC.md: a claim that is in {where} no more: {text}")
    if not re.match(r"no claim: |tested: |the check", shown) and "`" not in shown:
        wrong.append(f"docs/trust/PUBLIC.md: nothing shows the claim: {text}")
    for name in re.findall(r"`(?:\w+ \.)?(?!\.\.)([\w-]+)`", shown):
        if name not in declared and not (pathlib.Path("crates") / name).is_dir() and name not in ("main", "rt ci"):
            wrong.append(f"docs/trust/PUBLIC.md: {name} is declared nowhere in crates")
# a sentence that says proved names its theorem: those that README names are there
for name, path in re.findall(r"`([a-z]+-[a-z]+)`(?:, `[a-z-]+`)?, (crates/[\w/]+\.antt)", readme) + re.findall(r"(crates/[\w/]+\.antt): `([\w-]+)`", readme):
    name, path = (path, name) if name.startswith("crates/") else (name, path)
    if not re.search(rf"^ *pub {re.escape(name)} :", read(path), re.M):
        wrong.append(f"README.md: {path} has no {name}")

# links between papers
for paper in [pathlib.Path("README.md"), pathlib.Path("CHANGELOG.md"), pathlib.Path("bindings/python/README.md"), *pathlib.Path("docs").rglob("*.md")]:
    for target in re.findall(r"\]\(([^)#: ]+)(?:#[^)]*)?\)", paper.read_text()):
        if not (paper.parent / target).exists():
            wrong.append(f"{paper}: a link to {target}, which is not there")
print("\n".join(wrong) or "papers: they agree with what they speak of")
sys.exit(bool(wrong))
END
