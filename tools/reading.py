"""How tools/house and tools/believed read the repository: its crates, the names in a text, the imports of a file, and its declarations.

Nothing here knows the name of a crate: crates.txt lists them, and crates/ holds them.
"""
import functools
import os
import re
import sys

# ---- the repository and its files


def find_root():
    """The nearest folder at or above the present one that has a crates.txt."""
    at = os.getcwd()
    while not os.path.isfile(os.path.join(at, "crates.txt")):
        up = os.path.dirname(at)
        if up == at:
            sys.exit("no crates.txt in this folder or above it")
        at = up
    return at


def read(path):
    with open(path, encoding="utf-8") as f:
        return f.read()


def write(path, text):
    with open(path, "w", encoding="utf-8") as f:
        f.write(text)


def crates(root):
    """{crate: its dependencies}, in the order of crates.txt."""
    out = {}
    for line in read(os.path.join(root, "crates.txt")).split("\n"):
        line = line.split("#")[0].strip()
        if line:
            name, deps = line.split(":")
            out[name.split()[0]] = deps.split()
    return out


def layers(root):
    """The crates' names, each after those that it depends on, otherwise in the order of crates.txt."""
    listed, out = crates(root), []

    def visit(name):
        if name in listed and name not in out:
            for d in listed[name]:
                visit(d)
            out.append(name)

    for name in listed:
        visit(name)
    return out


def walk(root, *suffixes):
    """The files below crates/ with one of these suffixes, sorted, without what rt keeps in out/."""
    out = []
    for where, folders, names in os.walk(os.path.join(root, "crates")):
        folders[:] = [f for f in folders if f != "out"]
        out += [os.path.join(where, n) for n in names if n.endswith(suffixes)]
    return sorted(out)


# ---- names in a text

# The place of an operand in an operator's name.
HOLE = "◌"
# A name of antt is any run of characters but spaces and these.
ATOM = r"[^\s(){}.;,@\"«»]+"
COMMENT = {".antt": re.compile(r"(^|(?<=\s))--.*"), ".rt": re.compile(r"//.*")}
QUOTED = re.compile(r'"(?:[^"\\\n]|\\.)*"')
NAME = re.compile(r"(«[^»]*»|" + ATOM + r")(\.(?=[^\s.]))?")


TOKEN = re.compile(r"(\.*)(«[^»]*»|" + ATOM + r")((?:\." + ATOM + r")*)(?=(\s*=(?![^\s(){}.;,]))?)")
TAIL = re.compile(r"(?:" + ATOM + r"\.)*(" + ATOM + ")")
EQUALS = re.compile(r"\s*=(?![^\s(){}.;,])")


def is_label(text, m):
    """Whether a name is the label of a field (`record { f = .. }`) or of an implicit argument (`{A = ..}`)."""
    return bool(EQUALS.match(text, m.end())) and text[max(0, m.start() - 80) : m.start()].rstrip()[-1:] in ("{", ";")


def kind_of(path):
    return os.path.splitext(path)[1]


def bare(line, kind):
    """A line without its quoted texts and its comment."""
    return COMMENT[kind].sub("", QUOTED.sub('""', line)).rstrip()


@functools.lru_cache(maxsize=None)
def bare_lines(path):
    kind = kind_of(path)
    return [bare(l, kind) for l in read(path).split("\n")]


def tokens(text):
    """(the names that stand free, the names before a dot, the pairs `M.x`) of a text of antt. A field `r.f` is no name.
    The label of a field (`record { f = .. }`) or of an implicit argument (`{A = ..}`) is no use of that name."""
    free, heads, dotted = set(), set(), set()
    for m in TOKEN.finditer(text):
        dots, word, tail, equals = m.groups()
        if dots == ".":
            continue  # a field
        if equals and text[max(0, m.start() - 80) : m.start()].rstrip()[-1:] in ("{", ";"):
            continue  # a label
        free.add(word)
        if tail:
            heads.add(word)
            dotted.add((word, tail.rpartition(".")[2]))
    return free, heads, dotted


def used_name(name, free):
    """Whether a name stands among these: an operator by its whole name, as a section, or by all its parts."""
    if name in free:
        return True
    if HOLE not in name or name.startswith("«"):
        return False
    parts = [p for p in name.split(HOLE) if p]
    pieces = {p for t in free for p in t.split(HOLE)}
    return bool(parts) and all(p in pieces for p in parts) or (name == "◌>>=◌" and "do" in free)


def closes(text, at, opening="{", closing="}"):
    """The place after the bracket that closes the one just before `at`."""
    depth = 1
    while depth and at < len(text):
        depth += (text[at] == opening) - (text[at] == closing)
        at += 1
    return at


CONTRACT = re.compile(r"\b(requires|ensures)\*?(?:\s+[^\s{}]+)?\s*\{")


def contracts(text, which="requires ensures"):
    """The texts of the contracts of a piece of a .rt file."""
    return "\n".join(text[m.end() : closes(text, m.end()) - 1] for m in CONTRACT.finditer(text) if m.group(1) in which)


def without_contracts(text):
    out, at = "", 0
    for m in CONTRACT.finditer(text):
        if m.start() >= at:
            out += text[at : m.start()]
            at = closes(text, m.end())
    return out + text[at:]


# ---- imports

USE = re.compile(r"^\s*(?P<pub>(?:unfoldable )?pub )?(?P<ghost>ghost )?use (?P<path>[^{}\s;]+?)(?:\.\{(?P<names>.*)\})?(?: as (?P<alias>[^\s;]+))?\s*;?\s*$")


def brought(item):
    """(the name, the name that it is brought under) of one item of an import list."""
    item = item.strip()
    name, _, other = item.partition(" as ")
    name = name.split(".")[-1].strip() if not name.startswith("«") else name.strip()
    return name, other.strip() or name


def module_name(use):
    """The name that a `use` line without a list brings."""
    return use["alias"] or re.split(r"::|\.", use["path"])[-1]


@functools.lru_cache(maxsize=None)
def uses(path):
    """{line number from 0: match} of a file's `use` lines."""
    return {i: m for i, l in enumerate(bare_lines(path)) if (m := USE.match(l))}


# ---- declarations

SIGN = re.compile(r"^(?P<marks>(?:(?:pattern|unfoldable|opaque|abbrev|pub|axiom) )*)(?:(?P<kind>record|data) )?(?P<name>" + ATOM + r")(?P<rest>(?: \{[^}:]*\})?(?: .*)?)$")
RESERVED = {"use", "mod", "module", "unfolding", "open", "infix", "infixl", "infixr", "mutual", "ruleset", "where", "let", "record", "data"}


class Item:
    """One declaration: a `record`, a `data`, or a signature with its clauses."""

    def __init__(self, path, line, section):
        self.path, self.line, self.section = path, line, section
        self.lines = []
        self.name = self.kind = self.type = self.body = ""
        self.pub = False
        self.marks = set()

    def count(self):
        """Lines that are not blank, without comments."""
        return sum(1 for l in self.lines if l.strip())

    def __repr__(self):
        return f"{self.path}:{self.line}:{self.name}"


def signature(line):
    """The match of a line that begins a declaration, or None."""
    m = SIGN.match(line)
    if not m or m["name"] in RESERVED:
        return None
    if m["kind"] or re.match(r"(?: \{[^}:]*\})? :(\s|$)", m["rest"]):
        return m
    return None


def finish(item):
    """Splits a declaration's lines into its type and its body."""
    text = [l for l in item.lines]
    base = len(text[0]) - len(text[0].lstrip())
    m = signature(text[0].strip())
    item.name, item.marks = m["name"], set(m["marks"].split())
    item.pub = "pub" in item.marks
    item.kind = m["kind"] or ("abbrev" if "abbrev" in item.marks else "unfoldable" if "unfoldable" in item.marks else "plain")
    if m["kind"]:
        whole = "\n".join([m["rest"]] + text[1:])
        cut = re.search(r"\bwhere\b", whole)
        item.type, item.body = (whole[: cut.start()], whole[cut.end() :]) if cut else (whole, "")
        return
    end = 1
    while end < len(text) and (not text[end].strip() or len(text[end]) - len(text[end].lstrip()) > base or text[end].strip()[0] in ")}]"):
        end += 1
    first = re.sub(r"^(?: \{[^}:]*\})? :", "", m["rest"])
    item.type = "\n".join([first] + text[1:end])
    item.body = "\n".join(text[end:])


@functools.lru_cache(maxsize=None)
def items(path):
    """The declarations of a .antt file, in order. Each has in `section` the headers of the `module _` blocks that it stands in."""
    out, stack, now, header = [], [(0, ())], None, None
    taken = uses(path)
    for i, line in enumerate(bare_lines(path)):
        text = line.strip()
        if not text or i in taken:
            continue
        depth = len(line) - len(line.lstrip())
        if header is not None:  # the lines of a block's header
            header += " " + text
            if text.endswith("where"):
                stack.append((None, stack[-1][1] + (header,)))
                header = None
            continue
        if stack[-1][0] is None:  # the first line of a block
            stack[-1] = (depth, stack[-1][1])
        while depth < stack[-1][0]:
            stack.pop()
        if depth > stack[-1][0]:
            if now:
                now.lines.append(line)
            continue
        if re.match(r"(pub )?mod |infix[lr]? |open ", text):
            now = None
        elif re.match(r"module _\b|(unfoldable |abbrev )*mutual$", text):
            now = None
            if text.endswith("where") or text.endswith("mutual"):
                stack.append((None, stack[-1][1] + (text,)))
            else:
                header = text
        elif signature(text):
            now = Item(path, i + 1, stack[-1][1])
            now.lines.append(line)
            out.append(now)
        elif now:
            now.lines.append(line)
    for item in out:
        finish(item)
    return out


def split_top(text, sign):
    """A text cut at each `sign` that stands outside brackets, as a word of its own."""
    out, depth, now = [], 0, []
    for word in re.findall(r"[(){}]|[^\s(){}]+", text):
        depth += (word in "({") - (word in ")}")
        if word == sign and not depth:
            out.append(" ".join(now))
            now = []
        else:
            now.append(word)
    return out + [" ".join(now)]


def result(type_text):
    """What a type ends in: its last part after the arrows."""
    return split_top(type_text, "→")[-1].strip()


# ---- Rust-like declarations


def functions(path):
    """[(line, name, marks, signature with contracts, body)] of a .rt file."""
    text = "\n".join(bare_lines(path))
    out = []
    for m in re.finditer(r'^([ \t]*)((?:pub )?(?:extern "" )?(?:const )?)fn (\w+)', text, re.M):
        at, depth = m.end(), 0
        while at < len(text):  # the body's brace: the first outside parentheses that no contract takes
            c = CONTRACT.match(text, at)
            if c and (at == 0 or not text[at - 1].isalnum()):
                at = closes(text, c.end())
                continue
            depth += (text[at] in "([") - (text[at] in ")]")
            if text[at] in "{;" and not depth:
                break
            at += 1
        end = closes(text, at + 1) if at < len(text) and text[at] == "{" else at
        out.append((text.count("\n", 0, m.start()) + 1, m.group(3), m.group(2), text[m.start() : at], text[at:end]))
    return out


def structs(path):
    """[(line, name, text)] of a .rt file's structs and enums."""
    text = "\n".join(bare_lines(path))
    out = []
    for m in re.finditer(r"^(?:pub )?(?:struct|enum) (\w+)[^{;]*([{;])", text, re.M):
        end = closes(text, m.end()) if m.group(2) == "{" else m.end()
        out.append((text.count("\n", 0, m.start()) + 1, m.group(1), text[m.start() : end]))
    return out


# ---- what a name means

MODULE = re.compile(r"^Rattle\.(?P<crate>[A-Za-z_0-9]+)\.(?P<part>specs|proofs)\.(?P<rest>.+)$")
PROPOSITION = {"≡", "≤", "<", "≢", "⊎", "↔", "≥", ">", "∈", "∣"}
DATA = {"ℕ", "ℤ", "Bool", "List", "Float", "String", "Char", "Option", "Unit"}


class Struct:
    """A struct or enum of a crate's src/, as specs name it."""

    kind = "struct"

    def __init__(self, path, line, name, text):
        self.path, self.line, self.name, self.text = path, line, name, text

    def count(self):
        return sum(1 for l in self.text.split("\n") if l.strip())


class Kit:
    """A name of the kit."""

    kind = "kit"

    def __init__(self, module, name):
        self.module, self.name = module, name


def constructors(item):
    """The names of a data type's constructors."""
    return re.findall(r"^\s*(?:pub )?(" + ATOM + r") :(?:\s|$)", item.body, re.M) if item.kind == "data" else []


BINDER = re.compile(r"[({]\s*((?:" + ATOM + r"\s+)+):(?=\s)")


def binder(text, at):
    """The names of a binder `(x y : T)` whose bracket stands at this place."""
    m = BINDER.match(text, at)
    return m.group(1).split() if m else []


class Tree:
    """The repository's declarations, and what each name in a file means."""

    def __init__(self, root):
        self.root = root
        self.crates = crates(root)
        self.order = layers(root)
        self.antt = [p for p in walk(root, ".antt")]
        self.rt = [p for p in walk(root, ".rt")]
        self.env_of, self.own_of, self.structs_of, self.reach_of = {}, {}, {}, {}
        self.data_like = {}

    def crate_of(self, path):
        return path[len(self.root) + 1 :].split(os.sep)[1]

    def rel(self, path):
        return path[len(self.root) + 1 :]

    # -- modules

    def struct(self, crate, name):
        """The struct or enum of that name in a crate's src/."""
        if crate not in self.structs_of:
            found = {}
            for p in self.rt:
                if self.crate_of(p) == crate:
                    for line, n, text in structs(p):
                        found[n] = Struct(p, line, n, text)
            self.structs_of[crate] = found
        return self.structs_of[crate].get(name)

    def file(self, module):
        """The file of a module of the repository, or None: the kit's, one that is generated, or a struct's."""
        m = MODULE.match(module)
        if not m or m["crate"] not in self.crates:
            return None
        path = os.path.join(self.root, "crates", m["crate"], m["part"], m["rest"].replace(".", os.sep) + ".antt")
        return path if os.path.isfile(path) else None

    def own(self, path):
        """{name: declaration} of a file, constructors too."""
        if path not in self.own_of:
            out = {}
            for item in items(path):
                for c in constructors(item):
                    out.setdefault(c, item)
            for item in items(path):
                out[item.name] = item
            self.own_of[path] = out
        return self.own_of[path]

    def lookup(self, module, name):
        """What a module's name means."""
        path = self.file(module)
        if path:
            if name in self.own(path):
                return self.own(path)[name]
            for use in uses(path).values():
                if use["pub"] and use["names"] is not None:
                    for item in use["names"].split(","):
                        if brought(item)[1] == name:
                            return self.lookup(use["path"], brought(item)[0])
            return None
        m = MODULE.match(module)
        if m and m["crate"] in self.crates and m["rest"].startswith("declared."):  # its modules, then the struct
            named = next((w for w in m["rest"].split(".")[1:] if w[0].isupper()), "")
            return self.struct(m["crate"], named.removesuffix("-variants"))
        return None if m and m["crate"] in self.crates else Kit(module, name)

    def env(self, path):
        """(names, aliases) of a file: what each name that it may write bare means, and the module behind each alias."""
        if path not in self.env_of:
            names, aliases = {}, {}
            for use in uses(path).values():
                if use["names"] is not None:
                    for item in use["names"].split(","):
                        if item.strip():
                            name, under = brought(item)
                            names[under] = self.lookup(use["path"], name)
                elif "::" not in use["path"]:
                    aliases[module_name(use)] = use["path"]
            if kind_of(path) == ".antt":
                names.update(self.own(path))
            for name in list(names):  # an operator by its parts
                if HOLE in name and not name.startswith("«"):
                    for part in name.split(HOLE):
                        if part:
                            names.setdefault(part, names[name])
            self.env_of[path] = (names, aliases)
        return self.env_of[path]

    # -- the names that a text uses

    def meanings(self, path, text, bound=()):
        """What the free names of a text mean, in order; names that the text binds are left out where they are bound."""
        names, aliases = self.env(path)
        out, depth = [], 0
        scopes = [(0, set(bound))]

        def bind(found, at):
            scopes.append((at, set(found)))

        at = 0
        while at < len(text):
            ch = text[at]
            if ch in "({":
                found = binder(text, at)
                if found:
                    bind(found, depth)
                depth += 1
                at += 1
                continue
            if ch in ")}":
                depth -= 1
                while len(scopes) > 1 and scopes[-1][0] > depth:
                    scopes.pop()
                at += 1
                continue
            m = NAME.match(text, at)
            if not m:
                at += 1
                continue
            word = m.group(1)
            if word == "λ":
                end = re.compile(r"\.(?=\s)").search(text, m.end())
                stop = end.start() if end else len(text)
                heads = re.sub(r":[^)]*", "", text[m.end() : stop])
                bind(re.findall(ATOM, heads), depth)
                out += self.meanings(path, " ".join(re.findall(r":([^)]*)", text[m.end() : stop])), set().union(*(s for _, s in scopes)))
                at = stop + 1
                continue
            if word == "let":
                end = re.compile(r"\s[=:]\s").search(text, m.end())
                stop = end.start() if end else len(text)
                bind(re.findall(ATOM, text[m.end() : stop]), depth)
                at = stop
                continue
            before = text[max(0, at - 2) : at]
            field = before.endswith(".") and before != ".."
            hidden = any(word in s for _, s in scopes)
            if not field and not hidden and not is_label(text, m):
                if m.group(2) and word in aliases:
                    n = TAIL.match(text, m.end())
                    if n:
                        out.append(self.lookup(aliases[word], n.group(1)))
                elif word in names:
                    out.append(names[word])
                elif word.strip(HOLE) in names:
                    out.append(names[word.strip(HOLE)])
            at = m.end()
        return [x for x in out if x is not None]

    def clause_meanings(self, path, clause, bound):
        """Of a clause: its pattern's variables are bound in it, and so are the names of its `where` block."""
        names, _ = self.env(path)
        cut = re.search(r"(?:^|\s)=(?=\s|$)", clause)
        left, right = (clause[: cut.start()], clause[cut.end() :]) if cut else ("", clause)
        is_constructor = lambda w: w in names and getattr(names[w], "kind", "") in ("data", "struct", "kit")
        words = re.findall(ATOM, left)
        held = {w for w in words[1:] if not is_constructor(w)}
        local = set(re.findall(r"^\s+(" + ATOM + r")(?: \{[^}:]*\})? :(?:\s|$)", right, re.M)) if re.search(r"^\s*where$", right, re.M) else set()
        out = [names[w] for w in words[1:] if w in names and is_constructor(w)]
        return out + self.meanings(path, right, set(bound) | held | local)

    def reached(self, item):
        """What a declaration's type and body mean, in order."""
        if item in self.reach_of:
            return self.reach_of[item]
        bound, out = set(), []
        for head in item.section:
            out += self.meanings(item.path, head)
            bound |= {n for m in re.finditer(r"[({]", head) for n in binder(head, m.start())}
        out += self.meanings(item.path, item.type, bound)
        params = {n for m in re.finditer(r"[({]", item.type) for n in binder(item.type, m.start())} if item.kind in ("record", "data") else set()
        if item.kind == "record":
            held = bound | params
            for field in re.split(r"\n(?=\s*(?:pub )?" + ATOM + r" :(?:\s|$))", "\n" + item.body):
                m = re.match(r"\s*(?:pub )?(" + ATOM + r") :", field)
                if m:
                    out += self.meanings(item.path, field[m.end() :], held)
                    held = held | {m.group(1)}
        elif item.kind == "data":
            for line in re.split(r"\n(?=\s*" + ATOM + r" :(?:\s|$))", "\n" + item.body):
                m = re.match(r"\s*(" + ATOM + r") :", line)
                if m:
                    out += self.meanings(item.path, line[m.end() :], bound | params)
        else:
            base = len(item.lines[0]) - len(item.lines[0].lstrip())
            body = re.sub(r"^\s*unfolding .*$", "", item.body, flags=re.M)
            for clause in re.split(r"\n(?= {%d}[^\s)}\]])" % base, body):
                out += self.clause_meanings(item.path, clause, bound)
        self.reach_of[item] = [x for x in out if x is not item]
        return self.reach_of[item]

    # -- definitions and laws

    def is_data(self, thing):
        """Whether a type is one of values and not of facts: it has no parameter or index that is a value."""
        if isinstance(thing, Struct):
            return True
        if isinstance(thing, Kit):
            return thing.name in DATA
        if thing not in self.data_like:
            self.data_like[thing] = False
            head, _, index = thing.type.rpartition(":") if thing.kind in ("record", "data") else ("", "", thing.type)
            whole = thing.type
            types = [w for m in re.finditer(r"[({]", whole) if binder(whole, m.start()) for w in [whole[m.start() : closes(whole, m.start() + 1, whole[m.start()], ")" if whole[m.start()] == "(" else "}")]]]
            values = [t for t in types if not re.search(r":\s*Type\b[^→]*$", t[:-1])]
            ends = result(index)
            arrows = [p for p in split_top(index, "→")[:-1] if not re.match(r"^[({].*: Type \S+ ?[)}]$|^Type\b", p.strip())]
            facts = [self.states(f, thing.path) for f in re.split(r"(?:^|\n)\s*(?:pub )?" + ATOM + r" :(?=\s)", thing.body)[1:]] if thing.kind == "record" else [False]
            self.data_like[thing] = ends.startswith("Type") and not values and not arrows and not thing.section and not all(facts)
        return self.data_like[thing]

    def states(self, text, path, bound=()):
        """Whether a type, without its arguments, is a proposition."""
        text = text.strip()
        while re.match(r"^(let|unfold)\b", text) and re.search(r"\bin\b", text):
            text = text[re.search(r"\bin\b", text).end() :].strip()
        text = result(text)
        parts = split_top(text, "×")
        if len(parts) > 1:
            return any(self.states(re.sub(r"^\( *\S+ : (.*)\)$", r"\1", p), path, bound) for p in parts)
        if text.startswith("(") and closes(text, 1, "(", ")") == len(text):
            return self.states(text[1:-1], path, bound)
        words = re.sub(r"\([^()]*\)", "", text)
        while "(" in words and re.search(r"\([^()]*\)", words):
            words = re.sub(r"\([^()]*\)", "", words)
        words = re.sub(r"\{[^{}]*\}", "", words).split()
        if not words or PROPOSITION & set(words) or words[0] in ("⊥", "T", "¬"):
            return True
        if words[0].startswith("Type") or words[0] in DATA:
            return False
        names, aliases = self.env(path)
        head = words[0]
        thing = names.get(head)
        if "." in head and head.split(".")[0] in aliases:
            thing = self.lookup(aliases[head.split(".")[0]], head.split(".")[-1])
        if thing is None or head in bound:
            return True
        return not self.is_data(thing)

    def is_law(self, item):
        """Whether a declaration is a law: its type is a proposition."""
        if isinstance(item, (Struct, Kit)) or item.kind in ("record", "data"):
            return False
        if item.kind in ("abbrev", "unfoldable"):
            names, _ = self.env(item.path)
            head = result(item.type).split(" ")[0]
            if head not in names and not PROPOSITION & set(result(item.type).split()) and head != "(":
                return False  # a value of a type that is its argument
        return self.states(item.type, item.path)
