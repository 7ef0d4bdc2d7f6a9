#!/usr/bin/env python3
"""Brings this repository's own definitions and lemmas to snake case, once, behind port.py.

usage: snake_names.py [--dry] [FOLDER]

A name is this repository's own if a text of specs/ or proofs/ declares it. `someName` and `some-name` become `some_name`; types and facts, which
begin with a capital letter, stay. A name that a file imports from a library stays there, and so do the names of src/: functions, parameters, fields.
The answers' own names of a Proof.antt stay, since they go with it. A line 'meets:' says where two names of one file become one.
"""
import glob
import os
import re
import sys

NAME = r"[^\s(){}.;,@\"«»:`\[\]⌜⌝⟨⟩|]+"
KEYWORDS = "pub|unfoldable|abbrev|opaque|record|data|ruleset|infixl|infixr|infix"
TOP = re.compile(rf"^(?:(?:{KEYWORDS}) )*({NAME})(?: [({{].*[)}}]| {NAME})* ?: ")
BARE = re.compile(rf"^(?:(?:{KEYWORDS}) )*({NAME})(?: [({{].*[)}}])* ?:$")
INNER = re.compile(rf"^ +(?:pub )?({NAME}) : ")
LOCAL = re.compile(rf"\blet ({NAME})(?: \([^=]*\))? (?:: |= )|(?<![\w-])[λ(]\s?({NAME})(?= :|\. )")
USE = re.compile(r"^\s*(?:pub |ghost )*use ([^\s;{]+?)\.?(?:\{([^}]*)\})?(?: as \S+)?;?\s*$")
TOKEN = re.compile(NAME)
WORD = re.compile(r"(?<![\w.-])[A-Za-z][\w'₀-₉-]*")

# Names that would meet one of a library, and what they become; those that meet one another get _lem, but for a definition.
MEETING = {"bit-and": "bit_and_lem", "bit-or": "bit_or_lem", "word-bytes": "word_bytes_lem"}


def snake(name):
    if not re.search(r"[a-z0-9₀-₉'][A-Z]|[A-Za-z0-9₀-₉']-|-[A-Za-z0-9]", name) or name[0].isupper() or not name[0].isalpha():
        return name
    if name in MEETING:
        return MEETING[name]
    name = name.replace("getD", "get_or")
    name = re.sub(r"(?<=[a-z0-9])[A-Z]", lambda m: "_" + m[0].lower(), name)
    name = re.sub(r"(?<=-)[A-Z]", lambda m: m[0].lower(), name)
    return name.replace("-", "_")


def own(path, crates):
    steps = path.split(".")
    return steps[0] == "Rattle" and len(steps) > 1 and steps[1] in crates


def texts(root, kinds):
    for kind in kinds:
        yield from sorted(glob.glob(f"{root}/crates/*/{kind}/**/*", recursive=True))


def declared(lines, proof):
    top, local = set(), set()
    for line in lines:
        if re.match(r"\s*--|use |pub use |mod |pub mod ", line):
            continue
        if not line.startswith(" "):
            m = TOP.match(line) or BARE.match(line)
            if m:
                top.add(m[1])
                continue
        m = INNER.match(line)
        if m:
            local.add(m[1])
        for m in LOCAL.finditer(line):
            local.add(m[1] or m[2])
    return (set(), top | local) if proof else (top | local, set())


def main(argv):
    dry = "--dry" in argv
    rest = [a for a in argv if a != "--dry"]
    root = rest[0] if rest else "."
    crates = {os.path.basename(c) for c in glob.glob(f"{root}/crates/*")}
    antt = [f for f in texts(root, ("specs", "proofs")) if f.endswith(".antt")]
    names, kept, specs = set(), {}, set()
    for f in antt:
        lines = open(f).read().split("\n")
        d, k = declared(lines, f.endswith("/Proof.antt"))
        names |= d
        kept[f] = k
        if "/specs/" in f:
            specs |= d
    groups = {}
    for n in names:
        groups.setdefault(snake(n), []).append(n)
    change, told = {}, []
    for new, olds in sorted(groups.items()):
        olds.sort(key=lambda n: (n not in specs, "-" in n or n == new, n == new, n))
        for i, n in enumerate(olds):
            to = new if not i else new + "_lem"
            if to != n:
                change[n] = to
        if len(olds) > 1:
            told.append(f"both: {new}: {', '.join(olds)}")

    def library(lines):
        found = set()
        for line in lines:
            m = USE.match(line)
            if m and not own(m[1], crates) and m[2]:
                found |= {n.split(" as ")[-1].strip() for n in m[2].split(",")}
        return found

    def code(line, skip):
        def turn(m):
            n = m[0]
            if m.start() and line[m.start() - 1] == "." and line[m.end() : m.end() + 1] == ".":
                return n
            if m.start() and line[m.start() - 1] == "." and not own(re.search(rf"[\w.·-]*$", line[: m.start()])[0], crates):
                return n
            return change[n] if n in change and n not in skip else n

        return TOKEN.sub(turn, line)

    def comment(line):
        line = re.sub(r"`([^`]*)`", lambda m: "`" + WORD.sub(lambda w: change.get(w[0], w[0]), m[1]) + "`", line)
        return re.sub(r"(?<![\w.-])[a-z][a-z0-9]*(?:[A-Z][a-z0-9]*)+(?![\w-])", lambda m: change.get(m[0], m[0]), line)

    def meets(f, old, new, skip):
        a, b = set(TOKEN.findall(old)), set(TOKEN.findall(new))
        into = {}
        for n in a:
            into.setdefault(change.get(n, n) if n not in skip else n, set()).add(n)
        for n, were in sorted(into.items()):
            if len(were) > 1:
                told.append(f"meets: {f[len(root) + 1:]}: {', '.join(sorted(were))}")

    for f in antt:
        old = open(f).read()
        lines = old.split("\n")
        skip = library(lines) | kept[f]
        out = [comment(x) if re.match(r"\s*--", x) else code(x, skip) for x in lines]
        body = lambda t: "\n".join(x for x in t.split("\n") if not re.match(r"\s*--", x))
        new = "\n".join(out)
        meets(f, body(old), body(new), skip)
        if new != old and not dry:
            open(f, "w").write(new)
    for f in [f for f in texts(root, ("src",)) if f.endswith(".rt")]:
        old = open(f).read()
        lines = old.split("\n")
        skip = library(lines)
        clause = False
        out = []
        for x in lines:
            if re.match(r"\s*//", x):
                out.append(comment(x))
                continue
            if re.match(r"\s*(requires|ensures|invariant|ghost)\b", x):
                clause = True
            elif re.match(r"\s*\{\s*$|\S", x) and not re.match(r"[(){}]", x):
                clause = False
            out.append(code(x, skip) if clause or re.match(r"ghost use|\s*ghost", x) else x)
            if re.match(r"^\{", x):
                clause = False
        new = "\n".join(out)
        meets(f, "\n".join(x for x in lines if not re.match(r"\s*//", x)), "", skip)
        if new != old and not dry:
            open(f, "w").write(new)
    for f in glob.glob(f"{root}/*.md") + glob.glob(f"{root}/docs/*.md"):
        if os.path.basename(f) == "PORT.md":
            continue
        old = open(f).read()
        new = "\n".join(comment(x) for x in old.split("\n"))
        if new != old and not dry:
            open(f, "w").write(new)
    print("\n".join(told))
    print(f"{len(change)} names")


main(sys.argv[1:])
