#!/usr/bin/env python3
"""Lists the places of docs/DESIGN-PASS.md's points in src/ and proofs/: `tools/forms.py [POINT]`, at the top of the repository.

It goes by the text, so a line that it prints is a candidate; the page says of each what became of it."""

import collections
import pathlib
import re
import sys

SOURCES = sorted(pathlib.Path("crates").glob("*/src/**/*.rt"))


def code(path):
    """The lines without comments and clauses."""
    for number, line in enumerate(path.read_text().splitlines(), 1):
        stripped = line.strip()
        if not re.match(r"(//|ghost |requires|ensures)", stripped):
            yield number, line.rstrip()


def matching(pattern):
    for path in SOURCES:
        for number, line in code(path):
            if re.search(pattern, line):
                yield f"{path}:{number}: {line.strip()}"


def functions(path):
    """Name, parameters, clauses and body of each function."""
    text = path.read_text()
    for found in re.finditer(r"^( *)(?:pub )?(?:extern \"C\" )?fn (\w+)(.*?)^\1\{\n(.*?)^\1\}", text, re.M | re.S):
        head, clauses = re.split(r"\n *(?=requires|ensures)", found[3], maxsplit=1) if re.search(r"\n *(requires|ensures)", found[3]) else (found[3], "")
        yield found[2], head, clauses, found[4]


def options():
    """1: enums of two or three variants of which one holds a value; sentinels; numbers for kinds; a truth value in a struct."""
    for path in SOURCES:
        for found in re.finditer(r"^(?:pub )?enum (\w+) \{\n(.*?)^\}", path.read_text(), re.M | re.S):
            variants = re.findall(r"^    (\w+)(\(.*\))?,", found[2], re.M)
            if len(variants) <= 3 and any(v[1] for v in variants):
                yield f"{path}: enum {found[1]}: {', '.join(v[0] + v[1] for v in variants)}"
    yield from matching(r"^\s*(if|while|return)?.*(\w\.size [!=]= 0\b|if size == 0 \{|l\.slots <= slot\b|return l\.slots|\) < l\.slots \{|l\.guests < guest|if 170 <= |if 7 <= i\b|row_of\(.*\) < 7|mark\.at < 362|Mark \{ at: 384)")
    yield from matching(r"^\s*kind: u64,|\bkind: u64\b.*\)|^const (R|W|RW|G|T): u16")
    yield from matching(r"^\s*(pub )?\w+: bool,$")


def twins():
    """2: functions whose bodies are alike but for names and numbers."""
    alike = collections.defaultdict(list)
    for path in SOURCES:
        for name, _, _, body in functions(path):
            body = re.sub(r"//.*", "", body)
            body = re.sub(r"\b(0x)?[0-9][0-9A-Fa-f_]*(u64|u8|usize)?\b", "0", body)
            body = re.sub(r"\b(?!let|mut|if|while|for|in|return|match|else|loop|break|as)[a-z_A-Z]\w*(::\w+)*", "x", body)
            tokens = re.findall(r"\w+|[^\w\s]", body)
            if len(tokens) >= 12:
                alike[" ".join(tokens)].append(f"{path.parts[1]}::{name}")
    for names in alike.values():
        if len(names) > 1:
            yield ", ".join(names)


def loops():
    """3: loops that are no `for`."""
    yield from matching(r"^\s*while |\bloop \{")


def by_hand():
    """4: equality, order, copies, conversions and printing by hand: a match that only tells true from false, or numbers; tests of a range; numbers pushed as text."""
    for path in SOURCES:
        for name, head, _, body in functions(path):
            arms = re.findall(r"=> (.*?),\n", body)
            if len(arms) > 1 and (all(a in ("true", "false") for a in arms) or all(re.fullmatch(r"\d+", a) for a in arms)):
                yield f"{path}: {name}: match to {arms[0]}, .."
            elif re.search(r"-> bool", head) and re.fullmatch(r"\s*(if [^{]*\{\s*return (true|false);\s*\}\s*)+[^;{}]*\s*", body):
                yield f"{path}: {name}: true or false by returns"
            elif re.search(r"\w+\[[^\]]*\] = \w+\[[^\]]*\];", body) or re.search(r"\w\[[^\]]*\] = 0;", body) and "while" in body or re.search(r"\w\[.*\] != \w+\[.*\]", body):
                yield f"{path}: {name}: bytes one by one"


def facts():
    """5: conjuncts of `requires` in three or more functions of a crate; neighbouring parameters of five or more."""
    for crate in sorted({p.parts[1] for p in SOURCES}):
        conjuncts, pairs = collections.Counter(), collections.Counter()
        for path in SOURCES:
            if path.parts[1] != crate:
                continue
            for _, head, clauses, _ in functions(path):
                for clause in re.findall(r"requires(?: \w+)? \{ (.*?) \}\n", clauses + "\n"):
                    conjuncts.update({c.strip("() ") for c in clause.split(" × ")})
                names = re.findall(r"(\w+): ([^,()]+)", head)
                pairs.update({f"{a[0]}: {a[1].strip()}, {b[0]}: {b[1].strip()}" for a, b in zip(names, names[1:])})
        for fact, count in conjuncts.most_common():
            if count >= 3:
                yield f"{crate}: {count} functions require {fact}"
        for pair, count in pairs.most_common():
            if count >= 5:
                yield f"{crate}: {count} functions take {pair}"


def buffers():
    """6: arrays of arrays, rows with a count, a filled length beside a buffer."""
    yield from matching(r"\[\[u\d+; \d+\]; \d+\]|row: \[u16; \d+\]|-> \[u16; \d+\]|^\s*filled: usize")


def switches():
    """7: a match over a number."""
    yield from matching(r"^\s*\d+ => ")


def answers():
    """8: proof files, answers, and those that only search."""
    files = sorted(pathlib.Path("crates").glob("*/proofs/**/*.antt"))
    given = [p for p in files if p.name == "Answers.antt"]
    text = "\n".join(p.read_text() for p in given)
    yield f"lines of proofs: {sum(len(p.read_text().splitlines()) for p in files)}"
    yield f"files Answers.antt: {len(given)}; Invariants.antt: {len([p for p in files if p.name == 'Invariants.antt'])}; of lemmas: {len([p for p in files if p.name not in ('Answers.antt', 'Invariants.antt', 'Proof.antt', 'Lib.antt')])}"
    yield f"answers: {len(re.findall(r'^pub ', text, re.M))}, of them one search: {len(re.findall(r'^[^-].* = search ', text, re.M))}"


POINTS = [options, twins, loops, by_hand, facts, buffers, switches, answers]
wanted = [int(a) for a in sys.argv[1:]] or range(1, 9)
for point in wanted:
    places = list(POINTS[point - 1]())
    print(f"{POINTS[point - 1].__doc__} {len(places)}")
    for place in places:
        print(f"  {place}")
