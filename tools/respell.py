#!/usr/bin/env python3
"""Spells the repository's own definitions and lemmas in snake case, and its facts like types.

usage: python3 tools/respell.py [--check]      at the top of the repository, after the toolchain's port.py

What specs/ and proofs/ declare (but in Proof.antt) and is written as `countsRefusal` or `table-law` becomes
`counts_refusal` and `table_law`. A definition that gives a type begins with a capital. The names turn as
whole words in every .antt file, in the clauses of every .rt file, in must-fail edits and in code spans of
the pages. What src/ declares keeps its name: functions, types, fields, parameters and constants. So do
names that the toolchain generates or has.

--check writes nothing and prints the table. It stops where two names would fall together.
"""
import glob
import os
import re
import sys

NAME = r"[^\s(){}.;,@\"«»:]+"
DECLARED = re.compile(r"^( *)((?:abbrev |unfoldable |pub |data |record )*)(" + NAME + r")((?: [({].*)?) : ?(.*)$")
WORD = re.compile(r"[^\s(){}.;,@\"«»]+")
# Facts that were spelled like functions, each in the one file that has it.
FACTS = {"two": "Two"}
FACT_FILES = {"two": "crates/mark_responses/proofs/Rows.antt"}
# Lemmas whose plain name the toolchain's library has.
TAKEN = {"flat-map": "flat_map_lem", "slice-val": "slice_val_lem"}
# A name that the toolchain's script took apart: its word getD is now get_or. Fields of records whose plain
# name a definition has.
MENDED = {
    "get_d_map": "get_or_map",
    "same-players": "players_agree",
    "same-counts": "counts_agree",
    "two-by-two": "two_by_two_counts",
}


def new_name(name):
    if name in FACTS:
        return FACTS[name]
    if name in TAKEN:
        return TAKEN[name]
    if name in MENDED:
        return MENDED[name]
    if not name[0].islower():
        return name
    name = re.sub(r"^getD(?=-|$)", "get_or", name)
    words = re.sub(r"(?<=[a-z0-9])([A-Z])(?=[a-z])", lambda m: "_" + m[1].lower(), name)
    words = re.sub(r"(?<=[a-z0-9])Z(?=$|-)", "_z", words)
    return words.replace("-", "_")


def texts(*patterns):
    out = []
    for p in patterns:
        out += [f for f in glob.glob(p, recursive=True) if "/out/" not in f]
    return sorted(set(out))


def read(path):
    with open(path, encoding="utf-8") as f:
        return f.read()


def declared():
    """The names that the crates' .antt files declare, each with the files where they stand, and those of definitions."""
    found, defined = {}, set()
    for path in texts("crates/*/specs/**/*.antt", "crates/*/proofs/**/*.antt"):
        if path.endswith("/Proof.antt"):
            continue
        for line in read(path).split("\n"):
            m = DECLARED.match(line)
            if m and not line.lstrip().startswith("--"):
                found.setdefault(m[3], set()).add(path)
                if re.search("abbrev|unfoldable|data|record", m[2]):
                    defined.add(m[3])
            # a line that declares several names at once, as a record's fields
            m = re.match(r"^ +(?:pub )?((?:[a-z][\w-]* )+[a-z][\w-]*) : ", line)
            if m:
                for name in m[1].split():
                    if name not in ("pub", "abbrev", "unfoldable"):
                        found.setdefault(name, set()).add(path)
    return found, defined


def of_the_kit(text):
    """The names that a file imports from the toolchain's modules."""
    kit = set()
    for m in re.finditer(r"use (?!Rattle\.(?!std\b))\S+\.\{([^}]*)\}", text):
        kit |= {w.strip().split(" as ")[-1] for w in m[1].split(",")}
    return kit


def generated(word, head):
    """Whether a word behind a dot is a name that the toolchain generates."""
    return head in ("tie", "goal", "code", "f", "g")


def turn(text, table, only=None):
    out, at = [], 0
    for m in WORD.finditer(text):
        w = m[0]
        if w in table and (only is None or only(text, m)):
            before = text[: m.start()]
            head = re.search(r"([^\s(){};,.]+)\.$", before[-80:])
            if head and generated(w, head[1]):
                continue
            out.append(text[at : m.start()])
            out.append(table[w])
            at = m.end()
    out.append(text[at:])
    return "".join(out)


CLAUSE = re.compile(r"(?:requires|ensures)\s*\*?\s*(?:\w+\s*)?\{|ghost use |//")


def clause_parts(text):
    """Where the clauses and the ghost imports of a .rt file stand."""
    at = 0
    while True:
        m = CLAUSE.search(text, at)
        if not m:
            return
        if m[0] == "//":
            at = text.find("\n", m.end())
            if at < 0:
                return
            yield m.start(), at, "comment"
            continue
        if m[0].startswith("ghost"):
            end = text.index(";", m.end())
            yield m.start(), end, "use"
            at = end
            continue
        depth, i = 1, m.end()
        while depth:
            depth += {"{": 1, "}": -1}.get(text[i], 0)
            i += 1
        yield m.end(), i, "clause"
        at = i


def turn_spans(text, table):
    return re.sub(r"`[^`\n]+`", lambda m: "`" + turn(m[0][1:-1], table) + "`", text)


def turn_rt(text, table):
    out, at = [], 0
    for a, b, kind in clause_parts(text):
        out.append(text[at:a])
        part = text[a:b]
        out.append(turn_spans(part, table) if kind == "comment" else turn(part, table))
        at = b
    out.append(text[at:])
    return "".join(out)


def main():
    check = "--check" in sys.argv[1:]
    found, defined = declared()
    table = {n: new_name(n) for n in found if new_name(n) != n}
    facts = {n: table.pop(n) for n in list(table) if n in FACTS}
    # A lemma that would have a definition's name gets _lem.
    back = {}
    for old, new in table.items():
        back.setdefault(new, set()).add(old)
    stop = False
    for new, olds in back.items():
        if new in found:
            olds = olds | {new}
        if len(olds) > 1:
            of = sorted(o for o in olds if o in defined)
            for o in olds:
                if o not in of:
                    table[o] = new + "_lem"
            if len(of) != 1 or new + "_lem" in found or new + "_lem" in back:
                print("fall together:", new, sorted(olds), of, file=sys.stderr)
                stop = True
    # a clause's parameters and fields
    for path in texts("crates/*/src/**/*.rt"):
        text = read(path)
        names = set(re.findall(r"\b([a-z_]\w*)\s*:", text)) | set(re.findall(r"\bfn (\w+)", text))
        inside = set()
        for a, b, kind in clause_parts(text):
            if kind != "comment":
                inside |= {w[0] for w in WORD.finditer(text[a:b]) if w[0] in table}
        for w in inside:
            if table[w] in names:
                print("a name of the code:", path, w, table[w], file=sys.stderr)
    # words that the toolchain's modules give under the new name
    for path in texts("crates/*/specs/**/*.antt", "crates/*/proofs/**/*.antt", "crates/*/src/**/*.rt"):
        text = read(path)
        kit = of_the_kit(text)
        here = {w[0] for w in WORD.finditer(text) if w[0] in table}
        for w in here:
            if table[w] in kit:
                print("a name of the toolchain:", path, w, table[w], file=sys.stderr)
            elif w in kit:
                pass
            elif re.search(r"(?<![\w-])" + re.escape(table[w]) + r"(?![\w-])", text):
                print("stands there already:", path, w, table[w], file=sys.stderr)
    if check:
        for o in sorted(table):
            print(o, table[o])
        return 0
    if stop:
        return 1
    changed = 0
    for path in texts("crates/*/specs/**/*.antt", "crates/*/proofs/**/*.antt"):
        text = read(path)
        own = dict(table)
        for n, new in facts.items():
            if path == FACT_FILES[n]:
                own[n] = new
        for w in of_the_kit(text):
            own.pop(w, None)
        new = "".join(turn(part, table if part.lstrip().startswith("--") else own) for part in text.splitlines(True))
        if new != text:
            changed += 1
            open(path, "w", encoding="utf-8").write(new)
    for path in texts("crates/*/src/**/*.rt"):
        text = read(path)
        new = turn_rt(text, table)
        if new != text:
            changed += 1
            open(path, "w", encoding="utf-8").write(new)
    for path in texts("crates/*/must-fail/*.edit"):
        text = read(path)
        new = turn(text, table)
        if new != text:
            changed += 1
            open(path, "w", encoding="utf-8").write(new)
    for path in texts("docs/**/*.md", "*.md", "tests/**/*.md", "examples/**/*.md"):
        text = read(path)
        new = turn_spans(text, table)
        if new != text:
            changed += 1
            open(path, "w", encoding="utf-8").write(new)
    print(changed, "files changed,", len(table) + len(facts), "names")
    return 0


raise SystemExit(main())
