#!/usr/bin/env python3
"""Spells the repository's own definitions and lemmas in snake case, after the kit's port.py has run.

usage: python3 tools/port_names.py [--list] [ROOT]

A word that the texts of specs/ (or a lemma file of proofs/) declare or bind, with a capital or a dash inside, gets underscores: `functionOf` is
`function_of`, `take-append-add` is `take_append_add`. Types, modules, names of Rattle source and names that Rattle makes stay.
A name that a file imports from a library stays in that file. A lemma that would meet a
definition gets `_lem`.
`--list` prints old and new names and changes nothing.
"""

import glob
import os
import re
import sys

ROOT = "."
TOKEN = re.compile(r"""[^\s(){}.;,@"«»\[\]|]+""")
TURNS = re.compile(r"[a-z][^\s(){}.;,@\"«»\[\]|]*\Z")
MODIFIERS = r"(?:(?:abbrev|unfoldable|opaque|pub|irreducible|private|instance) +)*"
DECLARED = re.compile(rf"(?m)^\s*{MODIFIERS}([^\s(){{}}.;,@\"«»:]+)(?: +(?:\{{[^{{}}\n]*\}}|\([^()\n]*\)))* :(?= |$)")
BINDER = re.compile(r"[({]([^(){}:\n]+) : ")
LET = re.compile(r"\blet ((?:[^\s(){}.;,@\"«»:]+))(?: =| :)")
LAMBDA = re.compile(r"λ ((?:[^\s(){}.;,@\"«»:]+ ?)+)\.")
USE = re.compile(r"^(?:ghost )?(?:pub )?use ([^\s;{]+)(?:\{([^}]*)\})?", re.M)
CLAUSE = re.compile(r"^\s*(?:requires\*?|ensures\*?|ghost)\b")
# A lemma that stands beside a definition which is now called so; a name that ends in a capital of its own.
APART = {"rest_from": "rest_from_lem", "fileTTranslated": "file_t_translated"}
# A word of a comment that is a name.
HUMPED = re.compile(r"(?<![\w.'-])[a-z]+[a-z0-9]*(?:[A-Z][a-z0-9]+)+(?![\w'-])")


def turned(name):
    if name in APART:
        return APART[name]
    name = re.sub(r"(?<=[a-z0-9?])[A-Z](?=[a-z0-9?'-]|\Z)", lambda m: "_" + m[0].lower(), name)
    return re.sub(r"(?<=\w)-(?=\w)|(?<=['?])-(?=\w)", "_", name)


def is_spec(path):
    parts = os.path.relpath(path, os.path.join(ROOT, "crates")).split(os.sep)
    return parts[1] == "specs" or (parts[1] == "proofs" and len(parts) == 3)


def is_library(path):
    return not path.startswith("Rattle.") or path.startswith("Rattle.std.") or path.split(".")[1] in ("core", "io", "libc")


def imported(text):
    names = set()
    for m in USE.finditer(text):
        if is_library(m[1]):
            names |= {w.strip().split(" as ")[-1] for w in (m[2] or "").split(",") if w.strip()}
    return names


def code(line):
    """The part of a line of antt before its comment."""
    m = re.search(r"(?:^|\s)--(?:\s|$)", line)
    return (line[: m.start()], line[m.start():]) if m else (line, "")


def own_names(files):
    names, declared = set(), set()
    for p in files:
        if not is_spec(p):
            continue
        text = "\n".join(code(l)[0] for l in open(p, encoding="utf-8").read().split("\n") if not USE.match(l))
        d = set(DECLARED.findall(text))
        for w in BINDER.findall(text):
            names |= set(w.split())
        names |= set(LET.findall(text))
        for w in LAMBDA.findall(text):
            names |= set(w.split())
        names |= d
        declared |= d
    return {n for n in names if TURNS.match(n) and turned(n) != n}, declared


def turn_text(text, table, keep):
    def one(m):
        w = m[0]
        return table[w] if w in table and w not in keep else w

    return TOKEN.sub(one, text)


def turn_comment(text, table, keep):
    text = re.sub(r"`([^`]+)`", lambda m: "`" + turn_text(m[1], table, keep) + "`", text)
    return HUMPED.sub(lambda m: turned(m[0]), text)


def turn_antt(text, table):
    keep = imported(text)
    out = []
    for line in text.split("\n"):
        m = USE.match(line)
        if m and is_library(m[1]):
            out.append(line)
            continue
        head, tail = code(line)
        out.append(turn_text(head, table, keep) + turn_comment(tail, table, keep))
    return "\n".join(out)


def turn_rt(text, table):
    """Lines of `ghost use`, and clauses up to the brace that ends them."""
    keep = imported(text)
    out, depth = [], 0
    for line in text.split("\n"):
        ghost = line.startswith("ghost use Rattle.") and not line.startswith("ghost use Rattle.std.")
        if depth or ghost or CLAUSE.match(line):
            depth += line.count("{") - line.count("}")
            line = turn_text(line, table, keep)
        elif line.lstrip().startswith("//"):
            line = turn_comment(line, table, keep)
        out.append(line)
    return "\n".join(out)


def table_of(names, declared):
    """Old name to new. A lemma that would have its definition's name gets `_lem`."""
    taken = {turned(n) for n in names if "-" not in n} | {n for n in declared if "-" not in n}
    return {n: turned(n) + "_lem" if "-" in n and turned(n) in taken else turned(n) for n in names}


def collisions(files, table):
    back = {}
    for o, n in table.items():
        back.setdefault(n, []).append(o)
    for n, os_ in sorted(back.items()):
        if len(os_) > 1:
            print(f"look: {', '.join(os_)} would both be {n}")
    for p in files:
        if not is_spec(p):
            continue
        text = "\n".join(code(l)[0] for l in open(p, encoding="utf-8").read().split("\n"))
        words = set(TOKEN.findall(text))
        for w in sorted(words):
            if w in table and table[w] in words:
                print(f"look: {p}: {w} meets {table[w]}")


def main(argv):
    global ROOT
    listing = "--list" in argv
    argv = [a for a in argv if a != "--list"]
    ROOT = argv[0] if argv else "."
    antt = sorted(p for p in glob.glob(os.path.join(ROOT, "crates/**/*.antt"), recursive=True) if "/out/" not in p)
    rt = sorted(p for p in glob.glob(os.path.join(ROOT, "crates/*/src/**/*.rt"), recursive=True))
    names, declared = own_names(antt)
    table = table_of(names, declared)
    if listing:
        for o, n in sorted(table.items()):
            print(o, n, "" if o in declared else "local")
        collisions(antt, table)
        return 0
    for p in antt + rt:
        text = open(p, encoding="utf-8").read()
        new = turn_antt(text, table) if p.endswith(".antt") else turn_rt(text, table)
        if new != text:
            open(p, "w", encoding="utf-8").write(new)
    return 0


if __name__ == "__main__":
    raise SystemExit(main(sys.argv[1:]))
