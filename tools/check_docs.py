#!/usr/bin/env python3
"""Holds the pages to the repository: run in its root. Prints one line for each finding and ends with 1 if there is any.

    python3 tools/check_docs.py

Of every page: relative links lead to a file; quoted paths exist; what is called a crate is one; a quoted path of code (`crate::item`) names a
crate and an identifier of it. Of the pages that speak of the code: every quoted name is an identifier somewhere in crates/. Of docs/TRACE.md: the
must-fail edits behind 'mf' are edits of the crate named, and no cell of a table is over 300 characters. Lists: the crates of docs/ARCHITECTURE.md,
the refusals of docs/REFUSALS.md, the functions with a `requires` of docs/DECISIONS.md. Figures: the numbers of crates and edits, the sums of the
gate's table, the rows of stored cases. Of must-fail edits: the line that is replaced stands once in its file. Notes on changes, and rows of tables, are not held to the present numbers.
"""
import glob
import os
import re
import sys

CELL = 300
TICKS = re.compile(r"`([^`\n]+)`")
WORD = re.compile(r"[A-Za-z_][\w′-]*")
COMMENT = re.compile(r"^\s*(?://|--).*$", re.M)
PATH = re.compile(r"(?<![\w./-])((?:crates|docs|tools|examples)/[\w./*-]*[\w*])")
# Words of documents, formats and tools that stand in backticks and are no identifiers of crates/.
OTHER = set("SPF SPC SPG rt ci check dev prove main compare memcpy memset objdump callgrind requires ensures use match const let as mf S".split())
# Pages that speak of the code as it is.
NAMED = "TRACE DECISIONS DESIGN ARCHITECTURE FIRMWARE FRAMES REFUSALS PROCEDURE_FILES TRANSLATED_FILES FORMAT STEPS".split()

findings = []


def found(page, line, text):
    findings.append("%s:%d: %s" % (page, line, text))


def read(path):
    with open(path, encoding="utf-8") as f:
        return f.read()


def pages():
    own = ["README.md", "CONTRIBUTING.md", "tools/README.md"]
    deep = glob.glob("docs/**/*.md", recursive=True) + glob.glob("examples/**/*.md", recursive=True)
    return [p for p in own + sorted(deep) if os.path.exists(p)]


def crates():
    return [m.group(1) for m in re.finditer(r"^(\w+):", read("crates.txt"), re.M)]


def edits():
    """The labels of each crate's must-fail edits."""
    named = {}
    for path in glob.glob("crates/*/must-fail/*.edit"):
        named.setdefault(path.split("/")[1], set()).add(os.path.basename(path)[:-5])
    return named


def identifiers(crate):
    """Every word of a crate's code, definitions, laws and proofs, but for comments; with the names of its files and edits."""
    words = {crate}
    for root, _, files in os.walk("crates/" + crate):
        words.update(WORD.findall(root))
        for name in files:
            words.update(WORD.findall(name.split(".")[0]))
            if name.endswith((".rt", ".antt")):
                words.update(WORD.findall(COMMENT.sub("", read(os.path.join(root, name)))))
    return words


def numbered(text):
    """The lines of a page, without those of code blocks, each with its number."""
    fenced = False
    for n, line in enumerate(text.split("\n"), 1):
        if line.startswith("```"):
            fenced = not fenced
        elif not fenced:
            yield n, line


def cells(line):
    return [c.strip() for c in line.strip().strip("|").split("|")] if line.startswith("|") else []


def links(page, n, line):
    for target in re.findall(r"\]\(([^)\s]+)\)", line):
        if not re.match(r"[a-z]+:", target) and target.split("#")[0]:
            if not os.path.exists(os.path.join(os.path.dirname(page), target.split("#")[0])):
                found(page, n, "no such file: " + target)


def paths(page, n, line):
    for path in PATH.findall(re.sub(r"\]\([^)]*\)", "]", line)):
        if not re.search(r"/(NAME|LABEL)", path) and not glob.glob(path):
            found(page, n, "no such path: " + path)


def crate_names(page, n, line, known):
    listed = r"\b[Cc]rates? ((?:`\w+`(?:, | and |, and )?)+)"
    for names in re.findall(listed, line):
        for name in TICKS.findall(names):
            if name not in known:
                found(page, n, "no such crate: " + name)
    for name in re.findall(r"`(\w+_cases)`", line):
        if name not in known:
            found(page, n, "no such program: " + name)


def code_paths(page, n, line, known):
    for quoted in TICKS.findall(line):
        m = re.match(r"(\w+)((?:::\w+)+)", quoted)
        if m:
            words = [w for w in m.group(2).split("::") if w]
            library = known.get(m.group(1)) or next((ws for ws in known.values() if m.group(1) in ws), None)
            if library is None:
                found(page, n, "no such crate or module: " + quoted)
            elif m.group(1) in known:
                for word in words:
                    if word not in library:
                        found(page, n, "no such item: " + quoted)


def names(page, n, line, everything):
    for quoted in TICKS.findall(line):
        if "/" in quoted or re.match(r"^[0-9A-F ]+$", quoted):  # a path, or bytes
            continue
        plain = re.match(r"^[\w′-]+$", quoted)
        for word in WORD.findall(quoted):
            if (plain or len(word) > 3) and word not in everything and word not in OTHER and not word.endswith("_cases"):
                found(page, n, "no such name in crates/: %s (in `%s`)" % (word, quoted))


def labels(page, n, line, known, by_crate):
    """After 'mf' a crate (S for semantics, several joined by 'and') is named once for the labels that follow it; without one any crate will do."""
    for cell in cells(line):
        if not re.search(r"\bmf\b", cell):
            continue
        at, joined = [], False
        for token in re.findall(r"`\w+`|\bS\b|\band\b|;", cell[re.search(r"\bmf\b", cell).end():]):
            name = "semantics" if token == "S" else token.strip("`")
            if token == "and":
                joined = True
            elif name in known:
                at, joined = (at if joined else []) + [name], False
            elif token != ";":
                joined = False
                for crate in at or [None]:
                    if not (name in by_crate.get(crate, ()) if crate else any(name in ls for ls in by_crate.values())):
                        found(page, n, "no such edit: %s%s" % (crate + " " if crate else "", name))


def figures(page, n, line, crate_count, edit_count):
    for number, what in re.findall(r"\b(\d+) (crates|edits|must-fail edits)\b", line):
        if int(number) != (crate_count if what == "crates" else edit_count):
            found(page, n, "says %s %s: there are %d crates and %d edits" % (number, what, crate_count, edit_count))


def gate(by_crate, known):
    """The table of docs/GATE.md: its crates, and its sums."""
    page, sums = "docs/GATE.md", [0, 0, 0]
    for n, line in numbered(read(page)):
        row = cells(line)
        if len(row) == 5 and (row[0].startswith("`") or row[0] == "in all"):
            numbers = [int(c.replace(",", "") or 0) for c in row[1:4]]
            if row[0] == "in all":
                if numbers != sums:
                    found(page, n, "the rows make %d, %d, %d" % tuple(sums))
            else:
                sums = [a + b for a, b in zip(sums, numbers)]
                if row[0].strip("`") not in known:
                    found(page, n, "no such crate: " + row[0])


def stored_rows():
    """'N rows' in the table of docs/PROCEDURE_FILES.md: the refused lines of that number among the stored answers."""
    page, answers = "docs/PROCEDURE_FILES.md", read("crates/procedure_cases/stdout").split("\n")
    for n, line in numbered(read(page)):
        row = cells(line)
        m = re.search(r"\b(\d+) rows", row[-1]) if row and row[0].isdigit() else None
        if m:
            count = sum(a.startswith("refused %s at " % row[0]) for a in answers)
            if int(m.group(1)) != count:
                found(page, n, "%s is refused in %d rows" % (row[0], count))


def refusals():
    """The number of each reason (the variants of `Reason` of crate `parsing`) has a row in docs/REFUSALS.md."""
    rows = {cells(line)[0] for _, line in numbered(read("docs/REFUSALS.md")) if cells(line)}
    numbers = re.findall(r"^ *Reason::\w+ => (\d+),$", read("crates/parsing/src/reason.rt"), re.M)
    if not numbers:
        found("docs/REFUSALS.md", 1, "no reasons found in crates/parsing/src/reason.rt")
    for number in numbers:
        if number not in rows:
            found("docs/REFUSALS.md", 1, "no row of refusal " + number)


def crate_table(known):
    """Every crate has its place in the table of docs/ARCHITECTURE.md."""
    page = "docs/ARCHITECTURE.md"
    part = read(page).partition("## The crates")[2].partition("\n## ")[0]
    for crate in known:
        if "`%s`" % crate not in part:
            found(page, 1, "no row of crate " + crate)


def contracts(path):
    """The public functions of a file: each name, alone and behind its struct if it is a method, with the text from the name to the body."""
    text = read(path)
    for m in re.finditer(r"^( *)pub fn (\w+)(.*?)\{ *$", text, re.M | re.S):
        owners = re.findall(r"^impl(?:<[^>]*>)? (\w+)", text[:m.start()], re.M) if m.group(1) else []
        yield {m.group(2)} | {"%s::%s" % (owner, m.group(2)) for owner in owners[-1:]}, m.group(3)


def required():
    """The list of docs/DECISIONS.md: every public function with a `requires` is named, or its crate is; no function without one is."""
    page = "docs/DECISIONS.md"
    part = read(page).partition("### Public functions with a `requires`")[2].partition("\n### ")[0]
    rows = [cells(line)[0] for line in part.split("\n") if cells(line)]
    listed = {name for row in rows for name in TICKS.findall(row)}
    behind = set(TICKS.findall(part.split("\n|")[-1].partition("\n\n")[2]))
    asking, public = set(), set()
    for path in sorted(glob.glob("crates/*/src/**/*.rt", recursive=True)):
        crate = path.split("/")[1]
        for called, contract in contracts(path):
            public |= called
            if "requires" in contract:
                asking |= called | {crate}
                if not (called | {crate}) & (listed | behind):
                    found(page, 1, "not in the list of functions with a `requires`: %s %s" % (crate, max(called, key=len)))
    for name in sorted(listed & public - asking):
        found(page, 1, "has no `requires`: " + name)


def edit_texts():
    """Each line that a must-fail edit replaces stands once in its file."""
    for edit in sorted(glob.glob("crates/*/must-fail/*.edit")):
        path = ""
        for n, line in enumerate(read(edit).split("\n"), 1):
            if line.startswith("file: "):
                path = os.path.join("crates", edit.split("/")[1], line[6:])
            elif line.startswith("old: ") and read(path).count(line[5:]) != 1:
                found(edit, n, "does not stand once in " + path)


def main():
    known = {crate: identifiers(crate) for crate in crates()}
    everything = set().union(*known.values()) | {"io", "libc"}
    by_crate = edits()
    edit_count = sum(map(len, by_crate.values()))
    for page in pages():
        now = not page.startswith("docs/changes/")
        spoken = os.path.basename(page)[:-3] in NAMED and now
        for n, line in numbered(read(page)):
            links(page, n, line)
            paths(page, n, line)
            if now:
                crate_names(page, n, line, known)
            if spoken:
                code_paths(page, n, line, known)
                names(page, n, line, everything)
            if now and not line.startswith(("|", "    ")):
                figures(page, n, line, len(known), edit_count)
            if page == "docs/TRACE.md":
                labels(page, n, line, known, by_crate)
                for cell in cells(line):
                    if len(cell) > CELL:
                        found(page, n, "a cell of %d characters: %s .." % (len(cell), cell[:40]))
    gate(by_crate, known)
    stored_rows()
    refusals()
    crate_table(known)
    required()
    edit_texts()
    print("\n".join(findings) if findings else "%d pages hold" % len(pages()))
    sys.exit(1 if findings else 0)


if __name__ == "__main__":
    main()
