#!/usr/bin/env python3
"""The places of each point of the design pass (docs/DESIGN-PASS.md), in src/ of a commit or of the tree as it stands.

    python3 tools/design_counts.py [COMMIT] [POINT]

prints a count for each point, or the places of one point."""
import re
import subprocess
import sys


def sources(commit):
    """Pairs of a file's name and its text."""
    if commit is None:
        names = subprocess.run(["git", "ls-files", "crates/*/src/*.rt"], capture_output=True, text=True).stdout.split()
        return [(n, open(n, encoding="utf8").read()) for n in names]
    names = subprocess.run(["git", "ls-tree", "-r", "--name-only", commit, "crates"], capture_output=True, text=True).stdout.split()
    names = [n for n in names if re.match(r"crates/\w+/src/.*\.rt$", n)]
    return [(n, subprocess.run(["git", "show", f"{commit}:{n}"], capture_output=True, text=True).stdout) for n in names]


def lines(files, pattern):
    found = []
    for name, text in files:
        for number, line in enumerate(text.splitlines(), 1):
            if not line.strip().startswith("//") and re.search(pattern, line):
                found.append(f"{name}:{number}: {line.strip()}")
    return found


def functions(files):
    """Name, head and body of each function."""
    for name, text in files:
        for m in re.finditer(r"^( *)(?:pub )?fn (\w+)(.*?)^\1\{\n(.*?)^\1\}", text, flags=re.M | re.S):
            yield name, m.group(2), m.group(3), m.group(4)


def enums(files):
    """Enums of the shape of Option or Result: two variants, one of which has nothing or a refusal."""
    found = []
    for name, text in files:
        for m in re.finditer(r"^(?:pub )?enum (\w+) \{\n(.*?)^\}", text, flags=re.M | re.S):
            variants = re.findall(r"^    (\w+)(.*?),?$", m.group(2), flags=re.M)
            if len(variants) == 2 and any(not rest.strip(", ") or "Refusal" in rest for _, rest in variants):
                found.append(f"{name}: enum {m.group(1)}")
    return found


def point_1(files):
    codes = lines(files, r"const \w+: u8 =")
    flags = lines(files, r"^\s*pub verdict:|\bnames: bool\b")
    return enums(files) + codes + flags


def shape(body):
    """A body without the names of the repository's own things, numbers and types."""
    body = re.sub(r"//.*", "", body)
    words = {}

    def number(m):
        return words.setdefault(m.group(0), f"w{len(words)}")

    keep = {"let", "mut", "if", "else", "match", "return", "while", "for", "in", "loop", "Ok", "Err", "Some", "None", "as", "break"}
    return re.sub(r"\s+", " ", re.sub(r"[A-Za-z_]\w*|\d+", lambda m: m.group(0) if m.group(0) in keep else number(m), body)).strip()


def point_2(files):
    """Functions of more than one statement whose bodies are alike but for names, numbers and types."""
    groups = {}
    for name, function, _, body in functions(files):
        if body.count("\n") >= 4:
            groups.setdefault(shape(body), []).append(f"{name}: {function}")
    found = [" = ".join(group) for group in groups.values() if len(group) > 1]
    kinds = {}
    for name, text in files:
        for m in re.finditer(r"^(?:pub )?struct (\w+) \{\n(.*?)^\}", text, flags=re.M | re.S):
            fields = tuple(re.findall(r"^    (?:pub )?(\w+):", m.group(2), flags=re.M))
            kinds.setdefault(fields, []).append(f"{name}: struct {m.group(1)}")
    return found + [" = ".join(group) for group in kinds.values() if len(group) > 1]


def point_3(files):
    return lines(files, r"^\s*while ")


def point_4(files):
    """Widening casts, the less or larger of two numbers, conversions and printing by hand."""
    casts = lines(files, r" as (usize|u64|u32|i64)\b|\b(byte_number|byte_count|offset_number)\(")
    chosen = [f"{n}: {f}" for n, f, _, b in functions(files) if re.match(r"\s*if (\w+) < (\w+) \{ (\1|\2) \} else \{ (\1|\2) \}\s*$", b)]
    return casts + chosen


def point_5(files):
    """Facts that stand in the `requires` of three or more functions, with how many."""
    facts = {}
    for name, function, head, _ in functions(files):
        for clause in re.findall(r"requires[^{\n]*\{(.*)\}", head):
            for word in set(re.findall(r"\b[A-Z]\w+\b", clause)):
                facts.setdefault(word, set()).add(f"{name}: {function}")
    return [f"{word}: {len(places)} functions" for word, places in sorted(facts.items()) if len(places) >= 3]


def point_6(files):
    """Arrays of which a part is lent by a count, and structs of two arrays."""
    lent = lines(files, r"\w\[\.\.\w+\]")
    pairs = []
    for name, text in files:
        for m in re.finditer(r"^(?:pub )?struct (\w+) \{\n(.*?)^\}", text, flags=re.M | re.S):
            if len(re.findall(r": \[", m.group(2))) > 1:
                pairs.append(f"{name}: struct {m.group(1)}")
    return lent + pairs


def point_7(files):
    """Matches by numerals."""
    found = []
    for name, text in files:
        for m in re.finditer(r"match ([^{}\n]+) \{\n\s*\d+", text):
            found.append(f"{name}:{text.count(chr(10), 0, m.start()) + 1}: match {m.group(1)}")
    return found


def main():
    arguments = sys.argv[1:]
    point = arguments.pop() if arguments and re.fullmatch(r"[1-7]", arguments[-1]) else None
    files = sources(arguments[0] if arguments else None)
    for number in "1234567":
        found = globals()[f"point_{number}"](files)
        if point is None:
            print(f"point {number}: {len(found)}")
        elif point == number:
            print("\n".join(found))


if __name__ == "__main__":
    main()
