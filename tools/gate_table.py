#!/usr/bin/env python3
"""Prints the table of docs/GATE.md from what the gate printed.

    .ci/run > gate.log; tools/gate_table.py gate.log

A row a crate, dearest first: seconds to prove it, its must-fail edits, the seconds that they took in all and each.
"""
import re
import sys


def rows(text):
    prove = dict(re.findall(r"^rt: (\w+) proved \((\d+) s\)$", text, re.M))
    edits = {}
    for crate, seconds in re.findall(r"^rt: must-fail (\w+)/\w+: .*?(\d+) s\)$", text, re.M):
        edits.setdefault(crate, []).append(int(seconds))
    for crate in prove.keys() | edits.keys():
        times = edits.get(crate, [])
        yield int(prove.get(crate, 0)) + sum(times), crate, int(prove.get(crate, 0)), times


def main(path):
    with open(path, encoding="utf-8") as f:
        table = sorted(rows(f.read()), reverse=True)
    print("| Crate | Prove, s | Edits | Edits, s | Each, s |\n|---|---|---|---|---|")
    for _, crate, prove, times in table:
        each = f"{sum(times) / len(times):.0f}" if times else ""
        print(f"| `{crate}` | {prove} | {len(times) or ''} | {sum(times) or ''} | {each} |")
    print(f"| in all | {sum(r[2] for r in table)} | {sum(len(r[3]) for r in table)} | {sum(sum(r[3]) for r in table)} | |")


if __name__ == "__main__":
    main(sys.argv[1])
