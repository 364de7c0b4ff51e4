#!/usr/bin/env python3
"""Writes the cases of crates/sides_cases and the answers expected: run in the repository's root. Reads both.txt of vectors and of its folders
slip-2, slip-5 and slip-7, and start.txt of slip-4 and slip-7.

The answers come from tools/procedure.py and tools/target.py. Where a vector gives both runs or the refusal, the models must give the same.
"""
from collections import Counter

from procedure import FAULTY, LIMIT, T, Function, check, differs, filled, merged, throw, throw_value, translation, written
from raises import RAISES, T_2
from records import Refused, agree, call_of, input_of, judge_room, judge_start, judge_words, little, procedure_of, signed, vectors, write
from sides import Sides

cases = []


def answer(start, arguments, depth, budget, frames, room, records, file):
    """Both runs of an accepted call."""
    functions = check(file)
    judge_start(start, [f.parameters for f in functions], len(arguments))
    judge_room(len(translation(file)), room)
    judge_words(depth, frames)
    judge_words(depth, records)
    return Sides(file, start, arguments, depth, budget)


def expected(*case):
    try:
        a = answer(*case)
    except Refused as r:
        return f"{r} kept\n"
    return (
        f"target {len(a.target)} {a.target.hex()} kept\nbench {a.bench_stop} steps {a.bench_steps} extras {a.extras} cleared kept\n"
        f"controller {a.controller_stop} steps {a.controller_steps} cleared kept\n")


def add(file, start, arguments, depth=2, budget=100, frames=140, room=None, records=133):
    """A call; without a room told, there is room for 9 bytes more than the translation, and for 90 where there is none."""
    if room is None:
        try:
            room = min(len(translation(file)) + 9, 65536)
        except Refused:
            room = 90
    cases.append((start, arguments, depth, budget, frames, room, records, file))


# Document 01's cases of T, and a frame waiting; from function 1, whose entry is function 3 of the translation.
for argument, depth, budget in ((5, 256, 100), (0, 256, 100), (5, 0, 100), (5, 256, 0), (5, 256, 4), (5, 256, 5), (5, 1, 3)):
    add(T, 0, [argument], depth, budget)
for argument in (5, 0):
    for budget in (100, 1, 0):
        add(T, 1, [argument], 0, budget)
# Each function of a merged file, at depths 0 and 1.
for file in (merged(T, T), merged(T_2, T_2)):
    for start in range(4):
        for argument in (5, 0):
            for depth in (0, 1):
                add(file, start, [argument], depth)
# All four ends with memory exactly as long as needed, one word or byte longer, and much longer: from function 0 value, spent and deep, from
# function 1 uncaught.
for file in (T, T_2):
    size = len(translation(file))
    for start, argument, depth, budget in ((0, 5, 1, 100), (0, 5, 1, 3), (0, 5, 0, 100), (1, 0, 0, 100), (1, 0, 256, 100)):
        for frames, room, records in ((128, size, 128), (129, size, 128), (128, size + 1, 128), (128, size, 129), (255, 65536, 255)):
            add(file, start, [argument], depth, budget, frames, room, records)
# At depth 0 no words are needed.
add(T, 0, [5], 0, 100, 0, 106, 0)

# 16 for each of its causes, and all of them at once; 14 before it, and 9 before 14, of function 1 and the one behind the last.
for file in (T, T_2):
    size = len(translation(file))
    for start in (1, 2):
        for arguments in ([5], []):
            for short in (
                    {}, {"depth": 257}, {"frames": 127}, {"room": size - 1}, {"records": 127}, {"room": 0}, {"frames": 0}, {"records": 0},
                    {"depth": 65535, "frames": 0, "room": 0, "records": 0}):
                add(file, start, arguments, **short)
for start in (3, 255, 256, 65535):
    add(T, start, [5])
for count in (2, 8, 9, 255):
    add(T, 0, [5] * count)
    add(T, 0, [5] * count, 257)

# A translation of 65,535 bytes is the longest: it is run, and 16 for one byte of room too few. One byte more is refused with 17, before each
# cause of 16, after 14, and 14 after 9.
longest, over, over_2 = filled(65535), filled(65536), filled(65536, 2)
eight = [*range(8)]
add(longest, 0, eight, room=65535)
add(longest, 0, eight, room=65534)
for start, arguments in ((0, eight), (1, []), (0, []), (2, eight), (2, [])):
    add(over, start, arguments)
for short in ({"depth": 257}, {"frames": 127}, {"room": 65535}, {"records": 127}):
    add(over, 0, eight, **short)
for start, arguments in ((0, eight), (0, []), (2, [])):
    add(over, start, arguments, 257, 100, 0, 0, 0)
add(over_2, 0, eight, 257, 100, 0, 0, 0)

# Files that the checker refuses, before all that the call is refused for; version 3, operation 9 in version 1, and a file above its limit too.
faulty = [b"", *FAULTY, T[:3] + b"\3" + T[4:], written(Function(1, 0, [throw_value(0)])), T_2[:-1], T_2 + b"\0", T_2[:12] + b"\2" + T_2[13:]]
for file in faulty:
    add(file, 0, [5])
    add(file, 40, [5, 6], 257, 100, 0, 0, 0)
add(T.ljust(LIMIT + 1, b"\0"), 40, [5, 6], 257, 100, 0, 0, 0)

# Procedures of version 2 that raise numbers, at some budgets and depths.
for file, lists in RAISES:
    add(file, 0, lists[0])
    add(file, 0, lists[-1], 1, 5)
    add(file, len(check(file)) - 1, lists[0], 0)
add(written(Function(0, 0, [throw]), version=2), 0, [], 0, 1, 128, 19, 128)

# The vectors with a start function. Those with a short translation are cases here.
for name in ("slip-4/start.txt", "slip-7/start.txt"):
    for file, call_text, bench, controller in vectors(name):
        add(file, *call_of(call_text))
        a = answer(*cases[-1])
        agree(file.hex(), bench, f"{a.bench_stop} steps {a.bench_steps} extras {a.extras}")
        agree(file.hex(), controller, f"controller start {a.entry} {a.controller_stop} steps {a.controller_steps}")
        if len(a.target) > 240:
            cases.pop()


# The vectors of `both` whose file is within its limit; each translation is within the room that it lends. Those from before Slip 2 are held
# to where no difference stands in the procedure. Each fourth, where it is short, is a case here; `both_cases` has them all.
def both_text(case):
    try:
        return answer(*case).text().strip().replace("\n", " | ")
    except Refused as r:
        return str(r)


held = 0
for name in ("both.txt", "slip-2/both.txt", "slip-5/both.txt", "slip-7/both.txt"):
    for i, (data, text) in enumerate(vectors(name)):
        if input_of(data) is None or len(procedure_of(data)) > 2048:
            continue
        arguments, depth, budget, file = input_of(data)
        case = (0, arguments, depth, budget, 140, 8192, 133, file)
        if name != "both.txt" or not differs(file):
            agree(data.hex(), text, both_text(case))
            held += 1
        if len(data) <= 120 and i % 4 == 0:
            cases.append(case)

write(
    "sides_cases",
    (little(start, 2) + bytes([len(arguments)]) + little(depth, 2) + little(budget, 4) + bytes([frames]) + little(room, 3) + bytes([records])
     + little(len(file), 3) + signed(arguments) + file for start, arguments, depth, budget, frames, room, records, file in cases),
    (expected(*case) for case in cases))


def kind(text):
    return " ".join(text.split()[:2]) if text.startswith("refused") else text.split("bench ")[1].split()[0]


print(len(cases), "cases,", held, "vectors of `both` held to:", dict(Counter(kind(expected(*case)) for case in cases)))
