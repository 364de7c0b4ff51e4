#!/usr/bin/env python3
"""Writes the cases of crates/bench_cases and the answers expected: run in the repository's root. Reads both.txt of
vectors and of its folders slip-2 and slip-7, and start.txt of its folders slip-4 and slip-7.

The answers come from tools/procedure.py, and from the words of a frame in docs/FRAMES.md. Where a vector gives the bench's run, the model
must give the same.
"""
from procedure import Bench, Function, T, back, call, check, constant, difference, differs, goto, merged, throw, throw_value, written
from raises import RAISES, STEPPED
from records import GREATEST, LEAST, Refused, agree, call_of, header, input_of, judge_call, little, procedure_of, vectors, write


def expected(delta, start, data):
    if input_of(data) is None:
        return "no header"
    arguments, depth, budget, file = input_of(data)
    try:
        functions = check(file)
        judge_call(start, [f.parameters for f in functions], len(arguments), depth, delta)
    except Refused as r:
        return f"{r} kept"
    bench = Bench(file, functions, start, arguments)
    stop = bench.run(depth, budget)
    frames = "".join(" %d %d %d %d" % frame[:4] for frame in bench.frames)
    return f"{stop} steps {bench.steps} extras {bench.extras} frames{frames} cleared kept"


cases = []


def add(file, arguments, depth, budget, delta=140, start=0):
    cases.append((delta, start, header(arguments, depth, budget) + file))


# Document 01's cases of T, and two with a frame waiting.
for argument, depth, budget in ((5, 256, 100), (0, 256, 100), (5, 0, 100), (5, 256, 0), (5, 256, 4), (5, 256, 5), (5, 1, 2), (5, 1, 3)):
    add(T, [argument], depth, budget)
# The caller's refusals: argument counts, depth, one word too few, none too few; no words for no frames.
add(T, [1, 2], 256, 100)
add(T, [], 256, 100)
add(T, [5], 257, 100)
for depth, delta in ((256, 127), (256, 128), (0, 128)):
    add(T, [5], depth, 100, delta)
add(T, [5], 0, 100, 0)
# 14 before 16, and the file's refusals before both.
add(T, [5, 6], 300, 100, 0)
add(b"", [5], 256, 100)
add(b"SPG", [5, 6], 300, 100)

# The vectors of `both` of at most 400 bytes, but for the empty input, which has no line here. The longer ones are above the file limit of
# `both`, which the bench does not have, or refused for their depth as shorter ones are.
def add_vectors(name):
    for data, text in vectors(name):
        if not 1 <= len(data) <= 400:
            continue
        cases.append((140, 0, data))
        given = next((line[6:] for line in text.split(" | ") if line.startswith("bench ")), text)
        if name != "both.txt" or not differs(procedure_of(data)):
            agree(data.hex(), given, expected(*cases[-1]).split(" extras")[0].removesuffix(" kept"))


add_vectors("both.txt")
add_vectors("slip-2/both.txt")

# A difference at both ends of the range: uncaught; caught in its own function, which returns the target; caught in the caller, past a frame
# without a handler; its target another variable, or one that it reads.
lessen = [
    [Function(2, 1, [difference(x, 0, 1), back(x)])] for x in (0, 1, 2)] + [
    [Function(2, 1, [constant(2, 9), goto(1)], (2, [difference(x, 0, 1), back(x)]), (0, [back(x)]))] for x in (0, 1, 2)] + [
    [Function(2, 1, [goto(1)], (2, [call(2, 1, [0, 1]), back(2)]), (0, [back(0)])),
     Function(2, 0, [call(0, 2, [0, 1]), back(0)]), Function(2, 0, [difference(0, 0, 1), back(0)])]]
ends = (
    (LEAST, 1), (LEAST, 0), (LEAST, -1), (GREATEST, -1), (GREATEST, 0), (GREATEST, LEAST), (LEAST, GREATEST), (-1, GREATEST), (-1, LEAST),
    (0, LEAST))
for functions in lessen:
    for y, z in ends:
        add(written(*functions), [y, z], 2, 100)
for budget in range(8):
    add(written(*lessen[-1]), [LEAST, 1], 2, budget)


# The vectors with a start function.
def add_started(name):
    for file, call_text, given, _ in vectors(name):
        start, arguments, depth, budget = call_of(call_text)
        add(file, arguments, depth, budget, start=start)
        agree(file.hex(), given, expected(*cases[-1]).split(" frames")[0])


add_started("slip-4/start.txt")

# Three functions of one parameter, of two and of none, of 1, 3 and 24 locals. The last is started, the number behind it and 255 are absent.
several = written(
    Function(1, 1, [call(1, 2, []), difference(1, 0, 1), back(1)]),
    Function(2, 3, [goto(1)], (2, [difference(2, 0, 1), call(3, 0, [2]), back(3)]), (0, [call(4, 2, []), back(4)])),
    Function(0, 24, [constant(23, 4), back(23)]))
for start, arguments in ((0, [9]), (1, [9, 2]), (1, [LEAST, 1]), (2, [])):
    for depth, budget in ((2, 100), (2, 0), (2, 3), (1, 100), (0, 100)):
        add(several, arguments, depth, budget, start=start)
for start in (3, 255):
    for arguments in ([9], []):
        add(several, arguments, 2, 100, start=start)
# 14 is judged by the start function. 9 comes before 14 and 16, 14 before 16, and the file's refusals before all.
for start in range(3):
    for arguments in ([], [9], [9, 2], [9] * 3):
        add(several, arguments, 2, 100, start=start)
for start in range(4):
    add(several, [9] * 3, 300, 100, 0, start=start)
add(several, [9, 2], 257, 100, start=1)
add(several, [9, 2], 2, 100, 127, start=1)
add(several, [9, 2], 2, 100, 128, start=1)
add(several[:-1], [9] * 3, 300, 100, 0, start=255)
add(several + b"\0", [9], 2, 100, start=1)
cases.append((140, 255, header([9], 2, 100)[:-1]))
# As many functions as a file can have: the last, and the one behind it.
full = written(*(Function(0, 1 + i % 24, [constant(0, i), back(0)]) for i in range(32)))
for start in (0, 23, 24, 31, 32):
    add(full, [], 2, 100, start=start)
# In a merged file, at its old number or its raised one, a function ends as before with the same steps.
for file, start, arguments in (
        (T, 0, [5]), (T, 0, [0]), (T, 1, [0]), (several, 0, [9]), (several, 1, [9, 2]), (several, 1, [LEAST, 1]), (several, 2, [])):
    alone = expected(140, start, header(arguments, 2, 100) + file)
    for whole, number in ((merged(file, T), start), (merged(T, file), start + 2)):
        add(whole, arguments, 2, 100, start=number)
        agree(whole.hex(), alone, expected(*cases[-1]))

# Slip 7: the vectors; procedures that raise numbers, some at each budget; other versions than 1 and 2; operation 9 in version 1.
add_vectors("slip-7/both.txt")
add_started("slip-7/start.txt")
for file, lists in RAISES:
    for arguments in lists:
        add(file, arguments, 2, 100)
for file, lists in STEPPED:
    bench = Bench(file, check(file), 0, lists[0])
    bench.run(2, 100)
    for budget in range(bench.steps):
        add(file, lists[0], 2, budget)
for version in (0, 3):
    add(written(Function(0, 0, [throw]), version=version), [], 2, 100)
add(written(Function(1, 0, [throw_value(0)])), [5], 2, 100)

write(
    "bench_cases", (bytes([delta]) + little(len(data), 2) + bytes([start]) + data for delta, start, data in cases),
    (expected(*case) + "\n" for case in cases))
print(len(cases), "cases")
