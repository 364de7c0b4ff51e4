#!/usr/bin/env python3
"""Writes the cases of crates/controller_cases and the answers expected: run in the repository's root. Reads target.txt of
vectors and of its folders slip-2 to slip-4 and slip-7, and start.txt of slip-4 and slip-7.

The answers come from tools/target.py. Where a vector gives a refusal or a run, the model must give the same.
"""
from collections import Counter

from procedure import T as PROCEDURE
from procedure import Bench, Function, back, call, entries, goto, merged, translation, written
from procedure import check as check_procedure
from raises import AGAIN, RAISES, TWO_UP
from records import GREATEST, LEAST, Refused, agree, call_of, constant, difference, duplicate, judge_call, little, numbered, signed, vectors, write
from target import before_slip_3, both, branch, check, continuation, difference_or_raise, function, handle, jump, resume, run, target


def expected(case):
    delta, start, arguments, depth, budget, file = case
    try:
        functions = check(file)
        judge_call(start, [parameters for parameters, _ in functions], len(arguments), depth, delta)
    except Refused as r:
        return f"{r} kept"
    stop, steps, places = run(functions, start, arguments, depth, budget)
    return f"{stop} steps {steps} records" + "".join(f" {p}" for p in places) + " cleared kept"


cases = []


def add(file, arguments, depth, budget, delta=128, start=0):
    cases.append((delta, start, list(arguments), depth, budget, bytes(file)))


# A vector: a refused file, or a call and its run. The answer of the model to it.
def add_vector(file, *fields):
    start, arguments, depth, budget = call_of(fields[0]) if len(fields) > 1 else (0, [], 256, 100)
    add(file, arguments, depth, budget, start=start)
    return expected(cases[-1]).split(" records")[0].removesuffix(" kept")


# The vectors as they stand, and each accepted file with depth 2 and a small budget. Kept for below: a refused file for each number, of
# Slip 3's vectors and of those after it for numbers not told before. Version 2 was refused before Slip 7.
short = []
wrong = {}
for name, told in (
        ("target.txt", before_slip_3), ("slip-2/target.txt", before_slip_3), ("slip-3/target.txt", str), ("slip-4/target.txt", str)):
    for file, *fields in vectors(name):
        ours = add_vector(file, *fields)
        if not numbered(file):
            agree(file.hex(), fields[-1], told(ours))
        if len(fields) == 1:
            number = fields[0].split()[1]
            if told is before_slip_3 or number not in wrong:
                wrong[number] = file
        else:
            short.append((file, *call_of(fields[0])[:2]))

# File T of document 01, translated.
T = translation(PROCEDURE)
most = 2 ** 64 - 1
add(T, [5], 256, 100)
add(T, [0], 256, 100)
add(T, [5], 0, 100)
add(T, [5], 256, 1)
add(T, [5], 256, 8)
add(T, [5], 256, most)
add(T, [5, 6], 256, 100)
add(T, [5], 257, 100)
add(T, [5, 6], 257, 100)
for i, (file, start, arguments) in enumerate(short):
    add(file, arguments, 2, 2 + i % 7, 200, start)

# The file's own refusal comes before those of the call.
for number in sorted(wrong, key=int):
    add(wrong[number], [1] * 33, 257, most, 0)
add(bytes(65536), [], 2, 100)
add(target().ljust(65536, b"\0"), [], 2, 100)

# The call: words lent, depth, argument count.
for delta in (0, 127, 128, 129, 255):
    for depth in (0, 1, 256):
        add(T, [1], depth, 100, delta)
for depth in (255, 258, 300, 65535):
    add(T, [5], depth, 100)
for arguments in ([], [1, 2], [3] * 32, [4] * 255):
    add(T, arguments, 2, 100)
    add(T, arguments, 2, 100, 127)

# Budgets: none, each small one, and those around 2^32 and 2^63.
for argument in (0, 5):
    for budget in range(12):
        add(T, [argument], 1, budget, 255)
for budget in (2 ** 32 - 1, 2 ** 32, 2 ** 32 + 1, 2 ** 63, most):
    add(T, [0], 1, budget, 255)
add(T, [0], 0, most, 255)
add(T, [0], 0, 0, 255)


# Four records of one function, and then `last`: it applies one of them, which drops it and those made later.
def chain(last):
    inner = continuation(10, 11, constant(12, 5) + constant(2, 90) + last, difference(11, 11, 2) + resume(7, 11))
    guarded = both(7, 8, 9, inner, continuation(14, 15, resume(5, 2), handle(1)), resume(3, 8))
    second = continuation(5, 6, guarded, continuation(13, 14, difference(6, 6, 2) + resume(3, 6), resume(0, 14)))
    return target(function(1, continuation(3, 4, second, difference(4, 4, 2) + resume(0, 4))))


# From a count down to 0, a record at each turn, under a guard of function 0; then `last`.
def descent(last):
    down = constant(4, 1) + difference(2, 2, 4) + continuation(5, 6, jump(1, 5, 1, [2]), difference(6, 6, 4) + resume(0, 6))
    return target(
        function(1, both(4, 5, 6, jump(1, 4, 6, [2]), constant(7, -1) + resume(0, 7), resume(0, 5))),
        function(1, constant(3, 0) + branch(2, 3, last, down)))


# As `descent`, but each second turn makes a guard that hands the exception on to the next older one.
handed = target(
    function(1, both(4, 5, 6, jump(1, 4, 6, [2]), constant(7, -1) + resume(0, 7), resume(0, 5))),
    function(1, constant(3, 0) + branch(2, 3, handle(1), constant(4, 1) + difference(2, 2, 4)
             + continuation(5, 6, jump(2, 5, 1, [2]), resume(0, 6)))),
    function(1, both(3, 4, 5, jump(1, 3, 5, [2]), duplicate(6, 2) + handle(1), resume(0, 4))))


# Each budget from the first on, up to the end of the run.
def each_budget(file, arguments, depth, first=0):
    steps = run(check(file), 0, arguments, depth, 10000)[1]
    for budget in range(first, steps + 1):
        add(file, arguments, depth, budget, 255)


for last in (resume(3, 12), resume(5, 12), resume(7, 12), resume(10, 12), handle(9)):
    each_budget(chain(last), [100], 4, 5)
for last in (resume(0, 12), handle(1)):
    for budget in (6, 7, 8, most):
        add(chain(last), [100], 4, budget, 255)
for depth in range(6):
    add(chain(handle(9)), [100], depth, 100, 140)
each_budget(descent(handle(1)), [3], 4, 14)
each_budget(handed, [2], 6, 12)
for last in (handle(1), resume(0, 2)):
    for depth in (0, 1, 4, 5, 6, 7):
        add(descent(last), [5], depth, most, 129)
for last in (handle(1), resume(0, 2)):
    steps = run(check(descent(handle(1))), 0, [255], 256, 10000)[1]
    for budget in (steps - 4, steps - 3, steps - 2, steps - 1, steps, most):
        add(descent(last), [255], 256, budget, 255)
add(descent(handle(1)), [256], 256, most, 255)
add(descent(resume(0, 2)), [2 ** 31 - 1], 200, most, 255)
add(handed, [60], 256, most, 255)
add(handed, [200], 256, most, 255)

# An older continuation with a newer handler at a jump, and the other way round; handler and continuation from each other's slots.
crossed = [
    target(
        function(1, continuation(3, 4, both(5, 6, 7, jump(1, k, h, [2]), constant(8, 70) + resume(3, 8), constant(8, 60) + resume(0, 8)),
                                 resume(0, 4))),
        function(1, continuation(3, 4, last, resume(0, 4))))
    for k, h in ((3, 7), (5, 1)) for last in (handle(1), resume(0, 2), resume(3, 2))]
for file in crossed:
    for budget in (4, 5, 6, 100):
        add(file, [9], 3, budget, 160)
exchanged = [
    target(
        function(1, both(1, 3, 0, jump(1, 1, 0, [2]), constant(2, 1) + resume(0, 2), difference(3, 3, 2) + resume(0, 3))),
        function(1, last))
    for last in (difference(2, 2, 2) + resume(0, 2), handle(1))]
for file in exchanged:
    for budget in (1, 2, 100):
        add(file, [8], 1, budget, 160)

# A body has the slots bound before it: not its own, and not what the rest bound anew.
anew = target(function(1, constant(3, 1) + continuation(0, 2, constant(3, 2) + resume(0, 3), difference(2, 2, 3) + resume(0, 2))))
each_budget(anew, [4], 1)
same = target(function(1, continuation(5, 5, difference(2, 2, 2) + resume(5, 2), resume(0, 5))))
each_budget(same, [4], 1)
other = target(function(1, both(2, 3, 4, constant(0, 6) + constant(1, 6) + handle(4), resume(0, 2), resume(0, 3))))
each_budget(other, [-4], 2)

# Values at a jump are read before any slot is written; arithmetic at the ends of the range.
swapped = target(function(2, jump(1, 0, 1, [3, 2])), function(2, difference(4, 2, 3) + resume(0, 4)))
add(swapped, [10, 3], 0, 100)
turned = target(
    function(32, jump(1, 0, 1, [*range(3, 34), 2])),
    function(32, difference(35, 33, 2) + difference(35, 35, 32) + resume(0, 35)))
add(turned, [i * i * 1000003 % 99991 for i in range(32)], 0, 100)
less = target(function(2, difference(4, 2, 3) + resume(0, 4)))
least = target(function(2, branch(2, 3, resume(0, 2), resume(0, 3))))
for y, z in ((-2 ** 31, 1), (2 ** 31 - 1, -1), (-2 ** 31, 2 ** 31 - 1), (2 ** 31 - 1, -2 ** 31), (0, -2 ** 31), (-1, -1)):
    add(less, [y, z], 0, 100)
    add(least, [y, z], 0, 100)

# Tag 10 at both ends of the range: the rest with the difference, or the part, which sees the old values; a part that applies the handler of
# a record drops it and those made later.
either = [
    target(function(2, difference_or_raise(x, 2, 3, part, resume(0, x))))
    for x in (2, 3, 4) for part in (handle(1), resume(0, 2), duplicate(2, 3) + resume(0, 2))]
guarded = target(
    function(2, both(4, 5, 6, continuation(7, 8, jump(1, 7, 6, [2, 3]), resume(0, 8)), constant(9, 60) + resume(0, 9), resume(0, 5))),
    function(2, difference_or_raise(4, 2, 3, handle(1), resume(0, 4))))
for y, z in ((LEAST, 1), (LEAST, 0), (GREATEST, -1), (GREATEST, 0), (GREATEST, LEAST), (-1, LEAST), (0, LEAST), (-1, GREATEST), (-2, GREATEST)):
    for file in either:
        add(file, [y, z], 0, 100)
    add(guarded, [y, z], 2, 100, 200)
each_budget(guarded, [LEAST, 1], 2)
each_budget(guarded, [LEAST, 0], 2)


# The vectors with a start function, translated: started at its entry, with the bench's steps and extras, one more where it stopped deep.
def add_started(name):
    for file, call_text, bench, given in vectors(name):
        start, arguments, depth, _ = call_of(call_text)
        number = entries(check_procedure(file))[start]
        stop, *_, steps, _, extras = bench.split()
        add(translation(file), arguments, depth, int(steps) + int(extras) + (stop == "deep"), start=number)
        agree(file.hex(), given, f"controller start {number} " + expected(cases[-1]).split(" records")[0])


add_started("slip-4/start.txt")

# Three functions of one parameter, of two and of 32. The last is started; the number behind it is absent, and so are those beyond a byte.
several = target(
    function(1, continuation(3, 4, jump(1, 3, 1, [2, 2]), difference(4, 4, 2) + resume(0, 4))),
    function(2, both(4, 5, 6, difference_or_raise(7, 2, 3, handle(6), resume(4, 7)), jump(0, 0, 1, [3]), resume(0, 5))),
    function(32, difference(35, 33, 2) + resume(0, 35)))
for start, arguments in ((0, [9]), (1, [9, 2]), (1, [LEAST, 1]), (2, range(32))):
    for depth, budget in ((2, 100), (2, 0), (2, 3), (1, 100), (0, 100)):
        add(several, arguments, depth, budget, 200, start)
for start, arguments in ((3, [9]), (255, [9]), (256, [9]), (257, [9, 2]), (258, range(32)), (65535, [9])):
    add(several, arguments, 2, 100, 200, start)
# 14 is judged by the start function. 9 comes before 14 and 16, 14 before 16, and the file's refusals before all.
for start in range(3):
    for count in (0, 1, 2, 31, 32, 33, 255):
        add(several, [9] * count, 2, 100, 200, start)
for start in (0, 1, 2, 3, 65535):
    add(several, [9] * 3, 300, 100, 0, start)
add(several, [9, 2], 257, 100, 200, 1)
add(several, [9, 2], 2, 100, 127, 1)
for number in sorted(wrong, key=int):
    add(wrong[number], [1] * 33, 257, most, 0, 65535)
# As many functions as a file can have: the last, and the one behind it.
full = target(*[function(0, handle(1))] * 2047, function(0, constant(2, -5) + resume(0, 2)))
for start in (2047, 2048):
    add(full, [], 0, 100, 200, start)

# T's blocks: an entry takes the parameter, a labelled block both variables.
for start in range(7):
    add(T, [0], 2, 100, 200, start)
    add(T, [0, 5], 2, 100, 200, start)
# In a merged file, at the entry of its old number or its raised one, a function ends as before with the same steps.
lessened = written(
    Function(2, 3, [goto(1)], (2, [call(3, 1, [0, 1]), back(3)]), (0, [back(0)])), Function(2, 0, [difference(0, 0, 1), back(0)]))
for file, start, arguments in (
        (PROCEDURE, 0, [5]), (PROCEDURE, 0, [0]), (PROCEDURE, 1, [0]), (lessened, 0, [9, 2]), (lessened, 0, [LEAST, 1]), (lessened, 1, [LEAST, 1])):
    add(translation(file), arguments, 2, 100, 200, entries(check_procedure(file))[start])
    alone = expected(cases[-1])
    for whole, number in ((merged(file, PROCEDURE), start), (merged(PROCEDURE, file), start + 2)):
        add(translation(whole), arguments, 2, 100, 200, entries(check_procedure(whole))[number])
        agree(whole.hex(), alone, expected(cases[-1]))

# Slip 7: the vectors.
for file, *fields in vectors("slip-7/target.txt"):
    agree(file.hex(), fields[-1], add_vector(file, *fields))
add_started("slip-7/start.txt")
# Procedures that raise numbers, translated: the end of the bench, after its steps and extras; some at each budget.
for file, lists in RAISES:
    for arguments in lists:
        bench = Bench(file, check_procedure(file), 0, arguments)
        stop = bench.run(2, 100)
        add(translation(file), arguments, 2, bench.steps + bench.extras, 200)
        agree(file.hex(), f"{stop} steps {bench.steps + bench.extras}", expected(cases[-1]).split(" records")[0])
for file, lists in (TWO_UP, AGAIN):
    each_budget(translation(file), lists[0], 2)


# A file of version 2. The number raised is received: by a slot that was bound before, by one that was not, by the continuation's slot, the
# parameter's and the handler's, by slots 0, 1 and 36; the handler's own body raises it on; an older record's handler drops the newer ones.
def version_2(*functions):
    return target(*functions, version=2)


def received(number, caught, raised=handle(6, 2)):
    inner = continuation(7, 8, constant(2, 70) + raised, resume(4, 8))
    return version_2(function(1, both(4, 5, 6, inner, caught, resume(0, 5), number=[number])))


for file in (
        *(received(x, difference(9, x, 2) + resume(0, 9)) for x in (3, 4, 5, 6, 1, 36)), received(2, resume(0, 2)),
        received(0, handle(1, 0)), received(9, handle(1, 9)), received(1, resume(0, 1)), received(9, resume(0, 9), resume(4, 2)),
        received(9, handle(1, 2)), received(9, handle(1, 2), handle(1, 2))):
    add(file, [9], 2, 100, 200)
each_budget(received(36, handle(1, 36)), [-9], 2)
# Each slot from 2 on is kept in a record: all of them are there in the handler's body and in the continuation's.
slots = range(2, 37)
many = b"".join(constant(x, 1 << x % 30) for x in slots if x > 33)
lost = b"".join(constant(x, 0) for x in slots if x > 2)
total = b"".join(difference(2, 2, x) for x in slots if x > 2) + resume(0, 2)
for last in (handle(1, 2), resume(0, 2)):
    add(version_2(function(32, many + both(0, 3, 1, lost + last, total, total, number=[3]))), range(100, 132), 1, 200, 200)
# Slot 36 as a continuation and as a handler.
for last in (resume(36, 2), handle(35, 2)):
    add(version_2(function(1, both(36, 4, 35, last, resume(0, 5), difference(4, 4, 2) + resume(0, 4), number=[5]))), [9], 1, 100, 200)
for last in (resume(35, 2), handle(36, 2)):
    add(version_2(function(1, both(35, 36, 36, last, difference(36, 36, 2) + resume(0, 36), resume(0, 36), number=[36]))), [9], 1, 100, 200)
# Uncaught, at the ends of the range and where the part of tag 10 raises 0; refused: slot 36 in version 1, slot 37, versions 0 and 3.
for number in (LEAST, -1, 0, 1, GREATEST):
    add(version_2(function(1, handle(1, 2))), [number], 0, 100)
for arguments in ([LEAST, 1], [LEAST, 0]):
    add(version_2(function(2, difference_or_raise(4, 2, 3, constant(36, 0) + handle(1, 36), resume(0, 4)))), arguments, 0, 100)
for version, body in ((1, constant(36, 5) + resume(0, 36)), (2, constant(37, 5) + resume(0, 37)), (0, resume(0, 2)), (3, resume(0, 2))):
    add(target(function(1, body), version=version), [5], 0, 100)

write(
    "controller_cases",
    (bytes([delta, len(arguments)]) + little(depth, 2) + little(budget, 8) + little(len(file), 3) + little(start, 2) + signed(arguments) + file
     for delta, start, arguments, depth, budget, file in cases),
    (expected(case) + "\n" for case in cases))
print(len(cases), Counter(" ".join(line.split()[:2]) if line.startswith("refused") else line.split()[0] for line in map(expected, cases)))
