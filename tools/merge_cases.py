#!/usr/bin/env python3
"""Writes the cases of crates/merge_cases and the answers expected: run in the repository's root. Reads merge.txt of
vectors/slip-4 and vectors/slip-7.

The answers come from tools/procedure.py. Where a vector gives the answer, the model must give the same.
"""
from collections import Counter

from procedure import FAULTY, LIMIT, Function, T, back, branch, call, check, constant, difference, duplicate, goto, merged, throw, throw_value, written
from raises import RAISES, T_2
from records import Refused, agree, little, vectors, write

cases = []


def add(first, second, *rooms):
    cases.extend((first, second, room) for room in rooms)


def answer(first, second, room):
    """The merged file, nothing where there is none, and the refusal."""
    try:
        made = merged(first, second)
        if len(made) > room:
            raise Refused(16, 0)
        return made, None
    except Refused as r:
        return b"", str(r)


def add_vectors(name):
    for first, second, room, given in vectors(name):
        add(first, bytes.fromhex(second), int(room.split()[1]))
        made, refusal = answer(*cases[-1])
        agree(first.hex(), given, refusal or f"written {made.hex()}")


add_vectors("slip-4/merge.txt")

# T with T: room for the merged file exactly, one byte too few, none, one byte more, and more: what stands behind the merged file is kept.
add(T, T, 76, 75, 0, 77, 300)


# Functions that call each other, the first the last and so on: 32 in all, and more, whatever the room.
def crossed(n):
    return written(*(Function(0, 1, [call(0, n - 1 - i, []), back(0)]) for i in range(n)))


for n in (1, 16, 31):
    add(crossed(n), crossed(32 - n), 294, 293)
    add(crossed(n), crossed(33 - n), 303, 0)
add(crossed(32), crossed(1), 303, 0)
add(crossed(32), crossed(32), 600)


# A file of n bytes, with calls at its beginning and its end.
def filled(n):
    last = next(calls for calls in (1, 2, 3) if (n - 16 - 5 * calls) % 3 == 0)
    again = call(0, 0, [0])
    file = written(Function(1, 0, [again] + [duplicate(0, 0)] * ((n - 16 - 5 * last) // 3) + [again] * last + [back(0)]))
    assert len(file) == n
    return file


# A merged file of 32,768 bytes is the longest: 16 for one byte of room too few. One byte more is refused with 22, whatever the room.
add(filled(16387), filled(16387), LIMIT, LIMIT - 1)
add(filled(16388), filled(16387), LIMIT + 1, 10)

# Bytes of 4 that are no call: a constant, variables, labels, handlers, counts. Calls of 8 arguments, without any, under a handler and in the
# entry block; of main, of the last function and of the function itself.
fours = written(
    Function(
        8, 1, [constant(4, 0x04040404), call(4, 4, [4] * 4), call(4, 0, [4, *range(7)]), goto(4)],
        (4, [constant(4, 4), duplicate(4, 4), difference(4, 4, 4), call(4, 4, [4] * 4), call(8, 0, [4] * 8), branch(4, 4, 4, 4)]),
        (0, [constant(1, 4 * 2 ** 24), call(3, 2, []), back(4)]), (4, [call(4, 4, [0, 1, 2, 3]), throw]),
        (3, [call(0, 0, [4] * 8), call(1, 3, [4]), back(4)])),
    Function(0, 5, [goto(1)], (1, [call(4, 1, []), branch(4, 4, 1, 1)])), Function(0, 0, [throw]), Function(1, 4, [call(4, 3, [4]), back(4)]),
    Function(4, 4, [constant(4, -4), difference(4, 4, 4), call(4, 4, [4] * 4), back(4)]))
others = (T, fours, crossed(4), crossed(27))
for other in others:
    add(other, fours, 600)
for other in others:
    add(fours, other, len(fours) + len(other) - 6)

# Refused files: the first's refusal comes first, each has its place in its own file, and the output is kept. No call of one file finds a
# function of the other. The files' refusals come before 22 and 16.
for i, file in enumerate(FAULTY):
    add(file, T, 90)
    add(T, file, 90)
    add(file, FAULTY[i - 1], 20)
    add(crossed(32), file, 20)
    add(file, crossed(32), 0)
for file in (bytes(LIMIT + 1), T.ljust(LIMIT + 1, b"\0")):
    add(file, b"", 20)
    add(T, file, 20)
add(b"", T, 90)
add(T, b"", 90)

# Slip 7: the vectors. Version 2 with version 2: room for the merged file exactly, one byte too few; over 32 functions; bytes of 4 that are no
# call among receivers and raised variables.
add_vectors("slip-7/merge.txt")


# A file without labelled blocks reads the same in version 2.
def of_version_2(file):
    return file[:3] + b"\2" + file[4:]


add(T_2, T_2, 84, 83, 300)
for file, _ in RAISES[-3:]:
    add(file, T_2, 200)
add(of_version_2(crossed(31)), T_2, 400)
fours = written(
    Function(
        4, 1, [call(4, 4, []), goto(4)], (4, 4, [constant(4, 0x04040404), call(4, 4, []), throw_value(4)]), (0, 255, [throw]),
        (4, 3, [throw_value(4)]), (0, 4, [call(4, 0, [4] * 4), back(4)])),
    *[Function(0, 5, [throw_value(4)])] * 3, Function(0, 5, [call(4, 4, []), throw_value(4)]), version=2)
add(T_2, fours, 200)
add(fours, T_2, 200)
# Two versions: 2 at the second's place 3, before 22 and 16, after both files' checks.
for first, second in ((T, T_2), (T_2, T)):
    add(first, second, 90, 0)
    add(first, second[:-1], 20)
    add(first[:-1], second, 20)
    add(first, second + b"\0", 20)
    add(first[:3] + b"\3" + first[4:], second, 20)
    add(first, second[:3] + b"\0" + second[4:], 20)
add(crossed(32), T_2, 20)
add(T_2, crossed(32), 0)
add(crossed(16), of_version_2(crossed(16)), 300)
add(of_version_2(filled(16388)), filled(16387), 10)

# One output, of 65,536 bytes, of which each case lends the front. A merged file is accepted.
out = bytearray(65536)
answers = []
for first, second, room in cases:
    made, refusal = answer(first, second, room)
    if not refusal:
        check(made)
    out[:len(made)] = made
    answers.append((refusal or f"written {len(made)}") + f"\n{out[:room].hex()}\n")

write(
    "merge_cases", (little(len(first), 3) + little(len(second), 3) + little(room, 3) + first + second for first, second, room in cases), answers)
print(len(cases), dict(Counter(text.split(" at")[0] if text.startswith("refused") else "written" for text in answers)))
