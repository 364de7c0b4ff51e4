#!/usr/bin/env python3
"""Writes the cases of crates/translator_cases and the answers expected: run in the repository's root. Reads
translation.txt of vectors and of its folders slip-2 and slip-7.

The answers come from tools/procedure.py. Where a vector gives the translation, the model must give the same.
"""
from procedure import LIMIT, Function, T, call, difference, differs, duplicate, filled, goto, throw, throw_value, translation, written
from raises import RAISES, T_2
from records import Refused, agree, judge_room, little, vectors, write

cases = []


def add(file, room):
    cases.append((file, room))


def add_vectors(name):
    for file, given in vectors(name):
        made = translation(file).hex()
        if name != "translation.txt" or not differs(file):
            agree(file.hex(), given, made)
        add(file, len(made) // 2)


add_vectors("translation.txt")
add_vectors("slip-2/translation.txt")

# Room for the translation of T exactly, one byte too few, none, and more: what stands behind the translation is kept.
for room in (106, 105, 0, 300):
    add(T, room)


# A file with a block of so many calls, copies and differences, and a last operation. With a receiver it is of version 2.
def long_file(calls, copies, differences, last, *receiver):
    block = [call(0, 1, [])] * calls + [duplicate(0, 1)] * copies + [difference(0, 1, 2)] * differences + [last]
    return written(Function(8, 24, [goto(1)], (1, *receiver, block)), Function(0, 0, [throw]), version=len(receiver) + 1)


# Translations of 65,586 and 65,542 bytes: 17, whatever the room.
for differences, rooms in ((2, (65534, 65535)), (1, (65536, 10))):
    for room in rooms:
        add(long_file(1255, 0, differences, throw), room)

# Files that the checker refuses: the output is kept.
add(b"", 50)
for file in (T[:-1], T + b"\0", T[:11] + b"\3" + T[12:]):
    add(file, 200)
add(bytes(LIMIT + 1), 20)
add(T.ljust(LIMIT + 1, b"\0"), 20)

# Slip 7: the vectors; procedures that raise numbers; room and length in version 2, and files that are refused.
add_vectors("slip-7/translation.txt")
for file, _ in RAISES:
    add(file, len(translation(file)))
for room in (113, 300):
    add(T_2, room)
for copies, differences in ((0, 2), (16, 1)):
    add(long_file(1230, copies, differences, throw_value(3), 2), 10)
for file in (T_2[:-1], T_2 + b"\0", T_2[:12] + b"\2" + T_2[13:], written(Function(1, 0, [throw_value(0)])), T[:3] + b"\3" + T[4:]):
    add(file, 20)

# A translation of 65,535 bytes is the longest: 16 for one byte of room too few. One byte more is refused with 17, whatever the room.
for room in (65534, 65535):
    add(filled(65535), room)
for receiver in ((), (2,)):
    for length in (65535, 65536):
        add(filled(length, *receiver), 10)

# One output, of 65,536 bytes, of which each case lends the front.
out = bytearray(65536)
answers = []
for file, room in cases:
    try:
        made = translation(file)
        judge_room(len(made), room)
        out[:len(made)] = made
        answer = f"written {len(made)}"
    except Refused as r:
        answer = str(r)
    answers.append(f"{answer}\n{out[:room].hex()}\n")

write("translator_cases", (little(len(file), 3) + little(room, 3) + file for file, room in cases), answers)
print(len(cases), "cases")
