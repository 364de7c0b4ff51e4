#!/usr/bin/env python3
"""Writes the cases of crates/target_cases and the answers expected: run in the repository's root. Reads target.txt of
vectors and of its folders slip-2 to slip-4 and slip-7, and long.txt of slip-5.

The answers come from the checker of tools/target.py. Where a vector of Slips 5 and 7 gives the answer, the checker must give the same.
"""
import random
from collections import Counter

from records import Refused, agree, constant, difference, duplicate, little, long_vectors, vectors, write
from target import both, branch, check, continuation, difference_or_raise, function, handle, jump, resume, target

cases = []


def add(file):
    cases.append(bytes(file))


# A file of one function, of one parameter: slot 0 is a continuation, 1 a handler, 2 whole.
def add_body(body, length=None, version=1):
    add(target(function(1, body, length), version=version))


def answer(file):
    try:
        check(file)
        return "accepted"
    except Refused as r:
        return str(r)


for name in ("target.txt", "slip-2/target.txt", "slip-3/target.txt", "slip-4/target.txt"):
    for file, *_ in vectors(name):
        add(file)

raising = handle(1)
ok = target(function(1, resume(0, 2)))
add(ok)
add(b"")
for i in range(len(ok)):
    add(ok[:i])
add(ok + b"\0")

# Marks, versions, counts.
for i in range(3):
    add(ok[:i] + bytes([ok[i] ^ 1]) + ok[i + 1:])
for version in (2, 257):
    add(target(function(1, resume(0, 2)), version=version))
add(b"SPC\1")
add(b"SPC\2")
add(target(count=0))
for n in (2048, 2049):
    add(target(*[function(0, raising)] * n))
for cut in (b"SPC\1\0\0", b"SPC\1\0\1", b"SPC\1\0\1\x08", b"SPC\1\0\0\x08"):
    add(cut)
add(target(*[function(0, raising)] * 2048, count=2047))
for parameters, body in ((32, resume(0, 33)), (33, resume(0, 33)), (33, b"")):
    add(target(function(parameters, body)))

# Levels 16 and 17, by each kind of nested part.
nested = (
    lambda part: branch(2, 2, part, raising), lambda part: continuation(5, 3, part, raising),
    lambda part: both(5, 3, 6, part, raising, raising), lambda part: both(5, 3, 6, raising, part, raising),
    lambda part: difference_or_raise(5, 2, 2, part, raising))


def nest(kind, levels, part):
    for _ in range(levels):
        part = kind(part)
    return part


for kind in nested:
    for levels, inner in ((16, raising), (17, raising), (18, raising), (17, bytes([77])), (16, bytes([77]))):
        add_body(nest(kind, levels, inner))
    # The file cut before the first tag of level 17, and behind it.
    file = target(function(1, nest(kind, 17, raising)))
    try:
        check(file)
    except Refused as r:
        if r.args[0] == 5:
            add(file[:r.args[1]])
            add(file[:r.args[1] + 1])

# Else-parts, continuation bodies and rests of tag 10 do not nest deeper.
for tail in (
        lambda rest: branch(2, 2, raising, rest), lambda rest: continuation(5, 3, raising, rest),
        lambda rest: both(5, 3, 6, raising, raising, rest), lambda rest: difference_or_raise(5, 2, 2, raising, rest)):
    add_body(nest(tail, 200, raising))
add_body(nest(lambda rest: constant(2, 7) + rest, 2000, raising))

# Lengths one too small and one too large; an inner error before the outer length.
for d in (-1, 1):
    add_body(resume(0, 2), 3 + d)
    add_body(branch(2, 2, raising, resume(0, 2), length=2 + d))
    add_body(continuation(5, 3, raising, resume(0, 3), length=2 + d))
    add_body(both(5, 3, 6, raising, resume(0, 2), resume(0, 3), length=2 + d))
    add_body(both(5, 3, 6, raising, resume(0, 2), resume(0, 3), handled=3 + d))
    add_body(difference_or_raise(5, 2, 2, raising, resume(0, 5), length=2 + d))
    add_body(difference_or_raise(5, 2, 2, raising, bytes([99]), length=2 + d))
    add_body(branch(2, 2, branch(2, 2, raising, raising, length=2 + d), raising, length=99))
    add_body(branch(2, 2, bytes([99]), raising, length=99))
    add_body(branch(2, 2, raising, bytes([99]), length=2 + d))
    add_body(continuation(5, 3, branch(2, 2, raising, raising), resume(0, 3), length=9 + d), 0)
    add(target(function(1, branch(2, 2, raising, raising, length=2 + d)), function(0, bytes([0]))))
add(target(function(1, branch(2, 2, raising, raising)))[:-1])
for cut in (3, 4, 5):
    add(target(function(1, both(5, 3, 6, raising, raising, raising)))[:-cut])


# A slot in each place; the last slot is bound. In version 2 `value` is tag 6's value slot and `number` tag 9's handler parameter slot.
def places(x, last, value=(), number=()):
    raising, bound = handle(1, *value), constant(last, 1)
    return (
        constant(x, -1) + resume(0, 2), duplicate(x, 2) + resume(0, 2), difference(x, 2, 2) + resume(0, 2),
        bound + duplicate(3, x) + resume(0, 2), bound + difference(3, x, 2) + resume(0, 2), bound + difference(3, 2, x) + resume(0, 2),
        difference_or_raise(x, 2, 2, raising, raising), bound + difference_or_raise(3, x, 2, raising, raising),
        bound + difference_or_raise(3, 2, x, raising, raising), continuation(x, 3, raising, raising), continuation(3, x, raising, raising),
        both(x, 3, 4, raising, raising, raising, number=number), both(3, x, 4, raising, raising, raising, number=number),
        both(3, 4, x, raising, raising, raising, number=number), bound + resume(0, x), bound + resume(x, 2), handle(x, *value),
        bound + branch(x, 2, raising, raising), bound + branch(2, x, raising, raising), bound + jump(0, 0, 1, [x]),
        bound + jump(0, x, 1, [2]), bound + jump(0, 0, x, [2]))


for x in (35, 36, 255):
    for body in places(x, 35):
        add_body(body)


# Each kind where each other is needed: slot 2 whole, 0 continuation, 1 handler, 9 unbound.
def kinds(v, value=()):
    raising = handle(1, *value)
    return (
        duplicate(3, v) + resume(0, 2), difference(3, v, 2) + resume(0, 2), difference(3, 2, v) + resume(0, 2),
        difference_or_raise(3, v, 2, raising, raising), difference_or_raise(3, 2, v, raising, raising),
        difference_or_raise(3, 2, 2, handle(v, *value), raising),
        branch(v, 2, raising, raising), branch(2, v, raising, raising), resume(v, 2), resume(0, v), handle(v, *value), jump(0, v, 1, [2]),
        jump(0, 0, v, [2]), jump(0, 0, 1, [v]))


for v in (2, 0, 1, 9):
    for body in kinds(v):
        add_body(body)

# Several faults in one node: the first in reading order is told; at one byte 13 first.
for body in (
        jump(0, 36, 2, [0]), jump(0, 2, 36, [0]), jump(0, 9, 36, [36]), jump(0, 0, 2, [36]), jump(0, 0, 36, [9]), jump(0, 0, 0, [1, 1]),
        jump(0, 0, 1, [1, 36]), jump(0, 0, 1, [0, 9]), jump(0, 0, 1, [36]), resume(2, 36), resume(1, 9), resume(9, 0), resume(36, 0),
        branch(0, 36, raising, raising), branch(9, 1, raising, raising), duplicate(36, 1) + raising, difference(3, 1, 36) + raising):
    add_body(body)

# Slots bound anew.
add_body(constant(0, 5) + resume(0, 2))
add_body(constant(0, 5) + resume(0, 2))
add_body(continuation(2, 3, resume(0, 3), resume(0, 3)))
add_body(continuation(2, 3, resume(2, 2), resume(0, 3)))
add(target(function(2, continuation(2, 3, resume(2, 3), resume(0, 3)))))
add_body(both(1, 3, 0, handle(0), raising, resume(0, 3)))
add_body(both(1, 3, 0, resume(0, 2), raising, resume(0, 3)))
add(target(function(2, both(1, 3, 0, resume(1, 2), raising, resume(0, 3)))))

# A made body does not see its own slots, a rest does; the parameter is bound in the body only.
for body in (
        continuation(5, 3, resume(5, 2), raising), continuation(5, 3, raising, resume(5, 3)), continuation(5, 3, resume(0, 3), raising),
        continuation(5, 3, raising, resume(0, 3)), both(5, 3, 6, handle(6), raising, raising), both(5, 3, 6, raising, handle(6), raising),
        both(5, 3, 6, raising, raising, handle(6)), both(5, 3, 6, raising, resume(5, 2), raising),
        both(5, 3, 6, raising, resume(0, 3), raising), both(5, 3, 6, raising, raising, resume(0, 3)),
        both(5, 3, 5, raising, raising, raising), both(36, 3, 36, raising, raising, raising), both(5, 36, 5, raising, raising, raising),
        both(5, 5, 6, resume(5, 2), raising, resume(0, 5)), branch(2, 2, constant(3, 1) + resume(0, 3), resume(0, 3))):
    add_body(body)

# The raise part of tag 10 does not see its slot, nor lose what was bound there; the rest does. Names are judged in reading order.
for body in (
        difference_or_raise(3, 2, 2, resume(0, 3), raising), difference_or_raise(3, 2, 2, raising, resume(0, 3)),
        difference_or_raise(2, 2, 2, resume(0, 2), resume(0, 2)), difference_or_raise(1, 2, 2, raising, resume(0, 1)),
        difference_or_raise(1, 2, 2, raising, raising), difference_or_raise(0, 2, 2, resume(0, 2), raising),
        difference_or_raise(0, 2, 2, raising, resume(0, 2)), difference_or_raise(36, 36, 9, handle(9), handle(9)),
        difference_or_raise(3, 9, 36, handle(9), handle(9)), difference_or_raise(3, 2, 36, handle(9), handle(9)),
        difference_or_raise(3, 2, 2, handle(9), handle(36)), difference_or_raise(3, 2, 2, raising, handle(9)),
        difference_or_raise(3, 2, 2, constant(4, 1) + resume(0, 4), resume(0, 4))):
    add_body(body)

# Functions and counts.
raised = function(2, raising)
for g in (0, 1, 2, 255, 256, 65535):
    add(target(function(1, jump(g, 0, 1, [2])), raised))
for n in range(4):
    add(target(function(1, jump(1, 0, 1, [2] * n)), raised))
for body in (jump(1, 0, 1, [2, 2], count=3), jump(0, 9, 1, []), jump(7, 9, 9, [99])):
    add(target(function(1, body), raised))
add(target(function(32, jump(0, 0, 1, list(range(2, 34))))))
add_body(jump(0, 0, 1, [2] * 255))

# Names over the whole file only after the layout of the whole file.
add(target(function(1, handle(9)), function(0, bytes([77]))))
add(target(function(1, handle(9)), function(0, raising)) + b"\0")
add(target(function(1, handle(9)), function(0, handle(8))))
for tag in (0, 10, 11, 128, 255):
    add_body(bytes([tag]))


# A file of n bytes: constants, then what fills it up, and as many further functions as leave room for that.
def filled(n):
    ends = {
        3: duplicate(2, 2), 4: difference(2, 2, 2), 6: constant(2, 1), 7: duplicate(2, 2) + difference(2, 2, 2),
        8: difference(2, 2, 2) * 2}
    for others in range(40):
        left = n - 7 - 5 * others - 3 - 2
        body = b""
        while left > 9:
            body += constant(2, left)
            left -= 6
        if left == 0 or left in ends:
            body += ends.get(left, b"")
            if len(body) + 2 <= 65535:
                return target(function(1, body + raising), *[function(0, raising)] * others)


for n in (65535, 65536):
    add(filled(n))
    assert len(cases[-1]) == n
for file, told in long_vectors("SPC"):
    agree(file[:6].hex(), told, answer(file))
    add(file)


# Damaged files: one byte of a rich file at a time; `above` is the first slot that is not there.
def add_damaged(file, above):
    add(file)
    for i in range(len(file)):
        for v in (0, above, file[i] ^ 1, 255):
            add(file[:i] + bytes([v]) + file[i + 1:])
        add(file[:i])
        add(file[:i] + file[i + 1:])
        add(file[:i] + bytes([source.randrange(256)]) + file[i:])


guarded = both(7, 8, 9, jump(1, 7, 9, [2, 3]), branch(2, 3, jump(0, 0, 1, [4, 5]), raising), resume(0, 8))
rich = target(
    function(2, constant(4, -2147483648) + duplicate(5, 2) + difference(6, 4, 5) + guarded),
    function(2, continuation(4, 5, jump(0, 4, 1, [2, 3]), resume(0, 5))))
raises = target(
    function(2, difference_or_raise(4, 2, 3, difference_or_raise(2, 3, 2, jump(0, 0, 1, [3, 2]), raising), duplicate(5, 4) + resume(0, 5))))
source = random.Random(7)
add_damaged(rich, 36)
add_damaged(raises, 36)

# Slip 7: the vectors; other versions than 1 and 2.
for file, *fields in vectors("slip-7/target.txt"):
    add(file)
    agree(file.hex(), fields[0] if len(fields) == 1 else "accepted", answer(file))
for version in (0, 1, 2, 3, 258):
    for body in (handle(1), handle(1, 2)):
        add_body(body, version=version)
# Version 2: slots 36 and 37 in each place, the value of tag 6 and the parameter of tag 9 among them; each kind where each other is needed.
raising = handle(1, 2)
for x in (36, 37, 255):
    for body in (
            *places(x, 36, [2], [7]), constant(36, 1) + handle(1, x), both(3, 4, 5, raising, raising, raising, number=[x]),
            both(3, 4, 5, raising, handle(1, x), raising, number=[x])):
        add_body(body, version=2)
for v in (2, 0, 1, 9):
    for body in (*kinds(v, [2]), handle(1, v), handle(v, v), difference_or_raise(3, 2, 2, handle(1, v), raising)):
        add_body(body, version=2)
# The parameter is whole in the handler's body only, whatever its slot was before; names in reading order, equal slots at the handler slot.
for slots in (
        (5, 3, 6, 7), (5, 3, 6, 3), (5, 3, 6, 5), (5, 3, 6, 6), (5, 3, 6, 0), (5, 3, 6, 1), (5, 3, 6, 2), (5, 3, 5, 7), (5, 3, 5, 37), (5, 37, 5, 37),
        (37, 3, 37, 37), (5, 3, 37, 37), (5, 3, 3, 3), (1, 3, 0, 7)):
    own, parameter, handler, number = slots
    for rest, caught, body in (
            (raising, handle(1, number), raising), (handle(1, number), raising, raising), (raising, raising, handle(1, number)),
            (handle(handler, 2), handle(handler, number), raising), (resume(own, 2), resume(0, number), resume(0, parameter)),
            (raising, resume(0, parameter), resume(own, parameter))):
        add_body(both(own, parameter, handler, rest, caught, body, number=[number]), version=2)
# Lengths one too small and one too large; levels 16 and 17.
for d in (-1, 1):
    for lengths in ({"length": 3 + d}, {"handled": 3 + d}, {"length": 3 + d, "handled": 3 + d}):
        add_body(both(5, 3, 6, raising, raising, raising, number=[7], **lengths), version=2)
for kind in (
        lambda part: both(5, 3, 6, part, raising, raising, number=[7]), lambda part: both(5, 3, 6, raising, part, raising, number=[7]),
        lambda part: difference_or_raise(5, 2, 2, part, raising)):
    for levels in (16, 17):
        add_body(nest(kind, levels, raising), version=2)
add_damaged(target(function(1, both(7, 8, 9, raising, constant(36, 7) + handle(1, 36), handle(1, 8), number=[36])), version=2), 37)

write("target_cases", (little(len(s), 3) + s for s in cases), (answer(s) + "\n" for s in cases))
print(len(cases), Counter(answer(s).split(" at")[0] for s in cases))
