#!/usr/bin/env python3
"""Writes the cases of crates/both_cases and the texts expected: run in the repository's root. Reads both.txt of vectors and of
its folders slip-2, slip-5 and slip-7, and vectors/peer/both.c, which it compiles with `cc` in a temporary folder.

The peer is a program that reads one input of `both` and prints its text, written by other hands than the crates and the models. The texts
come from tools/procedure.py and tools/target.py. Where a vector gives the text, where document 01 lays it down (it is then written here) and
where the peer knows the file, theirs must be the same. The peer tests a file's size first, as it was before Slip 5, and does not know version
2: of files above the limit and of those of version 2 it is not asked.
"""
import os
import random
import shutil
import subprocess
import sys
import tempfile
from collections import Counter

from procedure import (
    NONE, T, T_FUNCTIONS, Function, back, branch, call, check, constant, difference, differs, duplicate, goto, throw, throw_value,
    translation, written)
from raises import RAISES, STEPPED, T_2
from records import (
    GREATEST, LEAST, Refused, agree, header, input_of, judge_call, judge_head, judge_room, little, numbered, procedure_of, vector_file, vectors,
    write)
from sides import Sides

if shutil.which("cc") is None:
    sys.exit("cc is missing: the peer cannot be compiled")
folder = tempfile.TemporaryDirectory()
peer = os.path.join(folder.name, "both")
subprocess.run(["cc", "-O1", "-DSLIPS=2", "-o", peer, vector_file("peer/both.c")], check=True)
cases = []


def peer_text(data):
    return subprocess.run([peer], input=data, capture_output=True, timeout=10, check=True).stdout.decode()


def model_text(data):
    if input_of(data) is None:
        return no_header
    arguments, depth, budget, file = input_of(data)
    try:
        judge_head(file, b"SPF", 2048)
        functions = check(file)
        judge_room(len(translation(file)), 8192)
        judge_call(0, [f.parameters for f in functions], len(arguments), depth, 128)
    except Refused as r:
        return f"{r}\n"
    return Sides(file, 0, arguments, depth, budget).text()


# An input of `both`, and the text that it is to print where this is laid down.
def add_input(data, given=None):
    assert len(data) <= 4096
    text, file = model_text(data), procedure_of(data)
    if given is not None:
        agree(data.hex(), given, text)
    if len(file) <= 2048 and not numbered(file):
        agree(data.hex(), peer_text(data), text)
    cases.append((data, text))
    return text


def add(file, arguments, depth, budget, given=None):
    return add_input(header(arguments, depth, budget) + file, given)


def refused(number, place=0):
    return f"refused {number} at {place}\n"


# Both machines come to the same end.
def ended(target, end, bench, controller):
    return f"target {target}\nbench {end} steps {bench}\ncontroller {end} steps {controller}\n"


no_header = "no header\n"
most = 2 ** 32 - 1

# The vectors from before a request are held to where it changes nothing.
for name in ("both.txt", "slip-2/both.txt", "slip-5/both.txt"):
    for data, text in vectors(name):
        file = procedure_of(data)
        changed = name == "both.txt" and differs(file) or name != "slip-5/both.txt" and len(file) > 2048 and model_text(data) != refused(15, 2048)
        add_input(data, None if changed else text.replace(" | ", "\n") + "\n")
from_vectors = len(cases)


# The length of the translation of a procedure.
def translated(*functions):
    return len(translation(written(*functions)))


# An accepted procedure, run.
def add_file(file, arguments, depth, budget, given=None):
    text = add(file, arguments, depth, budget, given)
    ends = [line.split(" steps ")[0].split(" ", 1) for line in text.splitlines()[1:]]
    assert [e[0] for e in ends] == ["bench", "controller"] and ends[0][1] == ends[1][1], text
    return text


def add_run(functions, arguments, depth, budget, given=None):
    return add_file(written(*functions), arguments, depth, budget, given)


# File T of document 01: its own cases, and every budget up to past its end.
add_run(T_FUNCTIONS, [5], 256, 100, ended(106, "value 5", 5, 9))
add_run(T_FUNCTIONS, [0], 256, 100, ended(106, "value 7", 6, 11))
add_run(T_FUNCTIONS, [5], 0, 100, ended(106, "deep", 1, 2))
for argument, end, steps in ((5, "value 5", [1, 2, 5, 7, 8, 9]), (0, "value 7", [1, 2, 5, 7, 9, 10, 11])):
    for budget in range(13):
        if budget < len(steps) - 1:
            given = ended(106, "spent", budget, steps[budget])
        else:
            given = ended(106, end, len(steps) - 1, steps[-1])
        add_run(T_FUNCTIONS, [argument], 256, budget, given)

# What the caller can cause, and its order after what the file's writer can.
for arguments in ([1, 2], [], [0] * 8, [0] * 255):
    add(T, arguments, 256, 100, refused(14))
    add(T, arguments, 257, 100, refused(14))
for depth in (257, 65535):
    for budget in (0, 100, most):
        add(T, [5], depth, budget, refused(16))
for data, given in (
        (b"", refused(3, 0)), (b"SPG", refused(1, 2)), (T[:-1], refused(3, 40)), (T + b"\0", refused(4, 41)),
        (T[:11] + b"\3" + T[12:], refused(8, 11)), (T[:28] + b"\2" + T[29:], refused(10, 15))):
    add(data, [5], 256, 100, given)
    add(data, [5, 6], 257, 100, given)

# Inputs that end inside the header: at each length, but with 255 arguments only near the ends and some between.
for count in (0, 1, 8, 255):
    whole = header([-1] * count, 257, most)
    assert len(whole) == 4 * count + 7
    some = [1, 2, 3, 4, 5, 254, 255, 256, 257, 511, 512, 513, *range(1016, 1027)]
    for n in some if count == 255 else range(min(count, 1), len(whole)):
        add_input(whole[:n], no_header)
    add_input(whole, refused(3, 0))

# Files of 2,047 to 2,049 bytes and more. `filled` has n bytes, all of them operations of one block.
def filled(n):
    left = n - 11
    constants, copies = divmod(left, 6)
    assert copies in (0, 3)
    return [Function(0, 1, [constant(0, i - 100) for i in range(constants)] + [duplicate(0, 0)] * (copies // 3) + [back(0)])]


full, over = filled(2048), written(*filled(2051))[:2049]
long = written(*full)
assert len(long) == 2048 and len(over) == 2049
for budget in (341, most):
    add_run(full, [], 0, budget, ended(2056, "value 238", 341, 342))
add_run(full, [], 0, 340, ended(2056, "spent", 340, 341))
add(long, [1], 256, 100, refused(14))
add(long, [1] * 255, 256, 100, refused(14))
add(long, [], 257, 100, refused(16))
add(b"X" + long[1:], [], 256, 100, refused(1, 0))
add(long[:2] + b"X" + long[3:], [1], 257, 100, refused(1, 2))
add(over[:2048], [], 256, 100, refused(3, 2048))
add(written(*filled(2045)) + b"\0\0\0", [], 256, 100, refused(4, 2045))
add(long[:2046] + b"\6\1", [], 256, 100, refused(7, 2047))
add(long[:2046] + b"\5\0", [], 256, 100, refused(8, 2047))
add(long[:2046] + b"\x09\0", [], 256, 100, refused(6, 2046))
for data, given in (
        (over, refused(15, 2048)), (b"X" + over[1:], refused(1, 0)), (over[:3] + b"\2" + over[4:], refused(15, 2048)), (long + b"\0", refused(15, 2048)),
        (bytes(2049), refused(1, 0)), (bytes(2050), refused(1, 0)), (bytes(3000), refused(1, 0)), (over[:1] + b"X" + over[2:], refused(1, 1)),
        (over[:2] + b"X" + over[3:], refused(1, 2)), (over[:4] + b"\1" + over[5:], refused(2, 3)), (b"SPG\2" + over[4:], refused(1, 2))):
    add(data, [], 256, 100, given)
    add(data, [1], 257, 100, given)
add(b"X" + over[1:], [1] * 255, 65535, most, refused(1, 0))
add(over, [1] * 255, 65535, most, refused(15, 2048))
add(bytes(4089), [], 256, 100, refused(1, 0))
add(long + bytes(2041), [], 256, 100, refused(15, 2048))


# Three functions of 32 variables; the first goes through all its blocks. The operations before the last return make the length of the
# translation what it is to be.
def wide(length):
    def made(some):
        last = [(0, [goto(1 + i % 62)]) for i in range(62)]
        main = [(i % 3, [goto(i + 2)]) for i in range(62)] + [(0, [back(0)])]
        return [
            Function(8, 24, [goto(1)], *main), Function(8, 24, [back(0)], *last), Function(8, 24, [*some, back(31)], *last[:60])]

    left = length - translated(*made([]))
    copies = next(n for n in range(left) if (left - 3 * n) % 8 == 0)
    functions = made([duplicate(31, 0)] * copies + [difference(31, 0, 0)] * ((left - 3 * copies) // 8))
    assert translated(*functions) == length and len(written(*functions)) <= 2048
    return functions


for length in (8191, 8192):
    add_run(wide(length), [9, 0, 0, 0, 0, 0, 0, 0], 256, 100, ended(length, "value 9", 64, 88))
    add_run(wide(length), [9, 0, 0, 0, 0, 0, 0, 0], 0, 30, ended(length, "spent", 30, 54))
add(written(*wide(8192)), [9], 256, 100, refused(14))
add(written(*wide(8192)), [9], 257, 100, refused(14))
add(written(*wide(8192)), [9] * 8, 257, 100, refused(16))
for length in (8193, 8194, 9000):
    for arguments in ([9] * 8, [9] * 7, [], [9] * 255):
        for depth in (256, 257):
            add(written(*wide(length)), arguments, depth, 100, refused(16))
beyond = written(*wide(8193))
add(beyond[:-1] + b"\x3f", [9], 257, 100, refused(8, len(beyond) - 1))
add(beyond + b"\0", [9], 257, 100, refused(4, len(beyond)))

# Ends of the range.
ends = (LEAST, LEAST + 1, -1, 0, 1, GREATEST - 1, GREATEST)
for value in ends:
    add_run([Function(0, 1, [constant(0, value), back(0)])], [], 0, 2, ended(25, f"value {value}", 2, 3))
    add_run([Function(1, 0, [back(0)])], [value], 0, 1, ended(13, f"value {value}", 1, 1))
less = [Function(2, 0, [difference(0, 0, 1), back(0)])]
smaller = [Function(2, 0, [branch(0, 1, 1, 2)], (0, [back(0)]), (0, [back(1)]))]
# The same difference, caught in its own function, and in the function that called its own: the target keeps its value.
own = [Function(2, 0, [goto(1)], (2, [difference(0, 0, 1), back(0)]), (0, [back(0)]))]
other = [Function(2, 1, [goto(1)], (2, [call(2, 1, [0, 1]), back(2)]), (0, [back(0)])), *less]
for y, z in (
        (LEAST, 1), (GREATEST, -1), (LEAST, GREATEST), (GREATEST, LEAST), (0, LEAST), (-1, LEAST), (LEAST, LEAST), (LEAST, 0), (GREATEST, 0),
        (LEAST, -1), (GREATEST, 1), (-1, GREATEST), (-2, GREATEST)):
    if LEAST <= y - z <= GREATEST:
        add_run(less, [y, z], 0, 100, ended(21, f"value {y - z}", 2, 2))
        add_run(own, [y, z], 0, 100, ended(44, f"value {y - z}", 3, 3))
        add_run(other, [y, z], 1, 100, ended(translated(*other), f"value {y - z}", 5, 7))
    else:
        add_run(less, [y, z], 0, 100, ended(21, "uncaught", 1, 2))
        add_run(own, [y, z], 0, 100, ended(44, f"value {y}", 3, 4))
        add_run(other, [y, z], 1, 100, ended(translated(*other), f"value {y}", 4, 8))
    add_run(smaller, [y, z], 0, 100, ended(translated(*smaller), f"value {min(y, z)}", 2, 3))
for budget in range(6):
    add_run(other, [LEAST, 1], 1, budget)

# A main that only raises, and one whose callee's value is thrown away (document 01).
raising = [Function(0, 0, [throw])]
lost = [Function(0, 1, [goto(1)], (2, [call(0, 1, []), throw]), (0, [back(0)])), Function(0, 1, [back(0)])]
for budget in (1, most):
    add_run(raising, [], 0, budget, ended(12, "uncaught", 1, 1))
add_run(raising, [], 0, 0, ended(12, "spent", 0, 0))
add_run(lost, [], 256, 100, ended(translated(*lost), "value 0", 5, 8))

# Procedures that call themselves: they go down as often as the argument says. The first comes back and counts, the second raises at the
# bottom without a handler, and the third has a handler in each second frame, which raises again where nothing is left of its argument.
counting = [Function(1, 2, [branch(0, 1, 1, 2)], (0, [back(1)]), (0, [
    constant(1, 1), difference(2, 0, 1), call(2, 0, [2]), constant(1, -1), difference(2, 2, 1), back(2)]))]
falling = [Function(1, 2, [branch(0, 1, 1, 2)], (0, [throw]), (0, [constant(1, 1), difference(2, 0, 1), call(2, 0, [2]), back(2)]))]
climbing = [
    Function(1, 2, [branch(0, 1, 1, 2)], (0, [throw]), (3, [constant(1, 1), difference(0, 0, 1), call(2, 1, [0]), back(2)]),
             (0, [branch(1, 0, 5, 4)]), (0, [throw]), (0, [back(0)])),
    Function(1, 2, [branch(0, 1, 1, 2)], (0, [throw]), (0, [constant(1, 1), difference(0, 0, 1), call(2, 0, [0]), back(2)]))]
for depth in range(5):
    for functions, end, steps, after in ((counting, "value 3", 23, 38), (falling, "uncaught", 14, 29)):
        given = (end, steps, after) if depth >= 3 else ("deep", 4 * depth + 3, 8 * depth + 6)
        add_run(functions, [3], depth, 100, ended(translated(*functions), *given))
    add_run(climbing, [3], depth, 100)
    add_run(climbing, [4], depth, 100)
for functions, arguments in ((T_FUNCTIONS, [0]), (counting, [3]), (falling, [3]), (climbing, [4]), (lost, []), (raising, [])):
    for budget in (0, 1, most):
        add_run(functions, arguments, 5, budget)
for functions in (counting, falling, climbing):
    for argument in (255, 256, 257, GREATEST):
        add_run(functions, [argument], 256, most)

# Handlers and frames. The exception passes all frames of a descent; it is raised in a handler's own function, with the variables of then;
# a callee starts without its caller's handler; the caller's variables come back; frames and records given back are there again.
passed = [
    Function(1, 1, [goto(1)], (2, [call(1, 1, [0]), back(1)]), (0, [back(0)])),
    Function(1, 2, [branch(0, 1, 1, 2)], (0, [throw]), (0, [constant(1, 1), difference(2, 0, 1), call(2, 1, [2]), back(2)]))]
for argument in (0, 3, 255):
    add_run(passed, [argument], 256, most, ended(translated(*passed), f"value {argument}", 4 * argument + 5, 8 * argument + 11))
add_run(passed, [3], 3, most, ended(translated(*passed), "deep", 13, 26))
later = [Function(
    0, 2, [constant(0, 1), goto(1)], (2, [constant(0, 2), throw]), (3, [constant(1, 40), difference(0, 1, 0), throw]), (0, [back(0)]))]
for budget in (3, 4, 7):
    add_run(later, [], 0, budget, ended(translated(*later), "spent", budget, budget + 2))
add_run(later, [], 0, 8, ended(translated(*later), "value 38", 8, 10))
unguarded = [
    Function(0, 1, [goto(1)], (2, [call(0, 1, []), back(0)]), (0, [constant(0, 5), back(0)])),
    Function(0, 1, [throw], (2, [back(0)]), (0, [back(0)]))]
add_run(unguarded, [], 1, 100, ended(translated(*unguarded), "value 5", 5, 9))
kept = [Function(1, 1, [call(1, 1, [0]), difference(1, 1, 0), back(1)]), Function(1, 0, [constant(0, 9), back(0)])]
add_run(kept, [4], 1, 100, ended(translated(*kept), "value 5", 5, 7))
again = [Function(0, 1, [call(0, 1, []), call(0, 1, []), back(0)]), Function(0, 1, [back(0)])]
add_run(again, [], 1, 100, ended(translated(*again), "value 0", 5, 10))
caught = [
    Function(0, 1, [goto(1)], (2, [call(0, 1, []), back(0)]), (3, [call(0, 1, []), back(0)]), (0, [back(0)])), Function(0, 0, [throw])]
add_run(caught, [], 1, 100, ended(translated(*caught), "value 0", 6, 11))

# Deep at 256 frames: the call that is not taken needs a step left.
endless = [Function(0, 1, [call(0, 0, []), back(0)])]
for budget in (257, 1000, most):
    add_run(endless, [], 256, budget, ended(30, "deep", 256, 769))
add_run(endless, [], 256, 256, ended(30, "spent", 256, 769))
add_run(endless, [], 256, 255, ended(30, "spent", 255, 766))
add_run(endless, [], 255, 256, ended(30, "deep", 255, 766))

# Random procedures, each of them accepted.
source = random.Random(20)
values = (LEAST, GREATEST, -3, -2, -1, 0, 1, 2, 3, 5)


def random_function(counts, shapes, version):
    parameters, locals_, blocks = counts

    def variable():
        return source.randrange(parameters + locals_)

    def label():
        return source.randrange(1, blocks + 1)

    def operation():
        kind = source.randrange(10)
        if kind < 4:
            return constant(variable(), source.choice(values))
        if kind < 5:
            return duplicate(variable(), variable())
        if kind < 7:
            return difference(variable(), variable(), variable())
        function = source.randrange(len(shapes))
        return call(variable(), function, [variable() for _ in range(shapes[function][0])])

    def raising():
        return throw if version == 1 else source.choice((throw, throw_value(variable())))

    # The later the block, the oftener it leaves the function.
    def last(at):
        if source.randrange(blocks + 1) <= at // 2:
            return source.choice((back(variable()), back(variable()), raising()))
        kind = source.randrange(8)
        if kind < 2:
            return goto(label())
        if kind < 6:
            return branch(variable(), variable(), label(), label())
        return raising() if kind < 7 else back(variable())

    def block(at):
        return [operation() for _ in range(source.randrange(4))] + [last(at)]

    def receiver():
        return [] if version == 1 else [source.choice((NONE, variable(), variable()))]

    handlers = [source.choice((0, label(), label())) for _ in range(blocks)]
    return Function(parameters, locals_, block(0), *((handlers[i], *receiver(), block(i + 1)) for i in range(blocks)))


made = []


def add_random(version):
    shapes = [(source.randrange(4), source.randrange(1, 4), source.randrange(2, 6)) for _ in range(source.randrange(2, 5))]
    file = written(*(random_function(counts, shapes, version) for counts in shapes), version=version)
    arguments = [source.choice(values) for _ in range(shapes[0][0])]
    made.append(add_file(file, arguments, source.randrange(6), source.randrange(201)))


for _ in range(100):
    add_random(1)

# Slip 7: the vectors; procedures that raise numbers, some at each budget and at smaller depths; random ones.
before = len(cases)
for data, text in vectors("slip-7/both.txt"):
    add_input(data, text.replace(" | ", "\n") + "\n")
from_vectors += len(cases) - before
add_file(T_2, [0], 256, 100, ended(114, "value 7", 6, 12))
number = written(Function(1, 0, [throw_value(0)]), version=2)
for value in ends:
    add_file(number, [value], 0, 1, ended(13, f"uncaught {value}", 1, 1))
add_file(written(*raising, version=2), [], 0, 1, ended(19, "uncaught 0", 1, 2))
add(written(Function(1, 0, [throw_value(0)])), [5], 0, 1, refused(6, 9))
for file, lists in RAISES:
    for arguments in lists:
        add_file(file, arguments, 2, 100)
for file, lists in STEPPED:
    for budget in range(10):
        add_file(file, lists[0], 2, budget)
    for depth in range(2):
        add_file(file, lists[0], depth, 100)
for _ in range(40):
    add_random(2)
# Versions 0 and 3, and version 2 at and above the limit.
for version in (b"\0", b"\3"):
    add(T[:3] + version + T[4:], [5, 6], 257, 100, refused(2, 3))
    add(over[:3] + version + over[4:], [5, 6], 257, 100, refused(2, 3))
full_2 = long[:3] + b"\2" + long[4:]
add_file(full_2, [], 0, most, ended(2056, "value 238", 341, 342))
add(full_2 + b"\0", [1], 257, 100, refused(15, 2048))

assert len(cases) < 1500
# An input too long: the run ends there, and what follows gets no answer.
inputs = [data for data, _ in cases] + [bytes(4097), header([5], 256, 100) + T]
write("both_cases", (little(len(data), 2) + data for data in inputs), (text for _, text in cases))


def kind(text):
    words = text.split()
    return " ".join(words[:2]) if words[0] in ("refused", "no") else words[3]


print(len(cases), "cases,", from_vectors, "from the vectors:", dict(Counter(kind(text) for _, text in cases)))
print("random:", dict(Counter(map(kind, made))))
