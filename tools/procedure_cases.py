#!/usr/bin/env python3
"""Writes the cases of crates/procedure_cases and the answers expected: run in the repository's root. Reads both.txt of vectors and of its
folder slip-7, and long.txt of its folder slip-5.

The answers come from the checker of tools/procedure.py. Where a vector of Slips 5 and 7 gives the answer, the checker must give the same.
"""
from procedure import LIMIT, NONE, T, Function, branch, call, check, constant, difference, duplicate, goto, throw, throw_value, written
from raises import AGAIN, T_2
from records import GREATEST, LEAST, Refused, agree, little, long_vectors, vectors, write


def answer(kind, f, label, s):
    try:
        functions = check(s)
        if kind == 0:
            return "accepted"
        if f >= len(functions):
            raise Refused(9, 0)
        if label >= len(functions[f].blocks):
            raise Refused(8, 0)
        handler, start, end = functions[f].blocks[label]
        start = start if handler is None else handler
        return "accepted" + "".join(" %d" % b for b in s[start:end])
    except Refused as r:
        return str(r)


def given(name):
    """The files in the vectors of `both`, each with its text."""
    for b, text in vectors(name):
        if b and len(b) >= 7 + 4 * b[0]:
            yield b[7 + 4 * b[0]:], text


def file(count, *parts):
    return b"SPF\1\0" + bytes([count]) + b"".join(map(bytes, parts))


def damaged():
    """Files of our own."""
    yield b""
    yield b"SPG"
    yield b"SP"
    yield T + b"\0"
    for i in range(len(T)):
        yield T[:i]
        for v in (0, 1, 2, 3, 4, 5, 7, 8, 9, 25, 31, 32, 33, 63, 64, 65, 255):
            if T[i] != v:
                yield T[:i] + bytes([v]) + T[i + 1:]
    for n in (0, 1, 2, 31, 32, 33, 255):
        yield file(n, [0, 0, 0, 8] * n)
    for n in (0, 8, 9, 255):
        yield file(1, [n, 0, 0, 8])
    for n in (0, 24, 25, 255):
        yield file(1, [0, n, 0, 8])
    for n in (0, 1, 62, 63, 64, 255):
        yield file(1, [0, 0, n, 8], [0, 8] * n)
    for h in (0, 1, 63, 64):
        yield file(1, [0, 0, 63], goto(63), [h, 8] * 63)
    for x in (0, 31, 32, 255):
        yield file(1, [8, 24, 0, 6, x])
    for n in range(9):
        yield file(2, [0, 1, 0], call(0, 1, [0] * n), [8, n, 0, 0, 8])
        # A variable that is not there; without arguments one byte too many.
        yield file(2, [0, 1, 0, 4, 0, 1, n], [0] * (n - 1), [1, 8, n, 0, 0, 8])
    for i in range(5):
        v = [0, 1, 1, 2, 9]
        v[i] = 77
        yield file(1, [2, 0, 2], branch(*v[:4]), [0, 8, 0, 8])
    for value in (LEAST, GREATEST, -1):
        whole = constant(0, value)
        yield file(1, [0, 1, 0], whole, [6, 0])
        for i in range(2, 6):
            yield file(1, [0, 1, 0], whole[:i])
    long = file(1, [1, 0, 0], duplicate(0, 0) * 10919, [6, 0])
    longer = file(1, [1, 0, 0], duplicate(0, 0) * 10918, difference(0, 0, 0), [6, 0])
    assert len(long) == LIMIT and len(longer) == LIMIT + 1
    yield long
    yield longer
    yield long[:-1]
    yield long[:-1] + b"\1"


def numbered():
    """Files of our own, of version 2 but for some."""
    for version in (0, 2, 3, 258):
        yield written(Function(0, 0, [throw]), version=version)
    for version in (1, 2):
        for last in ([9], [9, 0], [9, 1], [9, 255], [10, 0]):
            yield written(Function(1, 0, [bytes(last)]), version=version)
    for x in (0, 31, 32, 254, NONE):
        yield written(Function(8, 24, [goto(1)], (0, x, [throw])), version=2)
    # Handler, receiver and operations in reading order; the receiver of a function without variables.
    for h, v, x in ((2, 1, 1), (0, 1, 1), (1, 1, 0), (1, 0, 1), (1, NONE, 1), (1, 0, 0)):
        yield written(Function(1, 0, [goto(1)], (h, v, [throw_value(x)])), version=2)
    for v in (0, NONE):
        yield written(Function(0, 0, [goto(1)], (0, v, [throw])), version=2)
    file, _ = AGAIN
    for i in range(len(file)):
        yield file[:i]
        for v in (0, 1, 2, 3, 4, 8, 9, 10, 255):
            yield file[:i] + bytes([v]) + file[i + 1:]


# Each file is checked once; some are looked up in.
long = dict(long_vectors("SPF"))
for s, told in long.items():
    agree(s[:6].hex(), told, answer(0, 0, 0, s))
cases = [(0, 0, 0, s) for s in dict.fromkeys([*(s for s, _ in given("both.txt")), *damaged(), *long])]
for s in (T, T[:-1], b"", T[:11] + b"\3" + T[12:]):
    for f in (0, 1, 2, 31, 32, 255):
        for label in (0, 1, 2, 3, 63, 64, 255):
            cases.append((1, f, label, s))

# Slip 7: the vectors, whose refusals up to 10 are the checker's and whose 15 is the limit of `both`.
old = {s for *_, s in cases}
told = list(given("slip-7/both.txt"))
for s, text in told:
    if not text.startswith("refused 15 "):
        agree(s.hex(), text if text.startswith("refused ") and int(text.split()[1]) <= 10 else "accepted", answer(0, 0, 0, s))
cases += [(0, 0, 0, s) for s in dict.fromkeys([*(s for s, _ in told), *numbered()]) if s not in old]
for s in (T_2, AGAIN[0], T_2[:-1]):
    for f in (0, 1, 2):
        for label in (0, 1, 2, 3, 4):
            cases.append((1, f, label, s))

write(
    "procedure_cases", (bytes([kind, f, label]) + little(len(s), 3) + s for kind, f, label, s in cases),
    (answer(*case) + "\n" for case in cases))
print(len(cases), "cases")
