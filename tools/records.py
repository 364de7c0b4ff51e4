"""What the generators share: vectors, fields of several bytes, and the stored records and answers.

A generator runs in the repository's root, and reads nothing outside the repository.
"""
import os
import sys

LEAST, GREATEST = -2 ** 31, 2 ** 31 - 1


class Refused(Exception):
    """A refusal of document 01: its number and its place."""

    def __str__(self):
        return "refused %d at %d" % self.args


def vector_file(name):
    """The path of a file in vectors."""
    path = os.path.join("vectors", *name.split("/"))
    if not os.path.exists(path):
        sys.exit(f"{path} is missing: run in the repository's root")
    return path


def lines(name):
    """The lines of a file of vectors, each as its fields."""
    for line in open(vector_file(name)):
        line = line.split("#")[0].strip()
        if line:
            yield [field.strip() for field in line.split(":")]


def vectors(name):
    """The same, where the first field is hexadecimal: it is given as bytes."""
    for first, *others in lines(name):
        yield bytes.fromhex(first), *others


def long_vectors(kind):
    """The files of one kind that are given by their first bytes and a length, zero bytes filling them up, each with its answer."""
    for file, answer in lines("slip-5/long.txt"):
        mark, first, *_, length = file.split()
        if mark == kind:
            yield bytes.fromhex(first).ljust(int(length), b"\0"), answer


def little(n, size):
    """A field of so many bytes, the low byte first."""
    return n.to_bytes(size, "little")


def signed(values):
    """Signed values of 4 bytes each."""
    return b"".join(little(v % 2 ** 32, 4) for v in values)


def header(arguments, depth, budget):
    """The first four fields of an input of `both`."""
    return bytes([len(arguments)]) + signed(arguments) + little(depth, 2) + little(budget, 4)


def procedure_of(data):
    """The procedure file behind the first four fields of an input of `both`; nothing where it ends inside them."""
    return data[4 * data[0] + 7:] if data else b""


def input_of(data):
    """An input of `both`: arguments, depth, budget and procedure file; None where it ends inside the first four fields."""
    if not data or len(data) < 4 * data[0] + 7:
        return None
    at = 4 * data[0] + 1
    arguments = [int.from_bytes(data[i:i + 4], "little", signed=True) for i in range(1, at, 4)]
    return arguments, int.from_bytes(data[at:at + 2], "little"), int.from_bytes(data[at + 2:at + 6], "little"), data[at + 6:]


def wrapped(z):
    """A value outside the range, wrapped back into it."""
    return (z - LEAST) % 2 ** 32 + LEAST


def call_of(text):
    """A call as a vector gives it: start function (0 where none is named), arguments, depth and budget."""
    words = text.split()
    first, depth = words.index("arguments") + 1, words.index("depth")
    start = int(words[1]) if words[0] == "start" else 0
    return start, [int(w) for w in words[first:depth] if w != "-"], int(words[depth + 1]), int(words[depth + 3])


def judge_head(s, mark, limit):
    """The refusals of a file's head: 1, 2, then 15; 3 where the file ends inside its mark or its version."""
    for i, m in enumerate(mark):
        if i >= len(s):
            raise Refused(3, len(s))
        if s[i] != m:
            raise Refused(1, i)
    if len(s) < 5:
        raise Refused(3, len(s))
    if s[3] + 256 * s[4] not in (1, 2):
        raise Refused(2, 3)
    if len(s) > limit:
        raise Refused(15, limit)


def numbered(s):
    """Whether a file is of version 2, in which a fault carries a number. The vectors from before Slip 7 refuse it."""
    return s[3:5] == b"\2\0"


def judge_start(start, parameters, given):
    """The refusals of a start function and its arguments: 9, then 14. `parameters` are the parameter counts of the functions."""
    if start >= len(parameters):
        raise Refused(9, 0)
    if given != parameters[start]:
        raise Refused(14, 0)


def judge_words(depth, delta):
    """The refusal of a depth and the words lent for it: 16. `delta` less 128 is how many are lent beyond 48 a frame of the depth."""
    if depth > 256 or max(0, 48 * depth + delta - 128) < 48 * depth:
        raise Refused(16, 0)


def judge_call(start, parameters, given, depth, delta):
    """The refusals of a machine's call: 9, 14, then 16."""
    judge_start(start, parameters, given)
    judge_words(depth, delta)


def judge_room(size, room):
    """The refusals of a translation of so many bytes, by the room lent: 17, then 16."""
    if size > 65535:
        raise Refused(17, 0)
    if size > room:
        raise Refused(16, 0)


def agree(case, given, ours):
    """Ends the program where a vector gives another answer than the model."""
    if given != ours:
        sys.exit(f"the vectors and the model differ at {case}: {given} | {ours}")


def write(crate, records, answers):
    """Stores a program's input and the text that it is to print."""
    with open(os.path.join("crates", crate, "stdin"), "wb") as f:
        f.write(b"".join(records))
    with open(os.path.join("crates", crate, "stdout"), "w") as f:
        f.write("".join(answers))


# Operations 1 to 3 have one form in both kinds of file; x, y and z are variables in the one, slots in the other.
def constant(x, value):
    return bytes([1, x]) + signed([value])


def duplicate(x, y):
    return bytes([2, x, y])


def difference(x, y, z):
    return bytes([3, x, y, z])
