"""Procedures of version 2 (document 02, Slip 7) that the generators share, each with argument lists. Depth 2 is enough for all of them."""
from procedure import NONE, Function, back, branch, call, constant, difference, goto, throw, throw_value, written
from records import GREATEST, LEAST

SOME = ([5], [-5])
RAISES = []


def add(lists, *functions):
    RAISES.append((written(*functions, version=2), lists))
    return RAISES[-1]


# Document 01's T in version 2, each block without a receiver.
T_2, _ = add(
    ([5], [0]),
    Function(1, 1, [goto(1)], (2, NONE, [call(1, 1, [0]), back(1)]), (0, NONE, [constant(1, 7), back(1)])),
    Function(1, 1, [branch(0, 1, 1, 2)], (0, NONE, [throw]), (0, NONE, [back(0)])))
# Caught in its own function: the receiver is none, the variable raised itself, another one.
for raising in (throw_value(0), throw):
    for v in (NONE, 0, 1):
        add(SOME, Function(1, 1, [constant(1, 9), goto(1)], (2, NONE, [raising]), (0, v, [difference(0, 1, 0), back(0)])))
# A misfit: the receiver is none, the difference's target, what it reads.
for x, v in ((2, NONE), (2, 2), (0, 0), (0, 1)):
    add(([LEAST, 1], [7, 2]), Function(2, 1, [constant(2, 9), goto(1)], (2, NONE, [difference(x, 0, 1), back(x)]), (0, v, [back(x)])))
# Caught two frames up: a 0, a misfit (of -5 only), a number.
for raising in (
        [throw], [constant(1, GREATEST), difference(1, 0, 1), back(1)], [constant(1, 40), difference(1, 1, 0), throw_value(1)]):
    for v in (NONE, 0, 1):
        TWO_UP = add(
            SOME,
            Function(1, 1, [constant(1, 9), goto(1)], (2, NONE, [call(1, 1, [0]), back(1)]), (0, v, [difference(0, 1, 0), back(0)])),
            Function(1, 0, [call(0, 2, [0]), back(0)]), Function(1, 1, raising))
# Caught, raised again under a handler, and once more without one.
AGAIN = add(
    SOME,
    Function(1, 1, [goto(1)], (2, NONE, [call(1, 1, [0]), back(1)]), (3, 1, [difference(0, 0, 1), throw_value(1)]), (0, 0, [throw_value(0)])),
    Function(1, 0, [throw_value(0)]))
# Uncaught: a number, at once and past two frames; a 0; a misfit.
add(([LEAST], [-1], [0], [1], [GREATEST]), Function(1, 0, [throw_value(0)]))
add(SOME, Function(1, 1, [call(1, 1, [0]), back(1)]), Function(1, 0, [call(0, 2, [0]), back(0)]), Function(1, 0, [throw_value(0)]))
add([[]], Function(0, 1, [call(0, 1, []), back(0)]), Function(0, 0, [throw]))
add([[LEAST, 1]], Function(2, 0, [difference(0, 0, 1), back(0)]))
# Goto and branch set no receiver.
add(([1, 2], [2, 1]), Function(2, 0, [branch(0, 1, 1, 2)], (0, 0, [goto(2)]), (0, 1, [difference(0, 0, 1), back(0)])))
# 32 variables: a 0 leaves by slot 36 and is received in it; the last variable receives.
WIDE = add(
    [[*range(8)]],
    Function(8, 24, [constant(30, 3), goto(1)], (2, NONE, [call(29, 1, range(8)), back(29)]),
             (3, NONE, [call(29, 2, [30]), back(29)]), (0, 31, [back(31)])),
    Function(8, 24, [throw]), Function(1, 0, [throw_value(0)]))
# Its own handler, for ever.
add(SOME, Function(1, 0, [goto(1)], (1, 0, [throw_value(0)])))

# Those to be stopped at each step.
STEPPED = (TWO_UP, AGAIN, WIDE)
