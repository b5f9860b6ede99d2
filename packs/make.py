#!/usr/bin/env python3
"""Writes the sample packs, byte for byte the same each time.

    packs/make.py           write every pack
    packs/make.py --check   say which packs on disk differ from what this makes

A pack is a model record: the numbers of values, the number of clocks, and then the formulas, each
behind its length in two bytes. A formula is written operands first, so an expression below
returns the bytes of its operands and then its own mark.
"""

import sys
from pathlib import Path

HERE = Path(__file__).resolve().parent
# Packs that are kept twice: the gate runs the program on a copy beside its sources.
COPIES = {"gripper.pack": [HERE.parent / "crates/rakyhou/data/gripper.pack"]}


# --- formulas ---------------------------------------------------------------

TRUE = b"t"


def instruction(mark, *operands):
    return mark.encode() + bytes(operands)


def value(variable, k):
    """The variable has the value k."""
    return instruction("v", variable, k)


def becomes(variable, k):
    """The variable's next value is k."""
    return instruction("n", variable, k)


def stays(variable):
    """The variable's next value is its present one."""
    return instruction("s", variable)


def at_most(clock, j):
    return instruction("l", clock, j)


def at_least(clock, j):
    return instruction("g", clock, j)


def below(clock, j):
    return instruction("<", clock, j)


def above(clock, j):
    return instruction(">", clock, j)


def no(operand):
    return operand + b"!"


def joined(mark, operands):
    first, *others = operands
    return first + b"".join(operand + mark for operand in others)


def both(*operands):
    """Every operand holds."""
    return joined(b"&", operands)


def either(*operands):
    """Some operand holds."""
    return joined(b"|", operands)


FALSE = no(TRUE)


# --- records ----------------------------------------------------------------


def counted(formula):
    return len(formula).to_bytes(2, "big") + formula


def record(values, resets, start, invariant, transition, urgent):
    """The numbers of values, a reset formula for each clock, and the four other formulas."""
    head = bytes([len(values), *values, len(resets)])
    formulas = [*resets, start, invariant, transition, urgent]
    return head + b"".join(counted(formula) for formula in formulas)


# --- models -----------------------------------------------------------------


def pulse():
    """Variable 0 is 0, off, or 1, on. A pulse lasts exactly three units."""
    phase, clock = 0, 0
    off, on = 0, 1
    rises = both(value(phase, off), becomes(phase, on))
    falls = both(value(phase, on), at_least(clock, 3), becomes(phase, off))
    return record(
        values=[2],
        resets=[rises],
        start=value(phase, off),
        invariant=either(value(phase, off), at_most(clock, 3)),
        transition=either(rises, falls),
        urgent=FALSE,
    )


def window():
    """Variable 0 can become 1 after the start and before one unit has passed."""
    phase, clock = 0, 0
    return record(
        values=[2],
        resets=[FALSE],
        start=value(phase, 0),
        invariant=TRUE,
        transition=both(
            value(phase, 0), above(clock, 0), below(clock, 1), becomes(phase, 1)
        ),
        urgent=FALSE,
    )


# The phases of a container that shares the gripper, and who has the gripper.
IDLE, ASKING, WAITING, HOLDING, RELEASING = range(5)
FREE, FOR_A, FOR_B = range(3)
PHASE_A, PHASE_B, OWNER = range(3)

WINDOW = 2  # a container that asks writes its name within this time
PATIENCE = 5  # and takes the gripper or gives up by this time after that
SHORTEST = 3  # it holds the gripper at least this long
LONGEST = 8  # and at most this long


def container(phase, other, clock, name):
    """The reset formula, the invariant and the steps of one container."""

    def step(before, after, *more):
        return both(
            value(phase, before), *more, becomes(phase, after), stays(other)
        )

    def while_in(p, limit):
        return either(no(value(phase, p)), at_most(clock, limit))

    def enters(before, after):
        return both(value(phase, before), becomes(phase, after))

    mine = value(OWNER, name)
    reset = either(
        enters(IDLE, ASKING), enters(ASKING, WAITING), enters(WAITING, HOLDING)
    )
    limits = [
        while_in(ASKING, WINDOW),
        while_in(WAITING, PATIENCE),
        while_in(HOLDING, LONGEST),
    ]
    steps = [
        step(IDLE, ASKING, value(OWNER, FREE), stays(OWNER)),
        step(ASKING, WAITING, becomes(OWNER, name)),
        step(WAITING, HOLDING, mine, above(clock, WINDOW), stays(OWNER)),
        step(WAITING, IDLE, no(mine), above(clock, WINDOW), stays(OWNER)),
        step(HOLDING, RELEASING, at_least(clock, SHORTEST), stays(OWNER)),
        step(RELEASING, IDLE, becomes(OWNER, FREE)),
    ]
    return reset, limits, steps


def gripper():
    """Two containers share one gripper, with a clock each."""
    reset_a, limits_a, steps_a = container(PHASE_A, PHASE_B, 0, FOR_A)
    reset_b, limits_b, steps_b = container(PHASE_B, PHASE_A, 1, FOR_B)
    return record(
        values=[5, 5, 3],
        resets=[reset_a, reset_b],
        start=both(value(PHASE_A, IDLE), value(PHASE_B, IDLE), value(OWNER, FREE)),
        invariant=both(*limits_a, *limits_b),
        transition=either(*steps_a, *steps_b),
        urgent=either(value(PHASE_A, RELEASING), value(PHASE_B, RELEASING)),
    )


# --- records with a fault ---------------------------------------------------


def bad_mark():
    """Pulse with a small x for the mark of its start formula."""
    good = pulse()
    start = good.index(counted(value(0, 0))) + 2
    return good[:start] + b"x" + good[start + 1 :]


def bad_trailing():
    """Pulse with one byte more."""
    return pulse() + b"t"


PACKS = {
    "pulse.pack": pulse,
    "window.pack": window,
    "gripper.pack": gripper,
    "bad-mark.pack": bad_mark,
    "bad-trailing.pack": bad_trailing,
}


def targets():
    for name, make in PACKS.items():
        for path in [HERE / name, *COPIES.get(name, [])]:
            yield path, make()


def main(words):
    if words not in ([], ["--check"]):
        print("make.py: expected no word, or --check", file=sys.stderr)
        return 2
    wrong = 0
    for path, made in targets():
        if not words:
            path.parent.mkdir(parents=True, exist_ok=True)
            path.write_bytes(made)
        elif not path.is_file() or path.read_bytes() != made:
            print(f"{path} is not what make.py makes", file=sys.stderr)
            wrong += 1
    return 1 if wrong else 0


if __name__ == "__main__":
    sys.exit(main(sys.argv[1:]))
