"""Counts the instructions of what a processor asks of an arena in a turn, where 1,023 blocks wait for times."""

import subprocess
import sys

from measure import instructions
from tables import row, table

BLOCKS = 1_023
FIRST_STEPS = 10_000
STEPS = 60_000
KINDS = [
    "each for a time of its own",
    "by the hundred for one time",
    "for times of one remainder by 64",
    "1,021 for times that never come, two ready in turn",
    "none, two ready in turn",
]


def words_of(program, kind, steps):
    return [program, str(kind), str(BLOCKS), str(steps)]


def turns(words):
    return int(subprocess.run(words, stdout=subprocess.PIPE, check=True).stdout)


def instructions_of_a_turn(program, kind):
    whole, start = (words_of(program, kind, steps) for steps in (STEPS, FIRST_STEPS))
    return (instructions(whole) - instructions(start)) / (turns(whole) - turns(start))


def main(program):
    table("Armed", "instructions a turn")
    for kind, name in enumerate(KINDS):
        row(name, f"{instructions_of_a_turn(program, kind):.0f}")


main(sys.argv[1])
