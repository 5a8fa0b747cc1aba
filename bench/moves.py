"""Runs the arena's benchmark at 16 and at 1,024 blocks.

Prints for each size the time of 1,000,000 moves: the least of several runs of many more moves, without the time of the
start. And their instructions, where valgrind is there.
"""

import sys

from measure import instructions, least_seconds

SIZES = (16, 1024)
MILLION = 1_000_000
MILLIONS = 100
RUNS = 15


def words_of(program, blocks, moves):
    return [program, str(blocks), str(moves)]


def milliseconds_of_a_million(program, blocks):
    whole, start = least_seconds([words_of(program, blocks, moves) for moves in (MILLIONS * MILLION, 0)], RUNS)
    return (whole - start) / MILLIONS * 1000


def instructions_of_a_million(program, blocks):
    whole, start = (instructions(words_of(program, blocks, moves)) for moves in (MILLION, 0))
    return whole - start


def show(name, measure, spelled):
    small, large = (measure(size) for size in SIZES)
    print(f"{name}: {spelled(small)} at 16 blocks, {spelled(large)} at 1,024 blocks, ratio {large / small:.2f}")


def main(program):
    show("milliseconds", lambda size: milliseconds_of_a_million(program, size), "{:.2f}".format)
    show("instructions", lambda size: instructions_of_a_million(program, size), "{:,}".format)


main(sys.argv[1])
