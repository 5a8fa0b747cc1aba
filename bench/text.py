"""Measures the reading of machine texts, and of those of version 2 beside those of version 1. Prints the tables."""

import sys

import texts
from measure import for_each, instructions, least_seconds, peak_mebibytes
from tables import Bench, row, table

READ_RUNS = 51
FAULT, SPENT = 1, 3

READINGS = {
    "scripts of 1,024 long instructions": texts.long_scripts,
    "many threads, short instructions": texts.many_threads,
    "empty lines": texts.empty_lines,
}

# Texts of version 2, and what says about the same in version 1: the same lines, where the name says no more. Both have two sizes.
SECOND_SIZES = 400_000, 800_000
SECOND_READINGS = {
    "long instructions": (lambda size: texts.in_second(texts.long_scripts(size)), texts.long_scripts),
    "short instructions": (lambda size: texts.in_second(texts.many_threads(size)), texts.many_threads),
    "a mix of lines of version 1": (lambda size: texts.in_second(texts.mixed_in_first(size)), texts.mixed_in_first),
    "the mix with names, places and branches": (lambda size: texts.mixed_in_second(size, texts.mixed_second()), texts.mixed_in_first),
    "that in columns, with comments": (lambda size: texts.mixed_in_second(size, texts.laid_out()), texts.mixed_in_first),
}


def reading(bench, text):
    """The words that read this text whole and do no more, since there is a fault at its end."""
    return bench.words(f"{len(text)}.l4", texts.faulty(text), 1)


def show_readings(bench):
    """Of each text and of its half what it takes to read them, less what the empty text takes."""
    table("Text", "bytes", "milliseconds", "MB a second", "instructions a byte", "peak MiB", "peak MiB with one turn",
          "doubled: time", "doubled: instructions")
    nothing = bench.words("empty.l4", "", 1)
    for name, made in READINGS.items():
        half, whole = (made(size) for size in (texts.MOST_BYTES // 2, texts.MOST_BYTES))
        commands = [nothing, reading(bench, half), reading(bench, whole)]
        start, *times = least_seconds(commands, READ_RUNS, FAULT)
        cells = [bench.beside(for_each(len(text), 0, FAULT), words, nothing, digits=1) for text, words in zip((half, whole), commands[1:])]
        first, second = (float(cell.split()[0]) for cell in cells)
        times = [each - start for each in times]
        doubled = [("", ""), (f"{times[1] / times[0]:.2f}", f"{2 * second / first:.2f}")]
        for text, taken, cell, ratios in zip((half, whole), times, cells, doubled):
            row(name, f"{len(text):,}", f"{taken * 1000:.1f}", f"{len(text) / taken / 1e6:.0f}", cell,
                f"{peak_mebibytes(reading(bench, text), FAULT):.1f}",
                f"{peak_mebibytes(bench.words('turn.l4', text, 1), SPENT):.1f}", *ratios)


def for_each_byte_and_line(bench, made):
    """What each further byte of a text takes, and each further line, where it is made as large again."""
    small, large = (made(size) for size in SECOND_SIZES)
    taken = instructions(reading(bench, large), FAULT) - instructions(reading(bench, small), FAULT)
    return taken / (len(large) - len(small)), taken / (large.count("\n") - small.count("\n"))


def show_second_readings(bench):
    """Of each text of version 2 what a byte and a line take, and in brackets what they take in version 1, and the quotient."""
    print("\nInstructions: of a text of version 2, and in brackets of one of version 1, and the quotient.")
    table("Text of version 2", "instructions of a further byte", "instructions of a further line")
    for name, both in SECOND_READINGS.items():
        seconds, firsts = (for_each_byte_and_line(bench, made) for made in both)
        cells = [f"{second:,.1f} ({first:,.1f}: {second / first:.2f})" for second, first in zip(seconds, firsts)]
        row(name, *cells)


if __name__ == "__main__":
    measured = Bench(*sys.argv[1:])
    measured.show_cells()
    show_readings(measured)
    show_second_readings(measured)
