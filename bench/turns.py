"""Measures the turns of runs, and prints the tables."""

import sys

import texts
from measure import instructions, least_seconds, peak_mebibytes
from tables import Bench, row, table

RUNS = 15
TURNS = 1_000_000
# The turns in which a run gets going: each thread that waits for ever has begun to.
FIRST_TURNS = 10_000
# Instructions are counted, not timed, so fewer turns do.
COUNTED_TURNS = 110_000
SPENT = 3

BUSY = {"send to each other": texts.talking, "add": texts.adding}


def placed(busy):
    """Two busy threads alone, and among others that wait for ever."""
    idle = texts.waiting(texts.MOST_THREADS - 2)
    return {
        "alone": texts.machine(busy(1, 2)),
        "first of 1,024": texts.machine(busy(1, 2) + idle),
        "last of 1,024": texts.machine(idle + busy(1, 2)),
    }


class Turns:
    """What a turn takes on each of several machines, on the average of those after the first ones."""

    def __init__(self, bench, compared, report=True):
        def words(turns):
            return [bench.words(f"{place}.l4", text, turns, report) for place, text in enumerate(compared)]

        self.whole, counted, start = (words(turns) for turns in (TURNS, COUNTED_TURNS, FIRST_TURNS))
        self.seconds = averages(least_seconds(self.whole, RUNS, SPENT), least_seconds(start, RUNS, SPENT), TURNS)
        self.instructions = averages(*([instructions(each, SPENT) for each in several] for several in (counted, start)), COUNTED_TURNS)

    def peaks(self):
        return [peak_mebibytes(words, SPENT) for words in self.whole]


def averages(whole, start, turns):
    return [(end - begin) / (turns - FIRST_TURNS) for end, begin in zip(whole, start)]


def show_places(bench):
    """Of two busy threads what a turn takes, wherever they are declared."""
    table("Two threads that", "declared", "turns a second", "ratio: time", "instructions a turn", "ratio: instructions",
          "peak MiB of 1,000,000 turns")
    for name, busy in BUSY.items():
        compared = placed(busy)
        turns = Turns(bench, compared.values())
        for place, taken, count, peak in zip(compared, turns.seconds, turns.instructions, turns.peaks()):
            row(name, place, f"{1 / taken:,.0f}", f"{taken / turns.seconds[0]:.2f}", f"{count:.0f}",
                f"{count / turns.instructions[0]:.2f}", f"{peak:.0f}")


def show_machines(bench):
    """Of each machine what a turn takes with the report, and with the trace."""
    table("Machine", "turns a second, report", "trace", "ratio: time", "instructions a turn, report", "trace",
          "peak MiB of 1,000,000 turns, report", "trace")
    compared = texts.turning()
    report, trace = (Turns(bench, compared.values(), kind) for kind in (True, False))
    for name, *cells in zip(compared, report.seconds, trace.seconds, report.instructions, trace.instructions, report.peaks(), trace.peaks()):
        told, shown, counted, spelled, low, high = cells
        row(name, f"{1 / told:,.0f}", f"{1 / shown:,.0f}", f"{shown / told:.2f}", f"{counted:.0f}", f"{spelled:.0f}", f"{low:.0f}", f"{high:.0f}")


if __name__ == "__main__":
    measured = Bench(*sys.argv[1:])
    measured.show_cells()
    show_places(measured)
    show_machines(measured)
