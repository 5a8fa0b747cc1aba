"""Counts the turns of runs and replays of one processor, and of replays of several; times runs of several. Prints the tables."""

import itertools
import sys

import texts
from measure import for_each, least_seconds, peak_mebibytes, seconds_together
from tables import Bench, row, table

SPENT = 3
MOST_TURNS = 1_000_000
# The turns in which a run gets going, and those in which its instructions are counted, the first ones among them.
FIRST_TURNS, COUNTED_TURNS = 10_000, 30_000

# In a run each of several processors is a host thread. How often one looks in vain is up to the host, so its instructions are not those of its
# turns, and such runs are timed: the least of so many, of all the turns that a run may have less that of a tenth.
TIMED_RUNS = 5

# Each with its number of processors, its number of pairs, the first turns, and the counted ones of a replay. All items of a schedule
# stand in one word of the command line, and the system lets it have some 130,000 bytes.
SEVERAL = {
    "two threads that call each other on 2 processors": (2, 1, 4_000, 20_000),
    "512 pairs across 16 processors": (texts.MOST_CPUS, texts.MOST_THREADS // 2, 16_000, 48_000),
}

# Each with its number of processors, its threads for a machine of so many, how many times as fast it is to be as on one, with four cores of the host, and
# the threads of one of the processors, where they do without the others.
SIDE_BY_SIDE = [
    ("64 threads on each of 4 processors, that call each other", 4, lambda cpus: texts.among_themselves(4, 64, cpus), 2.5, texts.among_themselves(1, 64, 1)),
    ("two threads that call each other across 2 processors", 2, lambda cpus: texts.across(1, cpus), 0.2, None),
]


def instructions_a_turn(bench, words, first, counted):
    """A cell of the instructions of a turn, on the average of those after the first ones. `words` says how so many turns are taken."""
    return bench.beside(for_each(counted, first, SPENT), words(counted), words(first))


def nanoseconds_a_turn(words):
    """The time of a turn of a run of several processors. It may have one turn more for each but the first, which is too few to count."""
    few, many = least_seconds([words(MOST_TURNS // 10), words(MOST_TURNS)], TIMED_RUNS, SPENT)
    return (many - few) / (MOST_TURNS - MOST_TURNS // 10) * 1e9


def peaks(bench, name, text):
    """The most memory that the longest run held, with the report and with the trace."""
    return [f"{peak_mebibytes(bench.words(name, text, MOST_TURNS, report), SPENT):.0f}" for report in (True, False)]


def run(bench, name, text, report):
    return lambda turns: bench.words(name, text, turns, report)


def replay(bench, name, text, cpus):
    """Each processor has a turn, in order, and again."""
    return lambda turns: bench.replay(name, text, itertools.islice(itertools.cycle(range(cpus)), turns))


def show_one(bench):
    """Of each machine of one processor what a turn of a run takes."""
    table("A turn of `run` on one processor", "report", "trace", "peak MiB of 1,000,000 turns, report", "trace")
    for place, (name, text) in enumerate(texts.turning().items()):
        file = f"{place}.l4"
        cells = [instructions_a_turn(bench, run(bench, file, text, report), FIRST_TURNS, COUNTED_TURNS) for report in (True, False)]
        row(name, *cells, *peaks(bench, file, text))


def show_several(bench):
    """Of each machine of several processors the instructions of an entry of a replay in order, and the time of a turn of a run."""
    table("Several processors", "instructions of an entry in order, replay, trace", "ns of a turn, run, report", "run, trace",
          "peak MiB of 1,000,000 turns, run, report", "run, trace")
    for name, (cpus, pairs, first, items) in SEVERAL.items():
        file, text = f"{cpus}.l4", texts.machine(texts.across(pairs, cpus), cpus)
        count = instructions_a_turn(bench, replay(bench, file, text, cpus), first, items)
        times = [nanoseconds_a_turn(run(bench, file, text, report)) for report in (True, False)]
        row(name, count, *(f"{each:,.0f}" for each in times), *peaks(bench, file, text))


def turns_a_second(several):
    """The most turns a second of several ways to take as many turns, each a list of programs that start at once. They are tried in turn."""
    rounds = [[seconds_together(programs, SPENT) for programs in several] for _ in range(TIMED_RUNS)]
    return [MOST_TURNS / min(times) for times in zip(*rounds)]


def show_side_by_side(bench):
    """The turns a second of machines of several processors, of the same threads on one, and of what the host can do: as many programs at once, each with
    the threads of one of the processors and its share of the turns."""
    table("The same threads on several processors and on one", "turns a second, several", "one", "times as fast (to be at least)",
          "as many programs at once", "times as fast as one")
    for name, cpus, threads, least, share in SIDE_BY_SIDE:
        ways = [[run(bench, f"side-{number}.l4", texts.machine(threads(number), number), True)(MOST_TURNS)] for number in (cpus, 1)]
        if share:
            ways.append([run(bench, "share.l4", texts.machine(share), True)(MOST_TURNS // cpus)] * cpus)
        several, one, *apart = turns_a_second(ways)
        row(name, f"{several:,.0f}", f"{one:,.0f}", f"{several / one:.2f} ({least})", *(f"{rate:,.0f}" for rate in apart), *(f"{rate / one:.2f}" for rate in apart))


if __name__ == "__main__":
    measured = Bench(*sys.argv[1:])
    measured.show_cells()
    show_one(measured)
    show_several(measured)
    show_side_by_side(measured)
