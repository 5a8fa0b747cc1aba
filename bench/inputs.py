"""Counts the instructions of a turn and of an audited step for six machines of one processor, for seven of version 2 beside the same in version 1, and of an entry of
a replay for three of several. Prints the tables."""

import itertools
import sys

import texts
from measure import for_each, output
from tables import Bench, row, table

SPENT = 3
FIRST, COUNTED = 10_000, 30_000
MOST_THREADS = texts.MOST_THREADS

# Each machine of one processor with the entries of its replay, which come again and again: turns, and ticks where time has to pass.
MACHINES = {
    "two that call, no words": (texts.calling(1, 2), ["0"]),
    "two that call, 63 words": (texts.calling(1, 2, 63), ["0"]),
    "512 such pairs": (texts.pairs(MOST_THREADS // 2), ["0"]),
    "1,023 senders to one": (texts.crowd(MOST_THREADS - 1), ["0"]),
    "finite times, 2 threads": (texts.sleepers(texts.own_times(2)), ["t0", "0", "0"]),
    "1,023 deadlines of one remainder by 64": (texts.sleepers(texts.times_of_one_remainder(MOST_THREADS - 1)), ["t0", "0", "0", "0"]),
}

# Each machine of version 2, and the same in version 1.
SECOND = {
    "by names, no words": texts.calling_by_names(),
    "by names, 63 words": texts.calling_by_names(63),
    "by registers, no words": texts.calling_by_registers(),
    "by registers, 63 words": texts.calling_by_registers(63),
    "512 pairs by registers": texts.calling_by_registers(count=MOST_THREADS // 2),
    "a server that keeps who asks": texts.keeping(),
    "a server that dispatches": texts.dispatching(),
}

# Each machine of several processors with their number, the number of its pairs, the first entries and the counted ones, which are turns of each processor in
# order. At the end of both replays of the last row letters are under way, and of no other.
SEVERAL = {
    "a pair across 2 processors": (2, 1, 4_000, 20_000),
    "512 pairs across 16 processors": (texts.MOST_CPUS, MOST_THREADS // 2, 15_200, 48_000),
    "the same, letters under way at the end": (texts.MOST_CPUS, MOST_THREADS // 2, 16_000, 47_600),
}


def cycled(entries, count):
    return list(itertools.islice(itertools.cycle(entries), count))


def lines_of(words):
    """The lines of the trace that a command prints."""
    return output(words)[0].splitlines(keepends=True)


def audited(bench, file, lines):
    """A cell of the instructions of an audited step."""
    return bench.beside(for_each(COUNTED, FIRST), *audits_of(bench, file, lines))


def audits_of(bench, file, lines):
    """The commands that audit the counted steps and the first ones."""
    return [bench.audit(file, lines[:steps]) for steps in (COUNTED, FIRST)]


def turns_of(bench, file, text, entries):
    """The commands of the counted turns and of the first ones: of a run with the report, of one with the trace, and of a replay."""
    runs = [[bench.words(file, text, turns, report) for turns in (COUNTED, FIRST)] for report in (True, False)]
    return [*runs, [bench.replay(file, text, cycled(entries, turns)) for turns in (COUNTED, FIRST)]]


def lines_to_audit(bench, file, text):
    return lines_of(bench.words(file, text, 2 * COUNTED, report=False))


def show_inputs(bench):
    """Of each machine of one processor what a turn takes in a run and in a replay, and what a step takes that is audited."""
    table("Input", "run, report", "run, trace", "replay, trace", "audit")
    count = for_each(COUNTED, FIRST, SPENT)
    for place, (name, (threads, entries)) in enumerate(MACHINES.items()):
        file, text = f"{place}.l4", texts.machine(threads)
        lines = lines_to_audit(bench, file, text)
        cells = [bench.beside(count, *commands) for commands in turns_of(bench, file, text, entries)]
        row(name, *cells, audited(bench, file, lines))


def show_second(bench):
    """The same of each machine of version 2, and in brackets what it takes in version 1, and how much more that is or less."""
    print("\nInstructions: of a machine of version 2, and in brackets of the same in version 1, and the difference.")
    table("Version 2", "run, report", "run, trace", "replay, trace", "audit")
    count = for_each(COUNTED, FIRST, SPENT)
    for place, (name, both) in enumerate(SECOND.items()):
        files = [(f"second-{place}-{version}.l4", text) for version, text in zip((2, 1), both)]
        lines, first_lines = (lines_to_audit(bench, file, text) for file, text in files)
        if lines != first_lines:
            raise SystemExit(f"version 1 has other steps: {name}")
        cells = [beside_first(count, *commands) for commands in zip(*(turns_of(bench, file, text, ["0"]) for file, text in files))]
        row(name, *cells, beside_first(for_each(COUNTED, FIRST), *(audits_of(bench, file, lines) for file, _ in files)))


def beside_first(count, second, first):
    """A cell of what is counted of commands of version 2, of the same of version 1, and the difference."""
    own, before = count(*second), count(*first)
    return f"{own:,.0f} ({before:,.0f}: {own - before:+.1f})"


def show_several(bench):
    """Of each machine of several processors what an entry of a replay takes, and a step that is audited."""
    table("Several processors", "replay, report", "replay, trace", "audit")
    for place, (name, (cpus, pairs, first, counted)) in enumerate(SEVERAL.items()):
        file, text = f"several-{place}.l4", texts.machine(texts.across(pairs, cpus), cpus)
        counts = (counted, first)
        cells = [
            bench.beside(for_each(*counts, SPENT), *(bench.replay(file, text, cycled(range(cpus), turns), report) for turns in counts))
            for report in (True, False)
        ]
        lines = lines_of(bench.replay(file, text, cycled(range(cpus), 2 * COUNTED)))
        row(name, *cells, audited(bench, file, lines))


if __name__ == "__main__":
    measured = Bench(*sys.argv[1:])
    measured.show_cells()
    show_inputs(measured)
    show_second(measured)
    show_several(measured)
