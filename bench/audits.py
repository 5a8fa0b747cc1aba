"""Measures the audit of traces, and prints the table."""

import subprocess
import sys

import texts
from measure import for_each, least_seconds, peak_mebibytes
from tables import Bench, row, table

RUNS = 5
STEPS = 1_000_000
# Instructions are counted, not timed, so fewer steps do.
COUNTED_STEPS = 40_000
MOST_TURNS = 1_000_000

MACHINES = {
    "two that call each other": texts.machine(texts.calling(1, 2)),
    "the same with 63 words": texts.machine(texts.calling(1, 2, 63)),
    "512 such pairs": texts.machine(texts.pairs(texts.MOST_THREADS // 2)),
    "two that wait, each for a time of its own": texts.machine(texts.sleepers(texts.own_times(2))),
    "1,023 that wait, each for a time of its own": texts.machine(texts.sleepers(texts.own_times(texts.MOST_THREADS - 1))),
    "1,023 senders to one receiver": texts.machine(texts.crowd(texts.MOST_THREADS - 1)),
}


def beginnings(bench, name, text):
    """The words that audit the first half of the steps, all of them, and of the counted ones half and all."""
    run = bench.words(f"{name}.l4", text, MOST_TURNS, report=False)
    lines = subprocess.run(run, stdout=subprocess.PIPE).stdout.splitlines(keepends=True)
    assert len(lines) >= STEPS, "the run is too short"
    return [bench.audit(f"{name}.l4", lines[:steps]) for steps in (STEPS // 2, STEPS, COUNTED_STEPS // 2, COUNTED_STEPS)]


def show_audits(bench):
    """Of each machine what a step takes in a trace, and how much longer twice as many take."""
    table("Trace of", "steps a second", "instructions a step", "peak MiB", "doubled: time")
    for place, (name, text) in enumerate(MACHINES.items()):
        half, whole, few, more = beginnings(bench, place, text)
        times = least_seconds([half, whole], RUNS)
        count = bench.beside(for_each(COUNTED_STEPS, COUNTED_STEPS // 2), more, few)
        row(name, f"{STEPS / times[1]:,.0f}", count, f"{peak_mebibytes(whole):.0f}", f"{times[1] / times[0]:.2f}")


if __name__ == "__main__":
    measured = Bench(*sys.argv[1:])
    measured.show_cells()
    show_audits(measured)
