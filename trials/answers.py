"""Compares what an auditor tells of a trace with the second emulator: why a step is not possible,
and which steps are. Prints counts.

The machines and histories are random, as in second.py. Asked are the whole trace of each, a
beginning of it, six times it with one field spoilt, and it with one retarget late.
"""

import collections
import random
import subprocess
import sys

from second import explained, machines, model, randoms, reasons, scripts, traces

SEED = 20_261_126
SPOILT = 6
KINDS = (randoms.General, randoms.HandingOn, randoms.Conflicts, randoms.HandingOn, scripts.Serving, scripts.Turned)


def answer(machine, history):
    """What the program is to print of a history, as far as its steps are possible, and the reason
    against the first that is not."""
    world = model.World(machine)
    for number, step in enumerate(history, 1):
        reason = reasons.first_false(world, step)
        if reason is not None:
            # What tells reasons is not that by which a world takes steps.
            assert not world.is_possible(step), (number, step, reason)
            return f"refused {number}\n" + explained.explanation(world, step), reason
        world.take(*step)
    return f"passed {len(history)}\n" + explained.possible(world), None


class Files:
    """The files that the program reads, and the question that is asked of them."""

    def __init__(self, program, folder, part):
        self.program = program
        self.machine_file = f"{folder}/answers-{part}.l4"
        self.trace_file = f"{folder}/answers-{part}.trace"

    def compare(self, text, trace, expected):
        """Tests that the program prints this of a machine text and a trace. Ends with all that is
        needed to see why, where it prints something else."""
        for name, said in (self.machine_file, text), (self.trace_file, trace):
            with open(name, "w") as file:
                file.write(said)
        words = [self.program, self.machine_file, self.trace_file]
        told = subprocess.run(words, stdout=subprocess.PIPE, stderr=subprocess.STDOUT, text=True)
        if told.returncode or told.stdout != expected:
            sections = [
                ("the machine", text),
                ("the trace", trace),
                ("the program says", told.stdout),
                ("the second emulator says", expected),
            ]
            sys.exit("\n".join(f"{head}:\n{body}" for head, body in sections))


def questions(dice, machine, history):
    """Traces of a history and near it, each with what it is. They may be faulty."""
    trace = traces.text(history)
    yield "whole traces", trace
    yield "beginnings", traces.text(history[: dice.randint(0, len(history))])
    for _ in range(SPOILT if trace else 0):
        yield "spoilt traces", randoms.spoilt(dice, machine, trace)
    late = randoms.retargeted_late(dice, trace)
    if late:
        yield "late retargets", late


def tried(files, dice, kind, counts):
    """Asks all that is asked of a random machine of this kind and a random history of it."""
    text = kind(dice).text()
    machine = machines.read(text)
    _, replay = randoms.random_replay(dice, machine, kind.lengths)
    counts["histories"] += 1
    for what, trace in questions(dice, machine, replay.history):
        try:
            history = traces.read(trace)
        except traces.TraceFault:
            continue
        expected, reason = answer(machine, history)
        files.compare(text, trace, expected)
        counts[what] += 1
        counts["possible steps"] += expected.count("\npossible ")
        if reason is not None:
            counts[f"reason {reason.split()[0]}"] += 1


def main(program, folder, count, part):
    files, dice = Files(program, folder, part), random.Random(SEED + part)
    counts = collections.Counter()
    for number in range(count):
        tried(files, dice, KINDS[number % len(KINDS)], counts)
    for what, number in counts.items():
        print(f"{what}\t{number}")


if __name__ == "__main__":
    main(sys.argv[1], sys.argv[2], int(sys.argv[3]), int(sys.argv[4]))
