"""Prints what `l4run endings` says of a machine, as a second emulator finds it, and ends with the same status.

    python3 -B trials/endings.py FILE [--placed] [--depth N] [--states N] [--memory N] [--stuck [--rests LIST]] [--with LINE] [--never LINE] [--none or --some] [--waits] [--expect NAME]
    python3 -B trials/endings.py FILE --always 'never LINE & LINE' [--depth N] [--states N] [--memory N]
    python3 -B trials/endings.py FILE --trace N [..]

Each ending, a world in which nothing but clocks can go on, is printed once with its report, the shortest first: whatever the scheduler does and whatever time passes, with the
number of steps that lead there, ticks not counted; or with --placed of core runs whose ticks go to the least deadline of their processor, with a shortest schedule: the first
by the choices of persistent sets. The last line says how many worlds or states were looked at, how deep all were found, and whether there are no more. --trace prints the trace of one ending in place of all
else. With --stuck, but with neither --placed, --with nor --never, a line behind the endings tells of each thread that may be stuck for ever, and --trace counts these on. With
--waits who waits for whom stands behind each report. What of NAME an ending does not meet is told on standard error. With --always it is asked in place of endings whether a world on
the way meets a condition; --trace 1 prints the history that is told of it. Faults but that of --trace are not told as the program tells them.
"""

import argparse
import functools
import pathlib
import sys

from second import expectations, invariants, machines, model, searches, sets, traces, waits, words, worlds
from second.expectations import ANY_WORD, ANY_WORDS, fits, is_name, split_lines

DEPTH, STATES, MEMORY = 1_000, 1_000_000, 2_048
DEEPEST, MOST_STATES, MOST_MEMORY = 1_000_000, 100_000_000, 1_048_576
MIB, STATE_BYTES, THREAD_BYTES = 1_048_576, 128, 8
WHOLE, FAULT, USAGE, CUT, FOUND, UNMET, MISSED = 0, 1, 2, 3, 4, 4, 4
OPEN = (words.ANY, words.ANY_LOCAL)
BEGINNINGS = ("thread", "waiting", "ending", ANY_WORD)
NEVER = "never "
OUT_OF_RANGE = "l4run: ending out of range\n"
ENDLESS = "no ending: it goes on for ever\n"


class Ending:
    """A world in which nothing but clocks can go on, its history, and what stands behind its number."""

    def __init__(self, machine, history, shown):
        self.shown = shown
        self.history = history
        self.world = model.world_of(machine, history)
        self.report = self.world.report(at_rest=True)

    def head(self, number):
        return f"ending {number} {self.shown}".rstrip(" ") + "\n"

    def text(self, number, with_waits=False):
        behind = waits.waits_text(self.world) if with_waits else ""
        return self.head(number) + self.report + behind

    def unmet(self, number, expected):
        """What of a text of expectations it does not meet, behind its first line."""
        told = expectations.unmet_text(expected, self.report)
        return told and self.head(number) + told

    def stuck(self):
        """The threads that are stuck there: a send of theirs is undecided, or they receive from one thread alone."""
        closed = {thread for thread, member in self.world.members.items() if is_closed(member)}
        return closed | {name.thread for name in self.world.sends}

    def has_line(self, asked):
        return any(fits(asked.split(" "), words) for words in split_lines(self.report))


def is_closed(member):
    """Whether a thread receives from one thread alone."""
    return member.receives() and member.source not in OPEN


def may_be_asked(line):
    """Whether a report may have such a line, and it asks for no register of a deleted thread and for no number of a send."""
    first, *others = line.split(" ")
    if first not in BEGINNINGS:
        return False
    if first in ("waiting", ANY_WORD) and others and is_name(others[0]):
        return False
    may_be_deleted = first in ("thread", ANY_WORD) and len(others) > 1 and others[1] in ("deleted", ANY_WORD)
    return not may_be_deleted or others[2:] == [ANY_WORDS]


def is_asked(asked, ending):
    return (
        (not asked.stuck or bool(ending.stuck() - asked.rests))
        and (asked.with_line is None or ending.has_line(asked.with_line))
        and (asked.never is None or not ending.has_line(asked.never))
    )


NO_STUCK = worlds.Stuck([], True)


class Found:
    """What a search found: all endings, the lines behind them, whether there are no more, and which threads are stuck for ever: these are looked for where they are asked for."""

    def __init__(self, endings, last, is_whole, look_for_stuck):
        self.endings = endings
        self.last = last
        self.is_whole = is_whole
        self.look_for_stuck = look_for_stuck

    @functools.cached_property
    def stuck(self):
        return self.look_for_stuck()

    def stuck_by(self, asked):
        """None of the threads that may rest, and none at all where an ending is asked for by a line."""
        if not asked.stuck or asked.with_line is not None or asked.never is not None:
            return NO_STUCK
        return worlds.Stuck([(thread, found) for thread, found in self.stuck.threads if thread not in asked.rests], self.stuck.is_whole)


def stuck_text(stuck):
    lines = [f"stuck {words.spelled(thread)} for ever, steps {found.steps}\n" for thread, found in stuck.threads]
    return "".join(lines) + ("" if stuck.is_whole else "stuck for ever: cut\n")


def most_looked(machine, asked):
    """How many worlds or states a search looks at at most: no more than the memory is counted for."""
    return min(asked.states, asked.memory * MIB // (STATE_BYTES + THREAD_BYTES * len(machine.threads)))


def found_placed(machine, asked, chooser):
    found = searches.search(machine, asked.depth, most_looked(machine, asked), chooser)
    endings = [Ending(machine, searches.walk(machine, state.choices).history, ",".join(map(str, state.choices))) for state in found.endings()]
    last = f"states {len(found.states)} depth {found.depth} {whole_of_placed(machine) if found.is_whole else 'cut'}\n"
    return Found(endings, last, found.is_whole, lambda: NO_STUCK)


def whole_of_placed(machine):
    """What a whole search of placed threads knows of: runs whose ticks go to least deadlines, and in which threads of one processor take turns in one order."""
    cpus = [declaration.cpu for declaration in machine.threads.values()]
    return "whole, least ticks" + (", in turn" if len(set(cpus)) < len(cpus) else "")


def found_anywhere(machine, asked):
    limits = asked.depth, most_looked(machine, asked), worlds.Reduction(machine)
    found = worlds.search(machine, *limits)
    endings = [Ending(machine, ending.history(), f"steps {ending.steps}") for ending in found.endings()]
    last = "" if endings or not found.is_whole else ENDLESS
    last += f"worlds {len(found.worlds)} steps {found.steps} {'whole' if found.is_whole else 'cut'}\n"
    return Found(endings, last, found.is_whole, lambda: worlds.stuck(machine, *limits))


def answer(text, asked):
    """The lines that answer a question, and the exit status."""
    lines, _, status = full_answer(text, asked, [])
    return lines, status


def full_answer(text, asked, expected):
    """The lines that answer a question, those of standard error, and the exit status."""
    if asked.always is not None:
        return verdict_of(machines.read(text), asked)
    return answer_of(found_in(text, asked), asked, expected)


def verdict_of(machine, asked):
    verdict = invariants.verdict(machine, invariants.Condition(asked.always), asked.depth, most_looked(machine, asked))
    if asked.trace is not None:
        return trace_answer([] if verdict.history is None else [verdict.history], asked.trace)
    return verdict.lines, "", verdict.status


def found_in(text, asked):
    machine = machines.read(text)
    return found_placed(machine, asked, sets.Sets(machine)) if asked.placed else found_anywhere(machine, asked)


def whole_answer(text, asked):
    """The lines that answer a question about placed endings by a search of all choices, and the exit status."""
    machine = machines.read(text)
    lines, _, status = answer_of(found_placed(machine, asked, sets.All()), asked, [])
    return lines, status


def faulty_line(asked):
    """The fault of the first line that is asked for which no report of an ending can have, or None."""
    lines = [line for line in (asked.with_line, asked.never) if line is not None]
    kinds = [(number, expectations.kind_of(line.split(" "), of_endings=True)) for number, line in enumerate(lines, 1)]
    return next((f"l4run: condition line {number}: {kind}\n" for number, kind in kinds if kind), None)


def answer_of(found, asked, expected):
    if fault := faulty_line(asked):
        return "", fault, FAULT
    endings, stuck = [ending for ending in found.endings if is_asked(asked, ending)], found.stuck_by(asked)
    if asked.trace is not None:
        return trace_answer([ending.history for ending in endings] + [place.history() for _, place in stuck.threads], asked.trace)
    lines = "".join(ending.text(number, asked.waits) for number, ending in enumerate(endings, 1))
    unmet = "".join(ending.unmet(number, expected) for number, ending in enumerate(endings, 1))
    return lines + stuck_text(stuck) + found.last, unmet, UNMET if unmet else status_of(asked, endings, stuck, found.is_whole)


def trace_answer(histories, number):
    if not 1 <= number <= len(histories):
        return "", OUT_OF_RANGE, FAULT
    return traces.text(histories[number - 1]), "", WHOLE


def status_of(asked, endings, stuck, is_whole):
    if asked.none and (endings or stuck.threads):
        return FOUND
    if asked.some and endings:
        return WHOLE
    if asked.some and is_whole:
        return MISSED
    return WHOLE if is_whole and stuck.is_whole else CUT


def number_to(most):
    def number(word):
        value = int(word)
        if not 1 <= value <= most:
            raise argparse.ArgumentTypeError("out of range")
        return value

    return number


def line(word):
    if not may_be_asked(word):
        raise argparse.ArgumentTypeError("no line that may be asked for")
    return word


def rests(word):
    """The threads of a list, by their ids."""
    return frozenset(words.global_id(*map(int, item.split("."))) for item in word.split(","))


def some_of(dice, threads):
    """A list of some of these threads."""
    return ",".join(map(words.spelled, dice.sample(threads, dice.randint(1, len(threads)))))


def condition(word):
    """The lines of a condition."""
    if not word.startswith(NEVER):
        raise argparse.ArgumentTypeError("no condition")
    return [line(part) for part in word[len(NEVER) :].split(" & ")]


def question(arguments):
    reader = argparse.ArgumentParser()
    reader.add_argument("file", type=pathlib.Path)
    reader.add_argument("--depth", type=number_to(DEEPEST), default=DEPTH)
    reader.add_argument("--states", type=number_to(MOST_STATES), default=STATES)
    reader.add_argument("--memory", type=number_to(MOST_MEMORY), default=MEMORY)
    reader.add_argument("--stuck", action="store_true")
    reader.add_argument("--rests", type=rests, default=frozenset())
    reader.add_argument("--with", type=line, dest="with_line")
    reader.add_argument("--never", type=line)
    reader.add_argument("--none", action="store_true")
    reader.add_argument("--some", action="store_true")
    reader.add_argument("--placed", action="store_true")
    reader.add_argument("--always", type=condition)
    reader.add_argument("--trace", type=int)
    reader.add_argument("--waits", action="store_true")
    reader.add_argument("--expect", type=pathlib.Path)
    return reader.parse_args(arguments)


def endings(text, depth, most):
    """All endings of a machine whose threads are placed, by a search as deep as this among as many states."""
    return answer(text, question(["FILE", "--placed", f"--depth={depth}", f"--states={most}"]))[0]


def main(arguments):
    asked = question(arguments)
    expected = expectations.read(asked.expect.read_bytes(), of_endings=True) if asked.expect else []
    lines, unmet, status = full_answer(asked.file.read_text(), asked, expected)
    sys.stdout.write(lines)
    sys.stdout.flush()
    sys.stderr.write(unmet)
    return status


if __name__ == "__main__":
    sys.exit(main(sys.argv[1:]))
