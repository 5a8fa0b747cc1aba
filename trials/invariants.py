"""Compares two ways to find out whether a world on the way of some history of random machines meets a condition of lines, and with them what `l4run endings --always` says, where a
program is given. Prints counts.

- A search that tries a step alone only where the condition does not see it and where it does not lead back, against one that tries every step and in which two worlds are one only
  where all but clocks and numbers of sends is equal: the same answer, and no fewer steps than the fewest.
- The history of the world that is told is one by the rules, with as many steps as are told, and the condition is met behind it.
- A search that leaves something out misses a world: of one text for each such thing, and of random machines as many as are counted.
- The program's lines and status, and the trace of its history, are those of a search in its order.
"""

import collections
import math
import random
import subprocess
import sys

import endings
from second import invariants, machines, model, plain, randoms, scripts, traces, worlds
from second.expectations import split_lines
from second.invariants import Condition, LeftOut

SEED = 20_261_129
KINDS = (randoms.GoingRound, randoms.GoingRound, randoms.Conflicts, randoms.GoingRound, randoms.GoingRound, randoms.HandingOn, randoms.GoingRound, randoms.General, scripts.Serving, scripts.Turned)
DEPTH, MOST_WORLDS = 1_000, 2_000
# So many worlds may the search of every step find.
MOST_PLAIN = 300
CONDITIONS = 6
# In place of a program: the two ways are compared with each other alone.
NO_PROGRAM = "none"
LIMITS = ((DEPTH, MOST_WORLDS), (DEPTH, MOST_WORLDS), (DEPTH, 1), (DEPTH, 9), (DEPTH, 40), (1, MOST_WORLDS), (4, MOST_WORLDS), (12, 60))
# How many steps a walk takes to the world whose lines are asked for.
WALK_STEPS = 12

TWO = "l4 1 64\ncpus 2\nthread 1.1 cpu 0 space 1\n{0}\nthread 2.1 cpu 1 space 1\n{1}\n"
# Of each thing that may be left out a text and a condition, which only a search finds that does not leave it out.
MISSED = {
    LeftOut.VISIBILITY: (TWO.format("set 1 1\nset 1 0", "set 1 1\nset 1 0"), ["thread 1.1 ready 0 nil nil 0 1", "thread 2.1 ready 0 nil nil 0 1"]),
    LeftOut.SENDERS: (TWO.format("vs 2.1\nvs 1.1", "vs 1.1\nvs 2.1"), ["thread 1.1 * * * 2.1 ..", "thread 2.1 * * * 1.1 .."]),
    LeftOut.PROVISO: (TWO.format("jump 0", "set 1 1"), ["thread 2.1 * * * * * 1 .."]),
    LeftOut.OPENING: (TWO.format("set 1 1", "set 1 1"), ["thread 1.1 ready 0 nil nil 0", "thread 2.1 ready 0 nil nil 0"]),
    LeftOut.ENDINGS: (TWO.format("set 1 1", "set 1 1"), ["thread 1.1 ended ..", "thread 2.1 ended .."]),
}


# Two threads that hold a lock by turns, each while its MR1 is 1, and one that gives itself back.
HOLDER = "thread {0} cpu 0 space 1\nipc 11.1 nil never never\nset 1 1\nset 1 0\nipc 12.1 nil never never\n"
LOCK = f"l4 1 64\ncpus 1\n{HOLDER.format('1.1')}{HOLDER.format('2.1')}thread 11.1 cpu 0 space 1\nipc nil any never never\nipc nil 12.1 never never\njump 0\n" + (
    "thread 12.1 cpu 0 space 1\nipc nil any never never\nipc 11.1 nil never never\njump 0\n"
)
BROKEN_LOCK = LOCK.replace("ipc nil 12.1 never never", "ipc nil any never never")
BOTH_HOLD = ["thread 1.1 * * * * * 1 ..", "thread 2.1 * * * * * 1 .."]


class Differs(Exception):
    """What two ways say of a machine is not the same."""


def need(condition, what):
    if not condition:
        raise Differs(what)


# Conditions


def condition_lines(dice, machine):
    """One line or two, of the worlds that random walks come to. So they may be met at once, or not."""
    return [line(dice, walk(dice, machine)) for _ in range(dice.choice([1, 2, 2, 3, 3, 4]))]


def walk(dice, machine):
    world = model.World(machine)
    for _ in range(dice.randint(0, WALK_STEPS)):
        steps = worlds.possible(world)
        if not steps:
            break
        world = worlds.after(world, [*worlds.ticks(world), dice.choice(steps)])
    return world


def line(dice, world):
    """A line of a report with some words left open, that may be asked for."""
    while True:
        told = dice.choice(split_lines(world.report(at_rest=False))[:-1])
        asked = [told[0] if dice.random() < 0.95 else "*", opened(dice, told[1]), *(word if dice.random() < 0.4 else "*" for word in told[2:])]
        if dice.random() < 0.7:
            asked = [*asked[: dice.randint(2, len(asked))], ".."]
        if endings.may_be_asked(" ".join(asked)):
            return " ".join(asked)


def opened(dice, name):
    if "#" in name:
        name = name.partition("#")[0] + "#*"
    return name if dice.random() < 0.8 else "*"


# Comparisons


def judge(machine, lines, dice, counts):
    condition = Condition(lines)
    least = plain.least_to(machine, MOST_PLAIN, condition.is_met)
    if least is None:
        counts["conditions with too many worlds to try every step"] += 1
        return
    answer = invariants.search(machine, condition, DEPTH, MOST_WORLDS)
    if not answer.is_whole and not answer.met:
        need(least < math.inf, "a search is cut only where the other ended early")
        counts["conditions whose search was cut"] += 1
        return
    need(bool(answer.met) == (least < math.inf), f"met: {bool(answer.met)}, by every step {least}")
    counts["conditions"] += 1
    if answer.met:
        judge_history(machine, condition, answer.met, least, counts)
    else:
        counts["conditions that are never met"] += 1
        counts["worlds of these"] += answer.count
    cut = invariants.search(machine, condition, dice.randint(1, 8), dice.randint(1, 30))
    need(not cut.met or least < math.inf, "met, where the search is cut")
    need(not cut.is_whole or least == math.inf, "never met, where the search is whole")
    for thing in LeftOut:
        wrong = invariants.search(machine, condition, DEPTH, MOST_WORLDS, {thing})
        counts[f"conditions that are missed without {thing.value}"] += bool(answer.met) and wrong.is_whole


def judge_history(machine, condition, found, least, counts):
    history = found.history()
    world = model.world_of(machine, history)
    need(condition.is_met(world), "the condition is met behind the history")
    need(len(history) - traces.count("tick", history) == found.steps, "the number of steps")
    need(found.steps >= least, "the fewest steps")
    counts["conditions that are met"] += 1
    counts["of these by more steps than the fewest"] += found.steps > least


def judge_missed(counts):
    """A search that leaves something out misses the world."""
    for thing, (text, lines) in MISSED.items():
        machine, condition = machines.read(text), Condition(lines)
        need(invariants.search(machine, condition, DEPTH, MOST_WORLDS).met, f"met: {lines}")
        need(invariants.search(machine, condition, DEPTH, MOST_WORLDS, {thing}).is_whole, f"missed without {thing.value}")
        counts["texts whose world is missed by a wrong search"] += 1


def judge_lock(counts):
    """Nobody holds a lock at once with somebody else, unless it is broken."""
    condition = Condition(BOTH_HOLD)
    whole, broken = machines.read(LOCK), machines.read(BROKEN_LOCK)
    answer = invariants.search(whole, condition, DEPTH, MOST_WORLDS)
    every = invariants.WholeSearch(whole, condition).go(DEPTH, MOST_WORLDS)
    need(answer.is_whole and every.is_whole, "a lock is held by one")
    met = invariants.search(broken, condition, DEPTH, MOST_WORLDS).met
    nearest = invariants.WholeSearch(broken, condition).go(DEPTH, MOST_WORLDS).met
    need(met and nearest and condition.is_met(model.world_of(broken, met.history())), "a broken lock is held by two")
    counts["worlds of a lock"] += answer.count
    counts["worlds of a lock by every step"] += every.count
    counts["steps to two holders of a broken lock"] += met.steps
    counts["steps to two holders of a broken lock by every step"] += nearest.steps


def same_lines(program, file, machine, lines, dice, counts):
    depth, most = dice.choice(LIMITS)
    verdict = invariants.verdict(machine, Condition(lines), depth, most)
    asked = [f"--always=never {' & '.join(lines)}", f"--depth={depth}", f"--states={most}"]
    same_answer(program, [file, *asked], verdict.lines, "", verdict.status)
    if verdict.history is None:
        same_answer(program, [file, *asked, "--trace=1"], "", "l4run: ending out of range\n", 1)
    else:
        same_answer(program, [file, *asked, "--trace=1"], traces.text(verdict.history), "", 0)
    counts[f"answers with status {verdict.status}"] += 1
    counts["answers with perhaps fewer steps"] += "or fewer" in verdict.lines


def same_answer(program, words, *wanted):
    answer = subprocess.run([program, "endings", *words], stdout=subprocess.PIPE, stderr=subprocess.PIPE, text=True)
    said = answer.stdout, answer.stderr, answer.returncode
    need(said == wanted, f"{words}\nthe program says, {said[-1]}:\n{said[0]}{said[1]}the second emulator says, {wanted[-1]}:\n{wanted[0]}{wanted[1]}")


def main(program, folder, count, part):
    dice, counts = random.Random(SEED + part), collections.Counter()
    file = f"{folder}/always-{part}.l4"
    if part == 1:
        judge_missed(counts)
        judge_lock(counts)
    for number in range(count):
        text = KINDS[number % len(KINDS)](dice).text()
        machine = machines.read(text)
        counts[f"machines of profile {machine.profile}, {machine.format.bits} bits"] += 1
        with open(file, "w") as machine_file:
            machine_file.write(text)
        for _ in range(CONDITIONS):
            lines = condition_lines(dice, machine)
            try:
                judge(machine, lines, dice, counts)
                if program != NO_PROGRAM:
                    same_lines(program, file, machine, lines, dice, counts)
            except Differs as differs:
                sys.exit(f"{differs}, never {' & '.join(lines)}, the machine:\n{text}")
    for what, number in counts.items():
        print(f"{what}\t{number}")


if __name__ == "__main__":
    main(sys.argv[1], sys.argv[2], int(sys.argv[3]), int(sys.argv[4]))
