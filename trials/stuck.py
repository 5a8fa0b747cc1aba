"""Compares two ways to find the threads of random machines that are stuck for ever, and with them what `l4run endings --stuck` says, where a program is given. Prints counts.

- A search in the program's order, with the same steps tried alone: the very lines, the history that leads to a stuck thread, standard error and status.
- A search of every step, in which no step is tried alone and two worlds are one only where all but clocks and numbers of sends is equal: the same threads, and no others where the
  first search is cut early.
- The history of each stuck thread is one by the rules, with as many steps as are told, and it waits there.
"""

import collections
import random
import subprocess
import sys

import endings
from second import machines, model, plain, randoms, scripts, traces, worlds

SEED = 20_261_130
KINDS = (randoms.GoingRound, randoms.GoingRound, randoms.Conflicts, randoms.GoingRound, randoms.GoingRound, randoms.HandingOn, randoms.GoingRound, randoms.General, scripts.Serving, scripts.Turned)
# In place of a program: the two ways are compared with each other alone.
NO_PROGRAM = "none"
DEPTH, MOST_WORLDS = 1_000, 1_000
# So many worlds may the search of every step find, which finds no fewer than the other.
MOST_PLAIN = 300
LIMITS = ([], [], ["--states=1"], ["--states=9"], ["--states=40"], ["--depth=1"], ["--depth=4"], ["--depth=12"])
QUESTIONS = ([], [], ["--none"], ["--none"], ["--some"], ["--waits"], ["--with=thread 1.1 ended .."], ["--never=ending quiet", "--none"])
NUMBERS = ("1", "1", "2", "3", "9")


class Differs(Exception):
    """What two ways say of a machine is not the same."""


def need(condition, what):
    if not condition:
        raise Differs(what)


def judge(machine, dice, counts):
    """Compares the threads that both name, and takes the history of each."""
    every = plain.stuck(machine, MOST_PLAIN)
    if every is None:
        counts["machines with too many worlds to try every step"] += 1
        return
    whole = worlds.stuck(machine, DEPTH, MOST_WORLDS, worlds.Reduction(machine))
    cut = worlds.stuck(machine, dice.randint(1, 12), dice.randint(1, 60), worlds.Reduction(machine))
    need(whole.is_whole and named(whole) == every, f"stuck for ever: {named(whole)}, by every step {every}")
    need(named(cut) <= every, f"stuck for ever, where the search is cut: {named(cut)}, by every step {every}")
    counts["machines whose every step was tried"] += 1
    counts["machines with a stuck thread"] += bool(every)
    counts["stuck threads"] += len(every)
    counts["searches that were cut"] += not cut.is_whole
    counts["stuck threads of these"] += 0 if cut.is_whole else len(cut.threads)
    for thread, found in whole.threads + cut.threads:
        judge_history(machine, thread, found, counts)


def named(stuck):
    return {thread for thread, _ in stuck.threads}


def judge_history(machine, thread, found, counts):
    history = found.history()
    world = model.world_of(machine, history)
    need(worlds.wait_of(world.members[thread]), "a stuck thread waits")
    need(len(history) - traces.count("tick", history) == found.steps, "the number of steps")
    counts["histories of stuck threads"] += 1


def questions(dice, threads):
    """Of each machine all is asked that is stuck, and two more things: some of its threads may rest."""
    yield ["--stuck", f"--depth={DEPTH}", f"--states={MOST_WORLDS}"]
    yield ["--stuck", *rests(dice, threads), f"--trace={dice.choice(NUMBERS)}", f"--depth={DEPTH}", f"--states={MOST_WORLDS}"]
    limit = dice.choice(LIMITS)
    yield ["--stuck", *rests(dice, threads), *dice.choice(QUESTIONS), *(limit or [f"--states={MOST_WORLDS}"])]


def rests(dice, threads):
    return dice.choice([[], [f"--rests={endings.some_of(dice, threads)}"]])


def same_lines(program, file, text, words, counts):
    told = subprocess.run([program, "endings", file, *words], stdout=subprocess.PIPE, stderr=subprocess.PIPE, text=True)
    wanted = endings.full_answer(text, endings.question([file, *words]), [])
    said = (told.stdout, told.stderr, told.returncode)
    need(said == wanted, f"{words}\nthe program says, {told.returncode}:\n{told.stdout}{told.stderr}the second emulator says, {wanted[-1]}:\n{wanted[0]}{wanted[1]}")
    counts[f"answers with status {told.returncode}"] += 1
    counts["lines of stuck threads"] += told.stdout.count("for ever, steps")
    counts["answers that are cut"] += "stuck for ever: cut" in told.stdout
    counts["answers where some may rest"] += any(word.startswith("--rests") for word in words)
    counts["traces"] += not told.returncode and any(word.startswith("--trace") for word in words)


def main(program, folder, count, part):
    dice, counts = random.Random(SEED + part), collections.Counter()
    file = f"{folder}/stuck-{part}.l4"
    for number in range(count):
        text = KINDS[number % len(KINDS)](dice).text()
        machine = machines.read(text)
        counts[f"machines of profile {machine.profile}, {machine.format.bits} bits"] += 1
        counts["machines that go round"] += "jump " in text
        try:
            judge(machine, dice, counts)
            if program != NO_PROGRAM:
                with open(file, "w") as machine_file:
                    machine_file.write(text)
                for words in questions(dice, list(machine.threads)):
                    same_lines(program, file, text, words, counts)
        except Differs as differs:
            sys.exit(f"{differs}, the machine:\n{text}")
    for what, number in counts.items():
        print(f"{what}\t{number}")


if __name__ == "__main__":
    main(sys.argv[1], sys.argv[2], int(sys.argv[3]), int(sys.argv[4]))
