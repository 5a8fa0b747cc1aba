"""Runs and replays machines of random scripts, audits each trace, replays each run by its record, and compares what the program says. Prints counts."""

import collections
import pathlib
import random
import re
import shutil
import subprocess
import sys

from second import scripts

sys.path.append(str(pathlib.Path(__file__).resolve().parent.parent / "bench"))

import texts  # noqa: E402

QUIET, SPENT = 0, 3
TURNS = 2_000
SEED = 20_261_123
# So many instructions has a script at most. The sum of all stays far below what a text may have.
MOST_LINES = 12
# One machine of so many is run once more for so many turns, watched for memory that is not given back, where the system has valgrind.
WATCHED = 100
WATCHED_TURNS = 200
# What is written of a send that is decided.
DECISIONS = {"deliver", "stimeout", "snobody", "scancel", "drop"}
# Bit 14 of a delivery's tag: the message came from another processor.
ACROSS = 0x4000
PROFILES = (1, 2)
# How many bits a word has.
FORMATS = (64, 32)
# How often a machine has scripts of version 2.
SECOND = 0.3
# How often a script of each profile hands a message on, in place of another instruction.
HANDS_ON = {1: 0.02, 2: 0.2}


def thread(number):
    return f"{number}.1"


def period(dice):
    return dice.choice(["never", "never", "zero", "5", "0xc03"])


def instruction(dice, threads, bits, lines):
    """A line of a script of so many lines, on a machine of so many threads with words of so many bits."""

    def anybody():
        return thread(dice.randint(1, threads))

    kind = dice.choices(["ipc", "set", "add", "tag", "vs", "exregs", "delete", "jump"], [12, 3, 2, 4, 1, 2, 0.05, 1])[0]
    match kind:
        case "ipc":
            to = dice.choice([anybody(), anybody(), "last", "nil"])
            source = dice.choice(["any", "any", "anylocal", anybody(), "nil"])
            return f"ipc {to} {source} {period(dice)} {period(dice)}"
        case "set" | "add":
            return f"{kind} {dice.randint(1, 63)} {dice.getrandbits(bits)}"
        case "tag":
            return f"tag {dice.choice([0, 1, 7, dice.getrandbits(bits - 16)]) << 16 | dice.choice([0, 0x1000]) | dice.randint(0, 63)}"
        case "vs":
            return f"vs {anybody()}"
        case "exregs":
            return f"exregs {anybody()} {dice.choice(['S', 'R', 'SR'])}"
        case "delete":
            return f"delete {anybody()}"
    return f"jump {dice.randrange(lines)}"


def handed_on(dice, threads):
    """Lines that receive a message, and send one in the name of a thread to another one."""
    originator, receiver = thread(dice.randint(1, threads)), thread(dice.randint(1, threads))
    return ["ipc nil any never never", f"vs {originator}", "tag 0x1000", f"ipc {receiver} nil never never"]


def script(dice, threads, profile, bits):
    """Up to so many lines, and a few more. Most scripts go on for ever."""
    lines, most = [], dice.randint(1, MOST_LINES)
    while len(lines) < most - 1:
        lines += handed_on(dice, threads) if dice.random() < HANDS_ON[profile] else [instruction(dice, threads, bits, most)]
    return lines + ["jump 0" if dice.random() < 0.9 else "end"]


def text(dice, cpus, profile, bits):
    """A machine of this profile, with words of so many bits, of so many processors and up to as many threads as there may be."""
    threads = dice.choice([dice.randint(2, 64), dice.randint(2, texts.MOST_THREADS), texts.MOST_THREADS])
    told = [f"l4 {profile} {bits}\ncpus {cpus}\n"]
    for number in range(1, threads + 1):
        told.append(f"thread {thread(number)} cpu {dice.randrange(cpus)} space {dice.randint(1, 4)}\n")
        told.extend(line + "\n" for line in script(dice, threads, profile, bits))
    return "".join(told)


def schedule(dice, cpus):
    """Turns of all processors, and now and then a tick."""
    items = (f"t{dice.randrange(cpus)}" if dice.random() < 0.05 else f"{dice.randrange(cpus)}" for _ in range(TURNS))
    return ",".join(items)


def done(words, statuses):
    """The status of a command, which is one of these, and what it writes to its output and its faults."""
    told = subprocess.run(words, stdout=subprocess.PIPE, stderr=subprocess.PIPE, text=True)
    if told.returncode not in statuses:
        sys.exit(f"{' '.join(words)}: status {told.returncode}: {told.stderr}")
    return told


def undecided(lines):
    """The sends that were begun and not decided, in order of beginning. None is decided twice, or before it was begun."""
    waiting = {}
    for line in lines:
        words = line.split()
        if words[0] == "begin":
            waiting[words[1]] = True
        elif words[0] in DECISIONS and not waiting.pop(words[1], False):
            sys.exit(f"{line}: nobody has begun that, or it was decided before")
    return list(waiting)


def audited(program, machine, trace, told):
    """Tests that the audit passes each line of what a run or a replay has printed, and where that was quiet, is quiet."""
    with open(trace, "w") as file:
        file.write(told.stdout)
    passed = done([program, "audit", machine, trace], (QUIET,)).stdout.split()
    count = told.stdout.count("\n")
    if passed[:2] != ["passed", str(count)] or told.returncode == QUIET and passed[2] != "quiet":
        sys.exit(f"{' '.join(passed)}: {count} lines")


def compared(told, report):
    """Tests that the report of a replay lists the sends that its trace leaves undecided, and has its ending. Answers how many these are."""
    lines = report.stdout.splitlines()
    waiting = [line.split()[1] for line in lines if line.startswith("waiting ")]
    ending = "ending quiet" if told.returncode == QUIET else "ending spent"
    if waiting != undecided(told.stdout.splitlines()) or lines[-1] != ending or report.returncode != told.returncode:
        sys.exit(f"another report than the trace has: {waiting[:5]}, {lines[-1]}")
    return len(waiting)


def recorded(program, machine, record, told):
    """Tests that the replay of what a run recorded prints and answers what the run did."""
    again = done([program, "replay", machine, "--schedule", f"@{record}"], (told.returncode,))
    if again.stdout != told.stdout:
        sys.exit(f"the replay of {record} is another run")


def watched(words):
    """Tests that the program has given all its memory back when it ends."""
    told = done(["valgrind", "--leak-check=full", *words], (QUIET, SPENT)).stderr
    if not re.search(r"in use at exit: 0 bytes in 0 blocks", told):
        sys.exit(f"{' '.join(words)}: {told}")


def main(program, folder, runs, part):
    machine, trace, record = (f"{folder}/soak-{part}.{kind}" for kind in ("l4", "trace", "list"))
    dice = random.Random(SEED + part)
    counts, different = collections.Counter(), set()
    for number in range(runs):
        cpus, profile, bits = dice.randint(2, texts.MOST_CPUS), dice.choice(PROFILES), dice.choice(FORMATS)
        told = text(dice, cpus, profile, bits)
        if dice.random() < SECOND:
            told = scripts.turned(dice, told)
            counts["machines with scripts of version 2"] += 1
        with open(machine, "w") as file:
            file.write(told)
        run = [program, "run", machine, "--turns", str(TURNS), "--record", record]
        told = done(run, (QUIET, SPENT))
        audited(program, machine, trace, told)
        recorded(program, machine, record, told)
        lines = told.stdout.splitlines()
        counts["sends undecided at the end of a run"] += len(undecided(lines))
        counts["steps of runs"] += len(lines)
        counts["retargets of runs"] += sum(1 for line in lines if line.startswith("retarget "))
        counts["deliveries across processors"] += sum(1 for line in lines if line.startswith("deliver ") and int(line.split()[5], 16) & ACROSS)
        different.add(told.stdout)
        replay = [program, "replay", machine, "--schedule", schedule(dice, cpus)]
        told = done(replay, (QUIET, SPENT))
        audited(program, machine, trace, told)
        counts["steps of replays"] += told.stdout.count("\n")
        counts["sends that reports of replays list"] += compared(told, done([*replay, "--report"], (QUIET, SPENT)))
        counts["runs, each passed and replayed by its record, and as many other replays"] += 1
        if number % WATCHED == 0 and shutil.which("valgrind"):
            watched([program, "run", machine, "--turns", str(WATCHED_TURNS)])
            counts["runs watched, with no memory left at the end"] += 1
    counts["different traces of runs"] = len(different)
    for what, count in counts.items():
        print(f"{what}\t{count}")


if __name__ == "__main__":
    main(sys.argv[1], sys.argv[2], int(sys.argv[3]), int(sys.argv[4]))
