"""Gives the program machine texts, traces, schedules and expectations that somebody spoilt, has spoilt texts and lists linted and spoilt traces drawn,
records runs and replays, goes on behind schedules, asks what may happen behind them and for endings, has all that told as objects of JSON, and judges its
status and its lines."""

import collections
import os
import random
import re
import subprocess
import sys

import json_lines
from second import scripts

SEED = 20_261_124
TURNS = "300"
# How far it is is told after so many of each.
PROGRESS = 5_000
KINDS = "BadLine|BadNumber|BadId|BadName|BadCpu|TypedItems|DoubleId|TooManyThreads|TooManyInstructions|BadTarget|TooLong"
FAULTS = re.compile(rf"l4run: (line \d+: (?:{KINDS})|schedule item \d+|(?:turns|depth|states|memory|ending) out of range|(?:expectation|condition) line \d+: (?:BadLine|Unknown|BadWord|Deleted|Number)|trace line \d+|threads item \d+|refused at step \d+)\n")
# A line for each fault of a text, or for each doubt, and one for each thread that waits, each circle, each held send and each thread's counts.
LINT = re.compile(rf"line (\d+) column \d+: ({KINDS})(?:: `[ -~]*`)?: [ -~]+".encode())
DOUBT = re.compile(rb"line \d+ column \d+: (?:always|perhaps): `[ -~]*`: [ -~]+")
BEHIND = rb"(?:waits \S+ \S+ (?:send|receive)\n)*(?:(?:circle|deadlock)(?: \S+)+\n)*(?:held \S+\n)*(?:counts \S+ turns \d+ sends \d+ delivered \d+ received \d+ refused(?: [2-7]:\d+){6}\n)*"
PASSED = re.compile(rb"passed \d+ (?:quiet|spent)\n" + BEHIND)
ENDINGS = re.compile(rb"(^|\n)(worlds \d+ steps \d+ (whole|cut)|states \d+ depth \d+ (whole, least ticks(, in turn)?|cut))\n$")
ITEM = re.compile(rb"schedule item (\d+): (?:`[ -~]*`: )?[ -~]+")
# Each item that may be next, with the steps that it would tell.
NEXTS = re.compile(rb"(?:next (?:\d+:\d+|[ct]\d+)\n(?:(?!next )[^\n]+\n){0,3})*")
# What a report does not meet, and which ending that is of.
UNMET = re.compile(r"(?:(?:ending \d+ (?:steps \d+|\S*)|line \d+: (?:wanted|never): [ -~]+; found: [ -~]+)\n)+")
QUIET, FAULT, USAGE, SPENT, FOUND = 0, 1, 2, 3, 4

NUMBERS = ["0", "1", "63", "64", "15", "16", "17", "0x3f", "18446744073709551615", "18446744073709551616", "4294967296", "-1", "0x", "00", "1.", ""]
WORDS = ["never", "zero", "nil", "any", "anylocal", "last", "S", "R", "SR", "1.1", "2.1", "3.65", "1.64", "1.0", "#0000000000000001", "#00004001", "262143.16383", ";", "cpu", "end", "tick", "retarget"]
# Words of version 2.
SECOND_WORDS = [
    "2", "mr0", "mr32", "mr63", "mr64", "mr", "mr01", "from", "onlabel", "onword", "onfrom", "name", "as", "to", "last", "5us", "9ms", "0s", "2s", "us", "again0", "again0:", "ann0", "ann0:",
    ":", "1:", "last:", "thread:", "n" * 31, "n" * 32, "n" * 31 + ":",
]
# How often a machine has scripts of version 2.
SECOND = 0.4
BYTES = [0, 9, 10, 13, 32, 59, 127, 128, 255]
# The items of schedules.
ITEMS = [
    *["0"] * 3, "1", "2", "t0", "t1", "t2", "15", "t15", "c0", "c1", "c15", "0:1", "1:0", "1:1", "0:15", "t0:1", "t0:24", "t1:4611686018427387903", "t0:0",
]


def machine(dice):
    """A small machine, most of whose threads talk."""
    threads, cpus = dice.randint(1, 5), dice.choice([1, 1, 2, 3, 16])
    profile, bits = dice.choice([1, 2]), dice.choice([64, 32])
    lines = [f"l4 {profile} {bits}", f"cpus {cpus}"]

    def thread():
        return f"{dice.randint(1, threads)}.1"

    for number in range(1, threads + 1):
        lines.append(f"thread {number}.1 cpu {dice.randrange(cpus)} space {dice.randint(1, 2)}")
        script = dice.randint(0, 6)
        for _ in range(script):
            lines.append(dice.choice([
                f"ipc {thread()} nil {dice.choice(['never', 'zero', '3'])} never",
                f"ipc nil {dice.choice(['any', 'anylocal', thread()])} never {dice.choice(['never', 'zero', '4'])}",
                f"ipc {thread()} {thread()} never 5",
                "ipc last any never never",
                f"{dice.choice(['set', 'add'])} {dice.randint(1, 63)} {dice.getrandbits(bits)}",
                f"tag {dice.randint(0, 9) << 16 | dice.choice([0, 0x1000]) | dice.randint(0, 5)}",
                f"exregs {thread()} {dice.choice(['S', 'R', 'SR'])}",
                f"delete {thread()}",
                f"vs {thread()}",
                f"jump {dice.randrange(script)}",
            ]))
    text = "\n".join(lines) + "\n"
    return scripts.turned(dice, text) if dice.random() < SECOND else text


def spoilt(dice, told):
    """The same bytes with some of them, or some words or lines, changed, cut, doubled or exchanged."""
    told = bytearray(told)
    for _ in range(dice.choice([1, 1, 1, 2, 5])):
        if not told:
            break
        match dice.randrange(7):
            case 0:
                told[dice.randrange(len(told))] = dice.choice(BYTES + [dice.randrange(256)])
            case 1:
                del told[dice.randrange(len(told)) :]
            case 2:
                at = dice.randrange(len(told))
                del told[at : at + dice.randint(1, 8)]
            case 3:
                told.insert(dice.randrange(len(told)), dice.choice(BYTES))
            case 4:
                lines = told.split(b"\n")
                a, b = dice.randrange(len(lines)), dice.randrange(len(lines))
                lines[a], lines[b] = lines[b], lines[a]
                told = bytearray(b"\n".join(lines))
            case 5:
                lines = told.split(b"\n")
                at = dice.randrange(len(lines))
                lines.insert(at, lines[at])
                told = bytearray(b"\n".join(lines))
            case 6:
                words = re.split(rb"([ \n])", bytes(told))
                words[dice.randrange(len(words))] = dice.choice(NUMBERS + WORDS + SECOND_WORDS).encode()
                told = bytearray(b"".join(words))
    return bytes(told)


def schedule(dice):
    items = [dice.choice(ITEMS) for _ in range(dice.randint(0, 40))]
    told = ",".join(items).encode()
    if dice.random() < 0.5:
        told = spoilt(dice, told).replace(b"\0", b"").decode("utf-8", "ignore").encode()
    return told.decode()


def list_file(dice):
    """The text of a file with a schedule: items with blanks around them, comments, and what was spoilt of it."""
    items = [dice.choice(ITEMS) + dice.choice(["", "", " ", "\n", "\t", "\r\n"]) for _ in range(dice.randint(0, 40))]
    told = ",".join(items)
    if dice.random() < 0.5:
        told = "; a list\n" + told
    return spoilt(dice, told.encode()) if dice.random() < 0.5 else told.encode()


def question(dice):
    """The words behind `endings FILE`."""
    words = [f"--depth={dice.choice([0, 1, 3, 6, 6, 6, 1000001])}", f"--states={dice.choice([0, 1, 50, 200, 200, 200, 100000001])}"]
    if dice.random() < 0.2:
        words.append(f"--memory={dice.choice([0, 1, 1, 2048, 1048576, 1048577])}")
    for name in ("--with", "--never"):
        if dice.random() < 0.3:
            line = dice.choice(["thread 1.1 *", "thread * ended ..", "waiting ..", "thread 1.1 deleted 0", "ending quiet", "thread 2.1 sending 0 nil nil 0", "..", ""])
            words.append(f"{name}=" + spoilt(dice, line.encode()).replace(b"\0", b"").decode("utf-8", "ignore"))
    words += [name for name in ("--stuck", "--placed") if dice.random() < 0.3]
    if dice.random() < 0.2:
        words.append(f"--rests={dice.choice(['1.1', '2.1,1.1', '1.1,', '9.9', '1.1,1.1', ''])}")
    return words + dice.choice([[], [], ["--none"], ["--some"], ["--none", "--some"]])


def ending_audited(program, name, trace, dice, seen):
    """The trace of an ending passes its audit."""
    told = judged([program, "endings", name, "--depth=20", "--states=200", f"--trace={dice.choice([0, 1, 1, 2, 2**64 - 1])}"], seen, lambda out: True)
    if told is not None:
        write(trace, told)
        judged([program, "audit", name, trace], seen, re.compile(rb"passed \d+ quiet\n").fullmatch)


def goes_on(program, name, items, dice, seen):
    """What may happen next is told, and a replay of one of these items behind the list adds the steps that are told of it."""
    told = judged([program, "replay", name, "--schedule=" + items, "--next"], seen, NEXTS.fullmatch)
    if not told:
        return
    item, _, steps = dice.choice(told.decode().split("next ")[1:]).partition("\n")
    trace, longer = (judged([program, "replay", name, "--schedule=" + told], collections.Counter(), lambda out: True) for told in (items, f"{items},{item}".lstrip(",")))
    if longer != trace + steps.encode():
        sys.exit(f"{name} --schedule={items}: the replay of {item} behind it tells other steps than --next")


def held(program, name, dice, seen):
    """A session answers lines that nobody meant, and a replay of the list that it tells has the report that it tells."""
    asked = [*ITEMS, *["1"] * 9, "2", "3", "back", "back 2", "back 1000001", "next", "state", "chart", "record", "help", "", "rest", "1 2", "-1"]
    lines = "\n".join(dice.choice(asked) for _ in range(dice.randint(0, 20))).encode()
    lines = spoilt(dice, lines) if dice.random() < 0.3 else lines
    told = subprocess.run([program, "step", name], input=lines + b"\nrecord\nstate\n", capture_output=True)
    if told.stderr or told.returncode != QUIET:
        sys.exit(f"step {name} with {lines}: status {told.returncode}: {told.stderr}")
    before = subprocess.run([program, "step", name], input=lines + b"\n", capture_output=True).stdout
    items, _, report = told.stdout[len(before) :].decode().partition("\n")
    again = subprocess.run([program, "replay", name, "--schedule=" + items, "--report"], capture_output=True)
    if not told.stdout.startswith(before) or again.stdout != report.encode():
        sys.exit(f"step {name} with {lines}: the replay of {items} has another report")
    seen[f"{min(len(items.split(',')), 3) if items else 0} entries"] += 1


def recorded(program, words, name, listed, seen):
    """What is recorded is replayed as the same."""
    told = judged([program, *words, "--record", listed], seen, lambda out: True)
    if told is not None and told != judged([program, "replay", name, "--schedule=@" + listed], collections.Counter(), lambda out: True):
        sys.exit(f"{words}: the replay of {listed} is another run")
    return told


def is_linted(out, fault):
    """Whether these are lines of faults, of which the first is what `run` said of the text; or of doubts, where it said nothing."""
    *lines, last = out.split(b"\n")
    if last:
        return False
    if not fault:
        return all(DOUBT.fullmatch(line) for line in lines)
    found = [LINT.fullmatch(line) for line in lines]
    return bool(found) and all(found) and fault == b"l4run: line %s: %s\n" % found[0].groups()


def linted(program, name, seen):
    """Lints a text, and ends where the lines are none of `lint`, or the first fault is another than that of `run`."""
    fault = subprocess.run([program, "run", name, "--turns", "1"], stdout=subprocess.DEVNULL, stderr=subprocess.PIPE).stderr
    told = subprocess.run([program, "lint", name], stdout=subprocess.PIPE, stderr=subprocess.PIPE)
    if told.stderr or told.returncode != (FAULT if fault else QUIET) or not is_linted(told.stdout, fault):
        sys.exit(f"lint {name}: status {told.returncode}: {told.stderr or told.stdout[:200]}, but run says {fault}")
    seen[f"{min(told.stdout.count(10), 3)} lines"] += 1


def expected(dice, report):
    """Lines of a report and others, some behind `never`, some with a star for a word, and what was spoilt of them."""
    lines = []
    for line in dice.sample(report.decode().splitlines(), k=min(3, report.count(b"\n"))) + ["waiting ..", "thread 1.1 ended .."]:
        words = line.split()
        words[dice.randrange(len(words))] = dice.choice(["*", words[-1], "1.1"])
        lines.append(dice.choice(["", "never ", "; "]) + " ".join(words) + "\n")
    told = "".join(lines).encode()
    return spoilt(dice, told) if dice.random() < 0.5 else told


def items_linted(program, name, items, seen):
    """Lints a list of a machine text without fault, and ends where the lines are none of `lint`, or the first faulty item is another than `replay` says."""
    fault = subprocess.run([program, "replay", name, "--schedule=" + items], stdout=subprocess.DEVNULL, stderr=subprocess.PIPE).stderr
    told = subprocess.run([program, "lint", name, "--schedule=" + items], stdout=subprocess.PIPE, stderr=subprocess.PIPE)
    found = [line for line in told.stdout.split(b"\n")[:-1] if not DOUBT.fullmatch(line)]
    numbers = [ITEM.fullmatch(line) for line in found]
    first = re.fullmatch(rb"l4run: schedule item (\d+)\n", fault)
    right = all(numbers) and (numbers[0][1] == first[1] if numbers and first else not numbers and not first)
    if told.stderr or told.returncode != (FAULT if found else QUIET) or not right:
        sys.exit(f"lint {name} --schedule={items}: status {told.returncode}: {told.stderr or told.stdout[:200]}, but replay says {fault}")
    seen[f"{min(len(found), 3)} lines"] += 1


def chart(dice):
    """The words behind `chart FILE TRACE`."""
    words = []
    for name in ("--from", "--to", "--width"):
        if dice.random() < 0.3:
            words.append(f"{name}={dice.choice([0, 1, 2, 5, 40, 2**64 - 1])}")
    if dice.random() < 0.4:
        threads = ",".join(f"{dice.randint(1, 6)}.1" for _ in range(dice.randint(0, 4)))
        words.append("--threads=" + spoilt(dice, threads.encode()).replace(b"\0", b"").decode("utf-8", "ignore"))
    if dice.random() < 0.6:
        words.append(dice.choice(["--ascii", "--svg", "--html", "--mermaid"]))
    words += [word for word in ("--registers", "--fold") if dice.random() < 0.4]
    return words


def judged(words, seen, lines, beside="", others=()):
    """Runs the program, counts what it answers, and ends where that is nothing it may answer. Lines stand beside a fault only where it begins so. Other
    statuses than those of a run are given."""
    told = subprocess.run(words, stdout=subprocess.PIPE, stderr=subprocess.PIPE)
    out, faults = told.stdout, told.stderr.decode("utf-8", "replace")
    if told.returncode == FAULT:
        fault = FAULTS.fullmatch(faults)
        right = fault and (not out or beside and fault[1].startswith(beside))
        kind = re.sub(r"\d+", "N", fault[1]) if fault else "?"
    elif told.returncode == USAGE and USAGE in others:
        right = faults.startswith("error: ") and not out
        kind = "status 2"
    else:
        unmet = told.returncode == FOUND and any(word.startswith("--expect") for word in words) and UNMET.fullmatch(faults)
        right = told.returncode in (QUIET, SPENT, *others) and (unmet or not faults) and lines(out)
        kind = f"status {told.returncode}"
    if not right:
        sys.exit(f"{words}: status {told.returncode}: {faults or out[:200]}")
    seen[kind] += 1
    return out if told.returncode != FAULT else None


def told_in_json(program, words, seen):
    """With --json the objects say the very lines that are printed without it, and status and faults are the same."""
    plain, objects = (subprocess.run([program, *words, *more], capture_output=True) for more in ([], ["--json"]))
    if (objects.returncode, objects.stderr, json_lines.lines_of(objects.stdout.decode()).encode()) != (plain.returncode, plain.stderr, plain.stdout):
        sys.exit(f"{words}: other lines with --json: {objects.stdout[:200]}")
    seen[f"status {plain.returncode}"] += 1


def write(name, told):
    with open(name, "wb") as file:
        file.write(told)


def main(program, folder, count, part):
    name, trace, listed, wanted = (f"{folder}/hostile-{part}.{kind}" for kind in ("l4", "trace", "list", "expected"))
    abouts = ("texts", "lint", "traces", "schedules", "rests", "nexts", "sessions", "items", "lists", "charts", "endings", "expectations", "objects")
    seen = {about: collections.Counter() for about in abouts}
    dice = random.Random(SEED + part)
    for done in range(count):
        if done and done % PROGRESS == 0:
            print(f"part {part}: {done} of {count} each", file=sys.stderr)
        text = machine(dice).encode()
        write(name, spoilt(dice, text))
        judged([program, "run", name, "--turns", TURNS], seen["texts"], lambda out: True)
        linted(program, name, seen["lint"])
        told_in_json(program, ["lint", name], seen["objects"])
        write(name, text)
        judged([program, "replay", name, "--schedule=" + schedule(dice)], seen["schedules"], lambda out: True)
        rest = ["--then-rest", *dice.choice([[], ["--turns", dice.choice(["0", "7", "300", "1000001"])]])]
        recorded(program, ["replay", name, "--schedule=" + schedule(dice), *rest], name, listed, seen["rests"])
        goes_on(program, name, schedule(dice), dice, seen["nexts"])
        held(program, name, dice, seen["sessions"])
        items_linted(program, name, schedule(dice), seen["items"])
        printed = [word for word in ("--report", "--waits", "--counts") if dice.random() < 0.3]
        told_in_json(program, ["replay", name, "--schedule=" + schedule(dice), *(printed or dice.choice([[], ["--next"]]))], seen["objects"])
        write(listed, list_file(dice))
        judged([program, "replay", name, "--schedule=@" + listed], seen["lists"], lambda out: True)
        waits = ["--waits"] if dice.random() < 0.3 else []
        judged([program, "endings", name, *question(dice), *waits], seen["endings"], ENDINGS.search, others=(USAGE, FOUND))
        ending_audited(program, name, trace, dice, seen["endings"])
        report = subprocess.run([program, "run", name, "--turns", TURNS, "--report"], stdout=subprocess.PIPE).stdout
        write(wanted, expected(dice, report))
        of = dice.choice([["run", name, "--turns", TURNS], ["replay", name, "--schedule=0,1,0"], ["endings", name, "--depth=6", "--states=50"], ["endings", name, "--placed", "--depth=6", "--states=50"]])
        judged([program, *of, "--expect=" + wanted], seen["expectations"], lambda out: True, others=(FOUND,))
        told = recorded(program, ["run", name, "--turns", TURNS], name, listed, collections.Counter())
        write(trace, spoilt(dice, told or b"tick 0 1\n"))
        behind = [word for word in ("--waits", "--counts") if dice.random() < 0.3]
        judged([program, "audit", name, trace, *behind], seen["traces"], PASSED.fullmatch)
        told_in_json(program, ["audit", name, trace, *behind, *dice.choice([[], ["--report"], ["--explain"]])], seen["objects"])
        judged([program, "chart", name, trace, *chart(dice)], seen["charts"], lambda out: True, beside="refused")
    for about, kinds in seen.items():
        for kind, number in kinds.items():
            print(f"{about}\t{kind}\t{number}")


if __name__ == "__main__":
    main(sys.argv[1], sys.argv[2], int(sys.argv[3]), int(sys.argv[4]))
