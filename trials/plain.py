"""Compares the plain program of bench/plain with the program: output, status, and which line, item or step is at fault. Prints counts.

What the plain program does not do it says by status 2, and that is counted. Each part takes its share of the inputs and of the cases.
"""

import collections
import os
import pathlib
import random
import re
import shlex
import subprocess
import sys

import soak
from second import machines, randoms, scripts

sys.path.append(str(pathlib.Path(__file__).resolve().parent.parent / "bench"))

import audits  # noqa: E402
import inputs  # noqa: E402
import several  # noqa: E402
import text as readings  # noqa: E402
import texts  # noqa: E402

SEED = 20_261_128
PARTS = 4
NOT_DONE = 2
DATA = pathlib.Path(__file__).resolve().parent.parent / "crates/l4_cases/data"
COMMANDS = ("run", "replay", "audit")
KINDS = (randoms.General, randoms.HandingOn, randoms.Conflicts, None, scripts.Turned)
# So many turns, and so many items of a schedule, are compared of each input of the benchmarks.
TURNS = 5_000
ITEMS = 20_000
# A system takes no longer word.
LONGEST = 128 * 1024
# In a case that is no text the text stands behind this line, and may repeat a part for some numbers.
BEHIND = "---\n"
REPEATED = re.compile(r"\{([^{}]*)\*(\d+)\.\.(\d+)(?: by (\d+))?\}", re.DOTALL)


def place(fault):
    """What a fault names, without its kind: a line, an item or a step."""
    found = re.search(r"(trace line|line|schedule item|refused at step) \d+|.*", fault.partition(": ")[2])
    return found.group()


class Compared:
    """Both programs, and a folder for files."""

    def __init__(self, program, folder, part):
        self.programs = program, os.environ["PLAIN"]
        self.folder = f"{folder}/plain-{part}"
        pathlib.Path(self.folder).mkdir()
        self.counts = collections.Counter()

    def file(self, name, text):
        file = f"{self.folder}/{name}"
        pathlib.Path(file).write_bytes(text if isinstance(text, bytes) else text.encode())
        return file

    def list_word(self, number, schedule):
        """The word that gives a list, which stands in a file where it is too long for a word."""
        return schedule if len(schedule) < LONGEST else "@" + self.file(f"list-{number}", schedule)

    def both(self, what, words, told=b"", folder=None):
        """Tests that both print the same, unless the plain program says that it does not do this. Answers what was printed."""
        done = [subprocess.run([program, *words], input=told, capture_output=True, cwd=folder or self.folder) for program in self.programs]
        own, plain = [(each.stdout, each.returncode, place(each.stderr.decode())) for each in done]
        if plain[1] == NOT_DONE:
            if plain[0]:
                sys.exit(f"{shlex.join(words)}: the plain program does not do this, and prints something")
            self.counts[f"{what} that the plain program does not do"] += 1
        elif own != plain:
            sys.exit(f"{shlex.join(words)[:2000]}\nin {folder or self.folder}: statuses and faults {own[1:]} and {plain[1:]}, {len(own[0])} and {len(plain[0])} bytes")
        else:
            self.counts[what] += 1
        return own[0]

    def text(self, what, text, schedules, turns=TURNS):
        """Compares the run of a text, its replay by each schedule, and the audits of what these print."""
        file = self.file("text.l4", text)
        commands = [["run", file, "--turns", str(turns)]] + [
            ["replay", file, "--schedule", self.list_word(number, schedule)] for number, schedule in enumerate(schedules)
        ]
        for words in commands:
            trace = self.both(f"{what}: {words[0]}", words)
            self.both(f"{what}: {words[0]}", [*words, "--report"])
            if trace:
                self.both(f"{what}: audit", ["audit", file, self.file("text.trace", trace), "--report"])


def listed(entries):
    return ",".join(map(str, entries))


def in_order(cpus):
    """Turns of each processor in order, and now and then a tick of each."""
    return listed([*range(cpus)] * (ITEMS // cpus // 2) + ([*range(cpus)] * 7 + [f"t{cpu}" for cpu in range(cpus)]) * 50)


def of_benchmarks():
    """The texts of the benchmarks, each with its schedules."""
    for threads, entries in inputs.MACHINES.values():
        yield texts.machine(threads), [listed(inputs.cycled(entries, ITEMS))]
    for cpus, pairs, first, counted in inputs.SEVERAL.values():
        yield texts.machine(texts.across(pairs, cpus), cpus), [listed(inputs.cycled(range(cpus), count)) for count in (first, counted)]
    for cpus, pairs, first, items in several.SEVERAL.values():
        yield texts.machine(texts.across(pairs, cpus), cpus), [listed(inputs.cycled(range(cpus), count)) for count in (first, items)]
    for text in [*texts.turning().values(), *audits.MACHINES.values()]:
        yield text, [in_order(1)]
    for text, _ in texts.of_several().values():
        yield text, [in_order(texts.MOST_CPUS)]
    for made in readings.READINGS.values():
        text = made(texts.MOST_BYTES)
        yield from ((each, []) for each in (text, texts.faulty(text)))


def repeated(text):
    """A case's text with its repeated parts written out."""
    def written(found):
        part, least, most, step = found.groups()
        return "".join(part.replace("%", str(number)) for number in range(int(least), int(most) + 1, int(step or 1)))

    while REPEATED.search(text):
        text = REPEATED.sub(written, text)
    return text


def commands_of(lines):
    """The commands that a case has, each with the trace that it reads."""
    commands = []
    for line in lines:
        if line.startswith("$ l4run "):
            commands.append((shlex.split(line)[2:], []))
        elif line.startswith("< ") and commands:
            commands[-1][1].append(line[2:] + "\n")
    return commands


def compare_case(compared, dice, file):
    """Compares what a case asks of the program, and its text by random schedules."""
    told = file.read_bytes().decode("latin-1")
    if file.suffix == ".case":
        head, _, text = told.partition(BEHIND)
        head, text = repeated(head), repeated(text)
    else:
        head, text = "\n".join(line[2:] for line in told.splitlines() if line.startswith("; ")), told
    written = compared.file("case.l4", text.encode("latin-1"))
    for words, trace in commands_of(head.splitlines()):
        if max(map(len, words), default=0) >= LONGEST:
            compared.counts["commands of cases that a system refuses"] += 1
        elif words and words[0] in COMMANDS:
            named = [written if file.suffix == ".case" and word.endswith(".l4") else word for word in words]
            compared.both("commands of cases", named, "".join(trace).encode("latin-1"), file.parent)
    cpus = re.search(r"^cpus (\d+)$", text, re.MULTILINE)
    number = int(cpus.group(1)) if cpus else 1
    schedules = [scattered(dice, number) for _ in range(2)] if 1 <= number <= texts.MOST_CPUS else [""]
    compared.text("texts of cases", text.encode("latin-1"), schedules, turns=200)


def scattered(dice, cpus):
    """Random items of all kinds."""
    def item():
        cpu = dice.randrange(cpus)
        other = f"{cpu}:{dice.randrange(cpus)}", f"c{cpu}", f"t{cpu}:{dice.randint(1, 3000)}", f"t{cpu}"
        return dice.choice(other) if dice.random() < 0.3 else str(cpu)

    return listed(item() for _ in range(dice.randint(0, 150)))


def compare_random(compared, dice, kind):
    """Compares the replay of a random machine, and audits of its trace, spoilt too."""
    if kind is None:
        compare_soak(compared, dice)
        return
    text = kind(dice).text()
    machine = machines.read(text)
    entries, _ = randoms.random_replay(dice, machine, kind.lengths)
    compared.text("random machines", text, [listed(entries)])
    file, replayed = f"{compared.folder}/text.l4", ["replay", f"{compared.folder}/text.l4", "--schedule", listed(entries)]
    trace = compared.both("random machines: replay", replayed).decode()
    for other in [trace and randoms.spoilt(dice, machine, trace), randoms.retargeted_late(dice, trace)]:
        if other:
            compared.both("random machines: spoilt traces", ["audit", file, compared.file("spoilt.trace", other)])


def compare_soak(compared, dice):
    """Compares a replay of a large random machine, and the replay of the record of its run."""
    cpus, profile, bits = dice.randint(1, texts.MOST_CPUS), dice.choice(soak.PROFILES), dice.choice(soak.FORMATS)
    text = soak.text(dice, cpus, profile, bits)
    compared.text("large random machines", text, [soak.schedule(dice, cpus)])
    file, record = f"{compared.folder}/text.l4", f"{compared.folder}/text.list"
    subprocess.run([compared.programs[0], "run", file, "--turns", str(soak.TURNS), "--record", record], stdout=subprocess.DEVNULL)
    for more in ([], ["--report"]):
        compared.both("large random machines: records", ["replay", file, "--schedule", f"@{record}", *more])


def main(program, folder, count, part):
    compared, dice = Compared(program, folder, part), random.Random(SEED + part)
    for text, schedules in list(of_benchmarks())[part % PARTS :: PARTS]:
        compared.text("inputs of benchmarks", text, schedules)
    cases = sorted([*DATA.glob("*.l4"), *DATA.glob("examples/*.l4"), *DATA.glob("*.case")])
    for file in cases[part % PARTS :: PARTS]:
        compare_case(compared, dice, file)
    for number in range(count):
        compare_random(compared, dice, KINDS[number % len(KINDS)])
    for what, number in compared.counts.items():
        print(f"{what}\t{number}")


if __name__ == "__main__":
    main(sys.argv[1], sys.argv[2], int(sys.argv[3]), int(sys.argv[4]))
