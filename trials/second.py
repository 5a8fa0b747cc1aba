"""Compares the program with a second emulator on random machines, replayed by random schedules. Prints counts.

The second emulator (the modules in second/) was written from the rules of Ipc and docs/FORMATS.md, without a look at the crates or docs/MODEL.md. So it
can find what proofs can't: a mistake in the definitions themselves, which the program then makes as well.
"""

import collections
import random
import subprocess
import sys

from second import charts, expectations, explained, machines, model, processors, randoms, scripts, searches, traces, waits
from second import words as words_of_ids

SEED = 20_261_125
QUIET, FAULT, SPENT, UNMET = 0, 1, 3, 4
FAULTS = "l4run: "
# Of three machines one hands messages on by profile 2, and one has scripts of version 2.
KINDS = (randoms.General, randoms.HandingOn, randoms.Conflicts, randoms.HandingOn, scripts.Serving, scripts.Turned)


class Case:
    """A machine and a schedule, with the files that the program reads."""

    def __init__(self, program, folder, part):
        self.program = program
        self.machine_file, self.trace_file = f"{folder}/second-{part}.l4", f"{folder}/second-{part}.trace"
        self.expectations_file = f"{folder}/second-{part}.expected"
        self.record_file = f"{folder}/second-{part}.list"
        self.text = self.schedule = ""

    def take(self, text, schedule):
        self.text, self.schedule = text, schedule
        write(self.machine_file, text)

    def compare(self, what, words, *expected, trace=""):
        """Tests that the program prints this, has this fault and this status. Ends with all that is needed to see why, where it has another."""
        told = subprocess.run([self.program, *words], stdout=subprocess.PIPE, stderr=subprocess.PIPE, text=True)
        if (told.stdout, told.stderr, told.returncode) == expected:
            return
        sections = [
            ("a difference in", what),
            ("the machine", self.text),
            ("the schedule", self.schedule),
            ("the trace that is audited", trace),
            ("the program says", f"{told.stdout}{told.stderr}status {told.returncode}"),
            ("the second emulator says", "{}{}status {}".format(*expected)),
        ]
        sys.exit("\n".join(f"{head}:\n{body}" for head, body in sections if body))

    def replay(self, what, said, at_rest, *flags):
        words = ["replay", self.machine_file, "--schedule", self.schedule, *flags]
        self.compare(f"the {what} of a replay", words, said, "", QUIET if at_rest else SPENT)

    def explain(self, machine, trace):
        """What an audit explains of a trace that was just audited, and the report that it prints."""
        said, fault = explained.audit(machine, trace)
        expected = (said, f"{FAULTS}{fault}\n" if fault else "", FAULT if fault else QUIET)
        self.compare("what an audit explains", ["audit", self.machine_file, self.trace_file, "--explain", "--report"], *expected, trace=trace)

    def audit(self, machine, trace, *flags, behind=""):
        """Answers how the audit ended. Where the trace passes, this stands behind its line."""
        write(self.trace_file, trace)
        said, fault = model.audit(machine, trace)
        expected = ("", f"{FAULTS}{fault}\n", FAULT) if fault else (said + behind, "", QUIET)
        self.compare("an audit", ["audit", self.machine_file, self.trace_file, *flags], *expected, trace=trace)
        return " ".join(word for word in (said or fault).split() if not word.isdigit())


def write(name, text):
    with open(name, "w") as file:
        file.write(text)


ASKED = ("--waits", "--counts")


def waited(case, dice, machine, replay, counts):
    """Compares who waits for whom and what each thread did, at the end of a replay and after a beginning of its trace."""
    history = replay.history
    text = waits_and_counts(machine, history, counts)
    case.replay("waits", traces.text(history) + text, replay.is_at_rest(), *ASKED)
    beginning = history[: dice.randint(0, len(history))]
    case.audit(machine, traces.text(beginning), *ASKED, behind=waits_and_counts(machine, beginning, counts))


def waits_and_counts(machine, history, counts):
    told = waits.waits_text(model.world_of(machine, history))
    for line in told.splitlines():
        counts[f"lines of {line.split()[0]}"] += 1
    return told + waits.counts_text(machine, history)


# Words that stand in the place of those of a report: some leave a line open, and some make it another.
OTHER_WORDS = ("*", "0", "1", "7", "41", "#40", "#41", "any", "sending", "ended", "deleted", "1.1", "quiet", "nil")


def expectation(dice, report):
    """A line of a report, or one like it: words left open or changed, and half of them behind `never`."""
    words = dice.choice(report.splitlines()).split(" ")
    for _ in range(dice.randint(0, 2)):
        words[dice.randrange(len(words))] = dice.choice(OTHER_WORDS)
    if dice.random() < 0.4:
        words = [*words[: dice.randint(1, len(words))], ".."]
    return dice.choice(("", "never ")) + " ".join(words) + "\n"


def expected(case, dice, replay, report, counts):
    """Compares what is said of a random text of expectations, which may have a fault."""
    text = "".join(expectation(dice, report) for _ in range(dice.randint(0, 5)))
    write(case.expectations_file, text)
    try:
        told = expectations.unmet_text(expectations.read(text.encode()), report)
        status = UNMET if told else QUIET if replay.is_at_rest() else SPENT
        said = (report, told, status)
    except expectations.Fault as fault:
        said = ("", f"{FAULTS}{fault}\n", FAULT)
    flags = ["--report", "--expect", case.expectations_file]
    case.compare("what is expected of a replay", ["replay", case.machine_file, "--schedule", case.schedule, *flags], *said)
    counts[f"expectations with status {said[2]}"] += 1


ITEMS_A_LINE = 16


def recorded(entries):
    """The record of a replay by these entries."""
    items = list(map(str, entries))
    lines = [",".join(items[at : at + ITEMS_A_LINE]) for at in range(0, len(items), ITEMS_A_LINE)]
    return "; l4run replay FILE --schedule @NAME\n" + ",\n".join(lines) + "\n"


# A terminal of so many columns cuts words, or leaves them out.
WIDTHS = (1, 30, 60, 80, 200)


def charted(case, dice, machine, trace, counts):
    """Compares a chart of a part of a trace, which may be spoilt, with some of its threads."""
    write(case.trace_file, trace)
    steps, threads = trace.count("\n"), list(machine.threads)
    chosen = tuple(dice.sample(threads, dice.randint(1, len(threads)))) if threads and dice.random() < 0.5 else None
    part = charts.Part(dice.choice([1, dice.randint(1, steps + 2)]), dice.choice([steps, dice.randint(0, steps + 2)]), chosen, dice.random() < 0.5, dice.random() < 0.3)
    width = dice.choice(WIDTHS)
    try:
        said, refused = charts.of_trace(case.text, trace, part, width)
        fault = f"{FAULTS}refused at step {refused}\n" if refused else ""
    except traces.TraceFault as faulty:
        said, fault = "", f"{FAULTS}trace line {faulty.line}\n"
    words = ["chart", case.machine_file, case.trace_file, "--from", str(part.first), "--to", str(part.last), "--width", str(width), "--ascii"]
    if chosen is not None:
        words += ["--threads", ",".join(map(words_of_ids.spelled, chosen))]
    words += ["--registers"] if part.registers else []
    words += ["--fold"] if part.folds else []
    case.compare("a chart", words, said, fault, FAULT if fault else QUIET, trace=trace)
    counts["charts"] += 1
    counts["charts with sends that have not arrived"] += ".)" in said or "(." in said
    counts["charts without local steps"] += part.folds
    counts["charts with registers that change"] += "\n      " in said


def rested(case, dice, machine, entries, counts):
    """Compares what becomes of a replay that goes on by itself after a beginning of its schedule, and what is recorded of it."""
    beginning, turns = entries[: dice.randint(0, len(entries))], dice.choice([1, 2, dice.randint(3, 40), 4000])
    replay = processors.Replay(machine)
    for entry in beginning:
        replay.take(entry)
    before = len(replay.history)
    rest = replay.go_on(turns)
    case.take(case.text, ",".join(map(str, beginning)))
    at_rest, trace = replay.is_at_rest(), traces.text(replay.history)
    flags = ["--then-rest", "--turns", str(turns)]
    case.replay("rest", trace, at_rest, *flags, "--record", case.record_file)
    case.replay("report of the rest", model.world_of(machine, replay.history).report(at_rest), at_rest, *flags, "--report")
    with open(case.record_file) as file:
        record = file.read()
    if record != recorded([*beginning, *rest]):
        sys.exit(f"the machine:\n{case.text}\nthe schedule:\n{case.schedule}\nand {turns} turns: recorded is\n{record}")
    case.take(case.text, f"@{case.record_file}")
    case.replay("record", trace, at_rest)
    counts["steps of rests"] += len(replay.history) - before
    counts["rests that are quiet" if at_rest else "rests that are spent"] += 1


def nexts(case, dice, machine, entries, counts):
    """Compares what may happen next behind a beginning of a schedule."""
    beginning = entries[: dice.randint(0, len(entries))]
    before, text = searches.walk(machine, beginning), ""
    for choice in before.choices():
        told = searches.walk(machine, (*beginning, choice)).history[len(before.history) :]
        text += f"next {choice}\n" + traces.text(told)
        counts["choices that may be next"] += 1
        counts[f"choices that may be next, with {len(told)} steps"] += 1
    case.take(case.text, ",".join(map(str, beginning)))
    words = ["replay", case.machine_file, "--schedule", case.schedule, "--next"]
    case.compare("what may happen next", words, text, "", QUIET)


def tried(case, dice, kind, counts):
    """Compares the replay of a random machine of this kind by a random schedule, and the audit of its trace."""
    text = kind(dice).text()
    machine = machines.read(text)
    entries, replay = randoms.random_replay(dice, machine, kind.lengths)
    case.take(text, ",".join(map(str, entries)))
    at_rest, trace = replay.is_at_rest(), traces.text(replay.history)
    case.replay("trace", trace, at_rest)
    case.audit(machine, trace)
    report = model.world_of(machine, replay.history).report(at_rest)
    case.replay("report", report, at_rest, "--report")
    expected(case, dice, replay, report, counts)
    charted(case, dice, machine, trace, counts)
    whole = charts.text(text, machine, replay.history, charts.Part(1, len(replay.history), None), 80)
    case.replay("chart", whole, at_rest, "--chart")
    changes = charts.text(text, machine, replay.history, charts.Part(1, len(replay.history), None, True), 80)
    case.replay("chart with registers", changes, at_rest, "--chart", "--registers")
    for what, other in [("spoilt traces", trace and randoms.spoilt(dice, machine, trace)), ("late retargets", randoms.retargeted_late(dice, trace))]:
        if other:
            charted(case, dice, machine, other, counts)
            ending = case.audit(machine, other)
            case.explain(machine, other)
            counts[f"audits of {what}"] += 1
            counts[f"audits of {what}: {ending}"] += 1
    waited(case, dice, machine, replay, counts)
    rested(case, dice, machine, entries, counts)
    nexts(case, dice, machine, entries, counts)
    counts["machines"] += 1
    counts[f"machines of profile {machine.profile}"] += 1
    counts[f"machines of {machine.format.bits} bits"] += 1
    counts["entries of schedules"] += len(entries)
    counts["steps"] += len(replay.history)
    counts["deliveries"] += traces.count("deliver", replay.history)
    counts["retargets"] += traces.count("retarget", replay.history)
    counts["retargets that turned"] += replay.turned()


def main(program, folder, count, part):
    case, dice, counts = Case(program, folder, part), random.Random(SEED + part), collections.Counter()
    for number in range(count):
        tried(case, dice, KINDS[number % len(KINDS)], counts)
    for what, number in counts.items():
        print(f"{what}\t{number}")


if __name__ == "__main__":
    main(sys.argv[1], sys.argv[2], int(sys.argv[3]), int(sys.argv[4]))
