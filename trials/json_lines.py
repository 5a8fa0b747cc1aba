"""Turns the objects of `--json` back into lines by the keys that docs/FORMATS.md documents, and compares these with what is printed without it, of
every command of the cases and the examples that may have it, and of commands about random machines. Status and faults have to be the same. Prints counts.

    trials/json_lines.py PROGRAM [CASES [COUNT]]    CASES is crates/l4_cases/data where it is left out; of COUNT random machines, 0 where that is
    l4run .. --json | trials/json_lines.py -        prints the lines that objects tell
"""

import collections
import json
import pathlib
import random
import re
import shlex
import subprocess
import sys
import tempfile

from second import charts, machines, randoms, scripts, traces
from second import words as words_of_ids

SEED = 20_261_130
KINDS = (randoms.General, scripts.Turned, randoms.HandingOn, scripts.Serving, randoms.Conflicts)
USAGE = 2
VERBS = ("run", "replay", "audit", "endings", "lint")
# A line by its kind: `{key}` is a word or a text, `{key..}` the words of a row.
LINES = {
    **{kind: kind + " {thread}" for kind in ("local", "wait", "rtimeout", "rnobody", "rcancel", "obey")},
    **{kind: kind + " {send}" for kind in ("begin", "queue", "drop", "retarget", "stimeout", "snobody", "scancel")},
    "deliver": "deliver {send} {receiver} {shown} {actual} {tag} {words..}",
    "order": "order {caller} {target} {what}",
    "tick": "tick {cpu} {clock}",
    "thread": "thread {thread} {state} {code} {from} {actual} {registers..}",
    "waiting": "waiting {send} {to}",
    "quiet": "ending quiet",
    "spent": "ending spent",
    "waits": "waits {thread} {for} {phase}",
    "circle": "circle {threads..}",
    "deadlock": "deadlock {threads..}",
    "held": "held {send}",
    "counts": "counts {thread} turns {turns} sends {sends} delivered {delivered} received {received} refused {refused..}",
    "passed": "passed {steps} {ending}",
    "because": "because {cause}",
    "possible": "possible {step}",
    "ending": "ending {ending} steps {steps}",
    "worlds": "worlds {worlds} steps {steps} {search}",
    "placed": "ending {ending} {schedule..}",
    "states": "states {states} depth {depth} {search}",
    "endless": "no ending: it goes on for ever",
    "walked": "found by a walk, perhaps not the shortest; no others were looked for",
    "met": "met, steps {steps}",
    "met_or_fewer": "met, steps {steps} or fewer",
    "never_met": "never met",
    "not_met": "not met: cut",
    "stuck": "stuck {thread} for ever, steps {steps}",
    "cut": "stuck for ever: cut",
    "next": "next {item}",
    "item": "schedule item {item}: {text}",
    "lint": "line {line} column {column}: {text}",
    "text": "{text}",
}
# What more is told of a step.
MORE = {"begin": {"to", "line"}, "queue": {"to"}, **{kind: {"line"} for kind in ("local", "wait", "order")}}


def line_of(text):
    """The line that an object tells, which has the documented members in their order and no other."""
    pairs = json.loads(text, object_pairs_hook=lambda pairs: pairs)
    told = dict(pairs)
    kind = told["kind"]
    line = LINES[kind]
    keys = re.findall(r"{(\w+)", line)
    assert len(told) == len(pairs), f"a key twice: {text}"
    assert [key for key, _ in pairs][: len(keys) + 1] == ["kind", *keys], f"not these members: {text}"
    assert {key for key, _ in pairs[len(keys) + 1 :]} <= MORE.get(kind, set()), f"more is told: {text}"

    def words(match):
        value = told[match[2]]
        assert isinstance(value, list if match[3] else str), f"no string, or no row: {text}"
        joined = " ".join(value) if match[3] else value
        return match[1] + joined if joined or not match[3] else ""

    return re.sub(r"( ?){(\w+)(\.\.)?}", words, line)


def lines_of(objects):
    return "".join(f"{line_of(text)}\n" for text in objects.split("\n")[:-1])


def scripts_of(text):
    """For each thread the words of its instructions, without names in front, by the number of their line."""
    told = charts.numbered_lines(text, machines.read(text))
    return {words_of_ids.spelled(thread): {str(number): unnamed(line.split()) for number, line in lines} for thread, lines in told.items()}


def unnamed(words):
    return words[1:] if words[0].endswith(machines.LABEL_END) else words


WRITES = {"begin": {"ipc"}, "wait": {"ipc"}, "order": {"exregs", "delete"}}
# Destinations that a line spells out are compared where they are not spelled by a word, a name or a register.
SPELLED_OUT = re.compile(r"\d+\.\d+|any|anylocal")


def judge_steps(objects, machine):
    """A step that runs an instruction names a line of its thread that has such a one, and each receiver is where the send went to."""
    if not objects:
        return 0
    lines, receivers, count = scripts_of(machine), {}, 0
    for told in map(json.loads, objects.split("\n")[:-1]):
        kind = told["kind"]
        if kind in ("local", "begin", "wait", "order"):
            thread = told.get("thread") or told.get("caller") or told["send"].split("#")[0]
            script = lines[thread]
            if "line" in told:
                words = script[told["line"]]
                assert words[0] in WRITES.get(kind, words), f"{told} is no {words}"
                count += 1
            else:
                assert kind == "local", f"no line: {told}"
        if kind == "begin":
            assert words[1] == told["to"] or not SPELLED_OUT.fullmatch(words[1]), f"{told} is no {words}"
        if kind in ("begin", "queue"):
            count += 1
            receivers[told["send"]] = told["to"]
        if kind == "deliver":
            assert receivers[told["send"]] == told["receiver"], f"not where it went to: {told}"
    return count


def commands_of(case):
    """Of a case its machine text, and each command with what it reads from the standard input."""
    text = case.read_text(errors="surrogateescape")
    if case.suffix == ".case":
        head, _, machine = text.partition("\n---\n")
        if re.search(r"{.*\*\d+\.\.", machine):
            return None, []
        lines = head.split("\n")
    else:
        machine, lines = text, [line[2:] for line in text.split("\n") if line.startswith("; ")]
    found = []
    for line in lines:
        if line.startswith("$ l4run "):
            found.append([shlex.split(line[8:]), ""])
        elif line.startswith("< ") and found:
            found[-1][1] += line[2:] + "\n"
    return machine, found


def answer(program, words, given, folder):
    done = subprocess.run([program, *words], input=given.encode(errors="surrogateescape"), cwd=folder, capture_output=True)
    return done.returncode, done.stdout.decode(errors="surrogateescape"), done.stderr.decode(errors="surrogateescape")


def compare(program, words, given, folder, machine, counts):
    verb = words[0]
    plain = answer(program, words, given, folder)
    if plain[0] == USAGE:
        return
    # A run of several processors may go another way the next time.
    one_way = verb != "run" or plain == answer(program, words, given, folder) and re.search(r"^cpus 1\b", machine, re.MULTILINE)
    objects = answer(program, [*words, "--json"], given, folder)
    told = lines_of(objects[1])
    if one_way:
        assert (objects[0], told, objects[2]) == plain, f"{words}: not the same:\n{told}{objects[2]}\n{plain[1]}{plain[2]}"
    if verb in ("run", "replay") and "--next" not in words:
        counts["receivers and lines of the machine text"] += judge_steps(objects[1], machine)
    counts[f"commands {verb}"] += 1
    counts["objects"] += objects[1].count("\n")
    counts.update(f"kind {json.loads(text)['kind']}" for text in objects[1].split("\n")[:-1])


LIMITS = ["--depth=40", "--states=300"]
QUESTIONS = ["waiting ..", "thread 1.1 ended ..", "thread * receiving .."]


def commands_about(dice, machine, file):
    """Commands about a random machine, each with what it reads."""
    entries, replay = randoms.random_replay(dice, machine, randoms.LENGTHS)
    trace = traces.text(replay.history)
    more = [word for word in ("--waits", "--counts") if dice.random() < 0.4]
    schedule = ",".join(map(str, entries))
    yield ["run", file, "--turns=300", *dice.choice([[], ["--report"]]), *more], ""
    yield ["replay", file, f"--schedule={schedule}", *dice.choice([["--next"], ["--report", *more], more])], ""
    yield ["audit", file, "-", *dice.choice([[], ["--report"], ["--explain"]]), *more], dice.choice([trace, trace and randoms.spoilt(dice, machine, trace)])
    yield ["lint", file], ""
    asked = [[], ["--stuck"], ["--none"], ["--stuck", "--none"], ["--placed"], [f"--with={dice.choice(QUESTIONS)}"], ["--trace=1"], ["--stuck", "--trace=1"]]
    yield ["endings", file, *LIMITS, *dice.choice(asked)], ""
    yield ["endings", file, *LIMITS, f"--always=never {dice.choice(QUESTIONS)}"], ""


def compare_random(program, dice, kind, folder, counts):
    text, file = kind(dice).text(), pathlib.Path(folder, "random.l4")
    file.write_text(text, newline="")
    for words, given in commands_about(dice, machines.read(text), str(file)):
        compare(program, words, given, folder, text, counts)
    counts["random machines"] += 1


def main(program, cases="crates/l4_cases/data", count=0):
    if program == "-":
        sys.stdout.write(lines_of(sys.stdin.read()))
        return
    program, cases = str(pathlib.Path(program).resolve()), pathlib.Path(cases).resolve()
    counts, dice = collections.Counter(), random.Random(SEED)
    with tempfile.TemporaryDirectory() as work:
        for number in range(int(count)):
            compare_random(program, dice, KINDS[number % len(KINDS)], work, counts)
        for case in sorted([*cases.glob("*.l4"), *cases.glob("*.case"), *cases.glob("examples/*.l4")]):
            machine, commands = commands_of(case)
            for words, given in commands:
                words = [word for word in words if word != "--json"]
                if not words or words[0] not in VERBS or {"--help", "-h", "--chart", "--color"} & {*words}:
                    continue
                folder = cases
                if case.suffix == ".case":
                    # Its commands read the text behind the line, whatever file they name.
                    file = pathlib.Path(work, "text.l4")
                    file.write_text(machine, errors="surrogateescape")
                    words = [str(file) if word == case.name or word.endswith(".l4") else word for word in words]
                compare(program, words, given, folder, machine, counts)
    for what, number in sorted(counts.items()):
        print(f"{number:9} {what}")


if __name__ == "__main__":
    main(*sys.argv[1:])
