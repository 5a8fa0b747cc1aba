"""Does commands of the cases with growths of memory refused in turn, and counts the refusals of each verb. Of a command each of the first 300 growths
is refused, and of those behind them each that is by a 300th further than the one before: some searches have ten thousand.

    trials/refused_commands.py LIBRARY PROGRAM CASES         so many commands that each option of each verb is among them
    trials/refused_commands.py LIBRARY PROGRAM CASES all     one for each set of options and each status: minutes
"""

import collections
import concurrent.futures
import os
import pathlib
import re
import shlex
import shutil
import subprocess
import sys
import tempfile

from refusals import LIMIT, OTHERS, imports

NO_MEMORY = b"l4run: no memory\n"
# A run of one processor and a replay that are recorded, which no case has, and the name that the commands write to.
RECORDED = "call_gets_its_answer.l4"
RECORD = "record"
# Texts of version 2, which the shortest commands need not be of: one that is run, and one whose names are faulty.
SECOND, FAULTY_NAMES = "examples/lock-server.l4", "second_names_are_near.l4"
# What begins an ending, or what stands behind all of them; and by which options all is written at the end.
PART = re.compile(rb"^(ending \d|stuck |no ending|worlds |states )", re.MULTILINE)
WHOLE = {"--json", "--trace", "--always"}


def blocks(case):
    """The commands of a case, each with the lines below it."""
    first, *others = f"\n{case.read_text()}".split("\n; $ l4run ")
    return [block.split("\n") for block in others]


def commands(cases):
    """Of each verb with each set of options and each status the shortest command: its words, and what it reads."""
    replay = ["replay", RECORDED, "--schedule", "0", "--then-rest", "--record", RECORD]
    found = {("run", "--record"): (["run", RECORDED, "--record", RECORD], ""), ("replay", "--record"): (replay, "")}
    found |= {("run", "version 2"): (["run", SECOND, "--report"], ""), ("lint", "version 2"): (["lint", FAULTY_NAMES], "")}
    for case in sorted(cases.glob("*.l4")):
        for line, *lines in blocks(case):
            words = shlex.split(line)
            options = sorted(word.partition("=")[0] for word in words if word.startswith("--"))
            status = next((line for line in lines if line.startswith("; [")), "")
            read = "".join(line.removeprefix("; < ") + "\n" for line in lines if line.startswith("; < "))
            kind, command = (words[0], *options, status), (words, read)
            found[kind] = min(found.get(kind, command), command, key=lambda command: len(command[1]))
    return found


def cover(found):
    """So many of these commands that each option of each verb is among them, those with most options first."""
    seen, kept = set(), {}
    for kind in sorted(found, key=lambda kind: (-len(kind), kind)):
        new = {(kind[0], word) for word in kind} - seen
        if new:
            seen |= new
            kept[kind] = found[kind]
    return kept


def outcome(program, command, folder, env):
    """What a command comes to: status, output, faults, and the record where it wrote one."""
    words, read = command
    record = folder / RECORD
    record.unlink(missing_ok=True)
    done = subprocess.run([program, *words], input=read.encode(), capture_output=True, cwd=folder, env=os.environ | env, timeout=LIMIT)
    return done.returncode, done.stdout, done.stderr, record.read_bytes() if record.exists() else None


def are_first(written, wanted):
    """Whether these are whole endings of a search, from the first on, and nothing else."""
    return wanted.startswith(written) and any(start.start() == len(written) for start in PART.finditer(wanted))


def is_right(words, found, wanted):
    """Whether a refused growth was borne, or reported with nothing else done. A search writes endings as it finds them."""
    status, output, faults, record = found
    reported = status == 1 and faults == NO_MEMORY and record is None
    if reported and words[0] == "step":
        return wanted[1].startswith(output)
    return found == wanted or reported and (output == b"" or words[0] == "endings" and not WHOLE & set(words) and are_first(output, wanted[1]))


def refusals(library, program, cases, command):
    """How many growths were refused to a command, each in a run of its own."""
    with tempfile.TemporaryDirectory() as folder:
        folder = pathlib.Path(folder)
        home, note = folder / "home", folder / "note"
        shutil.copytree(cases, home)
        wanted = outcome(program, command, home, {})
        number = runs = 0
        while True:
            number += 1 + number // 300
            note.unlink(missing_ok=True)
            words = {"LD_PRELOAD": library, "REFUSE_ALL": "1", "REFUSE_AT": str(number), "REFUSE_TO": str(note)}
            found = outcome(program, command, home, words)
            if not is_right(command[0], found, wanted):
                sys.exit(f"l4run {shlex.join(command[0])}: growth {number} refused: {found}")
            if not note.exists():
                return runs
            runs += 1


def main(library, program, cases, is_whole):
    if imports(program) & OTHERS:
        sys.exit(f"{program} takes memory by {imports(program) & OTHERS}, which would not be refused")
    found, counts = commands(cases), collections.Counter()
    found = found if is_whole else cover(found)
    with concurrent.futures.ThreadPoolExecutor(len(os.sched_getaffinity(0))) as pool:
        refused = pool.map(lambda command: refusals(library, program, cases, command), found.values())
        for (verb, *_), count in zip(found, refused):
            counts[verb] += count
    for verb, count in sorted(counts.items()):
        print(f"l4run {verb}\t{count}")
    print(f"{sum(counts.values())} growths refused, each in a run of its own, of {len(found)} commands")


if __name__ == "__main__":
    main(sys.argv[1], sys.argv[2], pathlib.Path(sys.argv[3]), sys.argv[4:] == ["all"])
