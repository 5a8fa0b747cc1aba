"""Runs random machines, and asks of each run that comes to rest that `l4run endings` prints its report. Prints counts.

A machine is placed anew for each of its runs' texts: on 1 to 16 processors, each thread on any of them. Reports are compared without what runs to one ending may differ in.
"""

import collections
import random
import re
import subprocess
import sys

from all_endings import ends_of, random_text
from second import plain

SEED = 20_261_130
MOST_CPUS = 16
RUNS_OF_A_MACHINE = 10
TURNS = 3_000
DEPTH = 200
MOST_WORLDS = 3_000
QUIET, SPENT, CUT = 0, 3, 3


def placed(dice, text):
    """The text with other processors."""
    cpus = dice.randint(1, MOST_CPUS)
    text = re.sub(r"^cpus \d+", f"cpus {cpus}", text, flags=re.MULTILINE)
    return re.sub(r" cpu \d+ ", lambda _: f" cpu {dice.randrange(cpus)} ", text), cpus


def said(command, statuses):
    done = subprocess.run(command, stdout=subprocess.PIPE, stderr=subprocess.PIPE, text=True)
    if done.returncode not in statuses or done.stderr:
        sys.exit(f"{command}: status {done.returncode}\n{done.stderr}")
    return done.stdout, done.returncode


def reports_of(program, file, runs, counts):
    """The reports of runs that came to rest."""
    for _ in range(runs):
        report, status = said([program, "run", file, "--report", f"--turns={TURNS}"], (QUIET, SPENT))
        counts[f"runs that end {'quiet' if status == QUIET else 'spent'}"] += 1
        if status == QUIET:
            yield report


def judge(program, file, text, runs, counts):
    reports = list(reports_of(program, file, runs, counts))
    if not reports:
        return
    listed, status = said([program, "endings", file, f"--depth={DEPTH}", f"--states={MOST_WORLDS}"], (QUIET, CUT))
    steps_of, *_ = ends_of(listed)
    for report in reports:
        if plain.bare(report) in steps_of:
            counts["runs whose report is listed"] += 1
        elif status == CUT:
            counts["runs whose report is not listed, by a search that was cut"] += 1
        else:
            sys.exit(f"a run ended so:\n{report}\nthe machine:\n{text}\nits endings:\n{listed}")
    counts["different reports of runs"] += len(set(map(plain.bare, reports)))
    counts["reports listed"] += len(steps_of)


def main(program, folder, count, part):
    dice, counts = random.Random(SEED + part), collections.Counter()
    file = f"{folder}/runs-{part}.l4"
    for number in range(0, count, RUNS_OF_A_MACHINE):
        text, cpus = placed(dice, random_text(dice, number // RUNS_OF_A_MACHINE))
        with open(file, "w") as machine_file:
            machine_file.write(text)
        counts[f"machines of {'one processor' if cpus == 1 else 'several processors'}"] += 1
        judge(program, file, text, min(RUNS_OF_A_MACHINE, count - number), counts)
    for what, number in counts.items():
        print(f"{what}\t{number}")


if __name__ == "__main__":
    main(sys.argv[1], sys.argv[2], int(sys.argv[3]), int(sys.argv[4]))
