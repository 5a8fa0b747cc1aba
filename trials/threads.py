"""Runs machines where the host refuses threads, and judges each run: by its time, its status, and its trace, which the program audits.

    python3 -B trials/threads.py PROGRAM LIBRARY FOLDER [RUNS SECONDS]

LIBRARY is what threads.c makes. Each text of examples/ and a machine of 16 busy processors is run with no thread, with little address space, and with one
thread refused: the first, then the second, until a run ends in which none was refused. RUNS is how many runs of each text there are at most, SECONDS
how long one may take. The space is 10 MiB, in which no thread can be started, as its stack alone takes 8; the run is short then, since a trace is made
whole before it is written.
"""

import itertools
import os
import pathlib
import resource
import subprocess
import sys
import time

TOP = pathlib.Path(__file__).resolve().parent.parent
sys.path.append(str(TOP / "bench"))

import texts  # noqa: E402

EXAMPLES = TOP / "examples"
ENDS = (0, 3)
LITTLE_SPACE = 10 << 20
TURNS, FEW_TURNS = 20_000, 500


def busy():
    """All processors are busy, with pairs of their own and pairs across."""
    cpus = texts.MOST_CPUS
    own = texts.among_themselves(cpus, 2, cpus)
    return texts.machine(own, cpus)


def limited_to(space):
    return lambda: resource.setrlimit(resource.RLIMIT_AS, (space, space))


class Judge:
    """Runs one text again and again, and gives up at the first run that is not right."""

    def __init__(self, program, library, folder, seconds):
        self.program = program
        self.library = library
        self.folder = pathlib.Path(folder)
        self.seconds = seconds
        self.runs = 0

    def run(self, text, refused=None, space=None):
        """Runs the text with a thread refused, or with so little space. Answers whether a thread was refused."""
        told = self.folder / "refused"
        told.unlink(missing_ok=True)
        added = {} if refused is None else {"LD_PRELOAD": str(self.library), "REFUSE_THREAD": str(refused), "REFUSE_TO": str(told)}
        begun = time.perf_counter()
        done = subprocess.run(
            [self.program, "run", str(text), "--turns", str(FEW_TURNS if space else TURNS)],
            capture_output=True,
            env=os.environ | added,
            preexec_fn=limited_to(space) if space else None,
        )
        taken = time.perf_counter() - begun
        what = f"{text.name}, " + (f"{space >> 20} MiB" if space else f"thread {refused or 'each'} refused")
        if done.returncode not in ENDS or done.stderr:
            sys.exit(f"{what}: status {done.returncode} {done.stderr.decode()}")
        if taken > self.seconds:
            sys.exit(f"{what}: {taken:.1f} s")
        self.audit(text, done.stdout, what)
        self.runs += 1
        return told.exists()

    def audit(self, text, trace, what):
        path = self.folder / "trace"
        path.write_bytes(trace)
        done = subprocess.run([self.program, "audit", str(text), str(path)], capture_output=True)
        if done.returncode != 0 or not done.stdout.startswith(b"passed "):
            sys.exit(f"{what}: {(done.stdout + done.stderr).decode()}")


def main(program, library, folder, runs="100000", seconds="1"):
    judge = Judge(program, library, folder, float(seconds))
    path = pathlib.Path(folder) / "busy.l4"
    path.write_text(busy())
    for text in [path] + sorted(EXAMPLES.glob("*.l4")):
        judge.run(text, space=LITTLE_SPACE)
        judge.run(text, refused=0)
        for place in itertools.islice(itertools.count(1), int(runs)):
            if not judge.run(text, place):
                break
    print(f"runs whose host threads were refused: {judge.runs}, each right, in at most {seconds} s")


if __name__ == "__main__":
    main(*sys.argv[1:])
