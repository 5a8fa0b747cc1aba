"""What the benchmarks measure of a program: the time, the instructions and the memory of its runs.

Words are the words of a command line, the program's name among them.
"""

import math
import os
import re
import shutil
import subprocess
import time


# The C library fills and copies large rooms by one instruction, which callgrind counts again for each byte. So it is told to take others.
NO_REPEATED = ":".join(f"glibc.cpu.x86_rep_{which}_threshold={1 << 30}" for which in ("stosb", "movsb"))


def run(words, status=0, **more):
    """Runs a program that ends with this status, and answers what it told on standard error. What more is set in its environment may be given."""
    environment = {**os.environ, **more}
    done = subprocess.run(words, stdout=subprocess.DEVNULL, stderr=subprocess.PIPE, text=True, env=environment)
    if done.returncode != status:
        raise SystemExit(f"status {done.returncode} in place of {status}: {' '.join(words)}\n{done.stderr}")
    return done.stderr


def output(words):
    """What a program prints, and the status that it ends with."""
    done = subprocess.run(words, stdout=subprocess.PIPE, stderr=subprocess.DEVNULL)
    return done.stdout, done.returncode


def seconds(words, status=0):
    start = time.perf_counter()
    run(words, status)
    return time.perf_counter() - start


def seconds_together(several, status=0):
    """The time of several commands at once, until the last one ends."""
    start = time.perf_counter()
    programs = [subprocess.Popen(words, stdout=subprocess.DEVNULL) for words in several]
    ends = [program.wait() for program in programs]
    taken = time.perf_counter() - start
    assert all(end == status for end in ends), f"one of {len(several)} programs ended with another status than {status}"
    return taken


def least_seconds(several, runs, status=0):
    """The least time of each of several commands, which are run in turn: what else the machine did can only add to it."""
    rounds = [[seconds(words, status) for words in several] for _ in range(runs)]
    return [min(times) for times in zip(*rounds)]


def instructions(words, status=0):
    """The instructions of one run, counted by valgrind's callgrind. No number where that is missing."""
    if not shutil.which("valgrind"):
        return math.nan
    tool = ["valgrind", "--tool=callgrind", "--callgrind-out-file=/dev/null"]
    return int(re.search(r"Collected : (\d+)", run(tool + words, status, GLIBC_TUNABLES=NO_REPEATED)).group(1))


def for_each(counted, first, status=0):
    """Counts the instructions for each of those turns, entries or steps that are behind the first ones and among the counted ones. It takes the words of
    both command lines."""
    return lambda many, few: (instructions(many, status) - instructions(few, status)) / (counted - first)


def peak_mebibytes(words, status=0):
    """The most memory that a run held at once."""
    told = run(["/usr/bin/time", "--quiet", "-f", "%M"] + words, status)
    return int(told.splitlines()[-1]) / 1024
