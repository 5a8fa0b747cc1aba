"""Runs tests with each growth of memory refused in turn, and counts the refusals at each call."""

import collections
import os
import subprocess
import sys

# What the C library has besides malloc and realloc by which a program takes memory.
OTHERS = {"calloc", "reallocarray", "aligned_alloc", "memalign", "posix_memalign", "valloc", "mmap", "mmap64", "sbrk", "brk"}
# The calls at which memory is to be refused, as the tests name them.
CALLS = {
    "Core::new", "Walk", "assemble", "check", "endings", "fabric", "gather", "parse", "possible", "read_events", "replay", "replay_told", "reserve",
    "rest", "rest (ports)", "run", "run_told", "tick", "work", "write_event",
}
# The modules whose tests say where calls begin and end.
MODULES = ("refused", "gathers")
# Seconds that a test may take.
LIMIT = 60


def said(*words):
    return subprocess.run(words, stdout=subprocess.PIPE, text=True, check=True).stdout


def imports(program):
    """The functions that a program takes from other libraries."""
    return {line.split()[-1].split("@")[0] for line in said("nm", "-D", "--undefined-only", program).splitlines()}


def tests(program):
    """The tests that say of calls where they begin and end."""
    names = (line.removesuffix(": test") for line in said(program, "--list").splitlines() if line.endswith(": test"))
    return [name for name in names if name.split("::")[0] in MODULES]


def refused_call(library, note, program, test, number):
    """The call whose growth was refused, where it is the one of this number among those of the test; None where there are not as many."""
    if os.path.exists(note):
        os.remove(note)
    words = {"LD_PRELOAD": library, "REFUSE_AT": str(number), "REFUSE_TO": note}
    try:
        done = subprocess.run([program, test], stdout=subprocess.PIPE, stderr=subprocess.STDOUT, env=os.environ | words, timeout=LIMIT)
    except subprocess.TimeoutExpired:
        sys.exit(f"{test}: growth {number} refused: not at its end after {LIMIT} seconds")
    if done.returncode or not done.stdout.endswith(b"test result: ok\n"):
        sys.exit(f"{test}: growth {number} refused: status {done.returncode}\n" + done.stdout.decode("utf-8", "replace"))
    if not os.path.exists(note):
        return None
    with open(note) as file:
        return file.read().rstrip("\n")


def main(library, folder, programs):
    counts, runs = collections.Counter(), 0
    for program in programs:
        if imports(program) & OTHERS:
            sys.exit(f"{program} takes memory by {imports(program) & OTHERS}, which would not be refused")
        for test in tests(program):
            number, name = 0, ""
            while name is not None:
                number, runs = number + 1, runs + 1
                name = refused_call(library, f"{folder}/call", program, test, number)
                counts[name] += 1
    del counts[None]
    for name, count in sorted(counts.items()):
        print(f"{name}\t{count}")
    print(f"{sum(counts.values())} growths refused, each in a run of its own, of {runs}")
    if CALLS != counts.keys():
        sys.exit(f"the calls are others: {sorted(CALLS ^ counts.keys())}")


if __name__ == "__main__":
    main(sys.argv[1], sys.argv[2], sys.argv[3:])
