#!/usr/bin/env python3
"""Prints where the gate's minutes are: the processor seconds of each crate's proof, of the proof of its tests and of its edits, in a run from nothing.

Runs `rt ci --anew`, or `rt ci` where the toolchain keeps nothing, with the names of crates that are given, in a clone of this repository as it was
committed, then plants the gate's mistakes, and looks twice a second at the provers that it started. What is not theirs (compilers, linkers, the tests and programs themselves) is the difference to the whole
in the last line. A prover that works on a mistake stands in a folder of its own, and one that proves tests is told so.

    bench/minutes.py            all crates: hours
    bench/minutes.py l4_mail    this one and those below it, where `rt ci` takes names
"""

import os
import pathlib
import resource
import subprocess
import sys
import tempfile
import time

TOP = pathlib.Path(__file__).resolve().parent.parent
KINDS = ("proof", "tests", "mistakes")
BOTH = 'rt ci $ANEW "$@" && mistakes/run.py gate --built --anew "$@"'
TICKS = os.sysconf("SC_CLK_TCK")


def stat(pid):
    """The parent of a process, when it started, and its own processor seconds."""
    fields = pathlib.Path(f"/proc/{pid}/stat").read_text().rpartition(")")[2].split()
    return int(fields[1]), fields[19], (int(fields[11]) + int(fields[12])) / TICKS


def prover(pid):
    """The crate and the kind of work of a prover, or None."""
    words = pathlib.Path(f"/proc/{pid}/cmdline").read_bytes().decode(errors="replace").split("\0")
    if "--crate-name" not in words:
        return None
    crate = words[words.index("--crate-name") + 1]
    if os.path.basename(os.readlink(f"/proc/{pid}/cwd")).startswith("mistake-"):
        return crate, "mistakes"
    return crate, "tests" if "--test" in words else "proof"


def anew():
    """The word by which `rt ci` takes nothing that it kept, where it keeps anything."""
    told = subprocess.run(["rt", "help"], stdout=subprocess.PIPE, stderr=subprocess.STDOUT, text=True).stdout
    return "--anew" if "--anew" in told else ""


def processes():
    """The processes of this machine: of each its parent, when it started, and its processor seconds."""
    found = {}
    for name in os.listdir("/proc"):
        if name.isdigit():
            try:
                found[int(name)] = stat(name)
            except (OSError, ValueError):
                continue
    return found


def descendants(of, found):
    below = {of}
    while True:
        more = {pid for pid, (parent, _, _) in found.items() if parent in below} - below
        if not more:
            return below
        below |= more


def look(root, seen):
    """Notes the processor seconds of each prover at work."""
    found = processes()
    for pid in descendants(root, found):
        if pid not in found:
            continue
        _, began, seconds = found[pid]
        try:
            what = prover(pid)
        except OSError:
            continue
        if what:
            seen[pid, began] = what, seconds


def table(seen):
    spent = {}
    for (crate, kind), seconds in seen.values():
        row = spent.setdefault(crate, dict.fromkeys(KINDS, 0.0))
        row[kind] += seconds
    order = [line.split(":")[0].split()[0] for line in (TOP / "crates.txt").read_text().splitlines() if line.strip() and line[0] != "#"]
    yield "| Crate | Proof | Tests | Mistakes | Together |"
    yield "|---|---:|---:|---:|---:|"
    for crate in sorted(spent, key=lambda it: order.index(it) if it in order else len(order)):
        row = [spent[crate][kind] for kind in KINDS]
        yield f"| `{crate}` | " + " | ".join(f"{seconds:,.0f}" for seconds in [*row, sum(row)]) + " |"
    whole = [sum(row[kind] for row in spent.values()) for kind in KINDS]
    yield "| together | " + " | ".join(f"{seconds:,.0f}" for seconds in [*whole, sum(whole)]) + " |"


def main(names):
    seen = {}
    with tempfile.TemporaryDirectory() as room:
        subprocess.run(["git", "clone", "-q", str(TOP), f"{room}/clone"], check=True)
        before = resource.getrusage(resource.RUSAGE_CHILDREN)
        with open(f"{room}/log", "w+", encoding="utf-8", errors="replace") as log:
            gate = subprocess.Popen(["bash", "-c", BOTH, "gate", *names], cwd=f"{room}/clone", env={**os.environ, "ANEW": anew()}, stdout=log, stderr=log)
            while gate.poll() is None:
                look(gate.pid, seen)
                time.sleep(0.5)
            log.seek(0)
            last = log.read().strip().splitlines()[-1]
        after = resource.getrusage(resource.RUSAGE_CHILDREN)
    whole = after.ru_utime - before.ru_utime + after.ru_stime - before.ru_stime
    print("\n".join(table(seen)))
    print(f"{whole / 60:.1f} processor minutes in all; {last}")
    return gate.returncode


sys.exit(main(sys.argv[1:]))
