#!/usr/bin/env -S python3 -B
"""Compares what the library answers with what the program prints, byte by byte: each command of all cases, and texts that are spoilt.

    bindings/compare.py PROGRAM [EVERY]

With a number EVERY it compares one command of so many.
A run on several processors may take one order or another in the program, and goes in rounds in the library. So it is compared with the replay of no
entries that goes on until rest. So is a run that is recorded; and the program's replay of the library's record has to print the same. Left out are
commands whose output is a terminal, and those with a word that is too long for the system. The last line is how many were compared.
"""

import os
import pathlib
import re
import subprocess
import sys
import tempfile
import time

HERE = pathlib.Path(__file__).resolve().parent
CASES = HERE.parent / "crates" / "l4_cases" / "data"
sys.path.insert(0, str(HERE / "python"))
import l4emu  # noqa: E402

LONGEST_WORD = 2**17 - 1
INPUT = "/dev/stdin"


def words_of(line):
    """The words of a line. Between quotes a word may have blanks, or be empty."""
    return [word for place, part in enumerate(line.split("'")) for word in ([part] if place % 2 else part.split())]


def written_out(text):
    """What a case repeats, written out: {TEXT*M..N} and {TEXT*M..N by K}."""

    def repeated(it):
        return "".join(it[1].replace("%", str(number)) for number in range(int(it[2]), int(it[3]) + 1, int(it[4] or 1)))

    return re.sub(r"\{([^{}]*?)\*(\d+)\.\.(\d+)(?: by (\d+))?\}", repeated, text)


def commands_of(lines, mark):
    """The commands of a text whose lines have this mark before them: words, standard input, and whether the output is a terminal."""
    for block in lines.split(f"\n{mark}$ ")[1:]:
        line, *said = block.split("\n")
        given = "".join(f"{it[len(mark) + 2 :]}\n" for it in said if it.startswith(f"{mark}< "))
        yield words_of(line)[1:], given.encode(), any(it.startswith(f"{mark}> ") for it in said)


def names_of(word):
    """The files that a word may name: it may stand behind `@`, or behind the `=` of an option."""
    return [word, word.removeprefix("@"), re.sub(r"^--\w+=@?", "", word)]


def case_in_comments(path):
    for words, given, on_terminal in commands_of(path.read_text(), "; "):
        named = {name: path.parent / name if "/" not in name else CASES / name for word in words for name in names_of(word) if name}
        files = {name: at.read_bytes() for name, at in named.items() if at.is_file()}
        yield words, files, given, on_terminal


def case_apart(path):
    """A case whose commands read its text, whatever file they name."""
    lines, text = written_out(path.read_text()).split("\n---\n", 1)
    for words, given, on_terminal in commands_of(lines, ""):
        places = [word for word in words if not word.startswith("--")]
        files, stdin = {}, given
        if len(places) > 1 and places[1] == "-":
            stdin = text.encode()
        elif len(places) > 1:
            files[places[1]] = text.encode()
        if places[:1] in (["audit"], ["chart"]) and len(places) > 2 and places[2] != "-":
            files[places[2]] = given
        yield words, files, stdin, on_terminal


def all_commands():
    for path in sorted([*CASES.glob("*"), *CASES.glob("examples/*")]):
        if path.suffix == ".l4":
            yield from ((path.name, *it) for it in case_in_comments(path))
        elif path.suffix == ".case":
            yield from ((path.name, *it) for it in case_apart(path))


def spoilt():
    """Texts that no machine has, by a run of each: long, binary, with too many processors, cut, and what stands around the limits."""
    whole = (CASES / "examples" / "locks.l4").read_bytes()
    texts = [b"a" * 2**20, b"a" * (2**20 + 1), b";\n" * 2**19, b"\n" * 2**20, bytes(range(256)) * 64, b"\0", b"", b"l4 1 64\ncpus 17\n", b"l4 1 64\ncpus 16\n"]
    texts += [whole[:cut] for cut in range(0, len(whole), 7)]
    for text in texts:
        for words in (["run", "m"], ["lint", "m"], ["audit", "m", "m"], ["endings", "m", "--states", "100"]):
            yield "spoilt", words, {"m": text}, b"", False


def recorded():
    """A run of each example, whose record is asked for."""
    for path in sorted((CASES / "examples").glob("*.l4")):
        yield path.name, ["run", "m", "--report", "--record", "list"], {"m": path.read_bytes()}, b"", False


def in_rounds(words):
    """The replay in the place of a run."""
    kept, record = [], None
    rest = iter(words[2:])
    for word in rest:
        if word == "--record":
            record = next(rest)
        else:
            kept.append(word)
    return ["replay", words[1], "--schedule", "", "--then-rest", *kept], record


def printed_by(program, words, files, given):
    """What the program prints, with its files in a folder of its own."""
    with tempfile.TemporaryDirectory(prefix="bindings-") as folder:
        for name, text in files.items():
            if not os.path.isabs(name) and not name.startswith(".."):
                to = pathlib.Path(folder, name)
                to.parent.mkdir(parents=True, exist_ok=True)
                to.write_bytes(text)
        kept = {name: value for name, value in os.environ.items() if name not in ("COLUMNS", "TERM")}
        how = {"cwd": folder, "env": kept, "input": given, "stdout": subprocess.PIPE, "stderr": subprocess.PIPE}
        # Its usage names it as it was called.
        done = subprocess.run(["l4run", *words], executable=program, **how)
        return done.returncode, done.stdout, done.stderr


def unpainted(words):
    """The same without colours, since the library paints nothing."""
    return ["never" if (before, word) == ("--color", "always") else word for before, word in zip(["", *words], words)]


def answered(words, files, given):
    """What the library answers. The standard input is a file with the names that it has."""
    asked = {name for word in words for name in names_of(word)}
    named = {name: text for name, text in files.items() if name in asked}
    # The lines of a session come from there, though no word says so.
    named.update((name, given) for name in ("-", INPUT) if name in asked or (name, *words[:1]) == ("-", "step"))
    return l4emu.call(*words, files=named)


def is_run(words, files):
    """Whether a run may take another order in the program, or is recorded, and asks for a job."""
    text = files.get(words[1], b"") if len(words) > 1 else b""
    cpus = re.search(rb"^cpus (\S+)", text, re.M)
    return words[:1] == ["run"] and words[1:] and ("--record" in words or (cpus and cpus[1] != b"1"))


def main(program, every=1):
    program = os.path.abspath(program)
    others, left, count, records = [], 0, 0, 0
    took = {"library": 0.0, "program": 0.0}
    for name, words, files, given, on_terminal in [*all_commands(), *spoilt()][:: int(every)] + [*recorded()]:
        if on_terminal or any(len(word) >= LONGEST_WORD for word in words):
            left += 1
            continue
        count += 1
        began = time.perf_counter()
        got = answered(words, files, given)
        between = time.perf_counter()
        asked, record = in_rounds(words) if got.status != 2 and is_run(words, files) else (words, None)
        wanted = printed_by(program, unpainted(asked), files, given)
        took["library"] += between - began
        took["program"] += time.perf_counter() - between
        is_same = (got.status, got.out, got.faults) == wanted
        if record is not None and got.status in (0, 3):
            records += 1
            again = ["replay", words[1], "--schedule", "@recorded", *(it for it in asked[5:] if it in ("--report", "--waits", "--counts"))]
            replayed = printed_by(program, again, {**files, "recorded": got.recorded}, given)
            is_same = is_same and replayed[1] == got.out and bool(got.recorded)
        if not is_same:
            others.append(f"{name}: {' '.join(words)[:200]}: {got.status} in place of {wanted[0]}")
    for other in others:
        print(other)
    times = ", ".join(f"{who} {seconds:.1f} s" for who, seconds in took.items())
    print(f"bindings: {count} commands, {records} of them recorded, {len(others)} differ, {left} left out; {times}")
    return 1 if others or not count else 0


if __name__ == "__main__":
    sys.exit(main(*sys.argv[1:]))
