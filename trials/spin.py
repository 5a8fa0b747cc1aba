"""Asks `l4run endings`, with --placed too, and SPIN the questions of the models in spin/, and prints the answers. Ends with
status 1 where they differ, but that --placed may find none where there is one."""

import dataclasses
import pathlib
import re
import shlex
import subprocess
import sys

TRIALS = pathlib.Path(__file__).resolve().parent
MODELS = TRIALS / "spin"
EXAMPLES = TRIALS.parent / "examples"
QUESTION = "// --"
WHOLE, FOUND = 0, 4
# Behind `pan:N:`, what SPIN finds when it looks for an invalid end state, and for an ending of which a condition is true.
STUCK, HOLDS = "invalid end state", "assertion violated !("
MOST_STEPS = 100_000


@dataclasses.dataclass
class Answer:
    """What was found, among how many states."""

    found: int
    states: int

    def __str__(self):
        return f"{self.found} in {self.states} states"


def questions(model):
    """The words of each question of a model, and its condition, or none where it asks who is stuck."""
    for line in model.read_text().splitlines():
        if line.startswith(QUESTION):
            words, _, condition = line.removeprefix("// ").partition(": ")
            yield shlex.split(words), condition


def text_of(model):
    beside = model.with_suffix(".l4")
    return beside if beside.exists() else EXAMPLES / beside.name


def output(command, folder=None):
    """What a command prints, and its status."""
    done = subprocess.run(command, cwd=folder, stdout=subprocess.PIPE, stderr=subprocess.STDOUT, text=True)
    return done.stdout, done.returncode


def endings(program, text, words, *form):
    said, status = output([program, "endings", text, *form, *words, "--none"])
    if status not in (WHOLE, FOUND):
        sys.exit(f"{text} {form} {words}: status {status}\n{said}")
    found = len(re.findall(r"^ending \d", said, re.MULTILINE))
    is_told = found > 0 or re.search(r"^stuck \S+ for ever, steps", said, re.MULTILINE) is not None
    if (status == FOUND) != is_told:
        sys.exit(f"{text} {form} {words}: status {status} does not fit\n{said}")
    return Answer(found, number(r"^(?:worlds|states) (\d+) (?:steps|depth) \d+ whole", said))


def spin(model, condition, folder):
    asked = f"#define ASKED {condition}\n" if condition else ""
    (folder / "asked.pml").write_text(f'{asked}#include "{model}"\n')
    kind, flags = (HOLDS, ["-E"]) if condition else (STUCK, [])
    for command in (["spin", "-a", "asked.pml"], ["gcc", "-w", "-DSAFETY", "-o", "pan", "pan.c"]):
        said, status = output(command, folder)
        if status != 0:
            sys.exit(f"{model}: {' '.join(command)}\n{said}")
    said, _ = output(["./pan", "-c0", "-w20", f"-m{MOST_STEPS}", *flags], folder)
    # Of errors one after another that are alike only the first is told.
    kinds = [re.sub(" +", " ", error) for error in re.findall(r"^pan:\d+: (.*)$", said, re.MULTILINE)]
    if "too small" in said or not all(error.startswith(kind) for error in kinds):
        sys.exit(f"{model}: another error than was asked for\n{said}")
    return Answer(number(r"errors: (\d+)$", said), number(r"^ *(\d+) states, stored", said))


def number(pattern, said):
    match = re.search(pattern, said, re.MULTILINE)
    if not match:
        sys.exit(f"nothing like {pattern} in\n{said}")
    return int(match[1])


def main(program, work):
    asked, same = 0, 0
    for model in sorted(MODELS.glob("*.pml")):
        for words, condition in questions(model):
            text = text_of(model)
            ours, placed = endings(program, text, words), endings(program, text, words, "--placed")
            theirs = spin(model, condition, pathlib.Path(work))
            agree = (ours.found > 0) == (theirs.found > 0) and (placed.found == 0 or theirs.found > 0)
            asked, same = asked + 1, same + agree
            print(f"{model.stem} {shlex.join(words)}: endings {ours}, placed {placed}, SPIN {theirs}{'' if agree else ', and these DIFFER'}")
    print(f"{same} of {asked} answers are the same")
    return 0 if same == asked > 0 else 1


if __name__ == "__main__":
    sys.exit(main(sys.argv[1], sys.argv[2]))
