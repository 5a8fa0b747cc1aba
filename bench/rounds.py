"""Times runs of machines of 16 processors, with the report, on one, two and four cores of the host. Prints the table.

    python3 -B bench/rounds.py PROGRAM FOLDER

Each time is the least of three. On four cores no run may take longer than on one.
"""

import pathlib
import sys

import texts
from measure import least_seconds

SPENT = 3
RUNS = 3
CORES = {1: "0", 2: "0-1", 4: "0-3"}


def words(program, path, turns, cores):
    return ["taskset", "-c", cores, program, "run", str(path), "--turns", str(turns), "--report"]


def times(program, folder, text, turns):
    """The seconds of a run for each number of cores."""
    path = pathlib.Path(folder) / "rounds.l4"
    path.write_text(text)
    return least_seconds([words(program, path, turns, cores) for cores in CORES.values()], RUNS, SPENT)


def main(program, folder):
    print("| Machine | turns | " + " | ".join(f"{count} core{'s' * (count > 1)}" for count in CORES) + " |")
    print("|---|---|" + "---|" * len(CORES))
    for name, (text, turns) in texts.of_several().items():
        print(f"| {name} | {turns:,} | " + " | ".join(f"{each:.2f} s" for each in times(program, folder, text, turns)) + " |", flush=True)


if __name__ == "__main__":
    main(*sys.argv[1:])
