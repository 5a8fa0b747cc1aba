#!/usr/bin/env python3
"""Makes the table of docs/REPROVED.md: how much is proved again where a crate changes.

    bench/reproved.py           prints it
    bench/reproved.py MINUTES   the same, with the seconds of a file with what bench/minutes.py printed
    bench/reproved.py --write [MINUTES]     writes it into the page

Lines are counted in src/, specs/ and proofs/ of the crate and of all that stand on it by crates.txt.
The seconds of the prover are those of the page as it stands, where no MINUTES are given.
"""

import pathlib
import sys

TOP = pathlib.Path(__file__).resolve().parent.parent
PAGE = TOP / "docs" / "REPROVED.md"
PARTS = {"src": "*.rt", "specs": "*.antt", "proofs": "*.antt"}
HEAD = [
    "| Crate | Its lines | Proved again, % | Crates on it | Proof, s | Tests, s | Mistakes, s |",
    "|---|---:|---:|---:|---:|---:|---:|",
]
# Behind the crate: where the seconds stand in the rows of the page, and in those of bench/minutes.py.
OF_PAGE, OF_MINUTES = slice(4, 7), slice(1, 4)


def crates():
    """Each crate, in the order of crates.txt, with what its line names."""
    rows = [row.partition("#")[0] for row in (TOP / "crates.txt").read_text().splitlines()]
    return {head.split()[0]: below.split() for head, _, below in (row.partition(":") for row in rows if row.strip())}


def lines_of(crate):
    files = [path for part, form in PARTS.items() for path in (TOP / "crates" / crate / part).rglob(form)]
    return sum(len(path.read_text().splitlines()) for path in files)


def all_below(crate, below):
    """The crates of the repository that this one stands on."""
    own = [name for name in below[crate] if name in below]
    return set(own).union(*(all_below(name, below) for name in own))


def seconds_in(text, columns):
    """The seconds of each crate in a table: of its proof, of its tests, of its mistakes. What is not known is no word."""
    rows = [[cell.strip() for cell in row.strip("|").split("|")] for row in text.splitlines() if row.startswith("| `")]
    return {cells[0].strip("`"): cells[columns] for cells in rows}


def table(seconds):
    below = crates()
    lines = {crate: lines_of(crate) for crate in below}
    under = {crate: all_below(crate, below) for crate in below}
    yield from HEAD
    for crate in below:
        above = [other for other in below if crate in under[other]]
        share = 100 * sum(lines[one] for one in [crate, *above]) / sum(lines.values())
        figures = f"{lines[crate]:,}", f"{share:.{0 if share >= 1 else 1}f}", str(len(above)), *seconds.get(crate, [""] * 3)
        yield f"| `{crate}` | {' | '.join(figures)} |"
    yield f"| all | {sum(lines.values()):,} | | | | | |"


def with_table(page, rows):
    """The page with these rows in the place of its table."""
    old = page.splitlines()
    places = [place for place, row in enumerate(old) if row.startswith("|")]
    return "\n".join([*old[: places[0]], *rows, *old[places[-1] + 1 :]]) + "\n"


def main(words):
    is_written, files = "--write" in words, [word for word in words if word != "--write"]
    page = PAGE.read_text()
    seconds = seconds_in(pathlib.Path(files[0]).read_text(), OF_MINUTES) if files else seconds_in(page, OF_PAGE)
    rows = list(table(seconds))
    if is_written:
        PAGE.write_text(with_table(page, rows))
    else:
        print("\n".join(rows))


main(sys.argv[1:])
