"""Compares the tables that a benchmark prints with the figures of a file: compare.py SCRIPT BASELINE <TABLES.

A line of the baseline is SCRIPT, the first cell of a row, the head of a column and the figure, with tabs between. The tables go on to standard output
as they come. Behind them stands a line for each figure of this script: what it was, what it is, and the ratio. The status is 1 where one is above
its baseline by more than a hundredth, or was not measured. Of rows that the baseline does not have come last the lines that it would have of them.
"""

import pathlib
import sys

MOST = 1.01


def cells_of(line):
    return [cell.strip() for cell in line.strip().strip("|").split("|")]


def number_of(cell):
    """The number at the start of a cell, or none."""
    try:
        return float(cell.split()[0].replace(",", ""))
    except (IndexError, ValueError):
        return None


def figures_of(lines):
    """The number of each row and column of all tables: a table begins with a line of heads behind an empty line."""
    figures, heads, last = {}, [], ""
    for line in lines:
        if line.startswith("|"):
            row, *cells = cells_of(line)
            if not last.startswith("|"):
                heads = cells_of(line)[1:]
            else:
                figures.update({(row, head): number_of(cell) for head, cell in zip(heads, cells)})
        last = line
    return figures


def baseline_of(file, script):
    rows = (line.split("\t") for line in pathlib.Path(file).read_text().splitlines() if line and not line.startswith("#"))
    return {(row, head): number_of(figure) for of, row, head, figure in rows if of == script}


def show_compared(baseline, measured):
    """Prints how each figure of the baseline has changed, and answers whether all are there and none is above it."""
    well = True
    for (row, head), before in baseline.items():
        now = measured.get((row, head))
        if now is None or now != now:
            print(f"{row}, {head}: {before:,.0f} before, not measured")
            well = False
            continue
        ratio = now / before
        well = well and ratio <= MOST
        print(f"{row}, {head}: {before:,.0f} before, now {now:,.0f}, {ratio:.3f} of it{' ABOVE' if ratio > MOST else ''}")
    return well


def show_others(script, baseline, measured):
    """Prints the lines of rows that the baseline does not have, in columns that it has of others."""
    rows, heads = ({key[place] for key in baseline} for place in (0, 1))
    others = {key: now for key, now in measured.items() if key[0] not in rows and key[1] in heads and now is not None and now == now}
    if others:
        print("\nnot in the baseline:")
    for (row, head), now in others.items():
        print(f"{script}\t{row}\t{head}\t{now:,.0f}")


def main(script, file):
    lines = []
    for line in sys.stdin:
        print(line, end="", flush=True)
        lines.append(line)
    baseline = baseline_of(file, script)
    if not baseline:
        print(f"\nthe baseline has no figure of {script}")
        return 0
    measured = figures_of(lines)
    print(f"\nagainst the baseline, at most {MOST} of it:")
    well = show_compared(baseline, measured)
    show_others(script, baseline, measured)
    return 0 if well else 1


sys.exit(main(*sys.argv[1:]))
