"""The tables of the benchmarks, and the command lines of what they measure."""

import pathlib

from measure import output

# A system takes no longer word.
LONGEST = 128 * 1024


def row(*cells):
    print("| " + " | ".join(cells) + " |", flush=True)


def table(*heads):
    print()
    row(*heads)
    row(*("---" for _ in heads))


class Bench:
    """The program, the folder of its texts, and a plain program that does the same, where there is one."""

    def __init__(self, program, folder, plain=""):
        self.program = program
        self.folder = pathlib.Path(folder)
        self.plain = plain

    def file(self, name, text):
        """The file of this name, which is written with this text."""
        file = self.folder / name
        file.write_text(text)
        return str(file)

    def words(self, name, text, turns, report=True):
        """The words that run this text, which is written into a file of this name."""
        words = [self.program, "run", self.file(name, text), "--turns", str(turns)]
        return words + ["--report"] if report else words

    def replay(self, name, text, processors, report=False):
        """The words that replay a turn of each of these processors in order, with the trace or the report."""
        words = [self.program, "replay", self.file(name, text), "--schedule", self.list_word(",".join(map(str, processors)))]
        return words + ["--report"] if report else words

    def list_word(self, items):
        """The word that gives these items, which stand in a file where they are too long for a word."""
        if len(items) < LONGEST:
            return items
        file = self.folder / f"{len(items)}.list"
        file.write_text(items)
        return f"@{file}"

    def audit(self, name, lines):
        """The words that audit a trace of these lines against the text in the file of this name."""
        trace = self.folder / f"{len(lines)}.trace"
        trace.write_bytes(b"".join(lines))
        return [self.program, "audit", str(self.folder / name), str(trace)]

    def beside(self, count, *commands, digits=0):
        """A cell with what is counted of these commands, each a list of words. Behind it stand what is counted of the plain program with the same words, which
        has to print the same, and how many times as much the first is."""
        own = count(*commands)
        if not self.plain:
            return f"{own:,.{digits}f}"
        plainly = [[self.plain, *words[1:]] for words in commands]
        for words, again in zip(commands, plainly):
            if output(words) != output(again):
                raise SystemExit(f"the plain program prints something else: {' '.join(again)[:400]}")
        plain = count(*plainly)
        return f"{own:,.{digits}f} ({plain:,.{digits}f}: {own / plain:.2f})"

    def show_cells(self):
        """Says what stands in the cells of instructions."""
        if self.plain:
            print("\nInstructions: of the program, and in brackets of the plain program of bench/plain, and the quotient.")
