"""Edits that plant a mistake: how they are read, and in which function they stand."""

import collections
import itertools
import pathlib
import re
import sys

TOP = pathlib.Path(__file__).resolve().parent.parent
CRATES = TOP / "crates"
DEFINITIONS = "definitions"
# The first lines of a mistake in a table.
MISTAKE, GATE = "mistake: ", "gate: yes"
FUNCTION = re.compile(r"\s*(?:pub(?:\([^)]*\))?\s+)?(?:const\s+)?(?:extern\s+\"C\"\s+)?fn\s+(\w+)")
MODULE = re.compile(r"^[a-z_]\w*::")
IMPL = re.compile(r"impl(?:<[^{]*?>)?\s+(?:[\w:<>', ]+\s+for\s+)?(\w+)")
# What the prover says of a name that is not there.
GONE = " has no ", " is not in scope"
# The functions of a generic type with one type put in.
OF_ONE = re.compile(r"impl (\w+)<([A-Z]\w*)")


class Edit:
    """A mistake: lines `why:` and `clause:`, and below a line `file:` pairs of an old text and what takes its place."""

    def __init__(self, group, name, text, in_gate):
        self.group, self.name, self.text, self.in_gate = group, name, text, in_gate
        self.why = self.clause = ""
        self.pairs = []
        self.read()
        self.home = home_of(self.pairs) if group == DEFINITIONS else CRATES / group

    def read(self):
        """Lines `new:` that follow one another are the lines of one text."""
        file, old, last = None, None, None
        for line in self.text.splitlines():
            key, _, text = line.partition(":")
            text = text.removeprefix(" ")
            if key in ("why", "clause"):
                setattr(self, key, text)
            elif key == "file":
                file = text
            elif key == "old":
                old = text
            elif key == "new" and last == "new":
                self.pairs[-1] = file, old, f"{self.pairs[-1][2]}\n{text}"
            elif key == "new":
                self.pairs.append((file, old, text))
            else:
                sys.exit(f"mistakes/{self.group}.edits: {self.name}: a line begins with `{key}`")
            last = key

    def planted(self, texts):
        """The files as it leaves them, of which `texts` has those that others have changed. None where it does not fit."""
        changed = {}
        for file, old, new in self.pairs:
            text = changed.get(file) or texts.get(file) or (self.home / file).read_text()
            if text.count(old) != 1:
                return None
            changed[file] = text.replace(old, new)
        return changed

    def fits(self):
        return bool(self.pairs) and self.planted({}) is not None

    def functions(self):
        """The functions that it stands in. None is among them where a text stands in none, as in a constant."""
        texts = {file: (self.home / file).read_text() for file, _, _ in self.pairs}
        # A text that an earlier pair makes is not there yet, and stands where that one does.
        places = [(texts[file], texts[file].find(old)) for file, old, _ in self.pairs]
        return {function_at(text, place) for text, place in places if place >= 0}

    def place(self):
        """Where it stands: the function of its first text, or for a definition its file."""
        file, old, _ = self.pairs[0]
        if self.group == DEFINITIONS:
            return f"{self.home.name}/{file}"
        text = (self.home / file).read_text()
        return function_at(text, text.index(old)) or file

    def refusers(self):
        """The functions that its line `clause:` names, without their modules."""
        return {MODULE.sub("", part.split()[0]) for part in self.clause.split(",") if part.split()}

    def judges(self):
        """The functions one of which must be refused."""
        return self.refusers() | self.functions() - {None}


def cites_gone(text):
    """Whether this error is only that a name is not there, which shows nothing of what a clause or a lemma says."""
    return any(gone in text for gone in GONE)


def function_at(text, at):
    """The function around a place, as `Type::name` where it is one of a type, else its name."""
    rows = text.split("\n")
    row = text[:at].count("\n")
    name = next((found.group(1) for line in rows[row::-1] if (found := FUNCTION.match(line))), None)
    if not rows[row].startswith((" ", "fn", "pub fn", "pub(")):
        return name
    for line in rows[row::-1]:
        if line.startswith("impl"):
            return f"{IMPL.match(line).group(1)}::{name}"
        if line.startswith("}"):
            return name
    return name


def is_of(path, function):
    """Whether this is the path of the function, or of a closure in it. A type's trait is told in one word with it."""
    outer, _, closure = path.partition("::fn::")
    path = "::".join([outer, *closure.split("::")[:1]]).removesuffix("::")
    *types, name = function.split("::")
    *above, last = path.split("::")
    return last == name and all(above and above[-1].startswith(one) for one in types)


def head_of(rows):
    """The line that begins what the last of these rows stands in: an `impl` or a trait. Else another, or nothing."""
    return next((line for line in reversed(rows) if line.startswith(("impl", "pub trait", "trait", "}"))), "")


def paths_of(home):
    """The functions of a crate with a body of their own: the path of each, and by which path the prover is asked for it. One that a trait asks for is
    asked for by its module, one of a generic type with one type put in by both types."""
    found = []
    for file in sorted((home / "src").rglob("*.rt")):
        text, module = file.read_text(), "::".join(file.relative_to(home / "src").with_suffix("").parts)
        rows = text.split("\n")
        for row, end in enumerate(itertools.accumulate(len(row) + 1 for row in rows)):
            head = head_of(rows[: row + 1])
            if FUNCTION.match(rows[row]) and "trait" not in head:
                name = function_at(text, end - 2)
                path = f"{module}::{name}".removeprefix("lib::")
                asked = module if " for " in head else name if "::" in name else path
                if " for " not in head and (one := OF_ONE.match(head)):
                    asked = f"{one[1]}+{one[2]}::{name.split('::')[-1]}"
                found.append((path, asked))
    # Two types, or two modules, of one name may have functions of one name.
    named = collections.Counter(end for path, _ in found for end in endings_of(path))
    return [(path, f"{home.name}::{path}" if asked in endings_of(path) and named[asked] > 1 else asked) for path, asked in found]


def endings_of(path):
    """The path, and what is left of it without its first modules."""
    words = path.split("::")
    return {"::".join(words[first:]) for first in range(len(words))}


def table_of(group):
    """The file with the mistakes of a crate, or with those of definitions."""
    return TOP / "mistakes" / f"{group}.edits"


def edits_of(group):
    """Those of a crate, or of definitions: first those that the gate tries."""
    table = table_of(group)
    blocks = table.read_text().rstrip("\n").split("\n\n") if table.exists() else []
    return sorted((edit_in(block, group) for block in blocks), key=lambda edit: not edit.in_gate)


def edit_in(block, group):
    """What a block of a table plants: its name in a line `mistake:`, below that `gate: yes` where the gate tries it, and its lines."""
    head, *rows = block.split("\n")
    if not head.startswith(MISTAKE):
        sys.exit(f"{table_of(group).relative_to(TOP)}: a block begins with `{head}`, and not with `{MISTAKE}NAME`")
    in_gate = rows[:1] == [GATE]
    return Edit(group, head.removeprefix(MISTAKE), "\n".join(rows[in_gate:]) + "\n", in_gate)


def home_of(pairs):
    """The crate of a wrong definition: the first that has its file and its first text."""
    file, old, _ = pairs[0]
    homes = [home for home in sorted(CRATES.iterdir()) if (home / file).exists()]
    return next((home for home in homes if old in (home / file).read_text()), homes[0])


def crates_with_edits():
    return [path.name for path in sorted(CRATES.iterdir()) if path.is_dir() and edits_of(path.name)]
