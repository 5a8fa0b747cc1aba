#!/usr/bin/env -S python3 -B
"""Plants mistakes that the prover must refuse: run.py VERB [NAME ..], with the names of crates, all where none is named.

  at-once      those of different functions together, in minutes
  alone        each by itself, which takes far longer: for one that at-once can't judge
  gate         the gate's cut, those with a line `gate: yes`, those of different functions together
  definitions  wrong definitions, mistakes/definitions.edits, those that are named or all, each by itself
  list         tries none: counts them, or lists each of what is named (also `definitions`), and which fit no more

They are planted in a copy of their crate, and the prover is asked for the functions that each is judged by, over the crates below: these
are built first, but with --built they are taken as `rt ci` has just built them. A function is judged by its own contract and those of the
functions that it calls, so a mistake in one does not hide one in another. Where one of several is not refused, each of those left is tried
by itself. So is one that stands in no function, as in a constant. What was refused is not tried again until its crate or one below has
changed; with --anew it is.

A mistake counts as refused where the function that its line `clause:` names, or the one that it stands in, is refused for what it
says: not only since it calls another that is, and not since a name of a proof is gone. All others are printed. In the gate's cut one of
the latter counts, and is named. The last line has the sums; the status is 1 where one was not refused so, or fits no more.
"""

import collections
import sys

from definitions import try_definitions
from edits import CRATES, DEFINITIONS, TOP, crates_with_edits, edits_of, table_of
from trials import try_edits


def try_crates(crates, is_in_cut, **how):
    """Tries those mistakes of these crates that are in the cut, and prints which are not refused."""
    edits = [edit for crate in crates for edit in edits_of(crate) if is_in_cut(edit)]
    stale = [edit for edit in edits if not edit.fits()]
    left = stale + try_edits([edit for edit in edits if edit not in stale], **how)
    for crate in dict.fromkeys(edit.home.name for edit in edits):
        own, others = ([edit for edit in those if edit.home.name == crate] for those in (edits, left))
        print(f"{crate}: {len(own) - len(others)} of {len(own)} mistakes refused")
        for edit in others:
            print(f"  not refused by {edit.clause or edit.place()}: {edit.name}")
    print(f"{len(edits) - len(left)} mistakes refused, {len(left)} not")
    return len(left) > 0


def row(*cells):
    print("| " + " | ".join(map(str, cells)) + " |")


def table(*heads):
    row(*heads)
    row(*("---" for _ in heads))


def show_counts(edits):
    table("Crate", "tried by the gate", "others", "functions or files that have one")
    for group in sorted(edits):
        gate = sum(edit.in_gate for edit in edits[group])
        row(f"`{group}`", gate, len(edits[group]) - gate, len({edit.place() for edit in edits[group] if edit.fits()}))
    all_edits = sum(edits.values(), [])
    gate = sum(edit.in_gate for edit in all_edits)
    row("together", gate, len(all_edits) - gate, "")


def show_each(edits):
    table("Mistake", "where", "refused by", "in the gate", "what would go wrong")
    for edit in filter(lambda edit: edit.fits(), sum(edits.values(), [])):
        row(edit.name.replace("_", " "), f"`{edit.place()}`", edit.clause, "yes" if edit.in_gate else "", edit.why)


def show(names):
    edits = {name: edits_of(name) for name in names or [*crates_with_edits(), DEFINITIONS]}
    (show_each if names else show_counts)(edits)
    all_edits = sum(edits.values(), [])
    stale = [edit for edit in all_edits if not edit.fits()]
    silent = [edit for edit in all_edits if not (edit.why and edit.clause)]
    names = collections.Counter((edit.group, edit.name) for edit in all_edits)
    again = [edit for edit in all_edits if names[edit.group, edit.name] > 1]
    for say, those in ("fits no more", stale), ("has no `why:` or no `clause:`", silent), ("stands twice", again):
        for edit in those:
            print(f"{say}: {table_of(edit.group).relative_to(TOP)}: {edit.name}")
    return bool(stale or silent or again)


def with_edits(names):
    """Those of the named crates that have mistakes; all that have some, where none is named."""
    for name in names:
        if not (CRATES / name).is_dir():
            sys.exit(f"there is no crate {name}")
        if not edits_of(name):
            print(f"{name} has no mistakes. ./x mistakes definitions plants those of the model.", file=sys.stderr)
    return [name for name in names if edits_of(name)] if names else crates_with_edits()


def main(verb, words):
    names = [word for word in words if not word.startswith("--")]
    how = {"is_alone": verb == "alone", "is_anew": "--anew" in words, "is_built": "--built" in words, "takes_names": verb == "gate"}
    match verb:
        case "list":
            return show(names)
        case "definitions":
            return try_definitions(names)
        case "gate":
            return try_crates(with_edits(names), lambda edit: edit.in_gate, **how)
        case "at-once" | "alone":
            return try_crates(with_edits(names), lambda _: True, **how)
    sys.exit(__doc__)


sys.exit(main(sys.argv[1] if sys.argv[1:] else "", sys.argv[2:]))
