#!/usr/bin/env -S python3 -B
"""Tells whether the libraries in crates/*/out are those of the texts as they stand.

    dist/proved.py --texts          prints for each library a sum of its texts and of all that these stand on
    dist/proved.py --note TEXTS     notes that `rt ci` has just proved the texts that the file TEXTS has, which was printed before

`rt check`, `rt lib` and `rt run` stamp each library that they build. `rt ci` stamps none, so that they would build each anew: the gate notes in
out/proved what was built, of which texts. A note is of sums alone, so it never says more than it knows.
"""

import functools
import json
import os
import pathlib
import sys

TOP = pathlib.Path(__file__).resolve().parent.parent
NOTE = TOP / "out" / "proved"
sys.path.insert(0, str(TOP / "unproved"))
from build import rtlib  # noqa: E402

# A crate asks those below for their sums, each as often as there are ways to it.
rtlib.Crate.stamp = functools.cache(rtlib.Crate.stamp)


def libraries():
    return [it for it in rtlib.crates_below(str(TOP)) if it.makes_rlib()]


def sum_as_built(crate):
    """A sum of a library as it was built: its file `format` has one of each file of it, and of those that it was built over."""
    return rtlib.sum_of(f"{crate.rlib}/format")


def texts_of(crates):
    return {it.name: it.stamp() for it in crates}


def note(texts):
    """Notes the libraries as they were built, each beside its texts, where these are still what they were. Returns whether all are."""
    crates = libraries()
    if texts_of(crates) != texts:
        return False
    NOTE.parent.mkdir(exist_ok=True)
    NOTE.write_text(json.dumps({it.name: [it.stamp(), sum_as_built(it)] for it in crates}))
    return True


def unknown_below(crate):
    """The libraries that a crate stands on, of which it is not known that they were built of the texts as they stand."""
    noted = json.loads(NOTE.read_text()) if NOTE.exists() else {}

    def is_noted(it):
        return os.path.exists(f"{it.rlib}/format") and noted.get(it.name) == [it.stamp(), sum_as_built(it)]

    return [it.name for it in crate.below() if not it.is_built() and not is_noted(it)]


def main(words):
    match words:
        case ["--texts"]:
            print(json.dumps(texts_of(libraries())))
        case ["--note", texts]:
            if not note(json.loads(pathlib.Path(texts).read_text())):
                sys.exit("proved: a text was changed while it was proved, so nothing is noted")
        case _:
            sys.exit(__doc__)


if __name__ == "__main__":
    main(sys.argv[1:])
