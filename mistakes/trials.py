"""Plants mistakes in a copy of their crate, and asks the prover for the functions one of which must be refused.

One run of the prover takes the mistakes of different functions together: a function is judged by its own contract and by those of the functions that it
calls. It proves the functions that are asked for and what of their crate they call, over the crates below as they were built. The runs over one crate follow
one another, and each takes what those before it proved of the same texts.
"""

import concurrent.futures
import contextlib
import functools
import hashlib
import os
import pathlib
import re
import shutil
import subprocess
import sys
import tempfile

from edits import TOP, cites_gone, is_of, paths_of

sys.path.insert(0, str(pathlib.Path(shutil.which("rt")).resolve().parent))
import rtlib  # noqa: E402

# A crate asks those below for their sums, each as often as there are ways to it.
rtlib.Crate.stamp = functools.cache(rtlib.Crate.stamp)

VERDICT = re.compile(r"fn \w+::(\S+): (.*)")
ERROR = re.compile(r"(?:so far: )?\./proofs/(\S+)\.antt:\d+:\d+: error: (.*)")
# An error of what stands on a lemma that has one.
DEPENDENT = re.compile(r"\d+ declarations? that depends? on `([^`]+)`, which was .*, w\w+ not checked: (.*)")
UNREAD = re.compile(r"src/\S+: error\[.*|rattle: error.*")
# A path by which the prover knows no function, as that of a method that an impl has for a type without a name.
UNKNOWN = re.compile(r"rattle: error: `\w+` has no function `([^`]+)`")
PARTS = "src", "specs", "proofs"
TEXT = {"stdout": subprocess.PIPE, "stderr": subprocess.STDOUT, "text": True}
# What one prover takes at most, in bytes.
MEMORY = 4_000_000_000
# What was refused on this machine before, by a sum of all that it stands on.
KEPT = pathlib.Path(os.environ.get("XDG_CACHE_HOME") or os.path.expanduser("~/.cache")) / "l4-mistakes"


class Batch:
    """Mistakes of one crate that are planted together."""

    def __init__(self, first):
        self.edits, self.judges, self.texts = [first], judges_of(first), first.planted({})

    def takes(self, edit):
        """Takes one more, where other functions judge it and its texts stand once where they have been planted."""
        changed = edit.planted(self.texts)
        if changed is None or self.judges & judges_of(edit):
            return False
        self.edits.append(edit)
        self.judges |= judges_of(edit)
        self.texts |= changed
        return True

    def asked(self):
        """The functions to ask for, as the prover names them. None, for all, where an edit has no function that it could be asked for."""
        of_each = [{asked for _, asked in paths_judging(edit)} for edit in self.edits]
        return sorted(set().union(*of_each)) if all(of_each) else None


# The functions of a crate are read once.
functions_of = functools.cache(paths_of)


def paths_judging(edit):
    """The functions that judge it: the path of each, and by which path the prover is asked for it."""
    return [(at, asked) for at, asked in functions_of(edit.home) if any(is_of(at, judge) for judge in edit.judges())]


def judges_of(edit):
    """What judges it, by name and by path: a name without its type is that of functions of any."""
    return edit.judges() | {at for at, _ in paths_judging(edit)}


def batches_of(edits, is_alone):
    together, alone = [], []
    for edit in edits:
        if is_alone or None in edit.functions():
            alone.append(Batch(edit))
        elif not any(batch.takes(edit) for batch in together):
            together.append(Batch(edit))
    return together + alone


def told(form, said):
    """The path and the text of each line of this form."""
    return [found.groups() for line in said if (found := form.match(line))]


def why_refused(said, function):
    """Why a function is refused. None where it is not, or not for what it says."""
    verdicts = [text for path, text in told(VERDICT, said) if is_of(path, function)]
    if all(text == "proved" for text in verdicts):
        return None
    errors = told(ERROR, said)
    own = [(path, text) for path, text in errors if path.endswith("/Answers") and is_of(proved_in(path), function)]
    real = [text for path, text in own if is_real(path, text, errors)]
    return next((text for text in verdicts if "`search` did not prove" in text), real[0] if real else None)


def proved_in(path):
    """The path of the function whose answers these are. The folder of one that calls itself begins with a plus."""
    return path.removesuffix("/Answers").replace("/+", "/").replace("/", "::")


def is_real(path, text, errors):
    """Whether this refuses something for what it says, and not since a name is gone, there or in a lemma that it stands on."""
    if not (found := DEPENDENT.match(text)):
        return not cites_gone(text)
    others = [(at, why) for at, why in errors if why != text]
    on = [(at, why) for at, why in others if is_about(why, found[1])]
    return any(is_real(at, why, others) for at, why in [one for one in on if one[0] == path] or on)


def is_about(text, lemma):
    """Whether this is the error of a lemma, or it was not checked since another has one."""
    found = DEPENDENT.match(text)
    return lemma in re.findall(r"[^\s,()]+", found[2]) if found else text.startswith(f"`{lemma}`:")


def is_refused(edit, said):
    return any(why_refused(said, function) for function in edit.judges())


def is_unproved(edit, said):
    return any(text.startswith("not proved") for path, text in told(VERDICT, said) if any(is_of(path, function) for function in edit.judges()))


def prove(batch, room, work):
    """What the prover says of the functions that judge these mistakes, over what it keeps in the folder `work`."""
    home = batch.edits[0].home
    for part in filter(lambda part: (home / part).is_dir(), PARTS):
        shutil.copytree(home / part, room / part)
    for file, text in batch.texts.items():
        (room / file).write_text(text)
    crate, paths = rtlib.Crate(str(home), str(TOP), {}), batch.asked() or []
    while True:
        asked = [word for path in paths for word in ("--only", path)]
        words = [rtlib.RATTLE, "check", *crate.words(["--jobs", "1", *asked]), "--incremental", work]
        said = subprocess.run(words, cwd=room, stdin=subprocess.DEVNULL, **TEXT).stdout.splitlines()
        unknown = UNKNOWN.match(said[-1]) if said else None
        if not unknown or unknown[1] not in paths:
            return said
        # Else the prover looks at none of them. With no path left it looks at all of the crate.
        paths.remove(unknown[1])


@functools.cache
def sum_of(home):
    """A sum of a crate, of all below it, and of the toolchain."""
    return rtlib.Crate(str(home), str(TOP), {}).stamp()


def kept(edit):
    """The file that says that this mistake was refused with all that it stands on as it is."""
    return KEPT / hashlib.sha256((sum_of(edit.home) + edit.text).encode()).hexdigest()


def keep(edits):
    """Notes that these were refused. Where nothing can be written they are tried again."""
    with contextlib.suppress(OSError):
        KEPT.mkdir(parents=True, exist_ok=True)
        for edit in edits:
            kept(edit).touch()


def try_batch(batch, work, takes_names):
    """Those that were not refused. One that does not compile keeps all of its batch from being judged, so each is tried by itself then.
    `takes_names` says whether one counts as refused where that is so only since a name of a proof is gone."""
    with tempfile.TemporaryDirectory(prefix="mistake-") as room:
        said = prove(batch, pathlib.Path(room), work)
    left = [edit for edit in batch.edits if not is_refused(edit, said)]
    nameless = [edit for edit in left if is_unproved(edit, said)]
    for edit in nameless if takes_names or len(batch.edits) == 1 else []:
        print(f"  {edit.name}: refused, but only since a proof names what it takes away: change a value and keep the names", flush=True)
    if takes_names:
        left = [edit for edit in left if edit not in nameless]
    keep(edit for edit in batch.edits if edit not in left)
    if left and len(batch.edits) > 1:
        return [edit for one in left for edit in try_batch(Batch(one), work, takes_names)]
    if left:
        # Where no function was looked at, the last line says why.
        for line in list(filter(UNREAD.match, said)) or ([] if told(VERDICT, said) else said[-1:]):
            print(f"  {left[0].name}: {line}", flush=True)
    return left


def try_crate(batches, takes_names):
    """Those of one crate that were not refused."""
    with tempfile.TemporaryDirectory(prefix="proved-") as work:
        return [edit for batch in batches for edit in try_batch(batch, work, takes_names)]


def provers():
    """How many run at once: as many as `rt ci` is told to take, or what processors and memory allow."""
    memory = os.sysconf("SC_PAGE_SIZE") * os.sysconf("SC_PHYS_PAGES")
    return int(os.environ.get("RT_JOBS") or max(1, min(len(os.sched_getaffinity(0)), memory // MEMORY)))


def build_below(home):
    """Builds the crates below this one, where they have changed."""
    done = subprocess.run(["rt", "check", "--only", ""], cwd=home, **TEXT)
    if done.returncode:
        sys.exit(f"what {home.name} stands on was not built:\n{done.stdout}")


def try_edits(edits, is_alone, is_anew, is_built, takes_names):
    """Tries mistakes of any crates. Answers those that are not refused."""
    todo = [edit for edit in edits if is_anew or not kept(edit).exists()]
    crates = sorted({edit.home for edit in todo}, key=lambda home: home.name)
    for home in [] if is_built else crates:
        build_below(home)
    of_each = [batches_of([edit for edit in todo if edit.home == home], is_alone) for home in crates]
    # What may take longest begins first.
    of_each.sort(key=lambda batches: -sum(len(batch.edits) for batch in batches))
    with concurrent.futures.ThreadPoolExecutor(provers()) as pool:
        return [edit for left in pool.map(lambda batches: try_crate(batches, takes_names), of_each) for edit in left]
