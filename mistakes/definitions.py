"""Wrong definitions, planted one at a time in a copy of the crates of the model."""

import pathlib
import re
import shutil
import subprocess
import tempfile

from edits import CRATES, DEFINITIONS, TOP, cites_gone, edits_of

MODEL = ["l4_model", "l4_core_model", "l4_refines", "l4_merge", "l4_bisimilar", "l4_explore", "l4_states", "l4_worlds", "l4_first", "l4_persistent", "l4_rests", "l4_futures", "l4_forever", "l4_invariants"]
IMPORT = re.compile(r"l4_core_model\.proofs\.(\w+)")
REFUSED = re.compile(r"(?:\./)?proofs/(\S+):\d+:\d+: error: `([^`]+)`")
UNBUILT = re.compile(r"rt: the library (\S*) did not build")


def copy_model(copy):
    shutil.rmtree(copy, ignore_errors=True)
    copy.mkdir()
    lines = (TOP / "crates.txt").read_text().splitlines(keepends=True)
    (copy / "crates.txt").write_text("".join(line for line in lines if line.split(":")[0] in MODEL))
    for crate in MODEL:
        shutil.copytree(CRATES / crate, copy / "crates" / crate, symlinks=True)


def imports_of(text):
    return set(IMPORT.findall(text))


def keep_what_the_law_imports(copy):
    """Leaves of l4_core_model its definitions, and the proof files on which the law stands: no row."""
    crates = copy / "crates"
    proofs = crates / "l4_core_model" / "proofs"
    above = [path for crate in ("l4_refines", "l4_merge") for path in (crates / crate / "proofs").rglob("*.antt")]
    kept, todo = set(), set().union(*(imports_of(path.read_text()) for path in above))
    while todo:
        kept |= todo
        todo = set().union(*(imports_of((proofs / f"{name}.antt").read_text()) for name in todo)) - kept
    for path in proofs.iterdir():
        if path.is_dir() and path.name.startswith("law_"):
            shutil.rmtree(path)
        elif path.suffix == ".antt" and path.stem not in kept:
            path.unlink()
    (proofs / "Lib.antt").write_text("".join(f"pub mod {name}\n" for name in sorted(kept)))
    library = crates / "l4_core_model" / "src" / "lib.rt"
    library.write_text(library.read_text().partition("ghost use")[0])


def refused_by(copy, crate):
    """The first lemma that is refused, and how many more are: CRATE FILE:LEMMA. Nothing where the crate is proved."""
    home = copy / "crates" / crate
    done = subprocess.run(["rt", "check"], cwd=home, stdout=subprocess.PIPE, stderr=subprocess.STDOUT, text=True)
    said = done.stdout.splitlines()
    if any("logic=proved" in line for line in said[-3:]):
        return ""
    where = next((found.group(1) for line in said if (found := UNBUILT.match(line))), crate)
    lemmas = [f"{found.group(1)}:{found.group(2)}" for line in said if (found := REFUSED.match(line)) and not cites_gone(line)]
    if not lemmas:
        return f"no lemma: {next((line for line in said if 'error' in line), '')}"
    more = f" and {len(lemmas) - 1} more" if lemmas[1:] else ""
    return f"{where} {lemmas[0]}{more}"


def verdict(edit, copy):
    """Where the crate of an edit refuses it, and of l4_core_model also where the law above does."""
    copy_model(copy)
    home = copy / "crates" / edit.home.name
    for file, text in edit.planted({}).items():
        (home / file).write_text(text)
    own, law = refused_by(copy, edit.home.name), ""
    if edit.home.name == "l4_core_model":
        keep_what_the_law_imports(copy)
        law = refused_by(copy, "l4_refines") or refused_by(copy, "l4_merge")
    if "no lemma: " in own + law:
        return f"NOT TRIED, {own}{law}"
    if not own + law:
        return "NOT REFUSED"
    return f"refused by {own or f'nothing in {edit.home.name}'}" + (f"; the law by {law}" if law else "")


def try_definitions(names):
    """Prints for each where it is refused. Answers whether one is not, or fits no more."""
    is_bad = False
    with tempfile.TemporaryDirectory() as work:
        for edit in edits_of(DEFINITIONS):
            if names and edit.name not in names:
                continue
            said = verdict(edit, pathlib.Path(work) / "one") if edit.fits() else "NOT TRIED, it fits no more"
            print(f"{edit.name}: {said}", flush=True)
            is_bad |= said.startswith("NOT")
    return is_bad
