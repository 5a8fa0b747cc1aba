#!/usr/bin/env -S python3 -B
"""Makes the page: one HTML file with the program's module and the examples in it.

    page/make.py OUT.html [--unproved]
    page/make.py OUT.html --empty      without a program, in a moment, for tests of its parts

It says of itself of which commit it was made, and with which kit the program was proved, or that nothing is proved.
"""

import base64
import gzip
import html
import json
import os
import pathlib
import re
import subprocess
import sys

HERE = pathlib.Path(__file__).resolve().parent
TOP = HERE.parent
PARTS = HERE / "parts"
sys.path.insert(0, str(HERE / "module"))
import module  # noqa: E402

# What a worker has, and what the page has, in this order.
WORKER = ["../module/call.js", "reading.js", "possible.js", "worker.js"]
SCRIPT = [
    "reading.js",
    "words.js",
    "meaning.js",
    "circle.js",
    "address.js",
    "program.js",
    "session.js",
    "editor.js",
    "chart.js",
    "stepper.js",
    "ways.js",
    "endings.js",
    "expectations.js",
    "commands.js",
    "page.js",
]


def git(*words):
    return subprocess.run(["git", "-C", TOP, *words], stdout=subprocess.PIPE, text=True, check=True).stdout.strip()


def version():
    return re.search(r"^## ([0-9.]+),", (TOP / "CHANGELOG.md").read_text(), re.M)[1]


def commit():
    changes = git("status", "--porcelain", "--", "crates", "crates.txt", "page")
    return git("rev-parse", "--short=8", "HEAD") + (" with changes" if changes else "")


def made_from(is_proved):
    """What the page says of itself, and its beginning."""
    short = f"l4run {version()}, built from {commit()}"
    proof = f"proved by {module.kit_line()}" if is_proved else "nothing is proved"
    return f"{short}, {proof}.", f"{short}{'' if is_proved else ', unproved'}"


def lessons():
    """The examples in the order of their page, with what each shows and the commands in its last lines."""
    folder = TOP / "examples"
    listed = re.findall(r"^- `(\S+\.l4)`: (.*?)\n(?=- |\n)", (folder / "README.md").read_text(), re.M | re.S)
    about = {}
    for name, said in listed:
        # The page may name a text again further down.
        about.setdefault(name, " ".join(said.split()))
    others = sorted(it.name for it in folder.glob("*.l4") if it.name not in about)
    found = []
    for name in [*about, *others]:
        text, _, commands = (folder / name).read_text().partition("\n; $ ")
        tries = re.findall(r"^; \$ l4run (.*)$", f"; $ {commands}", re.M)
        found.append({"name": name, "about": about.get(name, name), "text": f"{text.rstrip()}\n", "tries": tries})
    files = {it.name: it.read_text() for it in sorted(folder.glob("*.trace"))}
    files.update((it["name"], it["text"]) for it in found)
    return {"lessons": found, "files": files}


def in_script(text):
    """A text that does not end the element that it stands in."""
    return text.replace("</", "<\\/")


def joined(names):
    """Scripts for one scope. What the first hands to node is left out."""
    texts = ((PARTS / name).read_text() for name in names)
    return in_script("\n".join(re.sub(r"^if \(typeof module .*\n", "", text, flags=re.M) for text in texts))


def made(is_proved, program):
    """The page with this program, a module."""
    whole, short = made_from(is_proved)
    packed = gzip.compress(program, 9, mtime=0)
    parts = {
        "@STYLE@": (PARTS / "style.css").read_text(),
        "@WORKER@": joined(WORKER),
        "@SCRIPT@": joined(SCRIPT),
        "@LESSONS@": in_script(json.dumps(lessons(), separators=(",", ":"))),
        "@MADE@": html.escape(whole),
        "@SHORT@": html.escape(short),
        "@MODULE@": base64.b64encode(packed).decode(),
    }
    return re.sub("|".join(parts), lambda found: parts[found.group()], (PARTS / "page.html").read_text())


def main(words):
    is_empty = "--empty" in words
    is_proved = not is_empty and "--unproved" not in words
    names = [word for word in words if not word.startswith("--")]
    if len(names) != 1 or any(word not in ("--unproved", "--empty") for word in words if word.startswith("--")):
        sys.exit(__doc__)
    to = pathlib.Path(names[0])
    to.parent.mkdir(parents=True, exist_ok=True)
    page = made(is_proved, b"" if is_empty else module.module(is_proved).read_bytes()).encode()
    to.write_bytes(page)
    print(f"{os.path.relpath(to)}: {len(page)} bytes, packed {len(gzip.compress(page, 9))}; {made_from(is_proved)[0]}")


if __name__ == "__main__":
    main(sys.argv[1:])
