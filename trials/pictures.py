#!/usr/bin/env python3
"""Opens a page that `l4run chart --html` wrote in a headless Chromium, and compares it with its trace.

    trials/pictures.py PAGE TRACE FOLDER

PAGE shows all of TRACE. The titles of its rows of steps have to be the lines of the trace, in order,
each with what is told beside it. Its arrows have to be as many as the lines that begin with
`deliver`, each in such a row, and failures the rows of refused, cancelled and dropped sends and
receives. Pictures of the page go to FOLDER: at 1200 and at 400 pixels, light and dark. The gate does
not run it. Debian has the browser as chromium or chromium-headless-shell.
"""
import html.parser
import pathlib
import shutil
import subprocess
import sys

BROWSERS = ["chromium-headless-shell", "chromium", "google-chrome"]
FAILURES = {"stimeout", "snobody", "scancel", "drop", "rtimeout", "rnobody", "rcancel"}
WIDTHS = [1200, 400]
SCHEMES = {"dark": 0, "light": 1}


class Rows(html.parser.HTMLParser):
    """The rows of the steps: the title of each, how many arrows it has, and whether it failed. Rows of what threads are in are of a class more."""

    def __init__(self):
        super().__init__()
        self.rows = []
        self.is_in_rows = False
        self.is_in_row = False
        self.is_in_title = False

    def handle_starttag(self, tag, attributes):
        classes = (dict(attributes).get("class") or "").split()
        if tag == "svg":
            self.is_in_rows = "rows" in classes
        elif tag == "g" and self.is_in_rows:
            self.is_in_row = classes in (["row"], ["row", "failure"])
            if self.is_in_row:
                self.rows.append({"title": "", "arrows": 0, "failed": "failure" in classes})
        elif tag == "title" and self.is_in_row:
            self.is_in_title = True
        elif tag == "path" and self.is_in_row:
            self.rows[-1]["arrows"] += "arrow" in classes

    def handle_endtag(self, tag):
        if tag == "title":
            self.is_in_title = False
        elif tag == "svg":
            self.is_in_rows = self.is_in_row = False

    def handle_data(self, text):
        if self.is_in_title:
            self.rows[-1]["title"] += text


def browser():
    for name in BROWSERS:
        if shutil.which(name):
            return name
    sys.exit("no headless Chromium: " + ", ".join(BROWSERS))


def opened(page, *options):
    command = [browser(), "--headless", "--no-sandbox", "--disable-gpu", *options, page.resolve().as_uri()]
    return subprocess.run(command, check=True, capture_output=True, text=True).stdout


def compare(page, trace):
    parser = Rows()
    parser.feed(opened(page, "--dump-dom"))
    lines = trace.read_text().splitlines()
    wanted = [
        {
            "title": line,
            "arrows": int(line.startswith("deliver ")),
            "failed": line.split()[0] in FAILURES,
        }
        for line in lines
    ]
    for number, (row, want) in enumerate(zip(parser.rows, wanted), 1):
        row["title"] = row["title"][: len(want["title"])]
        if row != want:
            sys.exit(f"row {number}: {row}, not {want}")
    if len(parser.rows) != len(wanted):
        sys.exit(f"{len(parser.rows)} rows, not {len(wanted)}")
    arrows = sum(row["arrows"] for row in parser.rows)
    print(f"{page}: {len(wanted)} rows and {arrows} arrows as in {trace}")


def take_pictures(page, folder):
    folder.mkdir(parents=True, exist_ok=True)
    for width in WIDTHS:
        for scheme, number in SCHEMES.items():
            picture = folder / f"{page.stem}-{width}-{scheme}.png"
            opened(
                page,
                f"--screenshot={picture.resolve()}",
                f"--window-size={width},900",
                f"--blink-settings=preferredColorScheme={number}",
            )
            print(picture)


def main():
    if len(sys.argv) != 4:
        sys.exit(__doc__)
    page, trace, folder = map(pathlib.Path, sys.argv[1:])
    compare(page, trace)
    take_pictures(page, folder)


main()
