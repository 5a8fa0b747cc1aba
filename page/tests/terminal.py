#!/usr/bin/env -S python3 -B
"""Runs commands of a program whose standard error is a terminal, and tells what each of them wrote.

    terminal.py PROGRAM     reads a list of {words, folder, input} as JSON, and prints one of {status, out, faults}; bytes are in base64
"""

import base64
import json
import os
import subprocess
import sys
import threading
import tty


def heard(terminal, to):
    """What is written to a terminal, until nobody has it any more, which is told as an error."""
    try:
        while some := os.read(terminal, 65536):
            to += some
    except OSError:
        pass


def done(program, words, folder, given):
    ours, theirs = os.openpty()
    tty.setraw(theirs)
    faults = bytearray()
    hears = threading.Thread(target=heard, args=(ours, faults))
    env = {name: value for name, value in os.environ.items() if name not in ("COLUMNS", "TERM")}
    pipe = subprocess.PIPE
    # Its usage names it as it was called.
    with subprocess.Popen(["l4run", *words], executable=program, cwd=folder, env=env, stdin=pipe, stdout=pipe, stderr=theirs) as process:
        os.close(theirs)
        hears.start()
        out = process.communicate(base64.b64decode(given))[0]
    hears.join()
    os.close(ours)
    return {"status": process.returncode, "out": base64.b64encode(out).decode(), "faults": base64.b64encode(faults).decode()}


if __name__ == "__main__":
    commands = json.load(sys.stdin)
    json.dump([done(sys.argv[1], it["words"], it["folder"], it["input"]) for it in commands], sys.stdout)
