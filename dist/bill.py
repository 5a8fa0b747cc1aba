#!/usr/bin/env -S python3 -B
"""Prints of what the program is made: a bill of materials in CycloneDX 1.5.

    dist/bill.py PROGRAM VERSION EPOCH
"""

import datetime
import hashlib
import json
import pathlib
import subprocess
import sys

TOP = pathlib.Path(__file__).resolve().parent.parent


def line_of(*words):
    return subprocess.run([str(word) for word in words], stdout=subprocess.PIPE, text=True, check=True).stdout.strip()


def crates():
    """Each crate of the repository, and those that it stands on."""
    rows = [row.split("#")[0] for row in (TOP / "crates.txt").read_text().splitlines()]
    pairs = [row.split(":") for row in rows if ":" in row]
    return {head.split()[0]: below.split() for head, below in pairs}


def reached(below, top):
    found, left = set(), [top]
    while left:
        for name in below.get(left.pop(), []):
            if name not in found:
                found.add(name)
                left.append(name)
    return found


def main(program, version, epoch):
    below = crates()
    found = reached(below, "l4run") | reached(below, "l4_c") | {"l4_c"}
    kit = line_of("rt", "version")
    own = sorted(found & below.keys())
    of_kit = ["std", *sorted(found - below.keys())]
    reference = lambda name: name if name in below else f"rattle/{name}"
    text = pathlib.Path(program).read_bytes()
    is_static = b"libc.so.6" not in text
    parts = [{"type": "library", "name": name, "version": version, "bom-ref": name} for name in own]
    parts += [{"type": "library", "group": "rattle", "name": name, "version": kit, "bom-ref": reference(name)} for name in of_kit]
    parts.append({"type": "library", "name": f"C library, {'musl, linked in' if is_static else 'of the system'}", "bom-ref": "libc"})
    parts.append({"type": "application", "name": "rattle-kit", "version": kit, "bom-ref": "kit", "description": "compiler, prover and LLVM"})
    when = datetime.datetime.fromtimestamp(int(epoch), datetime.timezone.utc).strftime("%Y-%m-%dT%H:%M:%SZ")
    whole = {
        "type": "application",
        "name": "l4run",
        "version": version,
        "bom-ref": "l4run",
        "hashes": [{"alg": "SHA-256", "content": hashlib.sha256(text).hexdigest()}],
        "properties": [{"name": "commit", "value": line_of("git", "-C", TOP, "rev-parse", "HEAD")}],
    }
    stands_on = {name: [reference(it) for it in below[name]] for name in ["l4run", *own]}
    stands_on["l4run"] += ["rattle/std", "libc", "kit"]
    bill = {
        "bomFormat": "CycloneDX",
        "specVersion": "1.5",
        "version": 1,
        "metadata": {"timestamp": when, "component": whole},
        "components": parts,
        "dependencies": [{"ref": name, "dependsOn": names} for name, names in stands_on.items()],
    }
    json.dump(bill, sys.stdout, indent=1, sort_keys=True)
    print()


if __name__ == "__main__":
    main(*sys.argv[1:])
