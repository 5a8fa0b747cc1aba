#!/bin/sh
# Measures the program: the reading of machine texts (text), the turns of runs (turns), the instructions of turns and of audited steps (inputs), the turns of one
# processor by their instructions, and of several those of replays by their instructions and those of runs by the time (several), or the audit of traces
# (audits). It is proved and built as it stands, or built without a proof where the second word is --unproved. Instructions are also those of a program in plain
# Rust that does the same (plain/), where cargo can build it. Its files are made in a folder that goes away, and all is measured from outside.
set -eu
what=${1:?text, turns, inputs, several or audits}
here=$(cd "$(dirname "$0")" && pwd)
work=$(mktemp -d)
trap 'rm -rf "$work"' EXIT
if [ "${2:-}" = --unproved ]; then
    program=$work/l4run
    python3 -B "$here/unproved.py" "$program"
else
    program=$here/../crates/l4run/out/l4run
    "$here/../l4run" --help >"$work/log"
fi
plain=$("$here/plain.sh" 2>"$work/log") || { echo "the rows alone:"; cat "$work/log"; }
python3 -B "$here/$what.py" "$program" "$work" "$plain"
