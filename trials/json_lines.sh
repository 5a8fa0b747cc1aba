#!/bin/bash
# Compares the lines that the objects of `--json` tell with those that are printed without it, of each
# command of the cases, and of commands about random machines (json_lines.py). Takes how many machines,
# 200 where none is given, and behind it a program; else it is compiled as it stands, without a proof.
# It ends at the first difference, and else prints counts.
set -eu -o pipefail
# shellcheck source=trials/common.sh
. "$(dirname "$0")/common.sh"
python3 -B "$TRIALS/json_lines.py" "${2:-$(unproved_program)}" "$TRIALS/../crates/l4_cases/data" "${1:-200}"
