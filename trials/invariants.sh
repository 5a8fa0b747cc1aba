#!/bin/bash
# Compares two ways to find out whether a world on the way of some history of random machines meets a
# condition (invariants.py), and with them what `l4run endings --always` says. Takes how many machines,
# 100 where none is given, and behind it a program, or `none` to compare the two ways alone; else the
# program is compiled as it stands, without a proof. It ends at the first difference, and else prints
# counts.
set -eu -o pipefail
# shellcheck source=trials/common.sh
. "$(dirname "$0")/common.sh"
in_parts invariants.py "${1:-100}" "${2:-$(unproved_program)}"
