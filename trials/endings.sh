#!/bin/bash
# Compares what `l4run endings` says of random machines, and of random questions about them, with two
# judges of the second emulator (all_endings.py): one prints the same lines, one tries every step. Some
# searches are cut by memory alone.
# Takes how many machines, 100 where none is given, and behind it a program; else it is compiled as it
# stands, without a proof. It ends at the first difference, and else prints counts.
set -eu -o pipefail
# shellcheck source=trials/common.sh
. "$(dirname "$0")/common.sh"
in_parts all_endings.py "${1:-100}" "${2:-$(unproved_program)}"
