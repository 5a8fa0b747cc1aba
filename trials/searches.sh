#!/bin/bash
# Compares what `l4run endings --placed` says of random machines, and of random questions about them, with
# what the second emulator says (searches.py). Takes how many machines, 100 where none is given, and
# behind it a program, if it is not to be l4run as it stands. It ends at the first difference, and
# else prints counts.
set -eu -o pipefail
# shellcheck source=trials/common.sh
. "$(dirname "$0")/common.sh"
in_parts searches.py "${1:-100}" "${2:-}"
