#!/bin/bash
# Tries the second emulator's search of all worlds on random machines (worlds.py). Takes how many
# machines, 100 where none is given. It ends at the first difference, and else prints counts.
set -eu -o pipefail
# shellcheck source=trials/common.sh
. "$(dirname "$0")/common.sh"
in_parts worlds.py "${1:-100}" none
