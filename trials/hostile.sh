#!/bin/bash
# Gives the program machine texts of both versions, traces and schedules that were spoilt at random, from a fixed seed: cut, changed, doubled, exchanged. Takes how
# many of each, 100,000 where none is given, and behind it a program, if it is not to be l4run as it stands. Prints how often each answer came, and meanwhile
# how far it is. It ends at the first that is none of those that docs/FORMATS.md has: another status than 0, 1 and 3, another line of fault, or lines beside a
# fault.
set -eu -o pipefail
# shellcheck source=trials/common.sh
. "$(dirname "$0")/common.sh"
in_parts hostile.py "${1:-100000}" "${2:-}"
