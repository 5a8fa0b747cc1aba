#!/bin/bash
# Compares the program with a second emulator (second.py) on random machines from a fixed seed: a sixth of them of all kinds, a sixth small and rich in
# conflicts, a third of profile 2, whose messages are handed on, and a third with scripts of version 2 (second/scripts.py); of each half have words of 64 bits and half of 32. Each is replayed by a random schedule, with
# its trace and with its report. Its trace is audited, as it stands, with one field spoilt, and with one retarget late. Behind a beginning of the schedule it
# goes on by itself and is recorded, and what may happen next is told. Takes how many machines, 1,000 where none is given, and behind it a program, if it is not
# to be l4run as it stands. It ends at the first difference, with the machine, the schedule and what both say, and else prints counts.
set -eu -o pipefail
# shellcheck source=trials/common.sh
. "$(dirname "$0")/common.sh"
in_parts second.py "${1:-1000}" "${2:-}"
