#!/bin/bash
# Runs machines of 2 to 16 processors and 2 to 1,024 threads of random scripts, of either profile, format and version, from a fixed seed, for 2,000 turns each, and replays each
# by a random schedule of as many items. Takes how many machines, 200 where none is given, and behind it a program, if it is not to be l4run as it stands.
# Each run is recorded, and the replay of its record prints the same. Each trace is audited; each send of a trace is decided at most once, and the report of a replay lists just those that its trace leaves undecided. One
# machine of a hundred is run once more under valgrind, where there is one: at its end no memory is left. It ends at the first machine where any of this
# fails, and else prints counts.
#
# What the program can't show: the room of its rings, which is always 16 (crates/l4_host_tests/src/rooms.rt has each from 1 to 64); what the threads of a run have
# come to where its trace is printed, since it prints the one or the other (the tests of runs there compare both with the auditor's); and the letters
# (that those posted are those taken and those under way is proved).
set -eu -o pipefail
# shellcheck source=trials/common.sh
. "$(dirname "$0")/common.sh"
in_parts soak.py "${1:-200}" "${2:-}"
