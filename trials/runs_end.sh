#!/bin/bash
# Runs random machines on 1 to 16 processors, and asks of each run that comes to rest that its report is one of the endings that `l4run
# endings` prints of its text (runs_end.py). Takes how many runs, 2000 where none is given, and behind it a program; else it is compiled as
# it stands, without a proof. It ends at the first run of another report, and else prints counts.
set -eu -o pipefail
# shellcheck source=trials/common.sh
. "$(dirname "$0")/common.sh"
in_parts runs_end.py "${1:-2000}" "${2:-$(unproved_program)}"
