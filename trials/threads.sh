#!/bin/bash
# Runs machines of several processors where the host refuses threads, and judges each run (threads.py). Takes how many runs there are of each text at most, how many
# seconds one may take, and the program, or nothing for it: then it is l4run, which is proved and built as it stands.
#
# Needs cc and python3.
set -eu -o pipefail
# shellcheck source=trials/common.sh
. "$(dirname "$0")/common.sh"
make_work
program=${3:-$TRIALS/../crates/l4run/out/l4run}
if [ -z "${3:-}" ]; then
    "$TRIALS/../l4run" --help >"$work/log"
fi
cc -shared -fPIC -O2 -Wall -Wextra -o "$work/threads.so" "$TRIALS/threads.c" -ldl
python3 -B "$TRIALS/threads.py" "$program" "$work/threads.so" "$work" "${1:-100000}" "${2:-1}"
