#!/bin/bash
# Compares what `l4run endings` says of machine texts, with --placed too, with what SPIN says of a hand-written model of each, spin/NAME.pml. Its text is
# spin/NAME.l4 or, where there is none, examples/NAME.l4. A line `// --stuck` of a model asks both whether somebody may wait for ever: SPIN
# whether there is an invalid end state. A line `// --with LINE: CONDITION` asks SPIN whether the condition may hold when nothing can happen
# any more. Takes a program, if it is not to be l4run as it stands. Prints what each found, among how many states; status 1 where they differ.
#
# SPIN has no notion of these, so the models leave them out: registers and the identity of sends (each of these threads has one under way at
# most); clocks (a send or receive has no time limit or time zero, and a sleep may be over at any moment); and the order in which one
# processor runs its threads, of which SPIN tries each, as `l4run endings` does. So it may find more end states than --placed finds endings.
#
# Needs spin 6, gcc and python3: status 2 where one is not there.
set -eu -o pipefail
# shellcheck source=trials/common.sh
. "$(dirname "$0")/common.sh"
for tool in spin gcc python3; do
    command -v "$tool" >/dev/null || { echo "no $tool: nothing is compared" >&2; exit 2; }
done
make_work
program=${1:-$TRIALS/../crates/l4run/out/l4run}
if [ -z "${1:-}" ]; then
    "$TRIALS/../l4run" --help >"$work/log"
fi
python3 -B "$TRIALS/spin.py" "$program" "$work"
