#!/bin/bash
# Runs the tests of refused memory with each growth refused in turn: the first one, then the second one, until a run ends in which none was refused.
# Each test must pass each time: it makes the call again, and tests what the refused one has left as it was, and what the second one gives. Prints how many
# growths were refused at each call. Then it does so with commands of the cases, in which each option of each verb is: the program, l4run where none
# is named, must do what it does with all its memory, or say that it has none, and print and record nothing: of a search whole endings, from the first on.
#
# What refuses is a library of its own (refuse.c) that is loaded before the C library. A program takes all its memory by malloc and realloc of the C library,
# whose places that library takes; so it sees every growth, those of other threads and of std too, and refusals.py makes sure that a program knows no
# other way to take memory. The toolchain's own `rt try --test --fail-alloc N` reaches every growth as well, but also those by which a test gets its machine ready,
# and builds all tests anew for each number.
#
# Needs cc, nm and python3.
set -eu -o pipefail
# shellcheck source=trials/common.sh
. "$(dirname "$0")/common.sh"
make_work
cc -shared -fPIC -O2 -Wall -Wextra -o "$work/refuse.so" "$TRIALS/refuse.c" -ldl
programs=()
for crate in l4_part_tests l4_host_tests; do
    programs+=("$(test_program "$crate" refused::)")
done
program=${1:-}
if [ -z "$program" ]; then
    "$TRIALS/../l4run" --help >"$work/log"
    program=$TRIALS/../crates/l4run/out/l4run
fi
python3 -B "$TRIALS/refusals.py" "$work/refuse.so" "$work" "${programs[@]}"
python3 -B "$TRIALS/refused_commands.py" "$work/refuse.so" "$program" "$TRIALS/../crates/l4_cases/data"
