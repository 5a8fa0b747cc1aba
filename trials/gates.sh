#!/bin/bash
# Repeats the runs of 16 processors under gates that hold some of them back (crates/l4_host_tests/src/gates.rt) on two of the system's processors, for so
# many seconds, 600 where none is given, and prints how often each test ran. Each tests that its runs come to their ends and that the histories pass the
# audit. It ends at the first that fails, or that takes a minute.
set -eu -o pipefail
seconds=${1:-600}
# shellcheck source=trials/common.sh
. "$(dirname "$0")/common.sh"
make_work
program=$(test_program l4_host_tests gates::)
tests=$("$program" --list | sed -n 's/^\(gates::.*\): test$/\1/p')
: >"$work/ran"
SECONDS=0
while [ "$SECONDS" -lt "$seconds" ]; do
    for test in $tests; do
        if ! taskset -c 0,1 timeout 60 "$program" "$test" >"$work/log" 2>&1 || ! grep -q '^test result: ok' "$work/log"; then
            echo "$test failed"
            cat "$work/log"
            exit 1
        fi
        echo "$test" >>"$work/ran"
    done
done
sort "$work/ran" | uniq -c
