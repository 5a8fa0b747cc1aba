#!/bin/bash
# Compares what the plain program of bench/plain prints with what the program prints (plain.py): on the inputs of the benchmarks, on the commands of all cases and the
# texts of these, and on random machines of the other trials. Of texts of version 2 it says that it does not do this. Takes how many machines, 500 where none is given, and behind it a program; else it is compiled as it
# stands, without a proof. It ends at the first difference, and else prints counts.
set -eu -o pipefail
# shellcheck source=trials/common.sh
. "$(dirname "$0")/common.sh"
PLAIN=$("$TRIALS/../bench/plain.sh")
export PLAIN
in_parts plain.py "${1:-500}" "${2:-$(unproved_program)}"
