#!/bin/bash
# Compares two ways to find the threads of random machines that are stuck for ever, and with them what
# `l4run endings --stuck` says. Takes how many machines, 100 where none is given, and behind it a
# program, or `none` to compare the two ways alone; else the program is compiled as it stands, without
# a proof. It ends at the first difference, and else prints counts.
set -eu -o pipefail
# shellcheck source=trials/common.sh
. "$(dirname "$0")/common.sh"
in_parts stuck.py "${1:-100}" "${2:-$(unproved_program)}"
