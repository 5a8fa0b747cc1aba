#!/bin/bash
# Compares what an auditor tells of a step that is not possible, the reason and the steps that are
# possible instead, with the second emulator (answers.py). Takes how many random histories, 1,000
# where none is given. It ends at the first difference, and else prints counts.
set -eu -o pipefail
# shellcheck source=trials/common.sh
. "$(dirname "$0")/common.sh"
build_beside auditor_answers l4_model l4_core_model l4_types l4_words l4_history tcb_arena l4_script \
    l4_thread l4_trace l4_audit l4_reports l4_explain
status=0
(in_parts answers.py "${1:-1000}" "$program") || status=$?
rm -rf "$built"
exit "$status"
