#!/usr/bin/env bash
# Tries cases with the kept program, which has its checks and no proof: those that are named, as they lie in their folder, or all. They are tried in as
# many parts as there are cores, at most four, each in a copy of that folder. Prints what differs, as the program of the cases does. Answers 1 where
# something does.
set -eu -o pipefail
top=$(cd "$(dirname "$0")/.." && pwd)
called=x
. "$top/unproved/start.sh"

if [ $# = 0 ]; then
    mapfile -t names < <("$top/.ci/cases")
    [ ${#names[@]} != 0 ] || { echo 'x: no case is listed' >&2 && exit 1; }
    set -- "${names[@]}"
fi
keep_program
work=$(mktemp -d)
trap 'rm -rf "$work"' EXIT

# The share of a part: every so many of the names.
share() {
    local part=$1 parts=$2 at
    shift 2
    for ((at = part + 1; at <= $#; at += parts)); do
        printf '%s\0' "${!at}"
    done
}

# Tries the share of a part, and says what stopped it where nothing of the case did.
try_part() {
    local part=$1 names status=0
    shift
    mapfile -d '' -t names < <(share "$part" "$@")
    cp -R "$top/crates/l4_cases/data" "$work/$part"
    cd "$work/$part"
    ASAN_OPTIONS=$reports "$kept/l4_cases" "${names[@]}" >"$work/said-$part" || status=$?
    [ "$status" -le 1 ] || echo "${names[0]} or a case behind it: status $status" >>"$work/said-$part"
    return "$status"
}

parts=$(nproc)
parts=$((parts > 4 ? 4 : parts))
parts=$((parts > $# ? $# : parts))
jobs=()
for ((part = 0; part < parts; part++)); do
    try_part "$part" "$parts" "$@" &
    jobs+=($!)
done
status=0
for job in "${jobs[@]}"; do
    wait "$job" || status=1
done
cat "$work"/said-* | awk '
    /^all cases as wanted$/ { next }
    /^[0-9]+ commands or faults differ$/ { differ += $1; next }
    { print }
    END { if (differ) print differ " commands or faults differ" }
'
[ "$status" = 0 ] && echo 'all cases as wanted'
exit "$status"
