#!/bin/sh
# Measures a program over the arena: 1,000,000 moves of blocks from list to list, each one unqueue_send and one queue_send, at 16 and at 1,024
# blocks (moves); or what a processor asks of the arena in a turn, where threads wait for times (deadlines). The program is proved and built beside the
# repository, and measured from outside. Its files end in .in, since the gate wants no source files but those of the repository's crates.
set -eu
what=${1:?moves or deadlines}
case $what in
    moves) words='16 0' ;;
    deadlines) words='0 16 0' ;;
    *) echo "$0: moves or deadlines" >&2; exit 2 ;;
esac
here=$(cd "$(dirname "$0")" && pwd)
bench=${what}_bench
work=$(mktemp -d)
trap 'rm -rf "$work"' EXIT
mkdir "$work/crates"
for crate in l4_model l4_core_model l4_types tcb_arena; do
    cp -R "$here/../crates/$crate" "$work/crates/"
    grep "^$crate:" "$here/../crates.txt" >>"$work/crates.txt"
done
(cd "$here" && find "$bench" -name '*.in') | while read -r file; do
    mkdir -p "$(dirname "$work/crates/$file")"
    cp "$here/$file" "$work/crates/${file%.in}"
done
echo "$bench: l4_model l4_core_model l4_types tcb_arena" >>"$work/crates.txt"
cp "$here/../HANDLES" "$work/"
cd "$work/crates/$bench"
# shellcheck disable=SC2086
rt run -- $words >"$work/log" 2>&1 || { cat "$work/log"; exit 1; }
python3 -B "$here/$what.py" "$PWD/out/$bench"
