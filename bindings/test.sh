#!/usr/bin/env bash
# Makes the library, tries it from C, Rust and Python, and compares what it answers with what the program prints, on all cases. Answers 1 where
# something fails or differs, or where cc, cargo or python3 is missing.
#
#     bindings/test.sh [--unproved] [--every N]
#
# With --unproved the library and the program are made without a proof. With --every N one command of N is compared.
set -eu -o pipefail
here=$(dirname "$(readlink -f "$0")")
top=$(dirname "$here")
fail() {
    echo "bindings: $1" >&2
    exit 1
}
proof=()
every=1
while [ $# -gt 0 ]; do
    case $1 in
        --unproved) proof=(--unproved) ;;
        --every) every=$2 && shift ;;
        *) fail '[--unproved] [--every N]' ;;
    esac
    shift
done
for tool in cc cargo python3; do
    command -v "$tool" >/dev/null || fail "there is no $tool: nothing was tried"
done
"$here/make.py" "${proof[@]}"
work=$(mktemp -d)
trap 'rm -rf "$work"' EXIT

in_c() {
    local wraps=-Wl,--wrap=malloc,--wrap=realloc,--wrap=free
    cc -std=c11 -O1 -Wall -Wextra -Werror "$here/c/test.c" "$here/out/libl4emu.a" $wraps -pthread -o "$work/test"
    "$work/test" "$top/examples/locks.l4"
}

in_rust() {
    (cd "$here/rust/l4emu" && CARGO_TARGET_DIR=$work/target cargo test --quiet --offline --locked) >"$work/cargo" 2>&1 ||
        { cat "$work/cargo" && return 1; }
    grep -h '^test result' "$work/cargo"
}

in_python() {
    python3 -B "$here/python/test_l4emu.py" 2>"$work/python" || { cat "$work/python" && return 1; }
    tail -n 1 "$work/python"
}

# The program is that of the same texts.
compared() {
    local program=$top/crates/l4run/out/l4run
    if [ ${#proof[@]} -gt 0 ]; then
        program=$top/out/unproved/l4run
        "$top/x" build
    elif [ ! -x "$program" ]; then
        "$top/l4run" --help >/dev/null
    fi
    "$here/compare.py" "$program" "$every"
}

status=0
for language in c rust python; do
    echo "bindings: from $language"
    "in_$language" || { echo "bindings: the test from $language failed" && status=1; }
done
compared || status=1
exit "$status"
