# shellcheck shell=bash
# Read by scripts of this folder that try something many times.
TRIALS=$(cd "$(dirname "${BASH_SOURCE[0]}")" && pwd)
# What is tried is the same on every machine: four parts, each with a seed of its own.
PARTS=4

# Makes a folder for files, which goes away.
make_work() {
    work=$(mktemp -d)
    trap 'rm -rf "$work"' EXIT
}

# Names the program that is compiled as it stands, without a proof. It is compiled first, where that was not done yet.
unproved_program() {
    "$TRIALS/../x" build >&2
    echo "$TRIALS/../out/unproved/l4run"
}

# Starts a script of this folder for each part, with its share of the count, and prints the sums of what they count. Behind the count stands
# a program, or nothing: then it is l4run, which is proved and built as it stands.
in_parts() {
    local script=$1 count=$2 program=${3:-} part jobs=() job
    make_work
    if [ -z "$program" ]; then
        "$TRIALS/../l4run" --help >"$work/log"
        program=$TRIALS/../crates/l4run/out/l4run
    fi
    for part in $(seq "$PARTS"); do
        python3 -B "$TRIALS/$script" "$program" "$work" $(((count + PARTS - 1) / PARTS)) "$part" >"$work/counts-$part" &
        jobs+=($!)
    done
    for job in "${jobs[@]}"; do
        wait "$job" || { kill "${jobs[@]}" 2>/dev/null || true; wait; exit 1; }
    done
    sort "$work"/counts-* | awk -F '\t' '{ count = $NF; sub("\t[^\t]*$", ""); sum[$0] += count } END { for (kind in sum) print kind "\t" sum[kind] }' | sort
}

# Names the program that runs the tests of a crate. It is proved and built first, where that was not done yet or where a file of the crates is
# newer; behind `rt ci` it is that of the gate.
test_program() {
    local crate=$TRIALS/../crates/$1 program
    program=$crate/out/$1_tests
    if [ ! -x "$program" ] ||
        [ -n "$(find "$TRIALS/../crates" -name out -prune -o -type f -newer "$program" -print -quit)" ]; then
        (cd "$crate" && rt test -- "$2") >"$work/log" 2>&1 || { cat "$work/log" >&2; return 1; }
    fi
    echo "$program"
}

# Builds a program that is no crate of the repository, beside copies of these crates that it stands on, and puts its path into `program`. Its file is
# NAME/src/main.rt.in: the gate wants no source files but those of crates. Who calls it removes the folder `built` in the end.
build_beside() {
    local name=$1 crate
    shift
    built=$(mktemp -d)
    mkdir -p "$built/crates/$name/src"
    for crate; do
        cp -R "$TRIALS/../crates/$crate" "$built/crates/"
        grep "^$crate:" "$TRIALS/../crates.txt" >>"$built/crates.txt"
    done
    cp "$TRIALS/$name/src/main.rt.in" "$built/crates/$name/src/main.rt"
    echo "$name: $*" >>"$built/crates.txt"
    cp "$TRIALS/../HANDLES" "$built/"
    # It has no words, so that it answers status 1.
    (cd "$built/crates/$name" && rt run --jobs 2) >"$built/log" 2>&1 || true
    program=$built/crates/$name/out/$name
    [ -x "$program" ] || { cat "$built/log" >&2; rm -rf "$built"; return 1; }
}
