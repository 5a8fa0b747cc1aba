# shellcheck shell=bash
# Read by `x` and `l4run`: starts the program as it stands, with its checks and without a proof. What is compiled stays in out/unproved as long as
# no source is newer. Who reads this has the top of the repository, and the name that it is called by.
kept=${top:?}/out/unproved
: "${called:?}"

# A file of the sources that is newer than what was kept. Definitions and proofs change no program.
newer_source() {
    find "$top/crates.txt" "$top"/unproved/{build.py,either.rt.in} "$top"/crates/*/src -type f -newer "$kept/l4run" -print -quit
}

is_kept() {
    [ -x "$kept/l4run" ] && [ -x "$kept/l4_cases" ] && [ -z "$(newer_source)" ]
}

# Ends where the toolchain is not there.
need_rt() {
    command -v rt >/dev/null && return
    echo "$called: there is no rt in PATH: this needs the toolchain $(grep -o -m 1 'rattle-kit-[^`]*' "$top/README.md") (README.md)" >&2
    exit 2
}

# Compiles what is not kept. Who comes while another compiles waits for that, and takes what it made.
keep_program() {
    is_kept && return
    need_rt
    mkdir -p "$kept"
    (
        flock -n 9 || { echo "$called: somebody compiles the program: waiting" >&2 && flock 9; }
        is_kept && exit
        rm -rf "$kept"/build-*
        echo "$called: compiling the program as it stands, without a proof: a minute or two" >&2
        "$top/unproved/build.py" "$kept" 9>&-
    ) 9>"$kept/lock"
}

# How a program that a check stops reports that: the functions that were under way, by their names, but for those that were compiled into their caller.
# Memory that was freed is known as long as it is in the last mebibyte of such memory: more than that takes a search twice as long.
reports="symbolize=1:external_symbolizer_path='$top/unproved/llvm-symbolizer':stack_trace_format='in %f':dump_registers=0:print_summary=0:malloc_context_size=0:quarantine_size_mb=1"

# Does what `l4run` does with these words.
start_unproved() {
    keep_program
    echo "$called: this program has its checks, and nothing is proved of it" >&2
    ASAN_OPTIONS=$reports exec "$kept/l4run" "$@"
}
