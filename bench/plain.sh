#!/bin/sh
# Builds the plain program (bench/plain) and prints its path. Where that can't be it says why, and answers 1.
set -eu
here=$(cd "$(dirname "$0")" && pwd)/plain
for tool in cargo rustc; do
    command -v "$tool" >/dev/null || { echo "there is no $tool in PATH, so no plain program" >&2; exit 1; }
done
said=$(cd "$here" && cargo build --quiet --release --offline 2>&1) || { echo "$said" >&2; echo "so no plain program" >&2; exit 1; }
echo "$here/target/release/plain"
