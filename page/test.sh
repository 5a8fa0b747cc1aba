#!/usr/bin/env bash
# Tries the page in Chromium and in Firefox, which are installed where they are missing; where they can't be, it says so and fails. Compares
# what it prints with the program that it is made from: that which the gate has built, or with --unproved the same code without a proof.
#
#     page/test.sh PAGE.html [--unproved]
set -eu -o pipefail
top=$(dirname "$(dirname "$(readlink -f "$0")")")
page=$1
out=$top/page/out
fail() {
    echo "page: $1" >&2
    exit 1
}

# Installs a package, if its tool is not there.
need() {
    local tool=$1 package=$2
    command -v "$tool" >/dev/null && return
    echo "page: installing $package" >&2
    { apt-get update -qq && DEBIAN_FRONTEND=noninteractive apt-get install -y -qq --no-install-recommends "$package"; } >"$out/install.log" 2>&1 || true
    command -v "$tool" >/dev/null || fail "there is no $tool, and $package can't be installed here ($out/install.log)"
}
need node nodejs
need chromium chromium
need firefox-esr firefox-esr

program=$top/crates/l4run/out/l4run
module=$out/proved.wasm
if [ "${2:-}" = --unproved ]; then
    module=$out/unproved.wasm
    program=$out/l4run-unproved
    if [ ! -e "$program" ] || [ -n "$(find "$top/crates.txt" "$top"/crates/*/src -type f -newer "$program" -print -quit)" ]; then
        python3 -B "$top/bench/unproved.py" "$program"
    fi
fi

status=0
node "$top/page/tests/compare.cjs" "$module" "$program" "$top" || status=1
node "$top/page/tests/guesses.cjs" "$module" "$top" || status=1
node "$top/page/tests/package.cjs" "$module" "$program" "$top" || status=1
for browser in chromium firefox; do
    node "$top/page/tests/page.cjs" "$browser" "$page" "$program" "$top" "$out/pictures" || status=1
done
echo "page: pictures to look at: page/out/pictures"
exit "$status"
