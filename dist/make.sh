#!/usr/bin/env bash
# Makes what is handed to those who do not have the toolchain, in dist/out: a static program, a .deb, a tarball, the page, an npm package, their
# SHA-256 and a bill of materials. The .deb and the tarball have the library for other languages too. It is made from the proved program, or with
# --unproved from the same code without a proof. Two calls write the same bytes.
set -eu -o pipefail
here=$(dirname "$(readlink -f "$0")")
top=$(dirname "$here")
out=$here/out
proof=${1:-}
fail() {
    echo "dist: $1" >&2
    exit 1
}
need() {
    command -v "$1" >/dev/null || fail "there is no $1: it is in the package $2"
}
need gcc gcc
need musl-gcc musl-tools
need objcopy binutils
need dpkg-deb dpkg
need rt 'Rattle toolchain'

version=$(sed -n 's/^## \([0-9.]*\),.*/\1/p' "$top/CHANGELOG.md" | head -n 1)
export SOURCE_DATE_EPOCH LC_ALL=C TZ=UTC
SOURCE_DATE_EPOCH=$(git -C "$top" log -1 --format=%ct)
umask 022
day=$(date -d "@$SOURCE_DATE_EPOCH" +%F)
maintainer='Bondzaliqu maintainers <maintainers@users.noreply.bondzaliqu.example>'
licence='No licence is given yet: that is for the owner of the repository to choose. Until then nobody may pass this on.'
work=$(mktemp -d)
trap 'rm -rf "$work"' EXIT
rm -rf "$out" && mkdir -p "$out"

# The program, linked with musl and with nothing of the system. Its main gets another name, since musl's start has words to keep. The linker is
# called without musl-gcc, which knows no program that is static and may lie anywhere.
static_program() {
    local kit musl=/usr/lib/x86_64-linux-musl
    kit=$(dirname "$(dirname "$(readlink -f "$(command -v rt)")")")
    "$here/object.py" "$work/whole.o" $proof
    objcopy --redefine-sym main=l4run_main "$work/whole.o" "$work/l4run.o"
    musl-gcc -O2 -fPIE -c "$here/musl.c" -o "$work/musl.o"
    gcc -static-pie -nostdlib -Wl,--gc-sections,-z,relro,-z,now,-z,text,--build-id=none -s -o "$1" "$musl/rcrt1.o" "$musl/crti.o" \
        "$work/musl.o" "$work/l4run.o" "$kit/c/libos_c.a" "$kit/c/liblibc_c.a" "$musl/libc.a" -lgcc "$musl/crtn.o"
    "$1" --version >/dev/null
}

# What the .deb and the tarball have below their root.
fill_tree() {
    local tree=$1 doc=$1/usr/share/doc/l4run page
    install -D -m 755 "$out/l4run" "$tree/usr/bin/l4run"
    "$here/manual.py" "$tree/usr/bin/l4run" "$work/pages" "$version" "$day"
    mkdir -p "$tree/usr/share/man/man1" "$doc"
    gzip -9n <"$work/pages/l4run.1" >"$tree/usr/share/man/man1/l4run.1.gz"
    install -D -m 644 "$work/pages/l4run.bash" "$tree/usr/share/bash-completion/completions/l4run"
    install -D -m 644 "$work/pages/_l4run" "$tree/usr/share/zsh/vendor-completions/_l4run"
    install -D -m 644 "$work/pages/l4run.fish" "$tree/usr/share/fish/vendor_completions.d/l4run.fish"
    install -D -m 644 "$here/vim/syntax/l4.vim" "$tree/usr/share/vim/vimfiles/syntax/l4.vim"
    install -D -m 644 "$here/vim/ftdetect/l4.vim" "$tree/usr/share/vim/vimfiles/ftdetect/l4.vim"
    install -D -m 644 "$here/textmate/l4.tmLanguage.json" "$doc/l4.tmLanguage.json"
    fill_library "$tree"
    for page in FORMATS MODEL NAMES PROOFS BELIEVED; do
        install -m 644 "$top/docs/$page.md" "$doc/$page.md"
    done
    install -m 644 "$top/README.md" "$doc/README.md"
    install -m 644 "$out/l4run.html" "$doc/l4run.html"
    install -m 644 "$out/l4run-$version.cdx.json" "$doc/sbom.cdx.json"
    install -D -m 644 -t "$doc/examples" "$top"/examples/*
    echo "$licence" >"$doc/copyright"
}

# The library for programs in other languages: for a linker where it looks for one, for a loader in a folder of its own.
fill_library() {
    local tree=$1 doc=$1/usr/share/doc/l4run/bindings lib=$1/usr/lib/x86_64-linux-gnu from=$top/bindings
    install -D -m 644 "$from/include/l4emu.h" "$tree/usr/include/l4emu.h"
    install -D -m 644 "$from/out/libl4emu.a" "$lib/libl4emu.a"
    install -D -m 644 "$from/out/libl4emu.so" "$lib/l4run/libl4emu.so"
    install -D -m 644 "$from/README.md" "$doc/README.md"
    install -D -m 644 "$from/python/l4emu.py" "$doc/python/l4emu.py"
    install -D -m 644 -t "$doc/rust/l4emu" "$from"/rust/l4emu/{Cargo.toml,Cargo.lock,build.rs}
    install -D -m 644 -t "$doc/rust/l4emu/src" "$from/rust/l4emu/src/lib.rs"
}

dated() {
    find "$@" -exec touch -hd "@$SOURCE_DATE_EPOCH" {} +
}

# A tarball of what lies in a folder, below another name.
tarred() {
    local folder=$1 name=$2
    (cd "$folder" && find . -mindepth 1 -print0 | sort -z | tar --no-recursion --null -T - --owner=0 --group=0 --numeric-owner \
        --mtime="@$SOURCE_DATE_EPOCH" --transform "s,^\.,$name," -c | gzip -9n)
}

# A tree with what Debian wants besides, and its control file.
debian() {
    local tree=$1 doc=$1/usr/share/doc/l4run
    cat >"$work/changelog" <<END
l4run ($version) unstable; urgency=medium

  * What has changed stands in CHANGELOG.md.gz.

 -- $maintainer  $(date -R -d "@$SOURCE_DATE_EPOCH")
END
    gzip -9n <"$work/changelog" >"$doc/changelog.gz"
    gzip -9n <"$top/CHANGELOG.md" >"$doc/CHANGELOG.md.gz"
    mkdir -p "$tree/usr/share/lintian/overrides" "$tree/DEBIAN"
    # A static program that may lie anywhere has the form of a library.
    echo 'l4run: shared-library-lacks-prerequisites [usr/bin/l4run]' >"$tree/usr/share/lintian/overrides/l4run"
    cat >"$tree/DEBIAN/control" <<END
Package: l4run
Version: $version
Architecture: amd64
Maintainer: $maintainer
Installed-Size: $(du -sk --apparent-size "$tree/usr" | cut -f1)
Section: devel
Priority: optional
Depends: libc6 (>= 2.14)
Description: emulator of the Ipc system call of L4 X.2
 It runs machine texts (threads, and the Ipc calls that each makes), prints
 each step, and finds who waits for whom. It replays and audits traces, draws
 charts, and searches all orders of the processors for final states.
END
    (cd "$tree" && find usr -type f -print0 | sort -z | xargs -0 md5sum) >"$tree/DEBIAN/md5sums"
    dated "$tree"
    dpkg-deb --root-owner-group -Zxz -b "$tree" "$out/l4run_${version}_amd64.deb" >/dev/null
}

npm_package() {
    local folder=$work/npm
    mkdir "$folder"
    install -m 644 "$here/npm/index.cjs" "$here/npm/README.md" "$top/page/module/call.js" "$folder"
    install -m 755 "$here/npm/cli.cjs" "$folder"
    install -m 644 "$top/page/out/${proof:+un}proved.wasm" "$folder/l4run.wasm"
    cat >"$folder/package.json" <<END
{
  "name": "l4run",
  "version": "$version.0",
  "description": "Emulator of the Ipc system call of L4 X.2",
  "license": "UNLICENSED",
  "private": true,
  "bin": { "l4run": "cli.cjs" },
  "main": "index.cjs",
  "files": ["cli.cjs", "index.cjs", "call.js", "l4run.wasm"],
  "engines": { "node": ">=16" }
}
END
    dated "$folder"
    tarred "$folder" package >"$out/l4run-$version.npm.tgz"
}

"$top/page/make.py" "$out/l4run.html" $proof
"$top/bindings/make.py" $proof
static_program "$out/l4run"
"$here/bill.py" "$out/l4run" "$version" "$SOURCE_DATE_EPOCH" >"$out/l4run-$version.cdx.json"
fill_tree "$work/tree"
dated "$work/tree"
tarred "$work/tree/usr" "l4run-$version" >"$out/l4run-$version-x86_64-linux.tar.gz"
debian "$work/tree"
npm_package
chmod 644 "$out"/*.* && chmod 755 "$out/l4run"
(cd "$out" && sha256sum l4run l4run[-_.]* >SHA256SUMS)
(cd "$out" && wc -c l4run* SHA256SUMS | sed '$d')
[ -z "$proof" ] || echo 'dist: made without a proof: for trials alone'
