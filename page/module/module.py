"""Compiles the program for WebAssembly, from the very module that it is compiled from for x86-64.

    page/module/module.py [--unproved]     writes page/out/proved.wasm, or unproved.wasm
    page/module/module.py --wants OBJECT   says in a second what the program's object wants of a system, and host.c lacks

The compiler lowers a proved program to one module of LLVM's, and hands it to clang. A stand-in for clang keeps a copy of what it is
given, and calls clang. In the copy the layout and the processor are exchanged for those of wasm64. Pointers have 64 bits in both, so
each size and offset stays what the proof was about. Debian's binaryen then makes of it a module with a memory of 32 bits, which each
browser and node takes without a flag. host.c has what the program wants of a system.
"""

import concurrent.futures
import contextlib
import hashlib
import os
import pathlib
import re
import shutil
import subprocess
import sys
import tempfile
import time

HERE = pathlib.Path(__file__).resolve().parent
TOP = HERE.parent.parent
PROGRAM = TOP / "crates" / "l4run" / "out" / "l4run"
sys.path.insert(0, str(TOP / "bench"))

# The stand-in for clang. It keeps the first large module that it is given.
KEEPER = """#!/bin/sh
for word; do
    case $word in
    *.bc) [ -e "{copy}" ] || [ "$(wc -c <"$word")" -lt 100000 ] || {{ cp "$word" "{copy}.part" && mv "{copy}.part" "{copy}"; }} ;;
    esac
done
exec "{clang}" "$@"
"""

LAYOUT = "e-m:e-p:64:64-p10:8:8-p20:8:8-i64:64-i128:128-n32:64-S128-ni:1:10:20"
TRIPLE = "wasm64-unknown-unknown"
PROCESSOR = "lime1"
STACK = 8 * 1024 * 1024

# What the module may have, of which wasm-opt has to be told.
FEATURES = ["memory64", "bulk-memory", "sign-ext", "mutable-globals", "nontrapping-float-to-int", "multivalue", "reference-types"]


def need(tool, package):
    if not shutil.which(tool):
        sys.exit(f"page: there is no {tool}: it is in the package {package}")


def kit_line():
    """The version of the kit, as `rt version` prints it."""
    return subprocess.run(["rt", "version"], stdout=subprocess.PIPE, text=True, check=True).stdout.strip()


def run(words, **how):
    done = subprocess.run([str(word) for word in words], stdout=subprocess.PIPE, stderr=subprocess.STDOUT, text=True, **how)
    if done.returncode:
        sys.exit(f"page: {pathlib.Path(str(words[0])).name} {words[1]} failed:\n{done.stdout[-4000:]}")
    return done.stdout


def compiler():
    """The kit's clang."""
    import unproved

    return unproved.TOOLCHAIN / "bin" / "clang"


def tools_that_keep(copy, work):
    """A folder of tools like the kit's, whose clang keeps a copy of the module."""
    import unproved

    tools = work / "toolchain"
    (tools / "bin").mkdir(parents=True)
    (tools / "lib").symlink_to(unproved.TOOLCHAIN / "lib")
    for tool in (unproved.TOOLCHAIN / "bin").iterdir():
        if tool.name != "clang":
            (tools / "bin" / tool.name).symlink_to(tool)
    clang = tools / "bin" / "clang"
    clang.write_text(KEEPER.format(copy=copy, clang=compiler()))
    clang.chmod(0o755)
    return tools


def text_of(module, to):
    """A module as text, in lines."""
    plain = ["-S", "-emit-llvm", "-O0", "-Xclang", "-disable-llvm-passes"]
    run([compiler(), "--target=x86_64-unknown-linux-gnu", "--no-default-config", "-x", "ir", module, *plain, "-o", to])
    return to


def proved_program(crate, tools, work):
    """The program as the proof compiles it, over the libraries that the gate or ./l4run left."""
    import unproved

    made, program, kit = work / "l4run.o", work / "l4run", pathlib.Path(unproved.rtlib.KIT)
    # Its sources are named as they lie in its folder.
    words = [*crate.words(["--jobs", "1"], keeps=False), "--toolchain", tools, "--backend", "llvm"]
    run([unproved.rtlib.RATTLE, "build", *words, "-o", made], cwd=crate.folder)
    link = [kit / "bin" / "rattle-link", "--target", unproved.TARGET, "--toolchain", unproved.TOOLCHAIN, "-o", program, made]
    run([*link, kit / "c" / "libos_c.a", kit / "c" / "liblibc_c.a"])
    return program


@contextlib.contextmanager
def proved_module(work):
    """The module of the proved program, in lines.

    The program's own crate is compiled once more, which proves it. What is made of the module may be taken behind the block: there the
    program that came of it is byte for byte the one that was proved, else it would not be told which of the two was.
    """
    import unproved

    if not PROGRAM.exists():
        sys.exit("page: there is no proved program: ./l4run or ./x gate makes it; with --unproved one is made without a proof")
    crate, copy = unproved.crate("l4run"), work / "program.bc"
    missing = [it.name for it in crate.below() if not pathlib.Path(it.rlib).is_dir()]
    if missing:
        sys.exit(f"page: not proved yet, or no longer there: {', '.join(missing)}; ./l4run or ./x gate proves them")
    with concurrent.futures.ThreadPoolExecutor() as pool:
        program = pool.submit(proved_program, crate, tools_that_keep(copy, work), work)
        while not copy.exists() and not program.done():
            time.sleep(0.2)
        if copy.exists():
            yield text_of(copy, work / "program.ll")
        if program.result().read_bytes() != PROGRAM.read_bytes():
            sys.exit(f"page: {PROGRAM.relative_to(TOP)} is not what comes of the proved crates as they stand: ./l4run or ./x gate makes it anew")


def unproved_module(work):
    """The module of the program as it is built without a proof, without the checks of that build, in lines."""
    import unproved

    crate, plain = unproved.crate("l4run"), work / "program.ll"
    with text_of(unproved.catch(crate, work), work / "checked.ll").open() as lines, plain.open("w") as to:
        to.writelines(unproved.without_checks(lines, unproved.hints(crate)))
    return plain


def for_wasm(lines):
    """The lines of a module with the layout and the processor of wasm64."""
    for line in lines:
        if line.startswith("target datalayout"):
            line = f'target datalayout = "{LAYOUT}"\n'
        elif line.startswith("target triple"):
            line = f'target triple = "{TRIPLE}"\n'
        elif line.startswith("attributes"):
            line = re.sub(r' "target-cpu"="[^"]*"', f' "target-cpu"="{PROCESSOR}"', line)
            line = re.sub(r' "(probe-stack|stack-probe-size)"="[^"]*"', "", line)
        elif not line.startswith("define"):
            # No thread is started, so no function is called by its address, and no table is needed.
            line = re.sub(r'ptr @"[^"]*thread called by C \d+"', "ptr null", line)
        yield line


def number_at(bytes_, at):
    """A number of seven bits a byte, and where it ends."""
    number = shift = 0
    while True:
        byte = bytes_[at]
        number |= (byte & 127) << shift
        shift += 7
        at += 1
        if byte < 128:
            return number, at


def without_table(module):
    """A module without the table that the linker writes, which has a form that few engines take. One that is used is refused there."""
    out, at = bytearray(module[:8]), 8
    while at < len(module):
        size, start = number_at(module, at + 1)
        if module[at] not in (4, 9):
            out += module[at : start + size]
        at = start + size
    return bytes(out)


def compiled(source, to, work):
    """Compiles the lines of a module for WebAssembly, with host.c."""
    plain, program, host, wide = (work / name for name in ("wasm64.ll", "program.o", "host.o", "wasm64.wasm"))
    with source.open() as lines, plain.open("w") as out:
        out.writelines(for_wasm(lines))
    clang = [compiler(), f"--target={TRIPLE}", "--no-default-config", f"-mcpu={PROCESSOR}", "-ffunction-sections", "-fdata-sections", "-c"]
    backend = ["-trap-unreachable", "-expand-div-rem-bits=64", "-expand-fp-convert-bits=64"]
    run([*clang, "-x", "ir", plain, "-O3", *(word for flag in backend for word in ("-mllvm", flag)), "-o", program])
    run([*clang, HERE / "host.c", "-O2", "-ffreestanding", "-fno-builtin", "-Wall", "-o", host])
    linker = work / "wasm-ld"
    linker.symlink_to(compiler())
    # The stack lies at the bottom, so that one that overflows traps.
    layout = ["--no-entry", "--gc-sections", "--stack-first", "-z", f"stack-size={STACK}", "--strip-all", "-O2", "--fatal-warnings"]
    run([linker, "-mwasm64", *layout, program, host, "-o", wide])
    wide.write_bytes(without_table(wide.read_bytes()))
    run(["wasm-opt", *(f"--enable-{it}" for it in FEATURES), "--memory64-lowering", wide, "-o", to])


def lacking(program, work):
    """What an object of the program wants of a system, and host.c lacks. It is asked without compiling the program."""
    wants = [line.split()[0] for line in run(["nm", "-u", "--format=posix", program]).splitlines()]
    source, asks, host, to = (work / name for name in ("asks.c", "asks.o", "host.o", "asks.wasm"))
    declared = "".join(f"void {name}(void);\n" for name in wants)
    listed = f"void *const wants[] = {{{', '.join(wants)}}};\n"
    asked = '__attribute__((export_name("asked"))) void *asked(int place) { return wants[place]; }\nint main(void) { return 0; }\n'
    source.write_text(declared + listed + asked)
    clang = [compiler(), f"--target={TRIPLE}", "--no-default-config", f"-mcpu={PROCESSOR}", "-ffreestanding", "-fno-builtin", "-c"]
    run([*clang, "-w", source, "-o", asks])
    run([*clang, HERE / "host.c", "-o", host])
    linker = work / "wasm-ld"
    linker.symlink_to(compiler())
    words = [str(word) for word in (linker, "-mwasm64", "--no-entry", "--error-limit=0", asks, host, "-o", to)]
    said = subprocess.run(words, stdout=subprocess.PIPE, stderr=subprocess.STDOUT, text=True).stdout
    return sorted(set(re.findall(r"undefined symbol: (\S+)", said)))


def stamp(is_proved):
    """What a module depends on: what is compiled, and by what."""
    total = hashlib.sha256(f"{kit_line()} {is_proved}".encode())
    files = [TOP / "crates.txt", HERE / "host.c", HERE / "module.py", TOP / "bench" / "unproved.py"]
    for folder in sorted((TOP / "crates").iterdir()):
        files += sorted((folder / "src").rglob("*.rt"))
    for file in files:
        total.update(file.read_bytes())
    if is_proved and PROGRAM.exists():
        total.update(PROGRAM.read_bytes())
    return total.hexdigest()


def module(is_proved):
    """The program's module, which is compiled where that was not done yet. It lies in page/out."""
    need("wasm-opt", "binaryen")
    out = HERE.parent / "out"
    out.mkdir(exist_ok=True)
    to, kept = out / ("proved.wasm" if is_proved else "unproved.wasm"), out / ("proved.stamp" if is_proved else "unproved.stamp")
    wanted = stamp(is_proved)
    if to.exists() and kept.exists() and kept.read_text() == wanted:
        return to
    with tempfile.TemporaryDirectory(prefix="page-", dir=out) as folder:
        work = pathlib.Path(folder)
        made = work / "l4run.wasm"
        with proved_module(work) if is_proved else contextlib.nullcontext(unproved_module(work)) as source:
            compiled(source, made, work)
        os.replace(made, to)
    kept.write_text(wanted)
    return to


if __name__ == "__main__":
    words = sys.argv[1:]
    if words[:1] == ["--wants"]:
        with tempfile.TemporaryDirectory(prefix="page-") as folder:
            lacks = lacking(words[1], pathlib.Path(folder))
        sys.exit(f"page: page/module/host.c lacks what the program wants of a system: {', '.join(lacks)}" if lacks else 0)
    made = module("--unproved" not in words)
    print(f"{os.path.relpath(made)}: {made.stat().st_size} bytes")
