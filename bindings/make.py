#!/usr/bin/env -S python3 -B
"""Makes the library for programs in other languages: bindings/out/libl4emu.a, to be linked, and libl4emu.so, to be loaded.

    bindings/make.py                of the crate l4_c, which is proved; what it stands on is proved first where that was not done yet
    bindings/make.py --unproved     of the same code without a proof and without checks, in two minutes

What the compiler makes of a static library lacks three functions of the kit, by which it asks for memory. They are put beside it. Nothing but
`l4emu_perform` is to be seen from outside.
"""

import hashlib
import pathlib
import shutil
import subprocess
import sys
import tempfile

HERE = pathlib.Path(__file__).resolve().parent
TOP = HERE.parent
OUT = HERE / "out"
CRATE = TOP / "crates" / "l4_c"
EXPORT = "l4emu_perform"
sys.path[:0] = [str(TOP / "bench"), str(TOP / "dist")]

# Calls the export, so that it is compiled.
MAIN = f"""
fn main(rt: HostRuntime) {{
    let mut lengths = Lengths {{ out: 0, faults: 0, recorded: 0 }};
    let _ = {EXPORT}(rt.alloc(), &[], &[], &[], &[], &[], &[], &[], &mut [], &mut [], &mut [], &mut lengths);
}}
"""


def run(words, **how):
    done = subprocess.run([str(word) for word in words], stdout=subprocess.PIPE, stderr=subprocess.STDOUT, text=True, **how)
    if done.returncode:
        sys.exit(f"bindings: {pathlib.Path(str(words[0])).name} {words[1]} failed:\n{done.stdout[-4000:]}")
    return done.stdout


def proved_object(work):
    """What the compiler makes of the crate, which it proves over the libraries below it.

    Where these are not known to be those of the texts as they stand, `rt lib` proves them first. It takes none that `rt ci` has
    built, so it is not asked where the gate has noted them.
    """
    import proved
    import unproved

    crate, archive = unproved.crate("l4_c"), work / "libl4_c.a"
    if proved.unknown_below(crate):
        print("bindings: proving first what was not proved yet", flush=True)
        run(["rt", "lib"], cwd=CRATE)
        archive = CRATE / "out" / "libl4_c.a"
    else:
        words = [*crate.words(["--jobs", "2"], keeps=False), "--toolchain", unproved.TOOLCHAIN, "--backend", "llvm"]
        run([proved.rtlib.RATTLE, "build", *words, "-o", archive], cwd=CRATE)
    run(["ar", "x", archive], cwd=work)
    (made,) = work.glob("*.o")
    return made


def as_export(lines):
    """The lines of a module with the export to be seen from outside, and without the program that called it."""
    for line in lines:
        if line.startswith("define"):
            if f'@"l4_c::{EXPORT}"(' in line:
                line = line.replace("define internal", "define")
            elif "@main(" in line:
                line = line.replace("define", "define internal")
        yield line.replace(f'@"l4_c::{EXPORT}"(', f"@{EXPORT}(")


def unproved_object(work):
    """The same code as `rt try` compiles a program that calls it, without the checks of that."""
    import unproved
    from build import compile_with, crate, toolchain_with

    source = work / "src"
    source.mkdir()
    for file in (CRATE / "src").iterdir():
        if file.name != "lib.rt":
            (source / file.name).symlink_to(file)
    (source / "main.rt").write_text((CRATE / "src" / "lib.rt").read_text() + MAIN)
    caught, text, plain, made = (work / name for name in ("caught.bc", "caught.ll", "plain.ll", "l4_c.o"))
    clang = unproved.TOOLCHAIN / "bin" / "clang"
    tools = toolchain_with(work / "toolchain", {"clang": unproved.CATCHER % (caught, clang)})
    said = compile_with(tools, "src/main.rt", [crate("l4_c")], work)
    if not caught.exists():
        sys.exit(said)
    words = [clang, f"--target={unproved.TARGET}", f"--sysroot={unproved.TOOLCHAIN}", "--no-default-config", "-x", "ir"]
    run([*words, caught, "-S", "-emit-llvm", "-O0", "-Xclang", "-disable-llvm-passes", "-o", text])
    with text.open() as lines, plain.open("w") as to:
        to.writelines(as_export(unproved.without_checks(lines, unproved.hints(crate("l4_c")))))
    backend = [word for flag in unproved.BACKEND for word in ("-mllvm", flag)]
    run([*words, plain, "-c", *(it for it in unproved.AS_THE_GATE if it != "-fPIE"), "-fPIC", *backend, "-o", made])
    return made


def libraries(made, work):
    """Links the object with the kit's functions for memory, and makes both libraries of that."""
    kit = pathlib.Path(shutil.which("rt")).resolve().parent.parent
    heap = work / "heap"
    heap.mkdir()
    run(["ar", "x", kit / "c" / "liblibc_c.a", "heap.pic.o"], cwd=heap)
    whole, one = work / "whole.o", work / "l4emu.o"
    run(["ld", "-r", made, heap / "heap.pic.o", "-o", whole])
    run(["objcopy", f"--keep-global-symbol={EXPORT}", whole, one])
    OUT.mkdir(exist_ok=True)
    archive, shared = OUT / "libl4emu.a", OUT / "libl4emu.so"
    archive.unlink(missing_ok=True)
    run(["ar", "rcsD", archive, one])
    run(["cc", "-shared", "-o", shared, one, "-Wl,--gc-sections,-soname,libl4emu.so.0,-z,relro,-z,now,--build-id=none"])
    run(["strip", "--strip-unneeded", shared])


def stamp(is_proved):
    """What the libraries depend on: what is compiled, and by what."""
    version = run(["rt", "version"])
    total = hashlib.sha256(f"{version} {is_proved}".encode())
    files = [TOP / "crates.txt", pathlib.Path(__file__), TOP / "bench" / "unproved.py", TOP / "unproved" / "build.py"]
    for folder in sorted((TOP / "crates").iterdir()):
        for part in ("src", "specs", "proofs") if is_proved else ("src",):
            files += sorted(it for it in (folder / part).rglob("*") if it.is_file())
    for file in files:
        total.update(file.read_bytes())
    return total.hexdigest()


def main(is_proved):
    kept, wanted = OUT / "stamp", stamp(is_proved)
    if kept.exists() and kept.read_text() == wanted:
        return
    kept.unlink(missing_ok=True)
    with tempfile.TemporaryDirectory(prefix="bindings-") as folder:
        work = pathlib.Path(folder)
        libraries(proved_object(work) if is_proved else unproved_object(work), work)
    kept.write_text(wanted)
    for file in ("libl4emu.a", "libl4emu.so"):
        print(f"bindings/out/{file}: {(OUT / file).stat().st_size} bytes{'' if is_proved else ', nothing of it is proved'}")


if __name__ == "__main__":
    main("--unproved" not in sys.argv[1:])
