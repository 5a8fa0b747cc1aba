#!/usr/bin/env -S python3 -B
"""Writes the program's object: that of the proved program, or with --unproved the same code compiled without a proof.

    dist/object.py OUT.o [--unproved]
"""

import pathlib
import shutil
import subprocess
import sys
import tempfile

TOP = pathlib.Path(__file__).resolve().parent.parent
sys.path[:0] = [str(TOP / "page" / "module"), str(TOP / "bench")]
import module  # noqa: E402


def linked(made, to):
    """The program as the gate links it."""
    import unproved

    kit = pathlib.Path(unproved.rtlib.KIT)
    words = [kit / "bin" / "rattle-link", "--target", unproved.TARGET, "--toolchain", unproved.TOOLCHAIN, "-o", to, made]
    module.run([*words, kit / "c" / "libos_c.a", kit / "c" / "liblibc_c.a"])
    return to.read_bytes()


def proved(to, work):
    """The object that lies beside the proved program, where it is that program's."""
    made = module.PROGRAM.with_suffix(".o")
    if not module.PROGRAM.exists() or not made.exists():
        sys.exit("dist: there is no proved program: ./l4run or ./x gate makes it; with --unproved one is made without a proof")
    if linked(made, work / "l4run") != module.PROGRAM.read_bytes():
        sys.exit(f"dist: {made.relative_to(TOP)} is not the object of the program beside it: ./l4run or ./x gate makes both anew")
    shutil.copyfile(made, to)


def unproved(to, work):
    import unproved as it

    plain = module.unproved_module(work)
    clang = [module.compiler(), f"--target={it.TARGET}", f"--sysroot={it.TOOLCHAIN}", "--no-default-config", "-x", "ir"]
    backend = [word for flag in it.BACKEND for word in ("-mllvm", flag)]
    module.run([*clang, plain, "-c", *it.AS_THE_GATE, *backend, "-o", to])


def main(to, is_proved):
    with tempfile.TemporaryDirectory(prefix="dist-") as folder:
        (proved if is_proved else unproved)(pathlib.Path(to).resolve(), pathlib.Path(folder))


if __name__ == "__main__":
    main(sys.argv[1], "--unproved" not in sys.argv)
