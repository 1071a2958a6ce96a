#!/usr/bin/env python3
"""Proves and builds the static library of the crate gate_c: target/staticlib/libgate.a.

    tools/static_library.py             by `rt lib` in crates/gate_c
    tools/static_library.py --after-ci  over the libraries that `rt ci` has just left in crates/*/out

`rt lib` takes no library that `rt ci` made, so in a clone without other work it proves every crate
below gate_c a second time, one after another. With --after-ci only gate_c is proved again; where
the libraries cannot be used, `rt lib` builds all the same.
"""
import os
import shutil
import subprocess
import sys

sys.dont_write_bytecode = True

ROOT = os.path.dirname(os.path.dirname(os.path.abspath(__file__)))
FOLDER = f"{ROOT}/crates/gate_c"
BUILT = f"{FOLDER}/out/libgate_c.a"
LIBRARY = f"{ROOT}/target/staticlib/libgate.a"


def kit_of(rt):
    """The module of the kit that `rt` stands on: it knows the words of `rattle`."""
    sys.path.insert(0, os.path.dirname(os.path.realpath(rt)))
    import rtlib

    return rtlib


def is_of_this_text(crate):
    """Whether the crate's library was built from its files as they stand. `rt ci` writes no stamp."""
    stamped = os.path.isfile(f"{crate.folder}/out/rlib/stamp")
    return os.path.isfile(f"{crate.rlib}/format") and (not stamped or crate.is_built())


def build_after_ci(rt):
    """Proves gate_c from nothing over the libraries of `rt ci`; whether that could be done."""
    try:
        kit = kit_of(rt)
        os.chdir(FOLDER)
        crate = kit.Crate(FOLDER, ROOT, {})
        if not all(is_of_this_text(dep) for dep in crate.below()):
            return False
        words = crate.words(["--jobs", "2"], keeps=False)
        words += ["--toolchain", f"{kit.KIT}/toolchain", "--backend", "llvm", "-o", BUILT]
        os.makedirs(os.path.dirname(BUILT), exist_ok=True)
        return subprocess.run([kit.RATTLE, "build", *words]).returncode == 0
    except (Exception, SystemExit) as error:
        print(f"static_library: not over the libraries of rt ci: {error}", flush=True)
        return False


def main():
    words = sys.argv[1:]
    rt = shutil.which("rt")
    if words not in ([], ["--after-ci"]):
        sys.exit(__doc__)
    if not rt:
        sys.exit("static_library: there is no command rt")
    for path in (BUILT, LIBRARY):
        if os.path.lexists(path):
            os.remove(path)
    if not (words and build_after_ci(rt)):
        status = subprocess.run([rt, "lib"], cwd=FOLDER).returncode
        if status:
            sys.exit(status)
    os.makedirs(os.path.dirname(LIBRARY), exist_ok=True)
    shutil.copyfile(BUILT, LIBRARY)
    print(f"static_library: {os.path.relpath(LIBRARY, ROOT)}, {os.path.getsize(LIBRARY)} bytes")


main()
