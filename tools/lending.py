#!/usr/bin/env python3
"""Lends what the gate built: proves and runs one crate of another repository over the libraries that `rt ci` built here.

    tools/lending.py FOLDER NAME     the crate NAME of the repository FOLDER, whose other crates are copies of those of this one

Each of these crates gets the toolchain's mark by which it takes a library as built, so NAME alone is proved. The status is that
of its run; it is 77 where something was not built here, or was changed since, or the toolchain has no such mark.
"""
import importlib.util
import os
import pathlib
import shutil
import sys

TOP = pathlib.Path(__file__).resolve().parent.parent
NOTHING = 77


def rtlib_of_toolchain():
    """The toolchain's own library, in which each crate's mark is made once, of those of all crates below it."""
    toolchain = os.path.dirname(os.path.realpath(shutil.which("rt")))
    spec = importlib.util.spec_from_file_location("rtlib", f"{toolchain}/rtlib.py")
    rtlib = importlib.util.module_from_spec(spec)
    sys.modules["rtlib"] = rtlib
    spec.loader.exec_module(rtlib)
    marks, mark = {}, rtlib.Crate.stamp

    def mark_of(crate):
        if crate.folder not in marks:
            marks[crate.folder] = mark(crate)
        return marks[crate.folder]

    rtlib.Crate.stamp = mark_of
    return rtlib


def lend(rtlib, folder):
    """Gives each library of the repository in this folder what was built of it here."""
    libraries = [it for it in rtlib.crates_below(folder) if it.makes_rlib()]
    for it in libraries:
        own = f"{TOP}/crates/{it.name}"
        built = os.path.getmtime(f"{own}/out/rlib")
        files = [f"{at}/{file}" for kind in ("src", "specs", "proofs") for at, _, found in os.walk(f"{own}/{kind}") for file in found]
        if any(os.path.getmtime(file) > built for file in files):
            raise OSError(f"{it.name} was changed")
        shutil.copytree(f"{own}/out/rlib/{it.name}.rlib", it.rlib)
        with open(f"{it.folder}/out/rlib/stamp", "w", encoding="utf-8") as stamp:
            stamp.write(it.stamp())
    if not all(it.is_built() for it in libraries):
        raise OSError("the toolchain takes no library as built")


def main():
    folder, name = sys.argv[1:]
    try:
        rtlib = rtlib_of_toolchain()
        lend(rtlib, folder)
    except (OSError, TypeError, AttributeError) as why:
        print(f"lending: nothing is lent: {why}", file=sys.stderr)
        sys.exit(NOTHING)
    os.chdir(f"{folder}/crates/{name}")
    sys.exit(rtlib.main("run"))


if __name__ == "__main__":
    main()
