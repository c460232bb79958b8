#!/usr/bin/env python3
"""Gives this checkout the libraries that `rt ci` kept on this machine of the very texts that stand here.

    benches/kept.py

`rt ci NAME..` proves crates from nothing and keeps what passed, and a check of a crate above would prove all of that once more before it
begins. With what was kept in the place of its own builds it begins at once. It says which libraries were given, and which are lacking;
no verdict rests on what it gives: the gate takes nothing of a checkout.
"""
import os
import pathlib
import shutil

from prove import repository


def main():
    rt, _ = repository(str(pathlib.Path(__file__).resolve().parent.parent))
    rt.rtlib.Crate = rt.Crate
    rt.Crate.allowed = rt.handles_of(os.getcwd())
    crates = sorted(rt.rtlib.crates_below(os.getcwd()), key=lambda it: len(it.below()))
    kept, given, lacking = rt.Kept(crates), [], []
    for crate in crates:
        if crate.is_program:
            continue
        rlib = pathlib.Path(crate.folder, "out", "rlib")
        mark = rlib / "kept"
        if any(it.name not in kept.rlibs for it in crate.below()):
            lacking.append(crate.name)
            continue
        key = kept.key(crate)
        if crate.is_built() and mark.is_file() and mark.read_text() == key:
            kept.is_built(crate)
        elif os.path.isdir(kept.place(crate, False, key)):
            shutil.rmtree(rlib, ignore_errors=True)
            if kept.give(crate, False, key):
                (rlib / "stamp").write_text(crate.stamp())
                mark.write_text(key)
                kept.is_built(crate)
                given.append(crate.name)
        elif crate.is_built():
            kept.is_built(crate)
        else:
            lacking.append(crate.name)
    print("given:", " ".join(given) or "nothing new")
    print("lacking:", " ".join(lacking) or "none")


if __name__ == "__main__":
    main()
