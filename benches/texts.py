#!/usr/bin/env python3
"""What `rt ci` refuses before any proof, over every crate, in seconds: layout, links, files that no check reads, words.

    benches/texts.py

The status is 0 where nothing is refused. Run it before the last commit: the gate says the same, an hour later.
"""
import os
import pathlib
import sys
import tempfile

from prove import repository


def refused(rt, crate, crates):
    """What is refused of a crate's text."""
    with tempfile.TemporaryFile("w+", errors="replace") as crate.out:
        try:
            rt.rtlib.stop_on_links(crate.folder)
            rt.rtlib.stop_on_unread(crate.folder, crates)
            rt.rtlib.stop_on_text(crate, "verdict")
            rt.stop_on_words(crate)
            status = rt.rtlib.fmt(crate.folder, "--check", crate.out)
        except SystemExit as stop:
            return str(stop) or "its text"
        crate.out.seek(0)
        return crate.out.read() if status else ""


def main():
    rt, _ = repository(str(pathlib.Path(__file__).resolve().parent.parent))
    rt.rtlib.Crate = rt.Crate
    rt.Crate.allowed = rt.handles_of(os.getcwd())
    crates = rt.crates_of(os.getcwd())
    bad = {crate.name: why for crate in crates if (why := refused(rt, crate, crates))}
    for name, why in bad.items():
        print(f"{name}: {why.strip()}")
    print(f"{len(crates)} crates, {len(bad)} refused")
    sys.exit(bool(bad))


if __name__ == "__main__":
    main()
