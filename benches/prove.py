#!/usr/bin/env python3
"""Proves crates side by side over what earlier checks kept, lowest first, and says what each took.

    benches/prove.py [NAME..]     these crates and all that they stand on, or every crate

`rt all check` works on one crate of a chain after the other, and begins with a pass over all sources. This begins a crate as soon as
those below it are proved, those with the longest chain of others above them first. LANES says how many at a time (as many as
there are processors), JOBS how many processes a large crate of at least 600 lines may use (2). What a check said stands
in crates/NAME/out/check.log. It gives no verdict: that is the gate's.
"""
import copy
import importlib.machinery
import importlib.util
import os
import pathlib
import shutil
import sys
import time
from concurrent.futures import FIRST_COMPLETED, ThreadPoolExecutor, wait

LARGE = 600


def load_rt():
    """The toolchain's own command as a module: it knows crates.txt, stamps and the compiler's words."""
    loader = importlib.machinery.SourceFileLoader("rt", os.path.realpath(shutil.which("rt")))
    module = importlib.util.module_from_spec(importlib.util.spec_from_loader("rt", loader))
    sys.modules["rt"] = module
    loader.exec_module(module)
    return module


def check(crate, jobs):
    """Proves one crate, and returns its status, seconds and last line."""
    crate, began = copy.copy(crate), time.time()
    os.makedirs(f"{crate.folder}/out", exist_ok=True)
    with open(f"{crate.folder}/out/check.log", "w+", errors="replace") as crate.out:
        flags = ["--jobs", str(jobs)]
        status = crate.check(flags) if crate.is_program else crate.build_rlib(flags, anew=False)
        crate.out.seek(0)
        verdict = [line for line in crate.out if line.startswith("logic=")]
    return status, time.time() - began, verdict[-1].split(" sum=")[0].strip() if verdict else "as it was"


def repository(top):
    """The toolchain's command, and the crates of the repository, those below first."""
    os.chdir(top)
    rt = load_rt()
    rt.rtlib.guarded()
    made = rt.rtlib.Crate.__init__

    def make(self, *given, **named):
        made(self, *given, **named)
        rt.read_files(self)

    rt.rtlib.Crate.__init__ = make
    return rt, sorted(rt.rtlib.crates_below(top), key=lambda it: len(it.below()))


def main(names):
    _, crates = repository(str(pathlib.Path(__file__).resolve().parent.parent))
    if names:
        asked = [it for it in crates if it.name in names]
        wanted = {it.name for crate in asked for it in [crate, *crate.below()]}
        crates = [it for it in crates if it.name in wanted]
    lines = {it.name: it.count(rb"\n") for it in crates}
    above = dict(lines)
    for crate in reversed(crates):
        for below in crate.below():
            above[below.name] = max(above[below.name], lines[below.name] + above[crate.name])
    left = sorted(crates, key=lambda it: -above[it.name])
    lanes, most = int(os.environ.get("LANES", os.cpu_count())), int(os.environ.get("JOBS", "2"))
    done, failed, running, began = set(), set(), {}, time.time()
    with ThreadPoolExecutor(lanes) as pool:
        while left or running:
            for crate in list(left):
                below = {it.name for it in crate.below()}
                if below & failed:
                    left.remove(crate)
                    failed.add(crate.name)
                elif below <= done and len(running) < lanes:
                    left.remove(crate)
                    jobs = most if lines[crate.name] >= LARGE else 1
                    running[pool.submit(check, crate, jobs)] = crate.name
            for it in wait(running, return_when=FIRST_COMPLETED).done:
                name = running.pop(it)
                status, took, verdict = it.result()
                (failed if status else done).add(name)
                print(f"{time.time() - began:6.0f} s: {name} {'NOT PROVED' if status else verdict} in {took:.0f} s", flush=True)
    print(f"{len(done)} proved, {len(failed)} not{': ' + ' '.join(sorted(failed)) if failed else ''}")
    return 1 if failed else 0


if __name__ == "__main__":
    sys.exit(main(sys.argv[1:]))
