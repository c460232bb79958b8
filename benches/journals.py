#!/usr/bin/env python3
"""A journal of a million lines: written by a daemon, checked and upgraded by dockc; lines a second, and memory.

Usage: benches/journals.py PATH_OF_ENGINED PATH_OF_DOCKC [LINES]
A listening daemon is asked LINES (1,000,000) requests of a drill, but for its lists, and hands its journal out. `replay` checks it as it
is; without its header, as one of format 1; and upgrades that, which has to give the daemon's own. It isn't part of the gate.
"""
import itertools
import re
import subprocess
import sys
import tempfile
import time

from drill import CLOCK, OPENING, drill_of
from rates import fetch, pour
from servers import engined

LISTS = b"GET /containers/json"


def requests(count):
    """So many requests of a drill that aren't lists."""
    return list(itertools.islice((it for it in drill_of(count + count // 8) if not it.startswith(LISTS)), count))


def most_resident(process):
    """The most KB that a process had resident by now."""
    with open(f"/proc/{process}/status", encoding="ascii") as lines:
        found = re.search(r"VmHWM:\s+(\d+)", lines.read())
    return int(found[1]) if found else 0


def run(line, given):
    """The seconds of a run, the most KB that it had resident, its status and what it wrote."""
    most = 0
    with tempfile.TemporaryFile() as source, tempfile.TemporaryFile() as sink:
        source.write(given)
        source.seek(0)
        begun = time.perf_counter()
        with subprocess.Popen(line, stdin=source, stdout=sink) as process:
            while process.poll() is None:
                most = max(most, most_resident(process.pid))
                time.sleep(0.01)
        took = time.perf_counter() - begun
        sink.seek(0)
        return took, most, process.returncode, sink.read()


def told(what, lines, took, memory):
    print(f"{what:44} {took:8.2f} s {lines / took:10,.0f} lines a second {memory}")


def in_first(text):
    """A journal as daemons wrote it that had no header."""
    return text.partition(b"\n")[2].replace(b'"auto":false,', b"").replace(b'"health":null,', b"")


def written(path, count):
    """The journal of a daemon that was asked so much."""
    server = engined(path, *CLOCK)
    try:
        rest = server.resident()
        asked = requests(count)
        begun = time.perf_counter()
        made = sum(pour(server, asked).values())
        print(f"{made:,} requests answered: {time.perf_counter() - begun:.2f} s")
        held = server.resident()
        took, text = fetch(server.port, "/engine/journal")
        lines = text.count(b"\n")
        print(f"a journal of {lines:,} lines, {len(text):,} bytes; its daemon holds {(held - rest) * 1024 / lines:,.0f} bytes a line")
        told("written, by the daemon", lines, took, f"{server.resident() - held} KB more")
        return text
    finally:
        server.stop()


def replayed(what, client, words, text):
    """What `replay` writes of a text."""
    took, most, status, out = run([client, "127.0.0.1:1", "replay", *words], text)
    told(what, text.count(b"\n"), took, f"{most} KB, of which {len(text) // 1024} are the text; status {status}")
    return out


def main():
    path, client = sys.argv[1:3]
    text = written(path, int(sys.argv[3]) if len(sys.argv) > 3 else 1_000_000)
    print(replayed("checked", client, [], text).decode().strip())
    first = in_first(text)
    print(replayed("checked, of format 1", client, [str(OPENING)], first).decode().strip())
    same = replayed("checked and written in format 2", client, ["--upgrade", str(OPENING)], first) == text
    print("what was written is the daemon's own journal" if same else "WRONG: another text was written")
    sys.exit(0 if same else 1)


if __name__ == "__main__":
    main()
