#!/usr/bin/env python3
"""How long a daemon takes to go on from a written history, and the most memory that it had by then.

Usage: benches/reboots.py ENGINED ENGINEONE [ENTRIES]. A journal of so many entries (100,000 without a number) is made by a new engined: lives of
containers, each created, started, inspected and removed. engineone reads it by --reboot, and the time goes up to its first connection.
"""
import subprocess
import sys
import tempfile
import time

from rates import fetch, pour, request
from servers import engined, free_port, wait_for

BODY = '{"Image":"engine/tools","Cmd":["hello"]}'


def lives(count):
    """The requests of so many lives, each of four entries."""
    for at in range(count):
        box = f"/containers/c{at}"
        yield request("POST", f"/containers/create?name=c{at}", BODY)
        yield request("POST", f"{box}/start")
        yield request("GET", f"{box}/json")
        yield request("DELETE", f"{box}?force=1")


def written(path, entries):
    """A journal of so many entries."""
    server = engined(path)
    pour(server, list(lives(entries // 4)))
    text = fetch(server.port, "/engine/journal")[1]
    server.stop()
    return text


def most(process):
    """The most memory that a process had, in MB."""
    with open(f"/proc/{process}/status", encoding="ascii") as lines:
        return int(next(line for line in lines if line.startswith("VmHWM")).split()[1]) / 1024


def main():
    entries = int(sys.argv[3]) if len(sys.argv) > 3 else 100_000
    text = written(sys.argv[1], entries)
    with tempfile.TemporaryFile() as source:
        source.write(text)
        source.seek(0)
        port, begun = free_port(), time.perf_counter()
        daemon = subprocess.Popen([sys.argv[2], f"127.0.0.1:{port}", "--reboot"], stdin=source)
        if not wait_for(port, 600):
            raise SystemExit("it doesn't listen")
        took, memory = time.perf_counter() - begun, most(daemon.pid)
        daemon.terminate()
        daemon.wait()
    lines = text.count(b"\n") - 1
    print(f"{lines} entries, {len(text) / 1e6:.0f} MB: {took:.1f} seconds, {memory:.0f} MB at most")


if __name__ == "__main__":
    main()
