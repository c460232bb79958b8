#!/usr/bin/env python3
"""The drill, the journal, and what an entry takes: requests and lines a second at 10,000 and at 100,000, and whether that is
flat; bytes of memory an entry.

Usage: benches/drill.py PATH_OF_ENGINED [PATH_OF_DOCKC]
The requests of a drill are made here again, so that what a drill takes more than a session of them is its check. With the path of
dockc, its `replay` of those journals is measured too. It isn't part of the gate.
"""
import functools
import struct
import subprocess
import sys
import tempfile
import time

from rates import fetch, pour, request, statuses
from servers import engined

SIZES = (10_000, 100_000)
OPENING = 1_700_000_000_000
CLOCK = ["--clock", f"{OPENING}:10"]
STREAM = (1 << 64) - 1
WORDS = ('["deaf"]', '["exit","3"]', '["tick","5","20"]', '["flaky","2"]')
MASK = 0xFFFFFFFF


def quarter(x, a, b, c, d):
    """A quarter round (RFC 8439, section 2.1)."""
    for first, second, third, turn in ((a, b, d, 16), (c, d, b, 12), (a, b, d, 8), (c, d, b, 7)):
        x[first] = (x[first] + x[second]) & MASK
        mixed = x[third] ^ x[first]
        x[third] = (mixed << turn | mixed >> (32 - turn)) & MASK


def block(count, stream):
    """The words of a block of ChaCha20 under the seed of zeros, with 64 bits of each counter."""
    begun = [*struct.unpack("<4I", b"expand 32-byte k"), *[0] * 8, count & MASK, count >> 32, stream & MASK, stream >> 32]
    x = begun[:]
    for _ in range(10):
        for column in range(4):
            quarter(x, column, column + 4, column + 8, column + 12)
        for column in range(4):
            quarter(x, column, (column + 1) % 4 + 4, (column + 2) % 4 + 8, (column + 3) % 4 + 12)
    return [(one + other) & MASK for one, other in zip(x, begun)]


def drilled(word):
    """The request that a word of the keystream asks for."""
    kind, place = word % 16, word // 16 % 32
    box = f"/containers/box-{place}"
    if kind < 3:
        words = word // 512 % 4
        policy = ',"HostConfig":{"RestartPolicy":{"Name":"on-failure","MaximumRetryCount":5}}' if words == 3 else ""
        return request("POST", f"/containers/create?name=box-{place}", f'{{"Image":"engine/tools","Cmd":{WORDS[words]}{policy}}}')
    if kind < 6:
        return request("POST", f"{box}/start")
    return request(*[
        ("POST", f"{box}/stop?t=1"), ("POST", f"{box}/kill"), ("POST", f"{box}/pause"), ("POST", f"{box}/unpause"),
        ("POST", f"{box}/restart?t=1"), ("POST", f"{box}/rename?name=box-{(place + 1) % 32}"), ("DELETE", box),
        ("DELETE", f"{box}?force=1"), ("GET", "/containers/json?all=1"), ("GET", f"{box}/json"),
    ][kind - 6])


@functools.cache
def drill_of(count):
    words = (word for at in range((count + 15) // 16) for word in block(at, STREAM))
    return [drilled(word) for word, _ in zip(words, range(count))]


def run(line, given=None):
    """The seconds of a run, and what it wrote."""
    with tempfile.TemporaryFile() as source, tempfile.TemporaryFile() as sink:
        source.write(given or b"")
        source.seek(0)
        begun = time.perf_counter()
        subprocess.run(line, stdin=source, stdout=sink, check=False)
        took = time.perf_counter() - begun
        sink.seek(0)
        return took, sink.read()


def told(name, counts):
    """The figures of both sizes, and how flat they are."""
    (small, took), (large, longer) = counts
    print(f"{name:44} {small / took:10,.0f} {large / longer:10,.0f} a second; each takes {longer / large / (took / small):.2f} times as long")


def drills(path):
    """Of `--drill N`, the session of the same requests, and the rest: the check."""
    whole, alone = [], []
    for count in SIZES:
        requests = b"".join(drill_of(count))
        took, summary = run([path, "--drill", str(count), *CLOCK])
        lines = summary.decode().splitlines() or ["nothing"]
        if lines[0] != f"requests {count}" or not lines[-1].startswith("legal "):
            print(f"no figures of the drill: it wrote {lines[0]!r} .. {lines[-1]!r}")
            return
        seconds, answers = run([path, "--stdio", *CLOCK], requests)
        said = {line.split()[1]: int(line.split()[2]) for line in lines if line.startswith("status ")}
        if said != {status.decode(): times for status, times in statuses(answers).items()}:
            print(f"the drill's statuses are others than those of its requests: {said} {statuses(answers)}")
        print(f"--drill {count}: {took:.2f} s; a session of its requests {seconds:.2f} s, so its check takes "
              f"{max(took - seconds, 0) / took * 100:.0f}% of it; {lines[-1]}")
        whole.append((count, took))
        alone.append((count, seconds))
    told("drilled requests, each checked,", whole)
    told("the same over --stdio, unchecked,", alone)


def journals(path, client_path):
    """A journal of each size, as a listening daemon hands it out, and as `replay` checks it."""
    handed, checked = [], []
    for count in SIZES:
        server = engined(path, *CLOCK)
        pour(server, drill_of(count))
        took, text = fetch(server.port, "/engine/journal")
        lines = text.count(b"\n")
        server.stop()
        print(f"a journal of {lines} lines, {len(text)} bytes: {took:.2f} s, {len(text) / took / 1e6:.1f} MB/s")
        handed.append((lines, took))
        if client_path:
            seconds, verdict = run([client_path, "127.0.0.1:1", "replay", str(OPENING)], text)
            print(f"replay: {verdict.decode().strip()}, {seconds:.2f} s")
            checked.append((lines, seconds))
    told("lines of GET /engine/journal", handed)
    if checked:
        told("lines checked by dockc's replay", checked)


def entries(path):
    """What a call of each kind adds to the memory of a daemon."""
    server = engined(path, "--clock", f"{OPENING}:0")
    many = range(20_000)
    spec = '{"Image":"engine/tools","Cmd":["deaf"]}'
    kinds = [
        ("create, with its container and event", [request("POST", f"/containers/create?name=c{n}", spec) for n in many]),
        ("start, with its process, step and event", [request("POST", f"/containers/c{n}/start") for n in many]),
        ("start of what runs", [request("POST", f"/containers/c{n}/start") for n in many]),
        ("inspect", [request("GET", f"/containers/c{n}/json") for n in many]),
        ("list of 100", [request("GET", "/containers/json?all=1&limit=100")] * 2_000),
    ]
    before = server.resident()
    for name, requests in kinds:
        made = sum(pour(server, requests).values())
        held = server.resident()
        print(f"{name:44} {(held - before) * 1024 / made:10,.0f} bytes an entry ({made:,} of them)")
        before = held
    with open(f"/proc/{server.process}/status", encoding="ascii") as lines:
        print("".join(line for line in lines if line.startswith(("VmHWM", "VmRSS"))), end="")
    server.stop()


def main():
    path, client_path = (sys.argv[1:] + [None])[:2]
    drills(path)
    journals(path, client_path)
    entries(path)


if __name__ == "__main__":
    main()
