#!/usr/bin/env python3
"""Waits of many connections for one container: what they cost while they wait, and how soon they are answered; and what as
many threads cost that only sleep.

waiters.py WHERE [COUNT]
"""
import os
import subprocess
import sys
import tempfile
import time

from servers import Client, engined, used
from streams import arrivals, waiters

HERE = os.path.dirname(os.path.abspath(__file__))
SECONDS = 10


def sleepers(count):
    """The share of as many threads that sleep 50 ms again and again."""
    with tempfile.TemporaryDirectory() as folder:
        program = f"{folder}/sleepers"
        subprocess.run(["cc", "-O2", "-pthread", "-o", program, f"{HERE}/sleepers.c"], check=True)
        with subprocess.Popen([program, str(count)]) as process:
            try:
                time.sleep(2)
                return used(process.pid, SECONDS)
            finally:
                process.kill()


def waits(server, client, count, name, field):
    """So many waits of that form, and what they take."""
    client.ask("POST", "/containers/web/start")
    links = waiters(server.port, count, "web", field)
    time.sleep(2)
    share = used(server.process, SECONDS)
    client.ask("POST", "/containers/web/kill")
    first, last = arrivals(links, b"}", 1, time.monotonic())
    print(f"{count} {name}: {share * 100:.1f}% of a processor; behind the end the first answer after {first:.0f} ms, "
          f"the last after {last:.0f} ms", flush=True)
    for link in links:
        link.close()


def main(where, count=1000):
    print(f"{count} threads that only sleep: {sleepers(int(count)) * 100:.1f}% of a processor", flush=True)
    server = engined(where)
    try:
        client = Client(server.port)
        server.create(client, "web", "last")
        waits(server, client, int(count), "waits", b"")
        waits(server, client, int(count), "waits with an early head", b"X-Engine-Early: wait\r\n")
        late = []
        for _ in range(5):
            client.ask("POST", "/containers/web/start")
            begun = time.monotonic()
            client.ask("POST", "/containers/web/stop?t=1")
            late.append((time.monotonic() - begun - 1) * 1000)
        print(f"five stops with a deadline of a second: answered {min(late):.0f} to {max(late):.0f} ms behind it", flush=True)
    finally:
        server.stop()


main(*sys.argv[1:])
