#!/usr/bin/env python3
"""64 MiB through attaches, `cat` and back, beside an echo by socat, and beside Debian's docker.io, in the same run: bytes a
second, and the ratio; and how long a byte takes there and back.

Usage: benches/attach.py WHERE [MEBIBYTES]      WHERE is the path of engined, or the address of one that listens
It needs socat; docker's part needs root, docker.io and busybox-static. A log has room for 4 MiB, so that is what goes through
each container, and over each connection of the echo. All is made, started and attached to before the clock starts, and
compared with what was sent behind it. It isn't part of the gate.
"""
import os
import shutil
import socket
import statistics
import subprocess
import sys

from servers import Server, docker, engined, free_port, ticks, wait_for
from streams import attached, payload, there_and_back, through

ROOM = 4 << 20
BYTES = 20


def echo():
    """socat, with a `cat` of its own for each connection."""
    if not shutil.which("socat"):
        raise SystemExit("socat isn't here (apt-get install socat)")
    port = free_port()
    line = ["socat", "-t60", f"TCP-LISTEN:{port},bind=127.0.0.1,fork,reuseaddr,nodelay", "EXEC:cat"]
    started = subprocess.Popen(line)
    wait_for(port)
    return Server("socat", port, started)


def connected(server, number):
    """A connection to the echo, or to a container's standard input and output."""
    if server.words:
        return attached(server, f"cat-{os.getpid()}-{number}", "stdin", "stdout")
    link = socket.create_connection(("127.0.0.1", server.port))
    link.setsockopt(socket.IPPROTO_TCP, socket.TCP_NODELAY, 1)
    return link


def rate(server, times, text):
    """Bytes a second over so many connections, one behind the other."""
    links = [connected(server, number) for number in range(times)]
    took, before = [], ticks(server.process)
    for link in links:
        seconds, came = through(link, text)
        if (payload(came) if server.words else came) != text:
            raise SystemExit(f"{server.name}: {len(came)} bytes came, and they are others")
        took.append(seconds)
    whole = len(text) * len(took) / sum(took)
    part = f"; {(ticks(server.process) - before) / sum(took):.2f} of a processor" if server.is_ours else ""
    print(f"{server.name:8} {whole / 1e6:8.1f} MB/s   best {len(text) / min(took) / 1e6:.1f}, median "
          f"{len(text) / statistics.median(took) / 1e6:.1f}{part}")
    return whole


def main():
    where, count = sys.argv[1], int(sys.argv[2]) if len(sys.argv) > 2 else 64
    times = max(count // 4, 1)
    text = bytes(place % 251 for place in range(min(count << 20, ROOM)))
    servers = [*filter(None, [engined(where), docker(), echo()])]
    try:
        print(f"{times} times {len(text) >> 20} MiB")
        rates = {server.name: rate(server, times, text) for server in servers}
        ours = servers[0].name
        for name in rates:
            if name != ours:
                print(f"{ours}'s rate is {rates[ours] / rates[name]:.3f} of that of {name}")
        for server in servers:
            took = there_and_back(connected(server, times), 8 if server.words else 0, BYTES)
            print(f"{server.name:8} a byte there and back: median {statistics.median(took):.2f} ms, longest {max(took):.2f} ms")
    finally:
        for server in servers:
            server.stop()


main()
