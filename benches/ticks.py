#!/usr/bin/env python3
"""What a due op of a process takes: containers of `tick N 10`, each started and waited for, by a clock that the wait moves on.

Usage: benches/ticks.py WHERE [ROUNDS [COUNT ..]]. WHERE is the path of engined, or the address of one that listens with
`--clock 0:0`. For each COUNT it prints the time of the wait and what a tick takes of it, the best of the rounds: of twice as many ticks the
first is twice as long, and the second the same.
"""
import os
import subprocess
import sys
import time

import servers

COUNTS = (125, 250, 500, 1000)
PORT = 23755


def waited(client, name, count):
    """The seconds of a wait for so many ticks."""
    body = b'{"Image":"engine/tools","Cmd":["tick","%d","10"]}' % count
    client.ask("POST", f"/containers/create?name={name}", body)
    client.ask("POST", f"/containers/{name}/start")
    begun = time.perf_counter()
    client.ask("POST", f"/containers/{name}/wait")
    return time.perf_counter() - begun


def main():
    where = sys.argv[1]
    rounds = int(sys.argv[2]) if len(sys.argv) > 2 else 5
    counts = [int(count) for count in sys.argv[3:]] or COUNTS
    started = None
    port = PORT
    if os.path.exists(where):
        started = subprocess.Popen([where, "--listen", f"127.0.0.1:{PORT}", "--clock", "0:0"], stdin=subprocess.DEVNULL)
        time.sleep(1)
    else:
        port = int(where.rpartition(":")[2])
    try:
        client = servers.Client(port)
        for count in counts:
            best = min(waited(client, f"t{count}x{turn}", count) for turn in range(rounds))
            print(f"tick {count:4} 10: {best * 1e3:9.2f} ms, {best / count * 1e6:7.2f} microseconds a tick", flush=True)
    finally:
        if started:
            started.kill()
            started.wait()


main()
