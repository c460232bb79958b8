#!/usr/bin/env python3
"""What a restart takes that becomes due with others: ten containers whose process ends at once and whose policy is always.

Usage: benches/restarts.py PATH_OF_ENGINED [ROUNDS]. Each request moves the clock on by a week, in which each container that stands is started
again some ten thousand times, a minute apart; so the request behind the last start makes a hundred thousand restarts. It prints how long that
one takes, the best of the rounds, and what a restart takes of it.
"""
import json
import subprocess
import sys
import time

WEEK = 604800000
CONTAINERS = 10


class Daemon:
    def __init__(self, engined):
        words = [engined, "--stdio", "--clock", f"0:{WEEK}"]
        self.process = subprocess.Popen(words, stdin=subprocess.PIPE, stdout=subprocess.PIPE)

    def ask(self, method, path, body=b""):
        head = f"{method} {path} HTTP/1.1\r\nHost: a\r\nContent-Length: {len(body)}\r\n\r\n"
        self.process.stdin.write(head.encode() + body)
        self.process.stdin.flush()
        line = self.process.stdout.readline().decode()
        if not line.startswith("HTTP/1.1 2"):
            sys.exit(line)
        length = 0
        while (field := self.process.stdout.readline().decode().strip()) != "":
            name, _, value = field.partition(":")
            if name.lower() == "content-length":
                length = int(value)
        return self.process.stdout.read(length)

    def end(self):
        self.process.stdin.close()
        self.process.wait()


def round_of(engined):
    daemon = Daemon(engined)
    body = b'{"Image":"engine/tools","Cmd":["exit","1"],"HostConfig":{"RestartPolicy":{"Name":"always"}}}'
    for number in range(CONTAINERS):
        daemon.ask("POST", f"/containers/create?name=c{number}", body)
    for number in range(CONTAINERS):
        daemon.ask("POST", f"/containers/c{number}/start")
    before = json.loads(daemon.ask("GET", "/containers/c0/json"))["RestartCount"]
    begun = time.perf_counter()
    after = json.loads(daemon.ask("GET", "/containers/c0/json"))["RestartCount"]
    taken = time.perf_counter() - begun
    daemon.end()
    return taken, (after - before) * CONTAINERS


def main():
    rounds = int(sys.argv[2]) if len(sys.argv) > 2 else 5
    taken, restarts = min(round_of(sys.argv[1]) for _ in range(rounds))
    print(f"{restarts} restarts in one call: {taken * 1e3:.0f} ms, {taken / restarts * 1e6:.2f} microseconds a restart")


main()
