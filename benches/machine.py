#!/usr/bin/env python3
"""Microseconds of a start, an inspect, a create and a remove among so many containers, and of an exec among so many of its container.

Usage: benches/machine.py PATH_OF_ENGINED [ROUNDS [FEW MANY]]. In each round a daemon over --stdio makes containers, 1,000 and then 32,768 where no
numbers are given, or execs of one container, 100 and then 10,000; then a thousand calls of a kind are handed to it at once, and a call
takes a thousandth of the time until the last answer has come. Of the rounds the best counts. It isn't part of the gate.
"""
import os
import subprocess
import sys
import threading
import time

CALLS = 1000
SIZES = (1000, 32768)
EXECS = (100, 10000)
ANSWER = b"HTTP/1.1 "


def post(path, body=b""):
    head = f"POST {path} HTTP/1.1\r\nHost: a\r\nContent-Length: {len(body)}\r\n\r\n"
    return head.encode() + body


def get(path):
    return f"GET {path} HTTP/1.1\r\nHost: a\r\n\r\n".encode()


def create(number, words="hello"):
    return post(f"/containers/create?name=c{number}", b'{"Image":"engine/tools","Cmd":["%s"]}' % words.encode())


def exec_create():
    return post("/containers/c0/exec", b'{"Cmd":["hello"]}')


def answered(daemon, requests):
    """How many seconds the daemon takes for these requests, and what it answers."""
    given = b"".join(requests)
    begun = time.perf_counter()
    writing = threading.Thread(target=lambda: (daemon.stdin.write(given), daemon.stdin.flush()))
    writing.start()
    answers, parts, last = 0, [], b""
    while answers < len(requests):
        more = os.read(daemon.stdout.fileno(), 1 << 20)
        if not more:
            sys.exit("the daemon ended before its last answer")
        parts.append(more)
        last += more
        answers += last.count(ANSWER)
        last = last[-len(ANSWER) + 1 :]
    writing.join()
    return time.perf_counter() - begun, b"".join(parts)


def opened(engined):
    return subprocess.Popen([engined, "--stdio", "--clock", "0:0"], stdin=subprocess.PIPE, stdout=subprocess.PIPE)


def containers(engined, size):
    """The seconds of a thousand calls of each kind among so many containers."""
    with opened(engined) as daemon:
        first = max(size - CALLS, 0)
        answered(daemon, [create(number) for number in range(first)])
        among = [number * 7919 % size for number in range(CALLS)]
        taken = {"create": answered(daemon, [create(number) for number in range(first, size)])[0] * CALLS / (size - first)}
        taken["inspect"] = answered(daemon, [get(f"/containers/c{number}/json") for number in among])[0]
        taken["start"] = answered(daemon, [post(f"/containers/c{number}/start") for number in among])[0]
        gone = [f"DELETE /containers/c{number}?force=true HTTP/1.1\r\nHost: a\r\n\r\n".encode() for number in among]
        taken["remove"] = answered(daemon, gone)[0]
        daemon.stdin.close()
        return taken


def execs(engined, size):
    """The same of execs of one container."""
    with opened(engined) as daemon:
        answered(daemon, [create(0, "deaf"), post("/containers/c0/start")])
        answered(daemon, [exec_create() for _ in range(size)])
        begun, said = answered(daemon, [exec_create() for _ in range(CALLS)])
        ids = [part.split(b'"')[0].decode() for part in said.split(b'"Id":"')[1:]]
        taken = {"exec create": begun}
        taken["exec inspect"] = answered(daemon, [get(f"/exec/{name}/json") for name in ids])[0]
        taken["exec start"] = answered(daemon, [post(f"/exec/{name}/start", b'{"Detach":true}') for name in ids])[0]
        daemon.stdin.close()
        return taken


def main():
    engined = sys.argv[1]
    rounds = int(sys.argv[2]) if len(sys.argv) > 2 else 5
    given = tuple(int(size) for size in sys.argv[3:5]) or SIZES
    for measured, sizes in ((containers, given), (execs, EXECS)):
        best = []
        for size in sizes:
            taken = [measured(engined, size) for _ in range(rounds)]
            best.append({kind: min(each[kind] for each in taken) / CALLS * 1e6 for kind in taken[0]})
        for kind in best[0]:
            few, many = best[0][kind], best[1][kind]
            print(f"{kind:12} among {sizes[0]}: {few:7.1f}, among {sizes[1]}: {many:7.1f} microseconds, {many / few:.2f} times", flush=True)


main()
