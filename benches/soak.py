#!/usr/bin/env python3
"""What is left of connections that came and went: memory, mappings and threads of a listening daemon.

Usage: soak.py PATH_OF_ENGINED [--scale N] [--seconds N] [PART ..]

Parts: short, beside, idle, resets, gone, followers, inspect, attaches, scarce, closed; all of them where none is named. Each is
bounded in count, and in time by --seconds (600); --scale divides its counts, for a daemon that is built to find faults and not for
speed.
Each prints its figures, and ok or FAILED; the status is 1 where one failed. Loopback alone, python3 alone.
"""
import argparse
import itertools
import json
import os
import resource
import select
import socket
import struct
import subprocess
import sys
import threading
import time

LOOPBACK = "127.0.0.1"
RESET = struct.pack("ii", 1, 0)
BIND_WITHOUT_PORT = 24
MEBIBYTE = 1 << 20


class TooLong(Exception):
    """The time of a part is over."""


class Daemon:
    """A daemon of one part, and what the system tells of it."""

    def __init__(self, program, before=""):
        """`before` is what a shell does before it becomes the daemon."""
        with socket.create_server((LOOPBACK, 0)) as place:
            self.port = place.getsockname()[1]
        line = f'{before} exec "$0" --listen {LOOPBACK}:{self.port}'
        self.started = subprocess.Popen(["sh", "-c", line, program], stdin=subprocess.DEVNULL, stdout=subprocess.DEVNULL)
        for _ in range(600):
            try:
                self.ask("GET", "/_ping")
                return
            except OSError:
                time.sleep(0.1)
        raise SystemExit("the daemon didn't come up")

    def stop(self):
        self.started.kill()
        self.started.wait()

    def seen(self):
        """Resident KB, mappings, threads."""
        at = f"/proc/{self.started.pid}"
        with open(f"{at}/status", encoding="ascii") as lines:
            told = dict(line.split(":", 1) for line in lines)
        with open(f"{at}/maps", encoding="utf-8") as lines:
            mappings = sum(1 for _ in lines)
        return int(told["VmRSS"].split()[0]), mappings, int(told["Threads"])

    def threads(self):
        return self.seen()[2]

    def link(self, timeout=60):
        return socket.create_connection((LOOPBACK, self.port), timeout=timeout)

    def ask(self, method, path, body=b"", address=None):
        """One request over a connection of its own, which the daemon closes: the answer's body."""
        with socket.socket() as link:
            link.settimeout(60)
            if address:
                link.setsockopt(socket.IPPROTO_IP, BIND_WITHOUT_PORT, 1)
                link.bind((address, 0))
            link.connect((LOOPBACK, self.port))
            link.sendall(request(method, path, body, "Connection: close"))
            answer = read_to_end(link)
        head, _, body = answer.partition(b"\r\n\r\n")
        status = int(head.split()[1])
        if status >= 400:
            raise SystemExit(f"{method} {path}: {status} {body[:200]!r}")
        return body

    def run(self, name, *words, **fields):
        """A container of these words that runs."""
        spec = {"Image": "engine/tools", "Cmd": list(words), **fields}
        self.ask("POST", f"/containers/create?name={name}", json.dumps(spec).encode())
        self.ask("POST", f"/containers/{name}/start")

    def remove(self, name):
        self.ask("DELETE", f"/containers/{name}?force=true")

    def falls_to(self, threads, seconds=30):
        """Whether there are no more threads than that, at last. Each try is a connection, which lets the daemon join others, and whose
        own thread may still be there."""
        end = time.monotonic() + seconds
        while time.monotonic() < end:
            self.ask("GET", "/_ping")
            if self.threads() <= threads + 1:
                return True
            time.sleep(0.01)
        return False


def request(method, path, body=b"", *fields):
    lines = [f"{method} {path} HTTP/1.1", "Host: x", f"Content-Length: {len(body)}", *fields]
    return "\r\n".join([*lines, "", ""]).encode() + body


def read_to_end(link):
    parts = []
    while got := link.recv(1 << 16):
        parts.append(got)
    return b"".join(parts)


def read_head(link):
    """Reads to behind the head, and hands what came with it."""
    ahead = b""
    while b"\r\n\r\n" not in ahead:
        got = link.recv(1 << 16)
        if not got:
            raise SystemExit("closed before the head")
        ahead += got
    return ahead.partition(b"\r\n\r\n")[2]


def reset(link):
    link.setsockopt(socket.SOL_SOCKET, socket.SO_LINGER, RESET)
    link.close()


def addresses():
    """Many of this machine, so that ports don't run short."""
    return itertools.cycle(f"127.0.0.{last}" for last in range(2, 250))


def is_like(first, last):
    """Within five of a hundred, or four; of memory within 256 KB where that is more."""
    room = [max(first[0] // 20, 256), max(first[1] // 20, 4), max(first[2] // 20, 4)]
    return all(now <= then + more for then, now, more in zip(first, last, room))


def told(what, seen):
    return f"{what}: {seen[0]} KB, {seen[1]} mappings, {seen[2]} threads"


class Part:
    """A part that runs: its daemon, its scale, and its end."""

    def __init__(self, program, before, scale, seconds):
        self.daemon = Daemon(program, before)
        self.scale = scale
        self.end = time.monotonic() + seconds

    def count(self, of):
        return max(1, of // self.scale)

    def check_time(self):
        if time.monotonic() > self.end:
            raise TooLong


def in_turn(part, count):
    """Connections one after the other."""
    for address in itertools.islice(addresses(), count):
        part.daemon.ask("GET", "/_ping", address=address)
        part.check_time()


def at_once(part, count, clients):
    """As many, by clients side by side."""
    faults = []

    def ask():
        try:
            in_turn(part, count // clients)
        except (OSError, SystemExit, TooLong) as fault:
            faults.append(repr(fault))

    threads = [threading.Thread(target=ask) for _ in range(clients)]
    for thread in threads:
        thread.start()
    for thread in threads:
        thread.join()
    if faults:
        raise SystemExit(faults[0])


def grows(part, count, come):
    """Whether the daemon is after all of them as it was after the first thousand."""
    come(min(1_000, count))
    first = part.daemon.seen()
    begun = time.monotonic()
    come(count)
    took = time.monotonic() - begun
    last = part.daemon.seen()
    print(told("  after the first thousand", first))
    print(told(f"  after {count} more, {count / took:.0f} a second", last))
    return is_like(first, last)


def short(part):
    """200,000 short connections, one after the other."""
    return grows(part, part.count(200_000), lambda count: in_turn(part, count))


def beside(part):
    """50,000 short connections by eight clients side by side."""
    return grows(part, part.count(50_000), lambda count: at_once(part, count, 8))


def idle(part):
    """10,000 idle connections held at once, and answers to one more."""
    count = part.count(10_000)
    before = part.daemon.seen()
    links = []
    try:
        for _ in range(count):
            link = part.daemon.link()
            link.sendall(request("GET", "/_ping"))
            read_head(link)
            links.append(link)
            part.check_time()
        held = part.daemon.seen()
        times = []
        for _ in range(100):
            begun = time.monotonic()
            part.daemon.ask("GET", "/_ping")
            times.append(time.monotonic() - begun)
    finally:
        for link in links:
            link.close()
    fell = part.daemon.falls_to(before[2], 60)
    print(told("  before", before))
    print(told(f"  with {count}, {(held[0] - before[0]) / count:.1f} KB each", held))
    print(f"  one more is answered in {1000 * sorted(times)[50]:.1f} ms, {1000 * max(times):.1f} ms at most")
    print(told("  behind them", part.daemon.seen()))
    return fell and held[2] >= count and max(times) < 5


def half_a_request(daemon):
    link = daemon.link()
    link.sendall(b"POST /containers/create HTTP/1.1\r\nHost: x\r\nContent-Length: 1000\r\n\r\n{")
    return link


def half_an_answer(daemon):
    link = daemon.link()
    link.sendall(request("GET", "/containers/big/logs?stdout=1"))
    read_head(link)
    return link


def a_stream(daemon):
    link = daemon.link()
    link.sendall(request("GET", "/events"))
    read_head(link)
    return link


def an_attach(daemon):
    link = daemon.link()
    link.sendall(request("POST", "/containers/copies/attach?stream=1&stdin=1&stdout=1", b"", "Connection: Upgrade", "Upgrade: tcp"))
    read_head(link)
    link.sendall(b"x" * 1000)
    return link


def resets(part):
    """1,000 resets, in the middle of a request, an answer, a stream and an attach."""
    daemon = part.daemon
    daemon.run("big", "noise", str(4 * MEBIBYTE - 1))
    daemon.run("copies", "cat", OpenStdin=True)
    daemon.ask("GET", "/_ping")
    before = daemon.threads()
    good = True
    for begin in (half_a_request, half_an_answer, a_stream, an_attach):
        count = part.count(250)
        for _ in range(count):
            reset(begin(daemon))
            if not daemon.falls_to(before):
                good = False
                break
            part.check_time()
        print(f"  {count} in the middle of {begin.__name__.replace('_', ' ')}: threads {before} before, {daemon.threads()} behind them")
    return good


def a_wait(daemon):
    link = daemon.link()
    link.sendall(request("POST", "/containers/deaf/wait"))
    return link


def a_wait_with_its_head(daemon):
    link = daemon.link()
    link.sendall(request("POST", "/containers/deaf/wait", b"", "X-Engine-Early: wait"))
    read_head(link)
    return link


def a_followed_log(daemon):
    link = daemon.link()
    link.sendall(request("GET", "/containers/deaf/logs?follow=1&stdout=1"))
    read_head(link)
    return link


def an_attach_without_input(daemon):
    link = daemon.link()
    link.sendall(request("POST", "/containers/deaf/attach?stream=1&stdout=1", b"", "Connection: Upgrade", "Upgrade: tcp"))
    read_head(link)
    return link


def gone(part):
    """Fifty each that wait while nothing is to be written, all reset; and one that ended its writing, and is answered."""
    daemon = part.daemon
    daemon.run("deaf", "deaf")
    daemon.ask("GET", "/_ping")
    before = daemon.threads()
    good = True
    for begin in (a_wait, a_wait_with_its_head, a_followed_log, a_stream, an_attach_without_input):
        count = part.count(50)
        links = [begin(daemon) for _ in range(count)]
        time.sleep(1)
        held = daemon.threads()
        for link in links:
            reset(link)
        fell = daemon.falls_to(before, 10)
        print(f"  {count} of {begin.__name__.replace('_', ' ')}: threads {before} before, {held} with them, {daemon.threads()} behind them")
        good &= fell and held > count
        part.check_time()
    link = a_wait(daemon)
    link.shutdown(socket.SHUT_WR)
    time.sleep(2)
    daemon.ask("POST", "/containers/deaf/kill")
    answer = read_to_end(link)
    print(f"  one that ended its writing: {answer.splitlines()[0].decode() if answer else 'no answer'}")
    return good and b'"StatusCode":137' in answer


def scarce(part):
    """80 connections at a daemon of 64 descriptors, for ten seconds."""
    daemon = part.daemon
    before = daemon.threads()
    links = [daemon.link() for _ in range(80)]
    time.sleep(10)
    held = daemon.threads()
    for link in links:
        link.close()
    fell = daemon.falls_to(before)
    print(f"  threads {before} before, {held} with them, {daemon.threads()} behind them, where pings are answered")
    return fell and daemon.started.poll() is None


def closed(part):
    """A daemon without standard streams: what a container writes goes to none of its connections."""
    daemon = part.daemon
    links = [daemon.link() for _ in range(4)]
    daemon.run("says", "echo", "words")
    daemon.ask("POST", "/containers/says/wait")
    log = daemon.ask("GET", "/containers/says/logs?stdout=1")
    for link in links:
        link.sendall(request("GET", "/_ping", b"", "Connection: close"))
    answers = [read_to_end(link) for link in links]
    print(f"  a log of {len(log)} bytes; {len(set(answers))} kind of answers, of {len(answers[0])} bytes")
    return b"words" in log and len(set(answers)) == 1 and answers[0].endswith(b"OK")


def followers(part):
    """500 followers of one log, of which 400 don't read."""
    daemon = part.daemon
    whole = 4 * MEBIBYTE // 2
    before = daemon.threads()
    daemon.run("waits", "cat", OpenStdin=True)
    count, readers = part.count(500), part.count(100)
    links = []
    try:
        for _ in range(count):
            link = daemon.link(timeout=120)
            link.sendall(request("GET", "/containers/waits/logs?follow=1&stdout=1"))
            links.append(link)
            part.check_time()
        feed = daemon.link()
        feed.sendall(request("POST", "/containers/waits/attach?stream=1&stdin=1", b"", "Connection: Upgrade", "Upgrade: tcp"))
        read_head(feed)
        got = [0] * readers

        def follow(number):
            while got[number] < whole and (piece := links[number].recv(1 << 16)):
                got[number] += len(piece)

        threads = [threading.Thread(target=follow, args=(number,), daemon=True) for number in range(readers)]
        for thread in threads:
            thread.start()
        begun = time.monotonic()
        feed.sendall(b"y" * whole)
        for thread in threads:
            thread.join(max(1, part.end - time.monotonic()))
        took = time.monotonic() - begun
        begun = time.monotonic()
        daemon.ask("GET", "/_ping")
        answered = time.monotonic() - begun
        feed.close()
    finally:
        for link in links:
            reset(link)
    daemon.remove("waits")
    fell = daemon.falls_to(before, 60)
    print(f"  {readers} readers beside {count - readers} that don't read: {readers * whole / took / MEBIBYTE:.0f} MiB a second in all")
    print(f"  {min(got)} bytes at least; a ping beside them {1000 * answered:.1f} ms; threads behind them {daemon.threads()}")
    return fell and min(got) >= whole and answered < 5


def inspect(part):
    """An inspect beside ten readers of a log of 4 MiB."""
    daemon = part.daemon
    daemon.run("big", "noise", str(4 * MEBIBYTE - 1))
    stop = threading.Event()
    rounds = [0] * 10

    def read(number):
        while not stop.is_set():
            daemon.ask("GET", "/containers/big/logs?stdout=1")
            rounds[number] += 1

    readers = [threading.Thread(target=read, args=(number,)) for number in range(10)]
    for reader in readers:
        reader.start()
    times = []
    for _ in range(part.count(1_000)):
        begun = time.monotonic()
        daemon.ask("GET", "/containers/big/json")
        times.append(time.monotonic() - begun)
        part.check_time()
    stop.set()
    for reader in readers:
        reader.join()
    times.sort()
    print(f"  {len(times)} inspects: {1000 * times[len(times) // 2]:.2f} ms in the middle, {1000 * times[-1]:.1f} ms at most")
    print(f"  {sum(rounds)} whole reads beside them")
    return times[-1] < 5


def attaches(part):
    """A hundred attaches with input whose peers vanish."""
    daemon = part.daemon
    before = daemon.threads()
    count = part.count(100)
    links = []
    for number in range(count):
        daemon.run(f"a{number}", "cat", OpenStdin=True)
        link = daemon.link()
        link.sendall(request("POST", f"/containers/a{number}/attach?stream=1&stdin=1&stdout=1", b"", "Connection: Upgrade", "Upgrade: tcp"))
        read_head(link)
        link.sendall(b"z" * 4096)
        links.append(link)
        part.check_time()
    held = daemon.threads()
    for number, link in enumerate(links):
        reset(link) if number % 2 else link.close()
    for number in range(count):
        daemon.remove(f"a{number}")
    fell = daemon.falls_to(before, 60)
    print(f"  {count} attaches: threads {before} before, {held} with them, {daemon.threads()} behind them")
    return fell


PARTS = {
    part.__name__: part
    for part in (short, beside, idle, resets, gone, followers, inspect, attaches, scarce, closed)
}
BEFORE = {"scarce": "ulimit -n 64;", "closed": "exec <&- >&- 2>&-;"}


def main():
    line = argparse.ArgumentParser(description=__doc__, formatter_class=argparse.RawDescriptionHelpFormatter)
    line.add_argument("program")
    line.add_argument("--scale", type=int, default=1)
    line.add_argument("--seconds", type=int, default=600)
    line.add_argument("parts", nargs="*", metavar="PART")
    asked = line.parse_intermixed_args()
    for name in asked.parts:
        if name not in PARTS:
            line.error(f"no part {name}")
    hard = resource.getrlimit(resource.RLIMIT_NOFILE)[1]
    resource.setrlimit(resource.RLIMIT_NOFILE, (hard, hard))
    failed = False
    for name in asked.parts or PARTS:
        print(f"{name}: {PARTS[name].__doc__}", flush=True)
        part = Part(os.path.abspath(asked.program), BEFORE.get(name, ""), asked.scale, asked.seconds)
        try:
            good = PARTS[name](part)
        except (TooLong, OSError, SystemExit) as fault:
            print(f"  {type(fault).__name__}: {fault}")
            good = False
        finally:
            part.daemon.stop()
        print(f"  {'ok' if good else 'FAILED'}", flush=True)
        failed |= not good
    sys.exit(failed)


main()
