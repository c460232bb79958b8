#!/usr/bin/env python3
"""What a user feels of a daemon, in one run and one table: how often and how soon it answers, what its streams and its journal take, and
its memory; beside Debian's docker.io and nginx, with the ratio; and which of the figures that are wanted are met.

Usage: benches/figures.py WHERE [WHERE ..] [--dockc PATH] [--small]
WHERE is the path of a daemon of this API, of which each part starts a new one, or the address of a new one that listens: rows among many
containers, and of a log's record, stay empty then; and of engineone those of takeovers. Each is a column, named by its program or as in
NAME=WHERE. PATH is dockc's, which replays journals; without it, the one that was built beside the first WHERE, if there is any. It needs
wrk; docker's part needs root, docker.io and busybox-static, nginx's nginx-light: the column of a peer that isn't here stays empty.
--small asks for a bit of all, to see that it works: such figures tell nothing. It isn't part of the gate.
"""
import argparse
import contextlib
import dataclasses
import json
import os
import signal
import statistics
import subprocess
import sys
import tempfile
import threading
import time

from asked import SECONDS, Asked
from rates import fetch, in_turn, pour, rate, request
from servers import TICK, docker, engined, named, nginx, told
from streams import arrivals, attached, delays, exec_attached, exec_detached, followed, idle, pauses, payload
from streams import there_and_back, through, waiters
from tables import ROWS, Figures

QUIET = 5  # seconds in which what waits is looked at
OPENING, STEP = 1_700_000_000_000, 5_000_000  # milliseconds
EARLY = b"X-Engine-Early: wait\r\n"
RENAMED = b'"Action":"rename"'
MEBIBYTE = bytes(place % 251 for place in range(1 << 20))


@dataclasses.dataclass(frozen=True)
class Size:
    """How much is asked for: rounds of pings and of other calls, containers, connections, followers, events, and entries of a kind."""

    pings: int = 6
    rounds: int = 3
    few: int = 100
    some: int = 1_000
    large: int = 10_000
    many: int = 32_768
    links: int = 1_000
    followers: int = 100
    events: int = 1_000
    writes: int = 40
    entries: int = 20_000


SMALL = Size(1, 1, 20, 40, 50, 60, 50, 10, 50, 5, 200)


@contextlib.contextmanager
def opened(daemons, *words):
    """A new one of each of these daemons, by its name."""
    with contextlib.ExitStack() as stack:
        servers = {}
        for name, where in daemons.items():
            servers[name] = engined(where, *words)
            stack.callback(servers[name].stop)
        yield servers


def asking(servers):
    """Those of them that have containers."""
    return {name: Asked(server) for name, server in servers.items() if server.words}


def taking_over(asks):
    """Those of them that let connections be taken over."""
    return {name: asked for name, asked in asks.items() if asked.server.takes_over}


def take(figures, count, samples):
    """Notes the medians of samples, by their row and column, taken in turn."""
    for (key, name), each_second in in_turn(count, samples).items():
        figures.note(key, name, 1e6 / each_second if ROWS[key][1] == "µs" else each_second)


def each(key, asks, sample):
    """Samples of one row."""
    return {(key, name): sample(asked) for name, asked in asks.items()}


def shares(figures, key, servers):
    """Of a processor, that each takes over the same seconds."""
    before, at = {name: server.ticks() for name, server in servers.items()}, time.monotonic()
    time.sleep(QUIET)
    for name, server in servers.items():
        figures.note(key, name, 100 * (server.ticks() - before[name]) / (time.monotonic() - at))


def at_rest(figures, servers, size):
    """What is there that nobody asked yet, and what connections take that ask nothing."""
    rest = {name: server.resident() for name, server in servers.items()}
    links = [link for server in servers.values() for link in idle(server.port, size.links)]
    time.sleep(1)
    for name, server in servers.items():
        figures.note("rest", name, rest[name] * 1024 / 1e6)
        figures.note("idle", name, (server.resident() - rest[name]) / size.links)
    shares(figures, "idle_share", servers)
    for link in links:
        link.close()


def pings(figures, servers, size):
    """What every peer answers."""
    for key, count, fields in (("ping", 1, ()), ("ping_8", 8, ()), ("ping_64", 64, ()), ("ping_new", 8, ["Connection: close"])):

        def sample(server, count=count, fields=fields):
            return lambda: rate(server.port, "/_ping", SECONDS, connections=count, fields=fields)

        take(figures, size.pings, each(key, servers, sample))


def among(figures, few, many, size):
    """Calls among few containers and among many, in turn; and lists."""
    for asked in (*few.values(), *many.values()):
        asked.run("end")
    kinds = {"inspect": Asked.inspects, "remove": Asked.creates_and_removes, "exit": Asked.ends}
    for key, sample in kinds.items():
        take(figures, size.rounds, each(f"{key}_few", few, sample) | each(f"{key}_many", many, sample))
    for key, count, asks in (("list_few", size.few, few), ("list_large", size.large, many), ("list_newest", 10, many)):
        take(figures, size.rounds, each(key, asks, lambda asked, count=count: asked.lists(count)))


def calls(figures, few, static, size):
    """Each other call; `static` is what hands a file out, if it is there."""
    for asked in few.values():
        asked.run("line")
        asked.run("noise")
        asked.run("last", ends=False)
    take(figures, size.rounds, each("wait", few, Asked.waits))
    take(figures, size.rounds, each("exec", taking_over(few), lambda asked: asked.execs(exec_attached)))
    take(figures, size.rounds, each("exec_detached", few, lambda asked: asked.execs(exec_detached)))
    take(figures, size.rounds, each("log_line", few, lambda asked: asked.logs("line")))
    files = each("log_whole", static, lambda server: lambda: rate(server.port, "/noise", SECONDS))
    take(figures, size.rounds, each("log_whole", few, lambda asked: asked.logs("noise")) | files)
    for name, asked in few.items():
        asked.act("last", "kill")
        figures.note("container", name, asked.fill(size.some))
    take(figures, size.rounds, each("inspect_some", few, Asked.inspects))
    take(figures, size.rounds, each("inspect_8", few, lambda asked: asked.inspects(8)))
    take(figures, size.rounds, each("list_some", few, lambda asked: asked.lists(size.some)))
    take(figures, size.rounds, each("create", few, Asked.creates))


def follow(figures, asks, size):
    """A follower of each one's log."""
    held = []
    for name, asked in asks.items():
        feed = attached(asked.server, asked.mark + "feed", "stdin")
        follower = followed(asked.server.port, asked.box("feed", "/logs?follow=1&stdout=1"))
        took = delays(feed, follower, size.writes)
        figures.note("follower", name, statistics.median(took))
        figures.note("follower_most", name, max(took))
        held += [feed, follower.link]
    shares(figures, "follow_share", {name: asked.server for name, asked in asks.items()})
    for link in held:
        link.close()


def attach(figures, name, asked, size):
    """Bytes through attaches and back."""
    took = there_and_back(attached(asked.server, asked.mark + "byte", "stdin", "stdout"), 8, 20)
    figures.note("byte", name, statistics.median(took))
    took = []
    for number in range(2 * size.rounds):
        seconds, came = through(attached(asked.server, f"{asked.mark}whole{number}", "stdin", "stdout"), MEBIBYTE)
        if payload(came) != MEBIBYTE:
            raise SystemExit(f"{name}: {len(came)} bytes came through an attach, and they are others")
        took.append(seconds * 1000)
    figures.note("mebibyte", name, statistics.median(took))


def events(figures, name, asked, size):
    """One event, and then many, to followers that read; of a peer a fifth of them. Each is a rename."""
    count, alone = size.events if asked.server.is_ours else size.events // 5, 20
    asked.make("e0", "line")
    renames = [("POST", asked.box(f"e{at}", f"/rename?name={asked.mark}e{at + 1}")) for at in range(alone + count)]
    links = [followed(asked.server.port, "/events").link for _ in range(size.followers)]
    took = []
    for at in pauses(alone):
        begun = time.monotonic()
        asked.client.ask(*renames[at])
        took.append(arrivals(links, RENAMED, 1, begun)[1])
    figures.note("event", name, statistics.median(took))
    begun, sends = time.monotonic(), threading.Thread(target=pour, args=(asked.server, [request(*rename) for rename in renames[alone:]]))
    sends.start()
    figures.note("events", name, count * size.followers / arrivals(links, RENAMED, count, begun)[1] * 1000)
    sends.join()
    for link in links:
        link.close()


def waits(figures, asks, size):
    """Waits of many connections for one container, which a kill ends."""
    links = {}
    for name, asked in asks.items():
        asked.run("last", ends=False)
        links[name] = waiters(asked.server.port, size.links, asked.mark + "last", EARLY)
    time.sleep(2)
    shares(figures, "wait_share", {name: asked.server for name, asked in asks.items()})
    for name, asked in asks.items():
        begun = time.monotonic()
        asked.act("last", "kill")
        first, last = arrivals(links[name], b"}", 1, begun)
        figures.note("wait_first", name, first)
        figures.note("wait_last", name, last)
        for link in links[name]:
            link.close()


def memory(figures, asks, size):
    """What many of a kind take, each made by a request: those of ours leave an entry of the journal, and all but a start of what runs an
    event. Of a peer, which keeps neither, only execs; its containers were counted as they came.
    """
    for name, asked in asks.items():
        asked.run("last", ends=False)
        box, is_ours = asked.box("last"), asked.server.is_ours
        count = size.entries if is_ours else size.entries // 20
        if is_ours:
            figures.note("container", name, asked.grown([asked.create(f"m{at}", "last") for at in range(count)], b"201"))
            entry = asked.grown([("POST", f"{box}/start")] * count, b"304")
            figures.note("entry", name, entry)
            figures.note("event_memory", name, asked.grown([("POST", f"{box}/kill?signal=CHLD")] * count, b"204") - entry)
        spec = json.dumps({"Cmd": asked.server.words["line"]})
        figures.note("exec_memory", name, asked.grown([("POST", f"{box}/exec", spec)] * count, b"201"))
        asked.act("last", "kill")


def record(figures, daemons, turns=4):
    """What a log's record takes, of a program that writes one every TICK, by a clock that goes STEP on at each request."""
    with opened(daemons, "--clock", f"{OPENING}:{STEP}") as servers:
        for name, asked in asking(servers).items():
            asked.run("ticks", ends=False)
            asked.client.ask("GET", asked.box("ticks", "/json"))
            before = asked.server.resident()
            for _ in range(turns):
                asked.client.ask("GET", asked.box("ticks", "/json"))
            figures.note("record", name, (asked.server.resident() - before) * 1024 / (turns * STEP // TICK))


def journal(figures, asks, dockc, size):
    """Lives of containers, told by the journal, and made again by dockc."""
    for name, asked in asks.items():
        lives = []
        for at in range(size.entries):
            lives += [asked.create(f"j{at}", "end"), ("POST", asked.box(f"j{at}", "/start")), ("GET", asked.box(f"j{at}", "/json"))]
            lives.append(("DELETE", asked.box(f"j{at}")))
        made = pour(asked.server, [request(*life) for life in lives])
        if made != {b"201": size.entries, b"200": size.entries, b"204": 2 * size.entries}:
            raise SystemExit(f"{name}: {len(lives)} requests were answered {made}")
        rates = []
        for _ in range(size.rounds):
            took, text = fetch(asked.server.port, "/engine/journal")
            rates.append(text.count(b"\n") / took)
        figures.note("journal", name, statistics.median(rates))
        if dockc:
            rates = [text.count(b"\n") / replayed(dockc, text) for _ in range(size.rounds)]
            figures.note("replay", name, statistics.median(rates))


def replayed(dockc, text):
    """The seconds that a replay of a journal takes."""
    with tempfile.TemporaryFile() as source:
        source.write(text)
        source.seek(0)
        begun = time.perf_counter()
        said = subprocess.run([dockc, "127.0.0.1:1", "replay"], stdin=source, capture_output=True, check=False)
        took = time.perf_counter() - begun
    if not said.stdout.startswith(b"legal "):
        raise SystemExit(f"replay: {said.stdout!r} {said.stderr!r}")
    return took


def measure(figures, daemons, peers, dockc, size):
    """All of it, one behind the other."""
    begun = time.monotonic()
    paths = {name: where for name, where in daemons.items() if os.path.exists(named(where)[1])}
    with opened(daemons) as servers:
        both = servers | peers
        at_rest(figures, both, size)
        told(f"{time.monotonic() - begun:.0f} s: at rest")
        pings(figures, both, size)
        told(f"{time.monotonic() - begun:.0f} s: pings")
        few = asking(both)
        for asked in few.values():
            asked.fill(size.few)
        with opened(paths) as full:
            many = asking(full)
            for asked in many.values():
                asked.fill(size.many)
            among(figures, few, many, size)
        told(f"{time.monotonic() - begun:.0f} s: calls among few and many")
        calls(figures, few, {name: server for name, server in peers.items() if not server.words}, size)
        told(f"{time.monotonic() - begun:.0f} s: calls")
    with opened(daemons) as servers:
        asks = asking(servers | peers)
        fed = taking_over(asks)
        follow(figures, fed, size)
        for name, asked in asks.items():
            if name in fed:
                attach(figures, name, asked, size)
            events(figures, name, asked, size)
        waits(figures, asks, size)
    told(f"{time.monotonic() - begun:.0f} s: streams and waits")
    with opened(daemons) as servers:
        memory(figures, asking(servers | peers), size)
    record(figures, paths)
    with opened(daemons) as servers:
        journal(figures, asking(servers), dockc, size)
    told(f"{time.monotonic() - begun:.0f} s: memory and journal")


def dockc_of(where):
    """The one that was built beside a daemon, if there is any."""
    beside = os.path.join(os.path.dirname(os.path.abspath(named(where)[1])), "..", "..", "dockc", "out", "dockc")
    return beside if os.path.exists(beside) else None


def main():
    words = argparse.ArgumentParser(description=__doc__, formatter_class=argparse.RawDescriptionHelpFormatter)
    words.add_argument("where", nargs="+", metavar="WHERE")
    words.add_argument("--dockc", metavar="PATH")
    words.add_argument("--small", action="store_true")
    line = words.parse_args()
    daemons = {named(where)[0]: where for where in line.where}
    if len(daemons) < len(line.where):
        words.error("two columns of one name: say NAME=WHERE")
    size, figures = SMALL if line.small else Size(), Figures([*daemons], ["dockerd", "nginx"])
    signal.signal(signal.SIGTERM, lambda *_: sys.exit("ended by a signal"))
    told(f"a load of {os.getloadavg()[0]:.1f} before it, on {os.cpu_count()} processors")
    try:
        with contextlib.ExitStack() as stack:
            peers = {}
            for start in (docker, nginx):
                if peer := start():
                    stack.callback(peer.stop)
                    peers[peer.name] = peer
            measure(figures, daemons, peers, line.dockc or dockc_of(line.where[0]), size)
    finally:
        print(*figures.lines(dataclasses.asdict(size)), "", sep="\n")
        for name in daemons:
            print(*figures.judged(name), sep="\n")


if __name__ == "__main__":
    main()
