#!/usr/bin/env python3
"""Each allocation of a daemon refused once, over one exchange: what is answered then, and what stands behind it.

Usage: refusals.py PATH_OF_ENGINED PATH_OF_DOCKC [--first N] [--last N]

The exchange makes a container with a mount, starts it, reads its log, stops it, removes it by force, and reads the events and the
journal; between these it looks at the container, the list and the volumes. The system refuses the Nth request for memory of the whole
run, once, by refusals.c (gcc). Each N is tried twice: over standard input and output, and at a port of this machine, where another
connection reads the journal behind the exchange. A run is as it has to be where
  - the program ends by itself: with 6 where it can't begin or a session ends early (with 4 where there is no memory to bind the port),
    else with 0; a connection for which there is no memory is let go, and the next one is taken in;
  - the journal can be read: at a port wherever the program came to listen, over standard input wherever the session came to it and it
    wasn't what was refused;
  - each answer is whole, or it is the last one, and the connection ends with it;
  - each that isn't 500 `out of memory` is the reply of the journal's next entry (of the ticket's take, where it has a ticket);
  - a 500 has no entry, or that of a ticket, which is dropped;
  - nothing else stands in the journal, and `dockc replay` calls it legal: what was looked at is the machine's, so nothing is half done.
The last lines count the runs by what came of them. The status is 1 where one isn't as it has to be.
"""
import argparse
import collections
import json
import os
import socket
import subprocess
import sys
import tempfile
import time

CLOCK = "1700000000000:0"
ASKED = [
    ("create", "POST", "/containers/create?name=web",
     '{"Image":"engine/tools","Cmd":["tick","0","1000"],"HostConfig":{"Binds":["data:/d"]}}'),
    ("inspect", "GET", "/containers/web/json", None), ("volume_list", "GET", "/volumes", None),
    ("start", "POST", "/containers/web/start", ""), ("inspect", "GET", "/containers/web/json", None),
    ("logs", "GET", "/containers/web/logs?stdout=1&stderr=1", None), ("stop", "POST", "/containers/web/stop?t=1", ""),
    ("inspect", "GET", "/containers/web/json", None), ("logs", "GET", "/containers/web/logs?stdout=1&stderr=1", None),
    ("remove", "DELETE", "/containers/web?force=1", None), ("list", "GET", "/containers/json?all=1", None),
    ("volume_list", "GET", "/volumes", None), ("events", "GET", "/events?since=0&until=1700000000", None),
    ("journal", "GET", "/engine/journal", None),
]
NO_MEMORY = (500, b'{"message":"out of memory"}')
HEADER = {"format": 2, "moment": 1700000000000, "seed": "00" * 32}


def request(method, target, body):
    length = "" if body is None else f"Content-Length: {len(body)}\r\n"
    return f"{method} {target} HTTP/1.1\r\nHost: x\r\n{length}\r\n{body or ''}".encode()


class Cut(Exception):
    """The bytes end inside an answer."""


class Answers:
    """Answers one behind the other, out of what `more` gives, which is nothing at the end."""

    def __init__(self, more):
        self.more, self.ahead = more, b""

    def take(self, size):
        while len(self.ahead) < size:
            self.fill()
        taken, self.ahead = self.ahead[:size], self.ahead[size:]
        return taken

    def line(self, end=b"\r\n"):
        while end not in self.ahead:
            self.fill()
        return self.take(self.ahead.index(end) + len(end))[:-len(end)]

    def fill(self):
        got = self.more()
        if not got:
            raise Cut
        self.ahead += got

    def next(self):
        """The status and the body of the next answer; or none where the bytes end before it."""
        if not self.ahead:
            self.ahead = self.more()
            if not self.ahead:
                return None
        first, *fields = self.line(b"\r\n\r\n").decode().split("\r\n")
        named = dict(field.lower().split(": ", 1) for field in fields)
        if named.get("transfer-encoding") == "chunked":
            return int(first.split()[1]), b"".join(iter(self.chunk, b""))
        return int(first.split()[1]), self.take(int(named.get("content-length", 0)))

    def chunk(self):
        data = self.take(int(self.line(), 16))
        if self.take(2) != b"\r\n":
            raise Cut
        return data


def received(link):
    try:
        return link.recv(1 << 16)
    except ConnectionError:
        return b""


class Runs:
    """Runs of the two programs, in a folder of their own."""

    def __init__(self, engined, dockc, folder):
        self.engined, self.dockc, self.counted = engined, dockc, f"{folder}/counted"
        self.shim = f"{folder}/refusals.so"
        source = os.path.join(os.path.dirname(os.path.abspath(__file__)), "refusals.c")
        subprocess.run(["gcc", "-O2", "-shared", "-fPIC", "-o", self.shim, source], check=True)

    def start(self, number, *words, **streams):
        given = {"LD_PRELOAD": self.shim, "REFUSED": str(number), "COUNTED": self.counted}
        return subprocess.Popen([self.engined, *words, "--clock", CLOCK], env=given, **streams)

    def count(self):
        with open(self.counted, "rb") as file:
            return int.from_bytes(file.read(), sys.byteorder)

    def over_streams(self, number):
        """The answers of a run over standard input, whether the last one is cut, the status, and the journal among them, if it is there."""
        ran = self.start(number, "--stdio", stdin=subprocess.PIPE, stdout=subprocess.PIPE)
        written, _ = ran.communicate(b"".join(request(*asked[1:]) for asked in ASKED), timeout=60)
        pieces = iter([written])
        answers, cut = all_of(Answers(lambda: next(pieces, b"")))
        is_told = len(answers) == len(ASKED) and answers[-1][0] == 200
        return answers, cut, ran.returncode, answers[-1][1] if is_told else None

    def at_a_port(self, number):
        """The answers of a run at a port, whether the last one is cut, the status, and the journal, if another connection can read it."""
        with socket.create_server(("127.0.0.1", 0)) as place:
            port = place.getsockname()[1]
        ran = self.start(number, "--listen", f"127.0.0.1:{port}", "--connections", "4", stdin=subprocess.DEVNULL)
        link = connected(port, ran)
        answers, cut = one_by_one(link) if link else ([], False)
        journal = None
        for _ in range(3):  # (a connection for which there is no memory is let go, and reading the journal may be refused)
            journal = journal_at(port, ran) if journal is None else journal
        while link := connected(port, ran):  # as many come as are taken in
            link.close()
        return answers, cut, ran.wait(timeout=60), journal

    def verdict(self, journal):
        said = subprocess.run([self.dockc, "127.0.0.1:1", "replay"], input=journal, stdout=subprocess.PIPE, check=False)
        return said.stdout.decode().strip()


def connected(port, ran):
    """A connection to a program that is about to listen; or none where it ends before."""
    while ran.poll() is None:
        try:
            link = socket.create_connection(("127.0.0.1", port))
            link.settimeout(60)
            return link
        except OSError:
            time.sleep(0.002)
    return None


def all_of(answers):
    found = []
    try:
        while (answer := answers.next()) is not None:
            found.append(answer)
    except Cut:
        return found, True
    return found, False


def one_by_one(link):
    """Asks one after the other, as long as there are answers."""
    answers, found = Answers(lambda: received(link)), []
    with link:
        try:
            for asked in ASKED:
                link.sendall(request(*asked[1:]))
                answer = answers.next()
                if answer is None:
                    break
                found.append(answer)
        except Cut:
            return found, True
        except ConnectionError:
            pass
    return found, False


def journal_at(port, ran):
    link = connected(port, ran)
    if link is None:
        return None
    with link:
        answers = Answers(lambda: received(link))
        try:
            link.sendall(request("GET", "/engine/journal", None))
            answer = answers.next()
        except (Cut, ConnectionError):
            return None
    return answer[1] if answer and answer[0] == 200 else None


def reply_of(reply):
    return reply["status"], reply["body"].encode()


def faults_of_one(op, answer, entries):
    """What isn't as it has to be of an answer and the first of these entries; takes those that are its own."""
    ahead = entries[0] if entries else {"call": {}, "reply": {}}
    is_own = ahead["call"].get("op") == op
    if answer == NO_MEMORY and not (is_own and "ticket" in ahead["reply"]):
        return []
    if not is_own:
        return [f"{op}: no entry"]
    reply = entries.popleft()["reply"]
    if "ticket" in reply:
        behind = entries.popleft() if entries else {"call": {}, "reply": {}}
        word = "drop" if answer == NO_MEMORY else "take"
        if behind["call"] != {"op": word, "ticket": reply["ticket"]}:
            return [f"{op}: a ticket without its {word}"]
        reply = behind["reply"]
    if answer == NO_MEMORY:
        return []
    told_reply = (200, answer[1]) if "from" in reply else (reply["status"], reply["body"].encode())
    return [] if told_reply == answer else [f"{op}: {answer}, but the journal tells {reply}"]


def faults_of(answers, journal):
    """What isn't as it has to be, of the answers and the journal."""
    header, *lines = map(json.loads, journal.splitlines())
    entries = collections.deque(it for it in lines if it["conn"] == 0)
    faults = [] if header == HEADER else [f"another header: {header}"]
    faults += [fault for (op, *_), answer in zip(ASKED, answers) for fault in faults_of_one(op, answer, entries)]
    rest = [it["call"]["op"] for it in entries]
    ahead = ASKED[len(answers)][0] if len(answers) < len(ASKED) else None
    if rest not in ([], [ahead], [ahead, "drop"], [ahead, "take"]):
        faults.append(f"entries that nothing was answered for: {rest}")
    return faults


def told(answers, cut):
    """What came of a run, in a few words."""
    at = [op for (op, *_), answer in zip(ASKED, answers) if answer == NO_MEMORY]
    if len(answers) < len(ASKED):
        at.append(("answer cut: " if cut else "session ended: ") + ASKED[len(answers)][0])
    return ", ".join(f"500: {word}" if ":" not in word else word for word in at) or "as without"


def ends_right(runs, way, answers, status, journal):
    """Whether the program ended as it has to, and its journal is there where it can be."""
    early = len(answers) < len(ASKED)
    if way == runs.over_streams:
        return status == (6 if early else 0) and (journal is not None or early or answers[-1] == NO_MEMORY)
    if journal is None:  # (it had no daemon, or didn't come to listen)
        return not answers and status in (4, 6)
    return status == 6 or status == 0 and (not answers or not early)


def judged(runs, way, number, whole):
    """What came of the run in which that allocation is refused, and what isn't as it has to be."""
    answers, cut, status, journal = way(number)
    faults = [] if ends_right(runs, way, answers, status, journal) else [f"status {status}, {'a' if journal else 'no'} journal"]
    if any(answer[0] == 500 and answer != NO_MEMORY for answer in answers):
        faults.append("another 500")
    if len(answers) == len(ASKED) and NO_MEMORY not in answers and answers != whole:
        faults.append("other answers than without")
    if journal is not None:
        faults += faults_of(answers[:-1] if way == runs.over_streams else answers, journal)
        verdict = runs.verdict(journal)
        faults += [] if verdict.startswith("legal ") else [verdict]
    return told(answers, cut) + ("" if journal is not None else ", no journal") + f", status {status}", faults


def sweep(runs, way, first, last):
    """Tries each allocation of a way, and tells what came of them; gives how many weren't as they have to be."""
    answers, _, status, _ = way(0)
    count, came, bad = runs.count(), collections.Counter(), 0
    print(f"{way.__name__}: {count} allocations, {len(answers)} answers, status {status}", flush=True)
    for number in range(first, min(last, count) + 1):
        words, faults = judged(runs, way, number, answers)
        came[words] += 1
        bad += len(faults)
        for fault in faults:
            print(f"allocation {number}: {fault}", flush=True)
    for words, runs_of_it in came.most_common():
        print(f"  {runs_of_it:6} {words}", flush=True)
    return bad


def main():
    lines = argparse.ArgumentParser(description=__doc__, formatter_class=argparse.RawDescriptionHelpFormatter)
    lines.add_argument("engined")
    lines.add_argument("dockc")
    lines.add_argument("--first", type=int, default=1)
    lines.add_argument("--last", type=int, default=sys.maxsize)
    lines.add_argument("--way", choices=["over_streams", "at_a_port"], help="this one alone")
    line = lines.parse_args()
    ways = [line.way] if line.way else ["over_streams", "at_a_port"]
    with tempfile.TemporaryDirectory() as folder:
        runs = Runs(os.path.abspath(line.engined), os.path.abspath(line.dockc), folder)
        bad = [sweep(runs, getattr(runs, way), line.first, line.last) for way in ways]
    print("as it has to be" if not any(bad) else f"{sum(bad)} faults")
    sys.exit(1 if any(bad) else 0)


main()
