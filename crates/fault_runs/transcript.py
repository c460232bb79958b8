#!/usr/bin/env python3
"""Writes data/, stdin and stdout: what docs/API.md and docs/JOURNAL.md say of sessions where something fails.

Run it here after a change, and look at the difference. It computes nothing with the repository's code: ids, answers and the journal's
lines are those of engine_scenarios' scripts.
"""
import os
import sys

HERE = os.path.dirname(os.path.abspath(__file__))
sys.path.insert(0, os.path.join(HERE, "..", "engine_scenarios"))
from exchange import DEAF, ECHO, FORCE, LASTS, PHRASES, PING, PONG, WEB, answer, compact, conflict, create, created, message, post  # noqa: E402
from events import ALL, events, followed, told as event  # noqa: E402
from journals import JOURNAL, create_call, create_entry, entry, kept, lines_told, named, read_entry  # noqa: E402
from logs import frame, logged, logs  # noqa: E402
from takeovers import CAT, FED, UPGRADED, attach  # noqa: E402

PHRASES[500] = "Internal Server Error"
NO_MEMORY = message(500, "out of memory")
FILES, LINES = {}, []


def file(name, *parts):
    FILES[name] = "".join(parts)


def line(words, *told):
    LINES.append((words, "".join(told)))


# ---- sessions: what came before, what is written, and the journal behind it, which a session of its own reads

def told(whose, ending, *answers):
    return f"-- {whose}: {ending}\n" + "".join(answers) + "\n"


def session(words, ending, answers, journal, before=True):
    """A session, in words that name its file, its ending, what it is answered, and all calls of the journal."""
    line("session " + words, told("before it", "Closed", created(0), answer(204)) if before else "", told("the session", ending, *answers),
         told("the journal", "Closed", lines_told(*journal)))


def started(name, words, body=None, **more):
    """A session that creates and starts `web`; its lines of the journal."""
    file(name, create("web", words, body), post("/containers/web/start"))
    made = create_entry(0, "web", words, conn=1).replace(compact(create_call("web", words)), compact({**create_call("web", words), **more}))
    return [made, entry(named("start"), kept(204), conn=1)]


IGNORES = started("deaf.http", DEAF)
STUCK = started("stuck.http", LASTS)
SAYS = started("echo.http", ECHO)
READS = started("cat.http", ["cat"], CAT, image="engine/tools", once=True, stdin=True)
DROP = entry({"op": "drop", "ticket": 0}, {"dropped": 0})

# a call: the first of two is refused, and makes nothing
file("create_twice.http", WEB, WEB)
session("create_twice.http calls=0", "Closed", [NO_MEMORY, created(0)], [create_entry(0, "web", [])], before=False)
# a take: the ticket of a removal is dropped
file("remove.http", FORCE)
REMOVAL = entry({"force": True, "op": "remove", "ref": "web"}, {"ticket": 0}, dues=1)
session("remove.http before=stuck.http takes=0", "Closed", [NO_MEMORY], [*STUCK, REMOVAL, DROP])
# a stop whose clock stops: its ticket is dropped, also where takes are refused; and one whose second take is refused
file("stop.http", post("/containers/web/stop?t=10"), PING)
STOP = entry({"op": "stop", "ref": "web", "signal": None, "t": 10}, {"ticket": 0}, dues=1)
for words in ("stop=0", "takes=1 stop=0"):
    session(f"stop.http before=deaf.http {words}", "Stopped", [message(503, "stopping")], [*IGNORES, STOP, DROP])
session("stop.http before=deaf.http takes=1", "Closed", [NO_MEMORY, PONG], [*IGNORES, STOP, DROP])
session("stop.http before=deaf.http calls=0", "Closed", [NO_MEMORY, PONG], IGNORES)
# a wait whose head came early: behind that head there is no other answer, whether memory is refused or the clock stops
file("wait_early.http", post("/containers/web/wait", more="X-Engine-Early: wait\r\n"), PING)
WAIT = entry({"condition": "not-running", "op": "wait", "ref": "web"}, {"ticket": 0}, dues=1)
EARLY_HEAD = "\r\n".join(["HTTP/1.1 200 OK", "Api-Version: 1.43", "Content-Type: application/json", "Server: engined",
                          "Transfer-Encoding: chunked", "", ""])
session("wait_early.http before=deaf.http takes=0", "NoMemory", [EARLY_HEAD], [*IGNORES, WAIT, DROP])
session("wait_early.http before=deaf.http stop=0", "Stopped", [EARLY_HEAD], [*IGNORES, WAIT, DROP])
session("wait_early.http before=deaf.http calls=0", "Closed", [NO_MEMORY, PONG], IGNORES)
# streams: each is refused in turn, and the others are whole
file("streams.http", logs("web", "stdout=1&follow=1&until=1700000000"), events(ALL), JOURNAL, PING)


def logs_entry(dues):
    return entry({"err": False, "follow": True, "greatest": 1700000000000, "least": 0, "op": "logs", "out": True, "ref": "web",
                  "stamps": False, "tail": None}, {"from": 0, "status": 200}, dues=dues)


def events_entry(dues):
    return entry({"filters": {}, "op": "events", "since": 0, "until": 1700000000000}, {"from": 0, "status": 200}, dues=dues)


SAID = logged(["hi\n"])
HAPPENED = followed(0, [event("create"), event("start"), event("die", exitCode="0")])
for number, answers, entries in (
        (0, [NO_MEMORY, HAPPENED, lines_told(*SAYS, events_entry(2))], [events_entry(2), read_entry(3)]),
        (1, [SAID, NO_MEMORY, lines_told(*SAYS, logs_entry(2))], [logs_entry(2), read_entry(3)]),
        (2, [SAID, HAPPENED, NO_MEMORY], [logs_entry(2), events_entry(0)])):
    session(f"streams.http before=echo.http calls={number}", "Closed", [*answers, PONG], [*SAYS, *entries])
# a takeover: its call is refused and the session goes on; what is fed behind it isn't counted
file("attach_refused.http", attach("web", FED), PING)
file("attach_fed.http", attach("web", FED), "abc\n")
INPUT = {"kind": "container", "number": 0}
ATTACHED = entry({"err": False, "logs": False, "op": "attach", "out": True, "ref": "web", "stdin": True, "stream": True},
                 {"from": 0, "status": 200})
FEEDS = [entry({"bytes": "abc\n".encode().hex(), **INPUT, "op": "feed", "run": 1}, {"fed": True}, conn=2147483648),
         entry({**INPUT, "op": "feed_end", "run": 1}, {"fed": True}, conn=2147483648, dues=1)]
session("attach_refused.http before=cat.http calls=0", "Closed", [NO_MEMORY, PONG], READS)
for words in ("calls=1", "takes=0"):
    session(f"attach_fed.http before=cat.http {words}", "Closed", [UPGRADED + frame(1, "abc\n")], [*READS, ATTACHED, *FEEDS])

# ---- a session with each of its reads and writes failing, and its input cut behind each byte: a byte is a read, and one more meets the end


def outcomes(answers, *rows):
    return "".join(answers) + "\n" + "".join(f"{first} to {last}: {ending}, {written} bytes, {steps} steps\n"
                                             for first, last, ending, written, steps in rows)


def faults(name, *answers):
    """The session of one create or more: each of these answers stands or falls with all bytes of its request."""
    size, count = len(FILES[name]) // len(answers), len(answers)
    sizes = [len("".join(answers[:n])) for n in range(count + 1)]
    line(f"reads {name}", outcomes(answers, *((n * size, (n + 1) * size - 1, "ReadFault", sizes[n], n) for n in range(count)),
                                   (count * size, count * size, "ReadFault", sizes[count], count),
                                   (count * size + 1, count * size + 1, "Closed", sizes[count], count)))
    line(f"writes {name}", outcomes(answers, *((n, n, "WriteFault", sizes[n], n + 1) for n in range(count)),
                                    (count, count, "Closed", sizes[count], count)))
    cuts = [row for n in range(count) for row in ((n * size, n * size, "Closed", sizes[n], n),
                                                  (n * size + 1, (n + 1) * size - 1, "CutShort", sizes[n], n))]
    line(f"cuts {name}", outcomes(answers, *cuts, (count * size, count * size, "Closed", sizes[count], count)))


file("create.http", WEB)
faults("create.http", created(0))
faults("create_twice.http", created(0), conflict("web", 0))


def write(name, text):
    with open(os.path.join(HERE, name), "w", newline="", encoding="latin-1") as out:  # (bytes as they are)
        out.write(text)


def main():
    os.makedirs(os.path.join(HERE, "data"), exist_ok=True)
    for old in os.listdir(os.path.join(HERE, "data")):
        os.remove(os.path.join(HERE, "data", old))
    for name, text in FILES.items():
        write(os.path.join("data", name), text)
    write("stdin", "".join(words + "\n" for words, _ in LINES))
    write("stdout", "".join(f"== {words}\n{wanted}" for words, wanted in LINES))


main()
