#!/usr/bin/env python3
"""Writes data/, stdin and stdout: journals by hand, and what becomes of each by docs/JOURNAL.md and the plan of engine_reboot.

It shares no code with the daemon (ids come from RFC 8439's block function). Run it here after a change, and look at the difference.
"""
import pathlib
import sys

HERE = pathlib.Path(__file__).parent
sys.path.append(str(HERE.parent / "engine_scenarios"))

from exchange import compact, exec_shown, id_of

T = 1700000000000
OWN = 4294967294
HEADER = compact({"format": 2, "moment": T, "seed": "00" * 32}) + "\n"
MOST = 1000

LINES, TOLD = [], []


def entry(call, reply=(204, ""), conn=0, dues=0, at=0):
    """A line of the journal; a call's keys are in byte order but for `op`."""
    if isinstance(reply, tuple):
        reply = {"body": reply[1], "status": reply[0]}
    parts = {"call": dict(sorted(call.items())), "conn": conn, "dues": dues, "moment": T + at, "reply": reply}
    return compact(parts) + "\n"


def create(n, name, words, policy="no", **more):
    call = {"after": 10, "auto": False, "health": None, "image": "engine/tools:latest", "labels": {}, "maximum": 0, "mounts": [], "name": name,
            "once": False, "op": "create", "policy": policy, "signal": 15, "stdin": False, "words": words}
    return entry(call | more, (201, compact({"Id": id_of(n), "Warnings": []})))


def named(op, ref, **more):
    keys = {k: v for k, v in more.items() if k not in ("conn", "dues", "at", "reply")}
    return entry({"op": op, "ref": ref} | keys, **{k: v for k, v in more.items() if k not in keys})


def message(status, text):
    return (status, compact({"message": text}))


# calls of an exec
def exec_create(n, ref, words, stdin=False, out=False, **more):
    call = {"err": False, "op": "exec_create", "out": out, "ref": ref, "stdin": stdin, "words": words}
    return entry(call, (201, compact({"Id": id_of(n)})), **more)


def exec_start(n, detach=True, reply=(200, ""), **more):
    return entry({"detach": detach, "id": id_of(n), "op": "exec_start"}, reply, **more)


def exec_inspect(n, container, words, dues=0, conn=0, at=0, **more):
    body = exec_shown(n, container, words, **more).split("\r\n\r\n", 1)[1]
    return entry({"id": id_of(n), "op": "exec_inspect"}, (200, body), conn=conn, dues=dues, at=at)


# the calls of a plan
def drops(ticket, conn, at=0):
    return entry({"op": "drop", "ticket": ticket}, {"dropped": ticket}, conn=conn, at=at)


def kills(n, **more):
    return named("kill", id_of(n), signal=9, conn=OWN, **more)


def starts(n, **more):
    return named("start", id_of(n), conn=OWN, **more)


def ask(line, *told):
    LINES.append(line)
    TOLD.extend([f"== {line}\n", *told])


def journal(name, *lines, head=HEADER):
    (HERE / "data" / f"{name}.journal").write_text(head + "".join(lines))
    return [head, *lines]


def ready(first, containers, events, *lines):
    return [f"ready from {first}: {containers} containers, {events} events\n", *lines]


(HERE / "data").mkdir(exist_ok=True)

# three that run, two of which are killed by hand: of these the one with `always` starts again
THREE = journal("three", create(0, "aa", ["deaf"], "always"), create(1, "bb", ["deaf"], "unless-stopped"), create(2, "cc", ["deaf"], "unless-stopped"),
                named("start", "aa"), named("start", "bb", dues=1), named("start", "cc", dues=1),
                named("kill", "aa", signal=9, dues=1), named("kill", "bb", signal=9))
FIRST = [kills(2), starts(0, at=60000), starts(2, at=60000, dues=1)]
AGAIN = [kills(0, at=60000, dues=1), kills(2, at=60000), starts(0, at=120000), starts(2, at=120000, dues=1)]
ask(f"three.journal {MOST} {T + 60000}", *ready(1, 3, 14, *THREE, *FIRST))
ask(f"three.journal {MOST} {T + 60000} {T + 120000}", *ready(1, 3, 14, *THREE, *FIRST), *ready(1, 3, 20, *THREE, *FIRST, *AGAIN))
# eight entries, and three more: ten have no room for all
ask(f"three.journal 7 {T + 60000}", "no room behind 8\n")
ask(f"three.journal 8 {T + 60000}", "no room behind 8\n")
ask(f"three.journal 10 {T + 60000}", "no room behind 8\n")
ask(f"three.journal 11 {T + 60000}", *ready(1, 3, 14, *THREE, *FIRST))
# a tilde at each place of the last line: within the reference of two letters it is a reference, which names none
ask(f"three.journal {MOST} {T} wrong", f"line 9: {len(THREE[-1]) - 2} bad, 2 illegal, 0 else\n")
# a handed moment before the last step's counts as that one
ask(f"three.journal {MOST} 0", *ready(1, 3, 14, *THREE, kills(2), starts(0), starts(2, dues=1)))

# nothing; no header; a reply that isn't the machine's; no line
ask(f"nothing.journal {MOST} {T}", *ready(0, 0, 0, *journal("nothing")))
journal("without_header", *THREE[1:], head="")
ask(f"without_header.journal {MOST} {T}", "no header\n")
TWICE = [create(0, "web", ["deaf"]), named("start", "web"), named("start", "web", reply=(204, ""), dues=1)]
journal("illegal", *TWICE)
ask(f"illegal.journal {MOST} {T}", 'illegal line 4: {"body":"","status":204} but {"body":"","status":304}\n')
journal("cut", *TWICE[:2], TWICE[2][:-1])
ask(f"cut.journal {MOST} {T}", "bad line 4\n")
# a text that isn't legal is told so, however many entries it has
ask(f"illegal.journal 1 {T}", 'illegal line 4: {"body":"","status":204} but {"body":"","status":304}\n')

# waits of three connections that nobody waits for any more: dropped in order of number, each by its connection
WAITS = journal("waits", create(0, "web", ["deaf"]), named("start", "web"), named("wait", "web", condition="next-exit", reply={"ticket": 0}, conn=1, dues=1),
                named("wait", "web", condition="next-exit", reply={"ticket": 1}, conn=5),
                named("wait", "web", condition="removed", reply={"ticket": 2}, conn=2))
DROPS = [drops(0, 1), drops(1, 5), drops(2, 2), kills(0)]
ask(f"waits.journal {MOST} {T + 5}", *ready(6, 1, 4, *WAITS, *DROPS))
# five entries and three ends have their places, and a kill more
ask(f"waits.journal 7 {T + 5}", "no room behind 5\n")
ask(f"waits.journal 8 {T + 5}", "no room behind 5\n")
ask(f"waits.journal 9 {T + 5}", *ready(6, 1, 4, *WAITS, *DROPS))

# one that is removed by itself is gone with its process
ONCE = journal("removed_by_itself", create(0, "web", ["deaf"], auto=True), named("start", "web"))
ask(f"removed_by_itself.journal {MOST} {T + 5}", *ready(1, 0, 5, *ONCE, kills(0, dues=1)))

# paused: killed, by which it is thawed, and started (create, start, pause, kill, unpause, die, start)
PAUSED = journal("paused", create(0, "web", ["deaf"], "always"), named("start", "web"), named("pause", "web", dues=1))
ask(f"paused.journal {MOST} {T + 5}", *ready(1, 1, 7, *PAUSED, kills(0), starts(0, at=5)))

# restarting: no process is there to be killed, and a start finds it so, before and behind its next try
RESTARTING = journal("restarting", create(0, "web", ["exit", "1"], "always"), named("start", "web"),
                     named("kill", "none", signal=9, reply=message(404, "No such container: none"), dues=1, at=1))
ask(f"restarting.journal {MOST} {T + 50}", *ready(1, 1, 3, *RESTARTING, starts(0, at=50, reply=(304, ""))))
ask(f"restarting.journal {MOST} {T + 150}", *ready(1, 1, 5, *RESTARTING, starts(0, at=150, reply=(304, ""), dues=2)))

# by policy: `on-failure` and `no` stay, and so does what never was started
POLICIES = journal("policies", create(0, "aa", ["deaf"], "on-failure"), create(1, "bb", ["deaf"]), create(2, "cc", ["deaf"], "always"),
                   named("start", "aa"), named("start", "bb", dues=1))
ask(f"policies.journal {MOST} {T + 5}", *ready(1, 3, 9, *POLICIES, kills(0, dues=1), kills(1)))

# being removed: its ticket is dropped, and its start is refused as any is
REMOVING = journal("removing", create(0, "web", ["stuck", "30000"], "always"), named("start", "web"),
                   named("remove", "web", force=True, reply={"ticket": 0}, conn=1, dues=1))
MARKED = message(409, f"removal of container {id_of(0)} is already in progress")
ask(f"removing.journal {MOST} {T + 5}", *ready(2, 1, 3, *REMOVING, drops(0, 1), starts(0, at=5, reply=MARKED)))

# execs: of `web` one sleeps, one has ended, one copies what it was fed, and one was only made, and so was one of `db`. With the kill of its
# container a running exec ends (events: 2 creates, 2 starts, 5 exec_creates, 3 exec_starts, exec_die; kill, 2 exec_dies, die; kill, die; start)
SLEEPS, SAYS, COPIES, EXITS = ["sleep", "600000"], ["echo", "hi"], ["cat"], ["exit", "3"]
EXECS = journal("execs", create(0, "web", ["deaf"], "always"), create(1, "db", ["deaf"]), named("start", "web"), named("start", "db", dues=1),
                exec_create(2, "web", SLEEPS, dues=1), exec_create(3, "web", SAYS, out=True), exec_create(4, "web", COPIES, stdin=True, out=True),
                exec_create(5, "web", EXITS), exec_create(6, "db", SLEEPS), exec_start(2), exec_start(3, dues=1),
                exec_start(4, detach=False, reply={"from": 0, "status": 200}, conn=1, dues=2),
                entry({"bytes": "6869", "kind": "exec", "number": 4, "op": "feed", "run": 1}, {"fed": True}, conn=1 + 2**31),
                exec_inspect(3, 0, SAYS, dues=1, out=True, code=0))
KILLED = [kills(0), kills(1), starts(0, at=60000)]
ask(f"execs.journal {MOST} {T + 60000}", *ready(2, 2, 20, *EXECS, *KILLED))
# the journal of the daemon that goes on: the two show the code of a kill, and none starts twice; one that was only made starts where its container
# runs again, and not where it doesn't; and a second reboot (exec_start, exec_die; kill, die; start)
BEHIND = journal("behind_execs", *EXECS[1:], *KILLED, exec_inspect(2, 0, SLEEPS, conn=2, dues=1, at=60000, code=137),
                 exec_inspect(4, 0, COPIES, conn=2, at=60000, stdin=True, out=True, code=137),
                 exec_start(2, reply=message(409, f"exec {id_of(2)} has already started"), conn=2, at=60000),
                 exec_inspect(5, 0, EXITS, conn=2, at=60000), exec_start(5, conn=2, at=60000),
                 exec_inspect(5, 0, EXITS, conn=2, dues=1, at=60000, code=3),
                 exec_start(6, reply=message(409, f"Container {id_of(1)} is not running"), conn=2, at=60000))
ask(f"behind_execs.journal {MOST} {T + 120000}", *ready(3, 2, 25, *BEHIND, kills(0, at=60000), starts(0, at=120000)))
# in what is paused (create, start, exec_create, exec_start, pause, kill, unpause, exec_die, die)
HELD = journal("exec_in_a_pause", create(0, "web", ["deaf"]), named("start", "web"), exec_create(1, "web", SLEEPS, dues=1), exec_start(1),
               named("pause", "web", dues=1))
ask(f"exec_in_a_pause.journal {MOST} {T + 5}", *ready(1, 1, 9, *HELD, kills(0)))

# connections up to the last that may be a client's count for the next number
LAST = journal("last_client", create(0, "aa", ["deaf"]).replace('"conn":0', '"conn":2147483645'), named("start", "aa", conn=OWN))
ask(f"last_client.journal {MOST} {T + 5}", *ready(2147483646, 1, 4, *LAST, kills(0, dues=1)))

# not lines of this program
ask("three.journal", "not a line of this program\n")
ask("three.journal many 5", "not a line of this program\n")

(HERE / "stdin").write_text("".join(f"{it}\n" for it in LINES))
(HERE / "stdout").write_text("".join(TOLD))
