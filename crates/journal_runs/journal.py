"""Lines of a journal, by docs/JOURNAL.md, and verdicts of whole ones."""
import json

from lines import *
from exchange import compact, id_of

DONE = {"body": "", "status": 204}


def entry(call, reply=DONE, conn=1, dues=0, moment=1):
    """A line, its keys in byte order."""
    parts = {"call": call, "conn": conn, "dues": dues, "moment": moment, "reply": reply}
    return json.dumps(parts, separators=(",", ":"), ensure_ascii=False, sort_keys=True) + r"\n"


def is_line(call, reply=DONE, **more):
    ask(f"journal|line|{entry(call, reply, **more)}", "the same")


def op(word, **keys):
    return {"op": word, **keys}


FILTER = {"label": ["a=b", "café"], "name": ["web"]}
CREATE = op("create", after=-1, image="engine/tools:latest", labels={"a": "b", "café": ""}, maximum=2,
            mounts=[{"ro": True, "target": "/café", "volume": "data"}, {"ro": False, "target": "/srv", "volume": "logs"}], name="web",
            once=False, policy="on-failure", signal=9, stdin=True, words=["echo", "café"])
heading("of each call a line, by hand: it is read, call and reply are copied, and the copies have this line")
is_line(CREATE, {"body": '{"Id":"76b8"}', "status": 201})
is_line(CREATE | {"name": None, "maximum": 0, "policy": "unless-stopped", "labels": {}, "mounts": [], "words": []})
CHECK = {"interval": 30000, "retries": 3, "start": 0, "timeout": 1, "words": ["flaky", "2"]}
CHECKED = CREATE | {"policy": "no", "maximum": 0, "auto": True, "health": CHECK}
is_line(CHECKED, {"body": '{"Id":"76b8"}', "status": 201})
for word in ("start", "pause", "unpause", "inspect"):
    is_line(op(word, ref="café"), dues=2, moment=1700000000005)
for word in ("stop", "restart"):
    is_line(op(word, ref="web", signal=9, t=-1), {"ticket": 7})
    is_line(op(word, ref="web", signal=None, t=None), {"ticket": 7})
is_line(op("kill", ref="web", signal=9))
is_line(op("rename", ref="café", name="db"), {"body": '{"message":"No such container: café"}', "status": 404})
for policy, maximum in ((None, None), ("no", 0), ("on-failure", 3)):
    is_line(op("update", ref="web", policy=policy, maximum=maximum), {"body": '{"Warnings":[]}', "status": 200})
is_line(op("remove", ref="web", force=True))
for condition in ("next-exit", "not-running", "removed"):
    is_line(op("wait", ref="web", condition=condition), {"ticket": 7})
is_line(op("list", all=True, limit=8, filters=FILTER), {"body": "[]", "status": 200})
is_line(op("list", all=False, limit=None, filters={"label": ["a=b"]}), {"body": "[]", "status": 200})
is_line(op("logs", ref="web", follow=True, out=True, err=False, stamps=True, tail=5, least=6, greatest=7), {"from": 2, "status": 200})
is_line(op("attach", ref="web", logs=True, stream=True, stdin=False, out=True, err=True), {"from": 0, "status": 200})
is_line(op("exec_create", ref="web", words=["cat", "café"], stdin=True, out=False, err=True))
is_line(op("exec_start", id="76b8", detach=True))
is_line(op("exec_inspect", id="76b8"))
is_line(op("volume_create", name="data", labels={"a": "b"}))
is_line(op("volume_inspect", name="data"))
is_line(op("volume_remove", name="data"))
is_line(op("volume_list", filters={"name": ["da", "café"]}))
is_line(op("events", since=9, until=None, filters={"event": ["start", "die"], "image": ["café"]}), {"from": 8, "status": 200})
is_line(op("journal"), {"from": 10, "status": 200})
is_line(op("feed", kind="exec", number=3, run=1, bytes="0aff"), {"fed": True}, conn=2147483649)
is_line(op("feed_end", kind="container", number=1, run=2), {"fed": False})
is_line(op("take", ticket=3))
is_line(op("drop", ticket=7), {"dropped": 7})
heading("what is no line: nothing, a line end, none, a zero before a number, a key twice, another order, no reference, another reply")
TAKE = entry(op("take", ticket=7))
for text in ("", r"\n", TAKE.removesuffix(r"\n"), TAKE.replace(":7", ":07"), TAKE.replace('"ticket":7', '"ticket":7,"ticket":7'),
             TAKE.replace('"op":"take","ticket":7', '"ticket":7,"op":"take"'), entry(op("start", ref="")),
             entry(op("take", ticket=7), {"dropped": 7})):
    ask(f"journal|line|{text}", "no line")
heading("what a create and an update don't say: a flag that isn't set, no check, a policy of what is removed by itself, a check past its bounds, half a policy")
for call in (CREATE | {"auto": False}, CREATE | {"health": None}, CREATE | {"auto": True}, CHECKED | {"health": CHECK | {"words": []}},
             CHECKED | {"health": CHECK | {"interval": 0}}, CHECKED | {"health": CHECK | {"timeout": 3600001}},
             CHECKED | {"health": CHECK | {"start": 3600001}}, CHECKED | {"health": CHECK | {"retries": 0}},
             op("update", ref="web", policy=None, maximum=0), op("update", ref="web", policy="no", maximum=None),
             op("update", ref="web", policy="always", maximum=1)):
    ask(f"journal|line|{entry(call)}", "no line")

# ---- whole journals: a container that ends at once with 7, which is waited for

OPENING = 1700000000000
ID = id_of(0)
NEW = entry(op("create", after=10, image="engine/tools", labels={}, maximum=0, mounts=[], name="web", once=False, policy="no",
               signal=15, stdin=False, words=["exit", "7"]), {"body": compact({"Id": ID, "Warnings": []}), "status": 201},
            moment=OPENING)
WAIT = entry(op("wait", ref="web", condition="next-exit"), {"ticket": 0}, moment=OPENING)
START = entry(op("start", ref="web"), conn=2, moment=OPENING + 3)


def take(code=7, conn=1, dues=1, moment=OPENING + 4):
    reply = DONE if code is None else {"body": compact({"StatusCode": code}), "status": 200}
    return entry(op("take", ticket=0), reply, conn=conn, dues=dues, moment=moment)


FEED = entry(op("feed", kind="container", number=0, run=1, bytes="0a"), {"fed": False}, conn=2147483649, moment=OPENING + 4)
READ = entry(op("journal"), {"from": 5, "status": 200}, conn=2, moment=OPENING + 5)
DROP = entry(op("drop", ticket=0), {"dropped": 0}, moment=OPENING)


def verdict(said, *lines):
    ask("journal|whole|" + "".join(lines), said)


heading("journals that are legal: of no line, with a drop, and with six calls and the end of the run")
verdict("legal 0")
verdict("legal 3", NEW, WAIT, DROP)
verdict("legal 7", NEW, WAIT, START, take(), FEED, READ)
heading("due steps are counted: too few, too many, and a call before the opening")
verdict("line 4: 0 but 1", NEW, WAIT, START, take(dues=0))
verdict("line 4: 2 but 1", NEW, WAIT, START, take(dues=2))
verdict("line 2: 0 but none", NEW, entry(op("start", ref="web"), conn=2, moment=OPENING - 1))
heading("tickets and replies are compared: of another one, before the end, before the run, another code")
verdict('line 4: {"body":"","status":204} but no ticket', NEW, WAIT, START, take(None, conn=2))
verdict('line 3: {"body":"","status":204} but not ready', NEW, WAIT, take(None, dues=0, moment=OPENING))
verdict('line 2: {"fed":false} but not ready', NEW, FEED)
verdict(r'line 4: {"body":"{\"StatusCode\":8}","status":200} but {"body":"{\"StatusCode\":7}","status":200}', NEW, WAIT, START, take(8))
heading("what is no line is named: a key twice, a number of 65 bits, a blank behind a colon, no line end, a blank line")
verdict("no line 3", NEW, WAIT, START.replace('"conn":2', '"conn":2,"conn":2'), take())
verdict("no line 2", NEW, START.replace('"dues":0', f'"dues":{2 ** 64}'), take())
verdict("no line 2", NEW, START.replace('"conn":2', '"conn": 2'), take())
verdict("no line 2", NEW, START.removesuffix(r"\n"))
verdict("no line 1", r"\n", NEW)

# ---- format 2

HEADER = json.dumps({"format": 2, "moment": OPENING, "seed": "00" * 32}, separators=(",", ":")) + r"\n"
FULL = CREATE | {"auto": False, "health": None}
heading("of format 2: a create has all its keys, and other lines are those of format 1")
for call in (FULL, CHECKED | {"auto": True}, CHECKED | {"auto": False}, FULL | {"auto": True, "policy": "no", "maximum": 0},
             op("start", ref="café"), op("take", ticket=3)):
    ask(f"journal|second|{entry(call)}", "the same")
for call in (CREATE, CREATE | {"auto": False}, CREATE | {"health": None}, CHECKED | {"auto": None}, FULL | {"health": {}}):
    ask(f"journal|second|{entry(call)}", "no line")
heading("a header, and what is none: another number, moment or seed, another order, a blank, no line end, a key twice, a number of 65 bits")
for moment, seed in ((OPENING, "00" * 32), (0, "ff" * 32), (9000000000000, "0a" * 32)):
    ask("journal|header|" + HEADER.replace(str(OPENING), str(moment)).replace("00" * 32, seed), "the same")
for text in (HEADER.replace('"format":2', '"format":1'), HEADER.replace(str(OPENING), "9000000000001"), HEADER.replace(str(OPENING), "01"),
             HEADER.replace(str(OPENING), "null"), HEADER.replace("00" * 32, "00" * 31), HEADER.replace("00" * 32, "0A" * 32),
             HEADER.replace("00" * 32, "0g" * 32), '{"moment":0,"format":2,"seed":"' + "00" * 32 + '"}' + r"\n",
             HEADER.replace(",", ", "), HEADER.removesuffix(r"\n"), "", START, HEADER.replace('"format":2', '"format":2,"format":2'),
             HEADER.replace(str(OPENING), str(2 ** 64 + OPENING))):
    ask("journal|header|" + text, "no header")


def in_second(line):
    """A line of a create with all its keys."""
    return line.replace('"image"', '"auto":false,"health":null,"image"')


heading("a header's seed and opening count, and not the given ones: a header alone, a journal behind it, another opening")
verdict("legal 0", HEADER)
verdict("legal 7", HEADER, in_second(NEW), WAIT, START, take(), FEED, READ)
verdict("line 2: 0 but none", HEADER.replace(str(OPENING), str(OPENING + 1)), in_second(NEW))
heading("lines count from the header on: a create without all its keys, a due step too many, a second header, a header that is none")
verdict("no line 2", HEADER, NEW)
verdict("line 5: 2 but 1", HEADER, in_second(NEW), WAIT, START, take(dues=2))
verdict("no line 2", HEADER, HEADER)
verdict("no line 3", HEADER, WAIT.replace("web", "nobody").replace('{"ticket":0}', r'{"body":"{\"message\":\"No such container: nobody\"}","status":404}'), HEADER)
verdict("no line 1", HEADER.replace('"format":2', '"format":3'), in_second(NEW))
heading("behind a header too what is no line is named: a key twice, a number of 65 bits, a blank, no line end, also of the header")
for text in (START.replace('"conn":2', '"conn":2,"conn":2'), START.replace('"dues":0', f'"dues":{2 ** 64}'),
             START.replace('"conn":2', '"conn": 2'), START.removesuffix(r"\n")):
    verdict("no line 3", HEADER, in_second(NEW), text)
verdict("no line 1", HEADER.removesuffix(r"\n"))


def upgraded(said, *lines):
    ask("journal|upgrade|" + "".join(lines), said)


heading("a legal text in format 2; and the verdict of one that isn't legal")
upgraded(HEADER)
upgraded(HEADER + in_second(NEW) + WAIT + START + take(), NEW, WAIT, START, take())
OTHER = HEADER.replace("00" * 32, "0a" * 32).replace(str(OPENING), "5")
upgraded(OTHER, OTHER)
upgraded("no line 1", NEW.removesuffix(r"\n"))
upgraded("line 4: 2 but 1", NEW, WAIT, START, take(dues=2))
