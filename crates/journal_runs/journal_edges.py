"""One-line journals at the edges of what a line can say: each key left out, null at each key, each value beside its bound.

What is a line follows from docs/JOURNAL.md and from the bounds that docs/API.md gives the parameters of each call.
"""
import json

from lines import *

# a call of each op that has a line; its keys stand in byte order
CALLS = {
    "create": {"after": 10, "image": "engine/tools:latest", "labels": {"k": "v"}, "maximum": 0,
               "mounts": [{"ro": False, "target": "/data", "volume": "data"}], "name": "web", "once": False, "op": "create",
               "policy": "no", "signal": 15, "stdin": False, "words": ["echo", "hi"]},
    "start": {"op": "start", "ref": "web"},
    "pause": {"op": "pause", "ref": "web"},
    "unpause": {"op": "unpause", "ref": "web"},
    "inspect": {"op": "inspect", "ref": "web"},
    "stop": {"op": "stop", "ref": "web", "signal": 15, "t": 10},
    "restart": {"op": "restart", "ref": "web", "signal": 15, "t": 10},
    "kill": {"op": "kill", "ref": "web", "signal": 9},
    "rename": {"name": "db", "op": "rename", "ref": "web"},
    "update": {"maximum": 3, "op": "update", "policy": "on-failure", "ref": "web"},
    "remove": {"force": True, "op": "remove", "ref": "web"},
    "wait": {"condition": "not-running", "op": "wait", "ref": "web"},
    "list": {"all": True, "filters": {"label": ["a=b"]}, "limit": 5, "op": "list"},
    "logs": {"err": True, "follow": False, "greatest": 9, "least": 1, "op": "logs", "out": True, "ref": "web", "stamps": False, "tail": 5},
    "attach": {"err": True, "logs": True, "op": "attach", "out": True, "ref": "web", "stdin": False, "stream": True},
    "exec_create": {"err": True, "op": "exec_create", "out": True, "ref": "web", "stdin": False, "words": ["cat"]},
    "exec_start": {"detach": False, "id": "ab", "op": "exec_start"},
    "exec_inspect": {"id": "ab", "op": "exec_inspect"},
    "volume_create": {"labels": {"k": "v"}, "name": "data", "op": "volume_create"},
    "volume_inspect": {"name": "data", "op": "volume_inspect"},
    "volume_remove": {"name": "data", "op": "volume_remove"},
    "volume_list": {"filters": {"name": ["data"]}, "op": "volume_list"},
    "events": {"filters": {"event": ["die"]}, "op": "events", "since": 1, "until": 2},
    "journal": {"op": "journal"},
    "feed": {"bytes": "610a", "kind": "container", "number": 0, "op": "feed", "run": 1},
    "feed_end": {"kind": "exec", "number": 0, "op": "feed_end", "run": 1},
    "take": {"op": "take", "ticket": 7},
    "drop": {"op": "drop", "ticket": 7},
}
# a create with what stands in its line only where it says something
CHECK = {"interval": 30000, "retries": 3, "start": 0, "timeout": 30000, "words": ["flaky", "2"]}
CALLS["checked"] = dict(sorted({**CALLS["create"], "auto": True, "health": CHECK}.items()))
DONE = {"body": "", "status": 204}
ENTRY = {"call": CALLS["start"], "conn": 1, "dues": 0, "moment": 1700000000000, "reply": DONE}


def is_line(entry, said, more=None):
    """Asks about this entry, whose text `more` changes."""
    text = json.dumps(entry, separators=(",", ":"), ensure_ascii=False)
    ask("journal|line|" + (more(text) if more else text) + r"\n", "the same" if said else "no line")


def is_call(call, said, more=None):
    is_line({**ENTRY, "call": call}, said, more)


def put(op, key, value):
    """The call with that at a key, its keys in byte order."""
    return dict(sorted({**CALLS[op], key: value}.items()))


heading("a line of each call")
for op in CALLS:
    is_call(CALLS[op], True)

heading("a key is left out")
OPTIONAL = {("checked", "auto"), ("checked", "health")}
for op in CALLS:
    for key in CALLS[op]:
        is_call({k: v for k, v in CALLS[op].items() if k != key}, (op, key) in OPTIONAL)
for key in ENTRY:
    is_line({k: v for k, v in ENTRY.items() if k != key}, False)

heading("null stands where nothing is asked for, and nowhere else")
ABSENT = {("create", "name"), ("checked", "name"), ("stop", "signal"), ("stop", "t"), ("restart", "signal"), ("restart", "t"), ("list", "limit"),
          ("logs", "tail"), ("events", "since"), ("events", "until")}
for op in CALLS:
    for key in CALLS[op]:
        is_call(put(op, key, None), (op, key) in ABSENT)
for key in ENTRY:
    is_line({**ENTRY, key: None}, False)

heading("values beside their bounds")
MOST = 2**64 - 1
SECONDS = ([-1, 0, 2147483], [-2, 2147484, 2**31, "1", 1.5])
SIGNALS = ([1, 31], [0, 32, 256, -1, "KILL"])
FLAGS = ([False, True], [0, "true"])
TEXTS = ([".", " "], ["", 1, ["web"]])
NAMES = (["ab", "/ab", "a_", "9.", "a-b"], ["", "a", "/a", "-b", "a/b", "//ab", "a b", 1])
VOLUMES = (["ab", "a_", "9.", "a-b"], ["", "a", "/ab", "-b", "a/b", 1])
MOMENTS = ([0, 9999999999999], [10000000000000, -1, "1"])
NUMBERS = ([0, MOST], [MOST + 1, -1, "1", 1.5])
RUNS = ([1, MOST], [0, MOST + 1])
KINDS = (["container", "exec"], ["", "Container", "volume", 1])
LABELS = ([{}, {"": ""}, {"a": "", "b": ""}], [[], {"a": 1}, {"a": None}, "a"])
MOUNT = CALLS["create"]["mounts"][0]


def checks(key, values):
    return [{**CHECK, key: value} for value in values]


EDGES = {
    ("create", "after"): SECONDS,
    ("create", "image"): (["", "other"], [1]),
    ("create", "labels"): LABELS,
    ("create", "maximum"): ([0], [1, -1, "0"]),
    ("create", "mounts"): ([[], [MOUNT] * 16, [{**MOUNT, "ro": True, "target": "/", "volume": "ab"}]],
                           [[MOUNT] * 17, [{**MOUNT, "target": "data"}], [{**MOUNT, "target": ""}], [{**MOUNT, "volume": "a"}],
                            [{**MOUNT, "ro": None}], [{"ro": False, "target": "/data"}], [{**MOUNT, "volumes": "x"}], {}]),
    ("create", "name"): NAMES,
    ("create", "once"): FLAGS,
    ("create", "policy"): (["no", "always", "unless-stopped", "on-failure"], ["", "No", "never", 0]),
    ("create", "signal"): SIGNALS,
    ("create", "stdin"): FLAGS,
    ("create", "words"): ([[], [""]], ["echo", [1], [None]]),
    ("checked", "auto"): ([True], [False, 0, "true"]),
    ("checked", "health"): (checks("interval", [1, 3600000]) + checks("retries", [1, 1000]) + checks("start", [0, 3600000])
                            + checks("timeout", [1, 3600000]) + checks("words", [[""]]),
                            checks("interval", [0, 3600001, None, "1"]) + checks("retries", [0, 1001, None]) + checks("start", [-1, 3600001, None])
                            + checks("timeout", [0, 3600001, None]) + checks("words", [[], "flaky", [1], None]) + checks("yet", [1])
                            + [{k: v for k, v in CHECK.items() if k != key} for key in CHECK] + [[], {}]),
    ("checked", "policy"): (["no"], ["always", "unless-stopped", "on-failure"]),
    ("start", "ref"): TEXTS,
    ("pause", "ref"): TEXTS,
    ("unpause", "ref"): TEXTS,
    ("inspect", "ref"): TEXTS,
    ("stop", "ref"): TEXTS,
    ("stop", "signal"): SIGNALS,
    ("stop", "t"): SECONDS,
    ("restart", "ref"): TEXTS,
    ("restart", "signal"): SIGNALS,
    ("restart", "t"): SECONDS,
    ("kill", "ref"): TEXTS,
    ("kill", "signal"): SIGNALS,
    ("rename", "name"): NAMES,
    ("rename", "ref"): TEXTS,
    ("update", "maximum"): ([0, 2147483647], [2147483648, -1, "0"]),
    ("update", "policy"): (["on-failure"], ["", "On-failure", "no", "always", "unless-stopped", 0]),
    ("update", "ref"): TEXTS,
    ("remove", "force"): FLAGS,
    ("remove", "ref"): TEXTS,
    ("wait", "condition"): (["not-running", "next-exit", "removed"], ["", "Removed", "running", 1]),
    ("wait", "ref"): TEXTS,
    ("list", "all"): FLAGS,
    ("list", "filters"): ([{}, {"ancestor": ["a"], "exited": ["0"], "id": ["a"], "label": ["a"], "name": ["a"], "status": ["dead"], "volume": ["a"]},
                           {"name": []}],
                          [{"event": ["die"]}, {"type": ["volume"]}, {"Name": ["a"]}, {"name": "a"}, {"name": [1]}, []]),
    ("list", "limit"): ([1, 999999999], [0, 1000000000, -1, "1"]),
    ("logs", "err"): FLAGS,
    ("logs", "follow"): FLAGS,
    ("logs", "greatest"): MOMENTS,
    ("logs", "least"): MOMENTS,
    ("logs", "out"): FLAGS,
    ("logs", "ref"): TEXTS,
    ("logs", "stamps"): FLAGS,
    ("logs", "tail"): ([0, 999999999], [1000000000, -1, "all"]),
    ("attach", "err"): FLAGS,
    ("attach", "logs"): FLAGS,
    ("attach", "out"): FLAGS,
    ("attach", "ref"): TEXTS,
    ("attach", "stdin"): FLAGS,
    ("attach", "stream"): FLAGS,
    ("exec_create", "err"): FLAGS,
    ("exec_create", "out"): FLAGS,
    ("exec_create", "ref"): TEXTS,
    ("exec_create", "stdin"): FLAGS,
    ("exec_create", "words"): ([[""], ["cat", "x"]], [[], "cat"]),
    ("exec_start", "detach"): FLAGS,
    ("exec_start", "id"): TEXTS,
    ("exec_inspect", "id"): TEXTS,
    ("volume_create", "labels"): LABELS,
    ("volume_create", "name"): VOLUMES,
    ("volume_inspect", "name"): TEXTS,
    ("volume_remove", "name"): TEXTS,
    ("volume_list", "filters"): ([{}, {"name": ["a", "b"]}], [{"label": ["a"]}, {"volume": ["a"]}]),
    ("events", "filters"): ([{}, {"container": ["a"], "event": ["die"], "image": ["a"], "type": ["container"], "volume": ["a"]}],
                            [{"label": ["a"]}, {"name": ["a"]}]),
    ("events", "since"): MOMENTS,
    ("events", "until"): MOMENTS,
    ("feed", "bytes"): (["00", "ff"], ["", "0", "0A", "0g", 0]),
    ("feed", "kind"): KINDS,
    ("feed", "number"): NUMBERS,
    ("feed", "run"): RUNS,
    ("feed_end", "kind"): KINDS,
    ("feed_end", "number"): NUMBERS,
    ("feed_end", "run"): RUNS,
    ("take", "ticket"): NUMBERS,
    ("drop", "ticket"): NUMBERS,
}
for (op, key), (within, beyond) in EDGES.items():
    for value in within:
        is_call(put(op, key, value), True)
    for value in beyond:
        is_call(put(op, key, value), False)
RETRIED = {**CALLS["create"], "policy": "on-failure"}
for most, said in [(0, True), (2147483647, True), (2147483648, False), (-1, False)]:
    is_call({**RETRIED, "maximum": most}, said)
for policy, maximum, said in [(None, None, True), ("no", 0, True), ("always", 0, True), ("unless-stopped", 0, True), (None, 0, False)]:
    is_call({**CALLS["update"], "maximum": maximum, "policy": policy}, said)
for out, err in [(True, False), (False, True), (False, False)]:
    is_call({**CALLS["logs"], "err": err, "out": out}, out or err)
for op in ["", "Start", "stopp", "wait "]:
    is_call({**CALLS["start"], "op": op}, False)

heading("an entry's own numbers, and its reply")
for key, most in [("conn", 2**32 - 1), ("dues", MOST), ("moment", MOST)]:
    for number, said in [(0, True), (most, True), (most + 1, False), (-1, False)]:
        is_line({**ENTRY, key: number}, said)
for reply, said in [({"body": "é", "status": 0}, True), ({"body": "", "status": 65535}, True), ({"body": "", "status": 65536}, False),
                    ({"body": None, "status": 204}, False), ({"body": ""}, False), ({"status": 204}, False), ({"ticket": 0}, True),
                    ({"ticket": MOST}, True), ({"ticket": MOST + 1}, False), ({"ticket": None}, False), ({"from": 0, "status": 200}, True),
                    ({"from": MOST, "status": 200}, True), ({"from": MOST + 1, "status": 200}, False), ({"from": 0, "status": 201}, False),
                    ({"from": 0}, False), ({"fed": True}, True), ({"fed": 1}, False), ({"fed": None}, False), ({"dropped": 7}, False), ({}, False)]:
    is_line({**ENTRY, "reply": reply}, said)
for op, ticket, said in [("drop", 7, True), ("drop", 8, False), ("take", 7, False)]:
    is_line({**ENTRY, "call": CALLS[op], "reply": {"dropped": ticket}}, said)

heading("the same value in another form")
for a, b in [('"dues":0', '"dues":00'), ('"dues":0', '"dues":0.0'), ('"dues":0', '"dues":0e0'), ('"dues":0', '"dues":-0'),
             ('"dues":0', '"dues": 0'), ('"conn":1,"dues":0', '"dues":0,"conn":1'), ('"conn":1', '"conn":1,"conn":1'),
             ('"op":"start","ref":"web"', '"ref":"web","op":"start"'), ('"ref":"web"', '"ref":"web","ref":"web"'),
             ('"ref":"web"', '"ref":"web","see":1'), ('"ref":"web"', '"ref":"w\\u0065b"'), ('"ref":"web"', '"ref":"w\\/b"'), ("}}", "}} "),
             ("}}", "}},"), ("}}", "}}{}")]:
    is_line(ENTRY, False, lambda text: text.replace(a, b))
is_call(CALLS["create"], False, lambda text: text.replace('{"k":"v"}', '{"k":"v","a":"v"}'))
is_call(CALLS["list"], False, lambda text: text.replace('{"label":["a=b"]}', '{"label":["a=b"],"id":["a"]}'))
is_call(CALLS["list"], False, lambda text: text.replace('{"label":["a=b"]}', '{"label":["a=b"],"label":["a=b"]}'))
is_call({**CALLS["start"], "ref": "\"/\u0001é😀"}, True)
