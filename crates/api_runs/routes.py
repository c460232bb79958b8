"""Requests, and what they ask for."""
from lines import *
from bodies import create


def routes(text):
    """A method, a target, a body, and the answer."""
    for line in text.strip("\n").split("\n"):
        method, target, body, answer = line.split(" ", 3)
        ask(f"route|{method}|{target}|{body}", answer)


heading("ping and version are fixed")
routes(r"""
GET /_ping  200 plain OK
HEAD /_ping?a=b  200 plain OK
GET /v1.24/_ping  200 plain OK
HEAD /v1.43/_ping  200 plain OK
GET /v01.043/_ping  200 plain OK
GET /version  200 json {"ApiVersion":"1.43","Arch":"amd64","MinAPIVersion":"1.24","Os":"linux","Version":"1.0.0"}
HEAD /version  404 message page not found
HEAD /v1.44/_ping  400 message client version 1.44 is too new. Maximum supported API version is 1.43
""")
heading("versions and paths are read by segments")
routes(r"""
GET /v1.23/_ping  400 message client version 1.23 is too old. Minimum supported API version is 1.24
GET /v1.44/_ping  400 message client version 1.44 is too new. Maximum supported API version is 1.43
GET /v1.23/nothing  400 message client version 1.23 is too old. Minimum supported API version is 1.24
GET /v1.43.1/_ping  404 message page not found
GET /v12345.1/_ping  404 message page not found
GET /v1./_ping  404 message page not found
GET /v1.43  404 message page not found
GET /nothing  404 message page not found
GET _ping  404 message page not found
GET /%5Fping  404 message page not found
PUT /_ping  404 message page not found
GET /containers//json  404 message page not found
GET /containers/a/b/json  404 message page not found
GET /containers/%2/json  400 message bad path
GET /containers/%ff/json  400 message bad path
GET /nothing/%ff  404 message page not found
POST /containers//start  404 message page not found
POST /containers/%ff/start  400 message bad path
GET /containers/a/start  404 message page not found
POST /containers/create/attach?stream=1&stdout=1  attach to create: Plain, AttachAsk { logs: false, stream: true, stdin: false, out: true, err: false }
""")
heading("each fault of a query has its text")
routes(r"""
POST /containers/a/stop?t=-2  400 message bad t
POST /containers/a/stop?t=2147484  400 message bad t
POST /containers/a/restart?signal=32  400 message Invalid signal: 32
POST /containers/a/kill?signal=NOPE  400 message Invalid signal: NOPE
POST /containers/a/rename  400 message Invalid container name ()
POST /containers/a/rename?name=%2Fb  400 message Invalid container name (/b)
POST /containers/a/wait?condition=x  400 message bad condition
GET /containers/json?limit=1234567890  400 message bad limit
GET /containers/json?limit=  400 message bad limit
GET /containers/json?filters=null  400 message invalid filter
GET /containers/a/logs  400 message you must choose at least one stream
GET /containers/a/logs?stdout=1&tail=x  400 message bad tail
GET /containers/a/logs?stdout=1&since=1.1234567890  400 message bad time
GET /containers/a/logs?stderr=1&until=12345678901  400 message bad time
GET /events?since=  400 message bad time
GET /volumes?filters=[]  400 message invalid filter
DELETE /containers/a?link=1  400 message links are left out
""")
heading("the first of several faults is told")
routes(r"""
POST /containers/create?name=a { 400 message bad JSON
POST /containers/create?name=a {} 400 message bad field Image
POST /containers/create?name=a {"Image":"engine/tools:latest"} 400 message Invalid container name (a)
POST /containers/create?name=a&name=ab {"Image":"x"} 400 message Invalid container name (a)
POST /containers/a/stop?signal=NOPE&t=x  400 message bad t
GET /containers/json?filters=x&limit=x  400 message bad limit
GET /containers/a/logs?tail=x&until=x  400 message you must choose at least one stream
GET /containers/a/logs?tail=x&until=x&stderr=1  400 message bad time
POST /containers/%/stop?t=x  400 message bad path
POST /containers/%/update { 400 message bad path
POST /containers/a/update { 400 message bad JSON
GET /containers/a/update {} 404 message page not found
""")
heading("calls that are asked for")
IMAGE = '{"Image":"engine/tools:latest"}'
for target, name in (("/v1.43/containers/create?name=%2Fab&name=c", "/ab"), ("/containers/create?other=1", "(none)"),
                     ("/containers/create?name=", "(none)")):
    ask(f"route|POST|{target}|{IMAGE}", create(name, "engine/tools:latest"))
table("route|", """
POST|/v1.43/containers/web/start?x=1|=> start of web
GET|/containers/%2Fweb/json|=> inspect of /web
POST|/containers/a/stop?t=2147483&signal=2|=> stop of a: Some(2147483), Some(Signal { number: 2 })
POST|/containers/a/restart|=> restart of a: None, None
POST|/containers/a/update?x=1|{"RestartPolicy":{"Name":"always"}}=> update of a: policy Always
POST|/containers/update/update|{}=> update of update: no policy
DELETE|/containers/create|=> removal of create: false
DELETE|/containers/a?link=No&force=1&v=1|=> removal of a: true
GET|/v1.43/containers/json?all=1&limit=2&filters={%22name%22:[%22web%22]}|=> list: true, Some(2), rows name=web
GET|/containers/json|=> list: false, None, rows
""")
heading("a request as it was read")
ask(r"route|spelled|POST /v1.43/containers/create?name=web HTTP/1.1\r\nHost: x\r\nContent-Length: 31\r\n\r\n" + IMAGE,
    create("web", "engine/tools:latest"))


def log(reference, **other):
    ask_ = dict(follow="false", out="false", err="false", stamps="false", tail="None", least=0, greatest=9999999999999) | other
    fields = ", ".join(f"{key}: {value}" for key, value in ask_.items())
    return f"log of {reference}: None, LogAsk {{ {fields} }}"


heading("a log has the streams, the moments and the tail of its query")
ask("route|GET|/containers/create/logs?stdout=1&since=5.&tail=all|", log("create", out="true", least=5000))
ask("route|GET|/v1.43/containers/a/logs?stderr=1&until=2.5&tail=7&follow=1&timestamps=1|",
    log("a", follow="true", err="true", stamps="true", tail="Some(7)", greatest=2500))
heading("events have the moments of their query")
ask("route|GET|/events?since=5.|", "events: None, Some(5000), None, rows")
heading("the journal has no query")
ask("route|GET|/engine/journal|", "journal: None")
ask("route|GET|/v1.43/engine/journal?since=x|", "journal: None")


heading("long requests: a line says how often which piece stands between two texts, and a long answer is told by its front")


def long(kind, count, piece, before, after, answer):
    ask(f"route|{kind}|{count}|{piece}|{before}|{after}", answer if len(answer) <= 300 else f"{answer[:100]}.. of {len(answer)} bytes")


SEGMENT = 16000
MEBIBYTE = 1048576
for piece in ("a", "%41"):
    count = SEGMENT // len(piece)
    letters = {"a": "a", "%41": "A"}[piece] * count
    long("long GET", count, piece, "/containers/", "/json", f"inspect of {letters}")
    long("long POST", count, piece, "/containers/", "/start", f"start of {letters}")
long("long GET", SEGMENT - 2, "a", "/containers/", "%f/json", "400 message bad path")
long("long GET", SEGMENT, "a", "/", "", "404 message page not found")
long("long GET", SEGMENT // 2, "/a", "", "", "404 message page not found")
long("long GET", SEGMENT // 4, "%2F", "/containers/", "/json", "inspect of " + "/" * (SEGMENT // 4))
heading("of blanks in a query, read as a truth value, a number, a moment and a filter")
for blank in ("+", "%20"):
    count = SEGMENT // len(blank)
    long("long GET", count, blank, "/containers/json?all=", "", "list: false, None, rows")
    long("long GET", count, blank, "/containers/json?all=", "1", "list: true, None, rows")
    long("long GET", count, blank, "/containers/json?limit=", "", "400 message bad limit")
    long("long GET", count, blank, "/events?since=", "", "400 message bad time")
    long("long GET", count, blank, "/containers/json?filters=", "", "400 message invalid filter")
    long("long GET", count, blank, "/containers/json?filters=", "{}", "list: false, None, rows")
long("long GET", SEGMENT // 2, "&a", "/containers/json?all=1", "", "list: true, None, rows")
heading("bodies of a mebibyte: digits, blanks, nested lists and objects, and one byte more")
for piece, count in (("1", MEBIBYTE), (" ", MEBIBYTE), ("[", MEBIBYTE), ('{"a":', MEBIBYTE // 5)):
    ask(f"route|long body|/containers/create|{count}|{piece}||", "400 message bad JSON")
ask(f"route|long body|/containers/a/exec|{MEBIBYTE}|[||", "400 message bad JSON")
ask(f'route|long body|/volumes/create|{MEBIBYTE - 40}| |{{"Name":"|"}}', "400 message bad volume name")
ask(f'route|long body|/containers/create|{MEBIBYTE - 40}|1|{{"Image":|}}', "400 message bad JSON")
ask(f'route|long body|/containers/create|{MEBIBYTE - 40}| |{{"Image":"engine/tools"|}}', create("(none)", "engine/tools"))
ask(f"route|long body|/containers/create|{MEBIBYTE + 1}|1||", "no request")
