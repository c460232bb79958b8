"""Requests that are read, in pieces of each size."""
from lines import *


def came(requests, length=0, why="None"):
    return f"{requests} requests, {length} bytes of bodies, {why}"


def bad(status, at=0):
    return f"Some(Bad {{ status: {status}, at: {at} }})"


CUT = "Some(CutShort)"
IMAGE = '{"Image":"engine/tools:latest"}'
CREATE = (r"POST /v1.43/containers/create?name=web HTTP/1.1\r\nHost: engine\r\nContent-Length: 31\r\n\r\n"
          + IMAGE)
PING = r"GET /_ping HTTP/1.1\r\nhost: engine\r\n\r\n"
CHUNKED = r"PUT /x HTTP/1.1\r\nHost: a\r\nTransfer-Encoding: Chunked\r\n\r\n"


def read(rows, before=""):
    for text, answer in rows:
        ask(f"read|each size|{before}{text}", answer)


def framed(fields):
    return rf"GET / HTTP/1.1\r\nHost: a\r\n{fields}\r\n\r\n"


heading("requests are read in any cutting")
read([
    ("", came(0)),
    (CREATE, came(1, 31)),
    (PING, came(1)),
    (r"HEAD / HTTP/1.1\nHost:\n\nDELETE /x HTTP/1.1\r\nHOST: a\r\ncontent-length:  2 \r\n\r\nab", came(2, 2)),
])
heading("an end inside a request is told")
read([
    (r"\r\n", came(0, 0, CUT)),
    (r"GET /_ping HT", came(0, 0, CUT)),
    (r"PUT / HTTP/1.1\r\nHost: a\r\nContent-Length: 3\r\n\r\nab", came(0, 0, CUT)),
])
heading("heads are refused")
read([
    (r"GET / HTTP/1.1\r\nHost: a\r\n\r\nGET / HTTP/2.0\r\n\r\n", came(1, 0, bad(400, 27))),
    (r"GET / HTTP/1.0\r\nHost: a\r\n\r\n", came(0, 0, bad(505))),
    (r"GET / HTTP/1.1\r\n\r\n", came(0, 0, bad(400))),
    (framed("host: a"), came(0, 0, bad(400))),
    (framed("Expect: 100-continue"), came(0, 0, bad(417))),
])
heading("framings are refused")
read([
    (framed("Transfer-Encoding: gzip"), came(0, 0, bad(400))),
    (framed(r"Transfer-Encoding: chunked\r\nTransfer-Encoding: chunked") + r"0\r\n\r\n", came(0, 0, bad(400))),
    (framed(r"Transfer-Encoding: chunked\r\nContent-Length: 0"), came(0, 0, bad(400))),
    (framed(r"Content-Length: 0\r\nContent-Length: 0"), came(0, 0, bad(400))),
    (framed("Content-Length: 1x"), came(0, 0, bad(400))),
    (framed("Content-Length: 1048577"), came(0, 0, bad(413))),
    (framed("Content-Length: 0000000000000000000"), came(0, 0, bad(400))),
])
heading("a failed read ends the reading: the first, and the one behind a whole request")
ask(f"read|failing|1|{CREATE}", came(0, 0, "Some(ReadFault)"))
ask(f"read|failing|2|{CREATE}", came(1, 31, "Some(ReadFault)"))
heading("16,384 bytes without a head are too many, and 64 fields the most")


def filled(size, count, piece, before, after, answer):
    ask(f"read|filled|{size}|{count}|{piece}|{before}|{after}", answer)


FIELD = r"x: y\r\n"
HOST = r"GET / HTTP/1.1\r\nHost: a\r\n"
filled(4096, 16384 - 5, "a", "GET /", "", came(0, 0, bad(431)))
filled(4096, 16383 - 5, "a", "GET /", "", came(0, 0, CUT))
filled(4096, 63, FIELD, HOST, r"\r\n", came(1))
filled(4096, 64, FIELD, HOST, r"\r\n", came(0, 0, bad(431)))
heading("chunks are read in any cutting")
read([
    (r"0\r\n\r\n", came(1)),
    (r'9\r\n{"Image":\r\n16\r\n"engine/tools:latest"}\r\n0\r\n\r\n', came(1, 31)),
    (r'0003 \t;a="b"\r\nabc\r\nA;\r\n0123456789\r\n00;last\r\nA: b\r\nC:\n\n', came(1, 13)),
    (r"1\r\na\r\n0\r\n\r\nGET / HTTP/1.1\r\nHost: a\r\nContent-Length: 2\r\n\r\nbc", came(2, 3)),
], CHUNKED)
heading("an end inside chunks is told")
read([(text, came(0, 0, CUT)) for text in ("", r"5;x", r"5\r\nhel", r"5\r\nhello\r", r"0\r\nA: b\r\n")], CHUNKED)
heading("chunks are refused")
read([(text, came(0, 0, bad(400))) for text in (r"zz\r\n", r"5\n", r"00000000000000005", r"5\r\nhellox", r"5\r\nhello\n",
                                              r"0\r\n: b\r\n")], CHUNKED)
read([(text, came(0, 0, bad(413))) for text in (r"100001\r\n", r"1\r\na\r\nffffffffffffffff\r\n")], CHUNKED)
heading("a line of a chunk has 256 bytes at most, trailers 4,096, and a body 1,048,576")
END = r"\r\n\r\n"
filled(4096, 252, "a", CHUNKED + "0;", END, came(1))
filled(7, 253, "a", CHUNKED + "0;", END, came(0, 0, bad(400)))
filled(4096, 253, "a", CHUNKED + "0;", END, came(0, 0, bad(400)))
filled(4096, 4090, "a", CHUNKED + r"0\r\nx:", END, came(1))
filled(7, 4090, "a", CHUNKED + r"0\r\nx:", END, came(1))
filled(7, 4091, "a", CHUNKED + r"0\r\nx:", END, came(0, 0, bad(400)))
filled(16384, 4091, "a", CHUNKED + r"0\r\nx:", END, came(0, 0, bad(400)))
filled(4096, 0, "a", CHUNKED + r"100000\r\n", "", came(0, 0, CUT))
filled(4096, 1048575, "a", CHUNKED + r"fffff\r\n", r"\r\n1\r\na\r\n0\r\n\r\n", came(1, 1048576))
filled(4096, 1048575, "a", CHUNKED + r"fffff\r\n", r"\r\n1\r\na\r\n1\r\n", came(0, 0, bad(413)))


def shows(size, text, method, target, fields, body="", asks="head false, closes false, upgrades false", rest=""):
    told = "".join(f" [{field}]" for field in fields)
    ask(f"read|first|{size}|{text}", f"{method} {target} with{told} and {body}; {asks}; then{rest}")


heading("what a request shows and asks, and what is left behind it")
FIELDS = ["Host: engine", "Content-Length: 31"]
shows(10, CREATE, "POST", "/v1.43/containers/create?name=web", FIELDS, IMAGE)
shows(4096, CREATE, "POST", "/v1.43/containers/create?name=web", FIELDS, IMAGE)
for method, fields, asks in (
        ("HEAD", ["Connection: Keep-Alive , CLOSE"], "head true, closes true, upgrades false"),
        ("GET", ["Connection: closed, x"], "head false, closes false, upgrades false"),
        ("POST", ["Connection: upgrade", "Upgrade: TCP"], "head false, closes false, upgrades true"),
        ("POST", ["Connection: upgrade"], "head false, closes false, upgrades false"),
        ("POST", ["Connection: close", "Upgrade: tcp"], "head false, closes true, upgrades false")):
    text = "".join(rf"{field}\r\n" for field in ["Host: a"] + fields)
    shows(4096, rf"{method} / HTTP/1.1\r\n{text}\r\n", method, "/", ["Host: a"] + fields, asks=asks)
shows(39, PING + "more", "GET", "/_ping", ["host: engine"], rest=" mo re")
shows(4096, CHUNKED + r"4\r\nab\r\n\r\n1;x\r\nc\r\n0\r\nA: b\r\n\r\nmore", "PUT", "/x", ["Host: a", "Transfer-Encoding: Chunked"],
      "ab\r\nc", rest=" more")
