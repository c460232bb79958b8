"""Scenarios of the journal: its header and a line an entry, each in a chunk of its own, up to the call that asks for it."""
from exchange import *
from lives import *
from states import *


def entry(call, reply, conn=0, dues=0, ms=0):
    """A line of the journal; the keys of the call are given in byte order."""
    return compact({"call": call, "conn": conn, "dues": dues, "moment": 1700000000000 + ms, "reply": reply}) + "\n"


def kept(status, body=None):
    return {"body": "" if body is None else compact(body), "status": status}


def create_call(name, words):
    return {"after": 10, "auto": False, "health": None, "image": "engine/tools:latest", "labels": {}, "maximum": 0, "mounts": [], "name": name, "once": False,
            "op": "create", "policy": "no", "signal": 15, "stdin": False, "words": words}


def create_entry(n, name, words, **more):
    return entry(create_call(name, words), kept(201, {"Id": id_of(n), "Warnings": []}), **more)


def named(op, ref="web"):
    return {"op": op, "ref": ref}


def read_entry(count, **more):
    return entry({"op": "journal"}, {"from": count, "status": 200}, **more)


def journal_head(close=False):
    lines = ["HTTP/1.1 200 OK", "Api-Version: 1.43"] + (["Connection: close"] if close else [])
    return "\r\n".join(lines + ["Content-Type: text/plain; charset=utf-8", "Server: engined", "Transfer-Encoding: chunked", "", ""])


def journal_chunk(line):
    return f"{len(line):x}\r\n{line}\r\n"


HEADER = compact({"format": 2, "moment": 1700000000000, "seed": "00" * 32}) + "\n"


def lines_told(*lines, close=False):
    """The answer to a request for the journal."""
    return journal_head(close) + "".join(map(journal_chunk, (HEADER, *lines))) + "0\r\n\r\n"


JOURNAL = get("/engine/journal")
PONG_TEXT = answer(200, "OK", kind="text/plain; charset=utf-8")

# of nothing; of what came before it, and of itself only in the next one; the due step between the starts is counted
TWICE = [create_entry(0, "web", DEAF), entry(named("start"), kept(204)), entry(named("start"), kept(304), dues=1)]
scenario("journal", [JOURNAL, create("web", DEAF), post("/containers/web/start"), post("/containers/web/start"), JOURNAL,
                     get("/v1.43/engine/journal?more=1"), PING],
         [lines_told(), created(0), answer(204), answer(304), lines_told(read_entry(0), *TWICE),
          lines_told(read_entry(0), *TWICE, read_entry(4)), PONG_TEXT], comings=("pieces=1", "pieces=4096"))
scenario("journal_and_close", [WEB, "GET /engine/journal HTTP/1.1\r\nHost: x\r\nConnection: close\r\n\r\n", PING],
         [created(0), lines_told(create_entry(0, "web", []), close=True)])

# a ticket's begin and its take, a refusal, and what a request's form refuses, which has no entry
scenario("journal_of_tickets", [create("web", LONG), post("/containers/web/start"), post("/containers/web/stop"), get("/containers/nobody/json"),
                                post("/containers/web/stop?t=x"), JOURNAL],
         [created(0), answer(204), answer(204), message(404, "No such container: nobody"), message(400, "bad t"),
          lines_told(create_entry(0, "web", LONG), entry(named("start"), kept(204)),
                     entry({"op": "stop", "ref": "web", "signal": None, "t": None}, {"ticket": 0}, dues=1),
                     entry({"op": "take", "ticket": 0}, kept(204)),
                     entry(named("inspect", "nobody"), kept(404, {"message": "No such container: nobody"})))])

# it is an entry too, so a full journal can't be read
scenario("journal_of_a_read", [WEB, JOURNAL, JOURNAL, PING],
         [created(0), lines_told(create_entry(0, "web", [])), message(503, "journal is full"), PONG_TEXT], words=f"{STDIO} --journal 2")

# what breaks off has no last chunk
WEB_ENTRY, DB_ENTRY = create_entry(0, "web", []), create_entry(1, "db", [])
BOTH = created(0) + created(1) + journal_head()
scenario("journal_broken_off", [WEB, create("db"), JOURNAL, PING], "", status=4, comings=(
    ("write=2", created(0) + created(1)),
    ("write=3", BOTH),
    ("write=4", BOTH + journal_chunk(HEADER)),
    ("write=5", BOTH + journal_chunk(HEADER) + journal_chunk(WEB_ENTRY)),
    ("write=6", BOTH + journal_chunk(HEADER) + journal_chunk(WEB_ENTRY) + journal_chunk(DB_ENTRY))))

# by its method
scenario("journal_by_method", [get("/engine/journal", "HEAD"), post("/engine/journal"), get("/engine/journal/more")],
         [message(404, "page not found", head=True), message(404, "page not found"), message(404, "page not found")])

# each connection has its number
talk("journal_of_both", (0, 0, WEB, created(0)), (1, 50, create("db"), created(1)),
     (1, 100, JOURNAL, lines_told(WEB_ENTRY, create_entry(1, "db", [], conn=1, ms=50))),
     (0, 150, JOURNAL, lines_told(WEB_ENTRY, create_entry(1, "db", [], conn=1, ms=50), read_entry(2, conn=1, ms=100))))
