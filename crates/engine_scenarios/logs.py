"""Scenarios of logs: frames in chunks, a chunk of what is there when it is asked for, and the last one where the log is whole."""
import struct

from exchange import *
from lives import *
from states import *


def frame(stream, payload):
    return "".join(map(chr, [stream, 0, 0, 0, *struct.pack(">I", len(payload))])) + payload


def log_head(close=False):
    lines = ["HTTP/1.1 200 OK", "Api-Version: 1.43"] + (["Connection: close"] if close else [])
    return "\r\n".join(lines + ["Content-Type: application/vnd.docker.multiplexed-stream", "Server: engined",
                                "Transfer-Encoding: chunked", "", ""])


def log_chunk(records):
    piece = "".join(frame(1, record) if isinstance(record, str) else frame(*record) for record in records)
    return f"{len(piece):x}\r\n{piece}\r\n"


def logged(*chunks, close=False):
    """The answer to a request for a log. A chunk is a list of records: texts on stdout, or pairs of a stream and a text."""
    return log_head(close) + "".join(map(log_chunk, chunks)) + "0\r\n\r\n"


def logs(name, query="stdout=1", method="GET"):
    return get(f"/containers/{name}/logs?{query}", method)


def at(ms):
    return f"2023-11-14T22:13:{20 + ms // 1000:02}.{ms % 1000:03}000000Z"


BOTH = "stdout=1&stderr=1"
STAMPED = "stdout=1&timestamps=1"
FOLLOWED = STAMPED + "&follow=1"
SAID = logged(["hi\n"])
scenario("logs", [create("web", ECHO), logs("web"), post("/containers/web/start"), logs("web"), logs("web", BOTH),
                  logs("web", "stderr=1"), logs("web", STAMPED), logs("web", "stdout=1&follow=1"),
                  logs("%2Fweb", "follow=False&stdout=yes&stderr=0&timestamps=0&tail=&more=1"),
                  get(f"/v1.43/containers/{id_of(0)}/logs?stdout=1&tail=all"), logs("7"), get("/_ping")],
         [created(0), logged(), answer(204), SAID, SAID, logged(), logged([f"{NOW} hi\n"]), SAID, SAID, SAID, SAID,
          answer(200, "OK", kind="text/plain; charset=utf-8")], comings=("pieces=1", "pieces=4096"))
scenario("logs_of_the_usual_client", [create("web", body=USUAL), post("/containers/web/start"), post("/containers/web/wait"),
                                      logs("web")], [created(0), answer(204), waited(0), SAID])
scenario("logs_of_a_trap", [create("web", TRAP), post("/containers/web/start"), post("/containers/web/stop?t=1"), logs("web", STAMPED)],
         [created(0), answer(204), answer(204), logged([f"{moment(500)} bye\n"])])

# which records: by the tail, and by moments on both sides of each
TICKS = ["tick", "3", "100"]
TICKED = [create("web", TICKS), post("/containers/web/start"), post("/containers/web/wait")]
TICKED_ANSWERS = [created(0), answer(204), waited(0)]


def ticks(*moments):
    """A chunk of the ticks of these moments, none where there are none."""
    return [[f"{at(ms)} tick\n" for ms in moments]] if moments else []


def choices(name, chosen):
    scenario(name, TICKED + [logs("web", f"{STAMPED}&{query}") for query in chosen],
             TICKED_ANSWERS + [logged(*ticks(*moments)) for moments in chosen.values()])


choices("logs_by_tail", {"tail=0": [], "tail=1": [200], "tail=2": [100, 200], "tail=3": [0, 100, 200], "tail=4": [0, 100, 200],
                         "tail=999999999": [0, 100, 200], "tail=all": [0, 100, 200], "tail=": [0, 100, 200], "tail=01": [200],
                         "tail=1&tail=2": [200]})
choices("logs_by_moment", {
    "since=0": [0, 100, 200], "since=1700000000": [0, 100, 200], "since=1700000000.000999999": [0, 100, 200],
    "since=1700000000.001": [100, 200], "since=1700000000.1": [100, 200], "since=1700000000.101": [200],
    "since=1700000000.200": [200], "since=1700000000.201": [], "since=9999999999": [], "until=0": [0, 100, 200],
    "until=9999999999": [0, 100, 200], "until=1700000000.2": [0, 100, 200], "until=1700000000.199999999": [0, 100],
    "until=1700000000.1": [0, 100], "until=1700000000.099": [0], "until=1700000000": [0], "until=1699999999.999999999": [],
    "since=1700000000.1&until=1700000000.1": [100], "since=1700000000.2&until=1700000000.1": []})
# (a tail counts the records that are asked for)
choices("logs_by_tail_and_moment", {"tail=1&until=1700000000.1": [100], "tail=2&until=1700000000.1": [0, 100],
                                    "tail=3&until=1700000000.1": [0, 100], "tail=1&since=1700000000.1": [200],
                                    "tail=2&since=1700000000.001": [100, 200], "tail=0&since=0": [], "tail=1&until=1": []})

# the two streams apart: a run that fails and tells on stderr, and the one that its policy launches
FAILED, WENT = (2, "attempt 1\n"), "ok\n"
scenario("logs_of_two_streams", [create("web", body=with_policy(FLAKY, ON_FAILURE)), post("/containers/web/start"),
                                 logs("web", BOTH), post("/containers/web/wait"), logs("web", BOTH), logs("web", "stdout=1"),
                                 logs("web", "stderr=1"), logs("web", "stdout=1&stderr=1&tail=1"), logs("web", "stderr=1&tail=1"),
                                 logs("web", "stdout=1&tail=2"), logs("web", BOTH + "&timestamps=1")],
         [created(0), answer(204), logged([FAILED]), waited(0), logged([FAILED, WENT]), logged([WENT]), logged([FAILED]),
          logged([WENT]), logged([FAILED]), logged([WENT]),
          logged([(2, f"{moment(0)} attempt 1\n"), f"{moment(100)} ok\n"])])

# a record has 32,768 bytes at most, and a frame too: with its moment the first one is two frames, the second one
NOISE = f"{NOW} " + "x" * 32768
scenario("log_of_a_long_record", [create("web", ["noise", "32769"]), post("/containers/web/start"), logs("web", STAMPED)],
         [created(0), answer(204), logged([NOISE[:32768], NOISE[32768:], f"{NOW} x"])])

# followed: each part as it comes, to the end of the run, and a chunk more than the log of it had when it was asked for
ENDED_AT_300 = shown(0, "web", TICKS, "exited", started=moment(0), finished=moment(300))
scenario("logs_followed", [create("web", TICKS), post("/containers/web/start"), logs("web", FOLLOWED), get("/containers/web/json"),
                           logs("web", FOLLOWED), post("/containers/web/start"), logs("web", FOLLOWED + "&tail=0"),
                           post("/containers/web/start"), logs("web", FOLLOWED + "&since=1700000000.7&until=1700000000.7"),
                           post("/containers/web/start"), logs("web", FOLLOWED + "&tail=2"), logs("web", "stderr=1&follow=1")],
         [created(0), answer(204), logged(*ticks(0), *ticks(100), *ticks(200)), ENDED_AT_300, logged(*ticks(0, 100, 200)),
          answer(204), logged(*ticks(400), *ticks(500)), answer(204), logged(*ticks(700)), answer(204),
          logged(*ticks(800, 900), *ticks(1000), *ticks(1100)), logged()])
scenario("logs_followed_through_a_restart", [create("web", body=with_policy(FLAKY, ON_FAILURE)), post("/containers/web/start"),
                                             logs("web", BOTH + "&follow=1"), logs("web", BOTH + "&follow=1")],
         [created(0), answer(204), logged([FAILED], [WENT]), logged([FAILED, WENT])])
scenario("logs_and_close", [create("web", ECHO), post("/containers/web/start"),
                            "GET /containers/web/logs?stdout=1&follow=1 HTTP/1.1\r\nHost: x\r\nConnection: close\r\n\r\n", get("/_ping")],
         [created(0), answer(204), logged(["hi\n"], close=True)])

# without follow it ends where the log ended when it was asked for: of what runs on, is paused, is killed, and has another name
TOLD = [500, 1500, 2500]
scenario("logs_of_what_runs", [
    create("web", ["tick", "0", "1000"]), post("/containers/web/start"), logs("web", STAMPED), post("/containers/web/pause"),
    logs("web", STAMPED), post("/containers/web/unpause"), logs("web", STAMPED + "&tail=1"), post("/containers/web/kill"),
    logs("web", STAMPED), post("/containers/web/rename?name=site"), logs("web"), logs("site", STAMPED + "&tail=2"),
    get("/containers/site", "DELETE"), logs("site"), logs(id_of(0))],
    [created(0), answer(204), logged(*ticks(500)), answer(204), logged(*ticks(*TOLD)), answer(204), logged(*ticks(2500)),
     answer(204), logged(*ticks(*TOLD, 5500, 6500)), answer(204), NO_WEB, logged(*ticks(5500, 6500)), answer(204),
     message(404, "No such container: site"), message(404, f"No such container: {id_of(0)}")],
    words="--stdio --clock 1700000000000:500")

# where a write fails, what was written is a front of the answers: no last chunk stands behind what broke off
scenario("logs_broken_off", TICKED + [logs("web"), get("/_ping")], "", status=4, comings=(
    ("write=2", created(0) + answer(204)),
    ("write=3", created(0) + answer(204) + waited(0)),
    ("write=4", created(0) + answer(204) + waited(0) + log_head()),
    ("write=5", created(0) + answer(204) + waited(0) + log_head() + log_chunk(["tick\n"] * 3)),
    ("write=6", "".join(TICKED_ANSWERS) + logged(["tick\n"] * 3))))

# refused, in the order of the query's keys, and where there is no room for the call
NO_STREAM = message(400, "you must choose at least one stream")
BAD_TIME, BAD_TAIL = message(400, "bad time"), message(400, "bad tail")
NO_PAGE = "page not found"
scenario("logs_refused", [
    logs("web"), logs("web", ""), logs("web", "stdout=0&stderr=false&since=x&tail=x"), logs("web", "stdout=1&since=x&until=x&tail=x"),
    logs("web", "stdout=1&since="), logs("web", "stdout=1&until=1.1234567890&tail=x"), logs("web", "stdout=1&until=12345678901"),
    logs("web", "stdout=1&until=-1"), logs("web", "stdout=1&tail=x"), logs("web", "stdout=1&tail=-1"),
    logs("web", "stdout=1&tail=1234567890"), logs("a%zz"), logs("web", "stdout=1", "POST"), logs("web", "stdout=1", "HEAD")],
    [NO_WEB, NO_STREAM, NO_STREAM, BAD_TIME, BAD_TIME, BAD_TIME, BAD_TIME, BAD_TIME, BAD_TAIL, BAD_TAIL, BAD_TAIL,
     message(400, "bad path"), message(404, NO_PAGE), message(404, NO_PAGE, head=True)])
scenario("journal_of_three", [create("web", ECHO), post("/containers/web/start"), logs("web"), logs("web"), get("/_ping")],
         [created(0), answer(204), SAID, message(503, "journal is full"),
          answer(200, "OK", kind="text/plain; charset=utf-8")], words=f"{STDIO} --journal 3")

# in each state, and followed from each but those of which one connection can't see the end
NOTHING = logged()
cells("logs", lambda name: logs(name, BOTH), {
    **{name: (NOTHING,) for name in ("created", "exited", "running", "paused", "dead")}, "restarting": (logged([FAILED]),)})
cells("follow", lambda name: logs(name, BOTH + "&follow=1"), {
    "created": (NOTHING,),
    "exited": (NOTHING,),
    "restarting": (logged([FAILED], [WENT]), AGAIN),
    "dead": (NOTHING, now_shown("dead", "dead", code=137, started=NOW, finished=second(30)))})

# a clock that jumps eight days at a time: the machine's goes a week at most
WEEK_ON = "2023-11-21T22:13:20.000000000Z"
scenario("clock_of_eight_days", [create("web", ECHO), post("/containers/web/start"), logs("web", STAMPED), get("/containers/web/json")],
         [created(0), answer(204), logged([f"{WEEK_ON} hi\n"]), shown(0, "web", ECHO, "exited", started=WEEK_ON, finished=WEEK_ON)],
         words="--stdio --clock 1700000000000:691200000")
