"""Scenarios of events: lines in chunks, a chunk of those that are there when they are asked for, and the last one once `until` has come."""
from exchange import *
from lives import *
from states import *


def line(action, of, kind="container", ms=0, **attributes):
    return compact({"Action": action, "Actor": {"Attributes": dict(sorted(attributes.items())), "ID": of}, "Type": kind,
                    "scope": "local", "time": 1700000000 + ms // 1000, "timeNano": (1700000000000 + ms) * 1000000}) + "\n"


def told(action, n=0, name="web", ms=0, **more):
    """The line of a container's event."""
    return line(action, id_of(n), ms=ms, image="engine/tools:latest", name=name, **more)


def events_head(first, close=False):
    lines = ["HTTP/1.1 200 OK", "Api-Version: 1.43"] + (["Connection: close"] if close else [])
    return "\r\n".join(lines + ["Content-Type: application/json", "Server: engined", "Transfer-Encoding: chunked",
                                f"X-Engine-From: {first}", "", ""])


def events_chunk(lines):
    piece = "".join(lines)
    return f"{len(piece):x}\r\n{piece}\r\n"


def followed(first, *chunks, close=False):
    """The answer to a request for events, with the number of its first one. A chunk is a list of lines."""
    return events_head(first, close) + "".join(map(events_chunk, chunks)) + "0\r\n\r\n"


def events(query="", method="GET", **filters):
    keys = "&filters=" + urllib.parse.quote(compact(filters)) if filters else ""
    return get(f"/events?{query}{keys}", method)


ALL = "since=0&until=1700000000"
LASTS_A_MINUTE = ["sleep", "60000"]
KILLED = [create("web", LASTS_A_MINUTE), post("/containers/web/start"), post("/containers/web/pause"), post("/containers/web/kill")]
KILLED_ANSWERS = [created(0), answer(204), answer(204), answer(204)]
LIFE = [told("create"), told("start"), told("pause"), told("kill", signal="9"), told("unpause"), told("die", exitCode="137")]

# from the first one on; from the next one on, also where no event is as late as `since`; and up to a moment before all of them
scenario("events", KILLED + [events(ALL), events("until=1700000000"), events("since=1700000001&until=1700000000"),
                             events("since=1700000000.000&until=1700000000"), events("since=5.&until=1699999999.999999999"),
                             events("since=0&until=0"), get("/v1.43/events?since=0&until=1700000000&more=1"), get("/_ping")],
         KILLED_ANSWERS + [followed(0, LIFE), followed(6), followed(6), followed(0, LIFE), followed(0), followed(0),
                           followed(0, LIFE), answer(200, "OK", kind="text/plain; charset=utf-8")],
         comings=("pieces=1", "pieces=4096"))
scenario("events_and_close", [WEB, f"GET /events?{ALL} HTTP/1.1\r\nHost: x\r\nConnection: close\r\n\r\n", get("/_ping")],
         [created(0), followed(0, [told("create")], close=True)])

# by each filter; the values of a key are alternatives, and all keys have to fit
PLACED = compact({"Image": "engine/tools", "Cmd": ["sleep", "600000"], "HostConfig": {"Binds": ["data:/data"]}})
MADE, DB = line("create", "data", kind="volume", driver="local"), told("create", 1, "db")
MOUNTED = line("mount", "data", kind="volume", container=id_of(1), driver="local")
STARTED_DB = told("start", 1, "db")
scenario("events_filtered", KILLED + [
    create("db", body=PLACED), post("/containers/db/start"), events(ALL, event=["die", "kill"]), events(ALL, container=["db"]),
    events(ALL, container=[id_of(0)], event=["create"]), events(ALL, container=["db", "web"], event=["start"]),
    events(ALL, type=["volume"]), events(ALL, volume=["data"]), events(ALL, image=["engine/tools"], event=["create"]),
    events(ALL, image=["busybox"]), events(ALL, type=["network"]), events(ALL, event=[]), events(ALL)],
    KILLED_ANSWERS + [created(1), answer(204), followed(0, [LIFE[3], LIFE[5]]), followed(0, [DB, STARTED_DB]), followed(0, LIFE[:1]),
                      followed(0, [LIFE[1], STARTED_DB]), followed(0, [MADE, MOUNTED]), followed(0, [MADE, MOUNTED]),
                      followed(0, [LIFE[0], DB]), followed(0), followed(0), followed(0),
                      followed(0, LIFE + [MADE, DB, MOUNTED, STARTED_DB])])

# what comes while it is followed, up to a moment that is still to come: each look in which there is something is a chunk
RUNS = [[told("create"), told("start"), told("die", exitCode="1")], [told("start", ms=100), told("die", ms=100, exitCode="1")],
        [told("start", ms=300), told("die", ms=300, exitCode="0")]]
scenario("events_followed", [create("web", body=with_policy(["flaky", "2"], ("on-failure", 5))), post("/containers/web/start"),
                             events("since=0&until=1700000001"), events("since=1700000000.1&until=1700000001")],
         [created(0), answer(204), followed(0, *RUNS), followed(3, RUNS[1] + RUNS[2])])
# a stop: its signal, at the deadline KILL, the end of the run, and then the stop
STOPS = [create("web", TRAP), post("/containers/web/start"), post("/containers/web/stop?t=1"),
         create("db", DEAF), post("/containers/db/start"), post("/containers/db/stop?t=1")]
scenario("events_of_stops", STOPS[:3] + [events("since=0&until=1700000000.5")] + STOPS[3:] + [
    events("since=0&until=1700000001.5", container=["db"])],
    [created(0), answer(204), answer(204),
     followed(0, [told("create"), told("start"), told("kill", signal="15"), told("die", ms=500, exitCode="0"), told("stop", ms=500)]),
     created(1), answer(204), answer(204),
     followed(0, [told("create", 1, "db", 500), told("start", 1, "db", 500), told("kill", 1, "db", 500, signal="15"),
                  told("kill", 1, "db", 1500, signal="9"), told("die", 1, "db", 1500, exitCode="137"), told("stop", 1, "db", 1500)])])
scenario("events_of_a_rename", [WEB, post("/containers/web/rename?name=site"), get("/containers/site", "DELETE"), events(ALL)],
         [created(0), answer(204), answer(204),
          followed(0, [told("create"), told("rename", name="site", oldName="web"), told("destroy", name="site")])])

# what breaks off has no last chunk: where a write fails, and where the clock is stopped; without `until` it never ends
scenario("events_broken_off", [WEB, events(ALL), get("/_ping")], "", status=4, comings=(
    ("write=1", created(0)),
    ("write=2", created(0) + events_head(0)),
    ("write=3", created(0) + events_head(0) + events_chunk([told("create")])),
    ("write=4", created(0) + followed(0, [told("create")]))))
scenario("events_stopped", [WEB, events("since=0"), get("/_ping")], [created(0), events_head(0) + events_chunk([told("create")])],
         status=5, words="--stdio", comings=("stop=0", "stop=7"))

# refused, in the order of the query's keys, and where there is no room for the call
BAD_MOMENT, BAD_FILTER = message(400, "bad time"), message(400, "invalid filter")
scenario("events_refused", [
    events("since=x&until=x"), events("since="), events("until=1.1234567890"), events("until=-1"), events("until=x", colour=["red"]),
    events(colour=["red"]), get("/events?filters=%5B%5D"), events(ALL, "POST"), events(ALL, "HEAD")],
    [BAD_MOMENT, BAD_MOMENT, BAD_MOMENT, BAD_MOMENT, BAD_MOMENT, BAD_FILTER, BAD_FILTER, message(404, "page not found"),
     message(404, "page not found", head=True)])
scenario("journal_of_two", [WEB, events(ALL), events(ALL), get("/_ping")],
         [created(0), followed(0, [told("create")]), message(503, "journal is full"),
          answer(200, "OK", kind="text/plain; charset=utf-8")], words=f"{STDIO} --journal 2")
