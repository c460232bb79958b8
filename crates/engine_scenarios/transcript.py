#!/usr/bin/env python3
"""Writes data/, stdin and stdout: the scenarios of the files beside it, and its own of waits, volumes, execs and refusals.

Run it here after a change, and look at the difference.
"""
import os
import urllib.parse

from exchange import *
import lives  # (each adds its scenarios, in this order)
import drills
import states
import logs
import waits
import talks
import beside
import events
import journals
import takeovers
import sockets
import updates

HERE = os.path.dirname(os.path.abspath(__file__))

# a wait whose head comes before it is over, by a field of the request; the field counts for nothing else
EARLY = "X-ENGINE-Early: WAIT\r\n"


def in_chunks(*pieces, close=False):
    lines = ["HTTP/1.1 200 OK", "Api-Version: 1.43"] + (["Connection: close"] if close else [])
    head = "\r\n".join(lines + ["Content-Type: application/json", "Server: engined", "Transfer-Encoding: chunked", "", ""])
    return head + "".join(f"{len(piece):x}\r\n{piece}\r\n" for piece in pieces) + "0\r\n\r\n"


SOON = [create("web", ["sleep", "10"]), post("/containers/web/start")]
scenario("wait_early", SOON + [post("/containers/web/wait", more=EARLY), post("/containers/web/wait", more="X-Engine-Early: now\r\n"),
                                post("/containers/db/wait", more=EARLY), post("/containers/web/start", more=EARLY),
                                post("/containers/web/stop", more=EARLY), post("/containers/web/wait", more=EARLY + "Connection: close\r\n")],
         [created(0), answer(204), in_chunks(compact({"StatusCode": 0})), answer(200, compact({"StatusCode": 0})),
          message(404, "No such container: db"), answer(204), answer(204), in_chunks(compact({"StatusCode": 143}), close=True)],
         comings=("pieces=1", "pieces=4096"))
# or since its client is Docker's own or one on Go's, by how its name begins; and never with a no
DOCKER, GO, NO = "User-Agent: Docker-Client/20.10.24 (linux)\r\n", "USER-AGENT: go-http-client/1.1\r\n", "X-Engine-Early: No\r\n"
OVER = answer(200, compact({"StatusCode": 0}))


def wait_with(fields):
    return post("/containers/web/wait", more=fields)


scenario("wait_early_by_its_client", SOON + [
    wait_with(DOCKER), wait_with(GO), wait_with(DOCKER + NO), wait_with(NO + GO), wait_with(EARLY + NO),
    wait_with("User-Agent: curl/8.5.0 Docker-Client/1\r\n"), wait_with("User-Agent: Docker-Client\r\n"),
    wait_with("X-User-Agent: Docker-Client/20.10.24\r\n"), post("/containers/db/wait", more=DOCKER),
    post("/containers/web/start", more=DOCKER), post("/containers/web/stop", more=GO), wait_with(GO + "Connection: close\r\n")],
    [created(0), answer(204), in_chunks(compact({"StatusCode": 0})), in_chunks(compact({"StatusCode": 0})), *[OVER] * 6,
     message(404, "No such container: db"), answer(204), answer(204), in_chunks(compact({"StatusCode": 143}), close=True)])
# volumes of mounts, and standard input that nobody feeds
BINDS = compact({"Image": "engine/tools", "HostConfig": {"Binds": ["data:/srv:ro", "data:/copy"], "Mounts": [
    {"Type": "volume", "Source": "logs", "Target": "/logs"}]}})
MOUNTS = [mount("data", "/srv", False), mount("data", "/copy"), mount("logs", "/logs")]
scenario("mounts", [create("web", body=BINDS), create("db"), get("/containers/web/json"), filtered({"volume": ["logs"]}),
                    get("/containers/json?all=1&filters=" + urllib.parse.quote(compact({"volume": ["data", "none"]}))),
                    post("/containers/web/start"), get("/containers/web/json")],
         [created(0), created(1), shown(0, "web", ["hello"], "created", mounts=MOUNTS), listed(),
          listed(item(0, "web", ["hello"], "created", "Created", mounts=MOUNTS)), answer(204),
          shown(0, "web", ["hello"], "exited", started=NOW, finished=NOW, mounts=MOUNTS)])
# volumes that a call makes: one that stands stays as it is, and lists are in byte order of names
LOGS = volume("logs", {"tier": "one"}, moment(10))
CACHE = volume("Cache", at=moment(20))
scenario("volumes", [
    get("/volumes"), create_volume("logs", {"tier": "one"}), create_volume("Cache"), create_volume("logs"),
    get("/v1.43/volumes/logs"), get("/volumes"), volumes_filtered({"name": ["og"]}), volumes_filtered({"name": ["x", "ach"]}),
    volumes_filtered({"name": []}), get("/volumes/none"), get("/volumes/none", "DELETE"),
    get("/volumes/logs?force=1", "DELETE"), get("/volumes/logs"), get("/volumes"), create_volume("logs"), get("/volumes"),
    create_volume("a"), post("/volumes/create", '{"Name":"aa","Driver":"nfs"}'), volumes_filtered({"label": ["tier"]})],
    [volumes(), answer(201, compact(LOGS)), answer(201, compact(CACHE)), answer(201, compact(LOGS)),
     answer(200, compact(LOGS)), volumes(CACHE, LOGS), volumes(LOGS), volumes(CACHE),
     volumes(), message(404, "get none: no such volume"), message(404, "get none: no such volume"),
     answer(204), message(404, "get logs: no such volume"), volumes(CACHE), answer(201, compact(volume("logs", at=moment(140)))),
     volumes(CACHE, volume("logs", at=moment(140))),
     message(400, "bad volume name"), message(400, "bad driver"), message(400, "invalid filter")],
    words="--stdio --clock 1700000000000:10")
DATA_IN_USE = message(409, "remove data: volume is in use")
scenario("volumes_in_use", [
    create("web", body=BINDS), get("/volumes"), get("/volumes/data", "DELETE"), post("/containers/web/start"),
    get("/volumes/data", "DELETE"), create_volume("data", {"tier": "one"}), create_volume("spare"),
    get("/volumes/logs", "DELETE"), get("/volumes/spare", "DELETE"), get("/volumes")],
    [created(0), volumes(volume("data"), volume("logs")), DATA_IN_USE, answer(204),
     DATA_IN_USE, answer(201, compact(volume("data"))), answer(201, compact(volume("spare"))),
     message(409, "remove logs: volume is in use"), answer(204), volumes(volume("data"), volume("logs"))])
DATA1 = compact({"Image": "engine/tools", "HostConfig": {"Binds": ["data1:/d"]}})
scenario("volume_of_what_is_removed", [
    create("web", body=DATA1), get("/volumes/data1", "DELETE"), get("/containers/web", "DELETE"), get("/volumes/data1", "DELETE"),
    get("/volumes/data1", "DELETE")],
    [created(0), message(409, "remove data1: volume is in use"), answer(204), answer(204),
     message(404, "get data1: no such volume")])
INPUT = compact({"Image": "engine/tools", "Cmd": ["cat"], "OpenStdin": True, "StdinOnce": True, "StopSignal": "SIGINT"})
scenario("open_input", [create("web", body=INPUT), post("/containers/web/start"), get("/containers/web/json"),
                        post("/containers/web/kill?signal=INT"), get("/containers/web/json")],
         [created(0), answer(204), shown(0, "web", ["cat"], "running", pid=1001, started=NOW, stdin=True, stop="SIGINT"),
          answer(204), shown(0, "web", ["cat"], "exited", code=130, started=NOW, finished=NOW, stdin=True, stop="SIGINT")])

# execs: made in a container that runs, with the numbers that containers have
scenario("execs", [
    create_exec("web", ECHO), create("web", LONG), create_exec("web", ECHO), post("/containers/web/start"),
    create_exec("web", ECHO, AttachStdout=True), create("db"),
    create_exec(id_of(0), ["cat"], AttachStdin=True, AttachStderr=True), get(f"/v1.43/exec/{id_of(1)}/json"),
    get(f"/exec/{id_of(3)}/json"), get("/exec/none/json"), get(f"/exec/{id_of(1)[:12]}/json"), get(f"/exec/{id_of(0)}/json"),
    post("/containers/web/pause"), create_exec("web", ECHO), get(f"/exec/{id_of(1)}/json"), post("/containers/web/unpause"),
    create_exec("web", ["nope"]), post("/containers/web/kill"), create_exec("web", ECHO), get(f"/exec/{id_of(4)}/json")],
    [message(404, "No such container: web"), created(0), NOT_RUNNING, answer(204),
     answer(201, compact({"Id": id_of(1)})), created(2),
     answer(201, compact({"Id": id_of(3)})), exec_shown(1, 0, ECHO, out=True),
     exec_shown(3, 0, ["cat"], stdin=True, err=True), message(404, "No such exec instance: none"),
     message(404, f"No such exec instance: {id_of(1)[:12]}"), message(404, f"No such exec instance: {id_of(0)}"),
     answer(204), message(409, f"Container {id_of(0)} is paused, unpause the container first"),
     exec_shown(1, 0, ECHO, out=True), answer(204),
     answer(201, compact({"Id": id_of(4)})), answer(204), NOT_RUNNING, exec_shown(4, 0, ["nope"])])

refused("too_long", "POST /v1.43/containers/create HTTP/1.1\r\nHost: x\r\nContent-Length: 1048577\r\n\r\n", 413)
refused("without_host", "GET /_ping HTTP/1.1\r\n\r\n", 400)
refused("two_hosts", "GET /_ping HTTP/1.1\r\nHost: x\r\nHost: y\r\n\r\n", 400)
refused("old_version", "GET /_ping HTTP/1.0\r\nHost: x\r\n\r\n", 505)
refused("expecting", "POST /containers/create HTTP/1.1\r\nHost: x\r\nExpect: 100-continue\r\nContent-Length: x\r\n\r\n", 417)
refused("length_of_letters", "POST /containers/create HTTP/1.1\r\nHost: x\r\nContent-Length: x\r\n\r\n", 400)
# requests right behind each other, of which one has no answer's body and one a body that looks like a request, in pieces of
# every size; and each answer is one write
scenario("four_requests", [WEB, PING, get("/_ping", "HEAD"), post("/x", "GET /"), get("/containers/web/json")],
         [created(0), PONG, answer(200, "OK", kind="text/plain; charset=utf-8", head=True), message(404, "page not found"),
          shown(0, "web", ["hello"], "created")], comings=tuple(f"pieces={size}" for size in range(1, 41)))
scenario("one_write_an_answer", [WEB, PING, PING], "", status=4, comings=(
    ("write=1", created(0)), ("write=2", created(0) + PONG)))
# bodies by chunks, with trailers, and what is wrong of them
CHUNKED = "/v1.43/containers/create?name=web"
CHUNKS = ['{"Image":', '"engine/tools:latest"}']
scenario("create_by_chunks", by_chunks(CHUNKED, CHUNKS), created(0), comings=("pieces=1", "pieces=4096", "cuts"))
scenario("create_with_trailers", [by_chunks(CHUNKED, CHUNKS, "A: b\r\n"), get("/_ping")],
         [created(0), answer(200, "OK", kind="text/plain; charset=utf-8")], comings=("pieces=1", "pieces=4096"))
refused("bad_chunk_line", by_chunks(CHUNKED, []).replace("0\r\n\r\n", "zz\r\n"), 400)
refused("no_line_end_behind_a_chunk", by_chunks(CHUNKED, CHUNKS).replace('"Image":\r', '"Image":x'), 400)
refused("long_trailers", by_chunks(CHUNKED, CHUNKS, "A:" + "b" * 4091 + "\r\n"), 400)
refused("chunks_too_long", by_chunks(CHUNKED, CHUNKS).replace("0\r\n\r\n", "fffff\r\n"), 413)
refused("no_request", "\x00\r\n\r\n", 400)
refused("too_many_fields", "GET /_ping HTTP/1.1\r\nHost: x\r\n" + "A: b\r\n" * 64 + "\r\n", 431)
refused("endless_head", "GET /" + "a" * 16384, 431)
scenario("cut_head", "GET /_ping HT", "", status=3)
scenario("api_versions", [get("/v1.44/_ping"), get("/v1.23/_ping"), get("/v1.24/_ping")],
         [message(400, "client version 1.44 is too new. Maximum supported API version is 1.43"),
          message(400, "client version 1.23 is too old. Minimum supported API version is 1.24"),
          answer(200, "OK", kind="text/plain; charset=utf-8")])
scenario("ping", [get("/_ping"), get("/_ping", "HEAD"), get("/version"), get("/nothing"), get("/containers/a%zz/json")],
         [answer(200, "OK", kind="text/plain; charset=utf-8"), answer(200, "OK", kind="text/plain; charset=utf-8", head=True),
          answer(200, '{"ApiVersion":"1.43","Arch":"amd64","MinAPIVersion":"1.24","Os":"linux","Version":"1.0.0"}'),
          message(404, "page not found"), message(400, "bad path")])
scenario("closing", ["GET /_ping HTTP/1.1\r\nHost: x\r\nConnection: close\r\n\r\n", WEB],
         answer(200, "OK", kind="text/plain; charset=utf-8", close=True))
scenario("queries", [
    post("/containers/web/rename?name=a"), post("/containers/web/kill?signal=NOPE"), post("/containers/web/stop?t=-2"),
    get("/containers/json?limit=x"), get("/containers/web/logs?stdout=1&tail=x"), post("/containers/web/wait?condition=x"),
    get("/containers/web/logs?stdout=1&since=x"), get("/containers/web/logs"), get("/containers/web?link=1", "DELETE"),
    get("/containers/json?filters=x"), post("/containers/create?name=a", "[]"),
    post("/containers/web/stop?signal=9&signal=NOPE"), get("/events?until=1.1234567890")],
    [message(400, "Invalid container name (a)"), message(400, "Invalid signal: NOPE"), message(400, "bad t"),
     message(400, "bad limit"), message(400, "bad tail"), message(400, "bad condition"), message(400, "bad time"),
     message(400, "you must choose at least one stream"), message(400, "links are left out"),
     message(400, "invalid filter"), message(400, "bad JSON"), message(404, "No such container: web"), message(400, "bad time")])


def main():
    os.makedirs(f"{HERE}/data", exist_ok=True)
    for old in os.listdir(f"{HERE}/data"):
        os.remove(f"{HERE}/data/{old}")
    lines, told = [], []
    for name, text, comings, words, status, wanted in SCENARIOS:
        with open(f"{HERE}/data/{name}", "w", newline="", encoding="latin-1") as file:
            file.write(text)
        for coming in comings:
            coming, front = coming if isinstance(coming, tuple) else (coming, None)
            lines.append(f"{name} {coming} {words}".strip() + "\n")
            how, _, number = coming.partition("=")
            if how == "talk":
                told.append(f"== {name}\nstatus {status}{wanted}\n")
            elif how == "sockets":
                told.append(f"== {name} over sockets\nstatus {status}{wanted}\n")
            elif how == "crowd":
                told.append(f"== {name} at once\nstatus {status}, {wanted}")
            elif how == "taken":
                told.append(f"== {name} at a taken port\nstatus {status}\n")
            elif how == "cuts":
                told.append(f"== {name} cut after each byte\n{len(text) - 1} cuts: status 3, nothing written\n")
            elif how == "pieces":
                told.append(f"== {name} in pieces of {number}\nstatus {status}\n{wanted}\n")
            elif how == "stop":
                told.append(f"== {name} with pause {number} stopped\nstatus {status}\n{wanted}\n")
            elif how == "read" and "--drill" in words:  # nothing is read
                told.append(f"== {name} with {how} {number} failing\nstatus {status}\n{wanted}\n")
            elif status == 2 or "--listen" in words:  # nor is it here, and a write that fails stays untold
                told.append(f"== {name} with {how} {number} failing\nstatus {status}\n{wanted if how == 'read' else ''}\n")
            else:
                told.append(f"== {name} with {how} {number} failing\nstatus 4\n{front or ''}\n")
    with open(f"{HERE}/stdin", "w", newline="", encoding="latin-1") as file:
        file.write("".join(lines))
    with open(f"{HERE}/stdout", "w", newline="", encoding="latin-1") as file:  # (bytes as they are)
        file.write("".join(told))


main()
