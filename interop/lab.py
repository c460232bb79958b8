#!/usr/bin/env python3
"""enginelab as a harness has it: its line, its clock, its journal, and each of its ends.

    interop/lab.py PATH_OF_ENGINELAB [PATH_OF_DOCKC]   (outside the gate)

The journal is checked by dockc where its path is given.
"""
import http.client
import json
import pathlib
import socket
import subprocess
import sys
import threading
import time
import urllib.parse

from steps import Steps

steps = Steps("enginelab")
program = sys.argv[1]
dockc = sys.argv[2] if len(sys.argv) > 2 else None
START = 1_700_000_000_000
MOST = 5.0


class Lab:
    """One process, up to its end."""

    def __init__(self, *words):
        self.process = subprocess.Popen([program, *words], stdin=subprocess.PIPE, stdout=subprocess.PIPE,
                                        stderr=subprocess.PIPE)
        self.line = json.loads(self.process.stdout.readline())
        self.daemon = int(self.line["listening"].rpartition(":")[2])
        self.control = int(self.line["control"].rpartition(":")[2])

    def ask(self, method, path, body=None, port=None, **fields):
        link = http.client.HTTPConnection("127.0.0.1", port or self.daemon, timeout=20)
        fields = {name.replace("_", "-"): value for name, value in fields.items()}
        if body:
            fields["Content-Type"] = "application/json"
        link.request(method, path, json.dumps(body) if body else None, fields)
        answer = link.getresponse()
        it = answer.status, answer.read().decode()
        link.close()
        return it

    def told(self, method, path):
        return self.ask(method, path, port=self.control)

    def moment(self):
        return json.loads(self.told("GET", "/clock")[1])["moment"]

    def ends(self):
        """Its status, standard error and how long it took."""
        begun = time.monotonic()
        try:
            status = self.process.wait(MOST)
        except subprocess.TimeoutExpired:
            self.process.kill()
            return "none", "", MOST
        return status, self.process.stderr.read().decode(), time.monotonic() - begun


def same(what, found, wanted):
    return steps.tell(what, None if found == wanted else f"{found!r}, and not {wanted!r}")


def run(*words):
    it = subprocess.run([program, *words], stdin=subprocess.DEVNULL, capture_output=True, timeout=20)
    return it.returncode, it.stdout.decode(), it.stderr.decode()


def in_thread(call):
    """Makes the call in a thread: its answer, once there is one, is the list's only item."""
    answers = []

    def make():
        try:
            answers.append(call())
        except Exception as why:
            answers.append(repr(why))
    it = threading.Thread(target=make)
    it.start()
    return it, answers


def ended(what, lab, told):
    status, error, took = lab.ends()
    same(f"{what}: status 0, and why", (status, error), (0, f"enginelab: {told}\n"))
    steps.tell(f"{what}: within a second and a half", None if took < 1.5 else f"{took:.1f} s")


# ---- the line
same("--version", run("--version"), (0, "enginelab 1.0.0\n", ""))
same("--help", (run("--help")[0], run("--help")[1].startswith("usage: enginelab ")), (0, True))
same("a word that is none", run("--no"), (2, "", "enginelab: a word is no option\n"))
same("a clock that is none", run("--clock", "x")[0], 2)
status, out, error = run()
same("standard input that has ended", (status, json.loads(out)["seed"], error), (0, "0" * 64, "enginelab: standard input ended\n"))

# ---- a clock by hand
lab = Lab("--clock", f"hand:{START}")
same("the starting line", (lab.line["seed"], lab.line["moment"]), ("0" * 64, START))
same("the moment", lab.told("GET", "/clock"), (200, f'{{"moment":{START}}}'))
same("its moves: by", lab.told("POST", "/clock?by=1000"), (200, f'{{"moment":{START + 1000}}}'))
same("to", lab.told("POST", f"/clock?to={START + 1500}"), (200, f'{{"moment":{START + 1500}}}'))
same("back: 400", (lab.told("POST", f"/clock?to={START}")[0], lab.moment()), (400, START + 1500))
same("too far: 400", (lab.told("POST", "/clock?by=604800001")[0], lab.moment()), (400, START + 1500))
same("no number: 400", (lab.told("POST", "/clock?by=x")[0], lab.moment()), (400, START + 1500))
same("another request: 404", lab.told("GET", "/nothing")[0], 404)
same("the description", lab.told("GET", "/openapi.yaml")[1].startswith("openapi: 3.0.3\n"), True)

# ---- the front
same("info", [json.loads(it)["ServerVersion"] if status == 200 else status for status, it in [lab.ask("GET", "/v1.41/info")]], ["1.0.0"])
same("the list of images", [it["RepoTags"] for it in json.loads(lab.ask("GET", "/images/json")[1])], [["engine/tools:latest"]])
same("by reference", lab.ask("GET", "/v1.43/images/json?filters=%7B%22reference%22%3A%7B%22redis%22%3Atrue%7D%7D"), (200, "[]"))
same("an image", lab.ask("GET", "/v1.43/images/engine/tools/json")[0], 200)
same("another", lab.ask("GET", "/v1.43/images/redis:7/json"), (404, '{"message":"No such image"}'))
same("an image fetched", lab.ask("POST", "/v1.43/images/create?fromImage=engine%2Ftools&tag=latest")[0], 200)
same("another", lab.ask("POST", "/v1.43/images/create?fromImage=redis&tag=7")[0], 404)
same("the networks", [it["Name"] for it in json.loads(lab.ask("GET", "/v1.43/networks")[1])], ["bridge", "host", "none"])
same("disk use", lab.ask("GET", "/v1.43/system/df")[0], 200)
same("volumes without a name are pruned: there is none", lab.ask("POST", "/v1.43/volumes/prune"), (200, '{"VolumesDeleted":null,"SpaceReclaimed":0}'))
same("all volumes pruned", lab.ask("POST", "/v1.43/volumes/prune?filters=%7B%22all%22%3A%5B%22true%22%5D%7D"), (501, '{"message":"prune is left out"}'))
same("containers pruned", lab.ask("POST", "/v1.43/containers/prune"), (501, '{"message":"prune is left out"}'))
same("what isn't the front's", lab.ask("GET", "/v1.43/_ping"), (200, "OK"))
link = socket.create_connection(("127.0.0.1", lab.daemon))
link.sendall(b"GET /_ping HTTP/1.1\r\nHost: x\r\n\r\nGET /v1.43/info HTTP/1.1\r\nHost: x\r\n\r\nGET /v1.43/version HTTP/1.1\r\nHost: x\r\nConnection: close\r\n\r\n")
got = b""
while piece := link.recv(65536):
    got += piece
same("three at once, each in its place", [got.find(it) for it in (b"OK", b"IndexServerAddress", b"MinAPIVersion")] == sorted(got.find(it) for it in (b"OK", b"IndexServerAddress", b"MinAPIVersion")) and min(got.find(it) for it in (b"OK", b"IndexServerAddress", b"MinAPIVersion")) > 0, True)

# ---- the head of a wait
def head_of_a_wait(fields):
    """What came of the answer to a wait within half a second."""
    link = socket.create_connection(("127.0.0.1", lab.daemon))
    link.settimeout(0.5)
    link.sendall(f"POST /v1.43/containers/early/wait HTTP/1.1\r\nHost: x\r\n{fields}\r\n".encode())
    try:
        got = link.recv(65536)
    except TimeoutError:
        got = b""
    link.close()
    return got.partition(b"\r\n")[0]


same("a create", lab.ask("POST", "/v1.43/containers/create?name=early", {"Image": "engine/tools", "Cmd": ["deaf"]})[0], 201)
same("and its start", lab.ask("POST", "/v1.43/containers/early/start")[0], 204)
same("the head of a wait comes early", head_of_a_wait("Content-Length: 0\r\n"), b"HTTP/1.1 200 OK")
same("to every client", head_of_a_wait("User-Agent: compose\r\n"), b"HTTP/1.1 200 OK")
same("but where it says no", head_of_a_wait("X-Engine-Early: no\r\n"), b"")
same("its removal", lab.ask("DELETE", "/v1.43/containers/early?force=1")[0], 204)

# ---- the container of a name
made = ["web", "web2", "my.web"] + [f"other{place}" for place in range(30)]
same("creates", {lab.ask("POST", f"/v1.43/containers/create?name={it}", {"Image": "engine/tools", "Labels": {"of": it}})[0] for it in made}, {201})


def named(filters, more="all=1"):
    """The names that a list shows by these filters."""
    status, text = lab.ask("GET", f"/v1.43/containers/json?{more}&filters={urllib.parse.quote_plus(filters)}")
    return sorted(it["Names"][0] for it in json.loads(text)) if status == 200 else status


same("by a part", named('{"name":["web"]}'), ["/my.web", "/web", "/web2"])
for filters in ('{"name":["^/%s$"]}', '{"name": ["^/%s$"]}', '{"name":{"^/%s$":true}}', '{"name":["^%s$"]}'):
    same(f"by {filters}", [named(filters % it) for it in ("web", "web2", "my.web", "other7", "we")], [["/web"], ["/web2"], ["/my.web"], ["/other7"], []])
same("of those that run", named('{"name":["^/web$"]}', "limit=-1"), [])
same("without one", len(json.loads(lab.ask("GET", "/v1.43/containers/json?all=1")[1])), len(made))
same("their removal", {lab.ask("DELETE", f"/v1.43/containers/{it}")[0] for it in made}, {204})

until = lab.ask("GET", f"/v1.43/events?until={(START + 1500) / 1000}")
same("events up to a moment begin with the first", (until[0], [json.loads(it)["Action"] for it in until[1].splitlines()][:2]), (200, ["create", "start"]))

# ---- a wait that a move ends
same("a create", lab.ask("POST", "/v1.43/containers/create?name=long", {"Image": "engine/tools", "Cmd": ["sleep", "60000"]})[0], 201)
same("its start", lab.ask("POST", "/v1.43/containers/long/start")[0], 204)
waiting, answers = in_thread(lambda: lab.ask("POST", "/v1.43/containers/long/wait"))
time.sleep(0.5)
same("a wait goes on", answers, [])
lab.told("POST", "/clock?by=59999")
time.sleep(0.3)
same("and on before its moment", answers, [])
begun = time.monotonic()
lab.told("POST", "/clock?by=1")
waiting.join(5)
same("a move ends it", answers, [(200, '{"Error":null,"StatusCode":0}')] if answers and "Error" in str(answers[0]) else [(200, '{"StatusCode":0}')])
steps.tell("at once", None if time.monotonic() - begun < 0.5 else "late")

# ---- the journal
status, journal = lab.told("GET", "/journal")
same("the journal", (status, journal.startswith('{'), '"op":"wait"' in journal), (200, True, True))
if dockc:
    it = subprocess.run([dockc, "127.0.0.1:1", "replay"], input=journal.encode(), capture_output=True)
    same("is legal", (it.returncode, it.stdout.startswith(b"legal ")), (0, True))

# ---- its end by control, beside those that wait
same("another create", lab.ask("POST", "/v1.43/containers/create?name=other", {"Image": "engine/tools", "Cmd": ["deaf"]})[0], 201)
same("and start", lab.ask("POST", "/v1.43/containers/other/start")[0], 204)
waiting, answers = in_thread(lambda: lab.ask("POST", "/v1.43/containers/other/wait", X_Engine_Early="no"))
events, told = in_thread(lambda: lab.ask("GET", "/v1.43/events"))
idle = [socket.create_connection(("127.0.0.1", port)) for port in (lab.daemon, lab.control) * 5]
half = socket.create_connection(("127.0.0.1", lab.daemon))
half.sendall(b"GET /_ping HTTP/1.1\r\nHo")
time.sleep(0.5)
same("stop", lab.told("POST", "/stop"), (200, "{}"))
ended("stop", lab, "control stopped it")
waiting.join(5)
events.join(5)
same("a wait is told", [it[0] for it in answers if isinstance(it, tuple)], [503])
same("idle connections meet their end", {it.recv(1) for it in idle}, {b""})

# ---- its end by standard input
for words in (["--clock", f"hand:{START}"], ["--clock", f"{START}:1"], []):
    lab = Lab(*words)
    kind = " ".join(words) or "the system's clock"
    same(f"{kind}: a ping", lab.ask("GET", "/_ping"), (200, "OK"))
    lab.ask("POST", "/v1.43/containers/create?name=other", {"Image": "engine/tools", "Cmd": ["deaf"]})
    lab.ask("POST", "/v1.43/containers/other/start")
    idle = socket.create_connection(("127.0.0.1", lab.daemon))
    events, told = in_thread(lambda: lab.ask("GET", "/v1.43/events"))
    time.sleep(0.3)
    if not words:
        same("it can't be moved: 400", lab.told("POST", "/clock?by=1")[0], 400)
    lab.process.stdin.close()
    ended(kind, lab, "standard input ended")
    events.join(5)

# ---- addresses
lab = Lab()
same("a port that is taken", run("--listen", f"127.0.0.1:{lab.daemon}"), (4, "", "enginelab: the address of --listen can't be bound\n"))
same("of control", run("--control", f"127.0.0.1:{lab.control}"), (4, "", "enginelab: the address of --control can't be bound\n"))
lab.process.stdin.close()
ended("at last", lab, "standard input ended")
steps.end()
