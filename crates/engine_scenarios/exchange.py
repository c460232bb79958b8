"""What is asked and answered: requests by hand, the answers that the public rules give them, and the list of scenarios.

It computes nothing with the daemon's code: ids are made from RFC 8439's block function, texts are
written out from docs/API.md.
"""
import json
import struct
import urllib.parse

PHRASES = {200: "OK", 201: "Created", 204: "No Content", 304: "Not Modified", 400: "Bad Request", 404: "Not Found",
           409: "Conflict", 413: "Payload Too Large", 417: "Expectation Failed", 431: "Request Header Fields Too Large",
           503: "Service Unavailable", 505: "HTTP Version Not Supported"}
STDIO = "--stdio --clock 1700000000000:0"
NOW = "2023-11-14T22:13:20.000000000Z"  # the moment 1700000000000
NEVER = "0001-01-01T00:00:00Z"

# what containers run here, and a policy
DEAF = ["deaf"]
ECHO = ["echo", "hi"]
FAILS = ["exit", "1"]
LONG = ["sleep", "600000"]
LASTS = ["stuck", "30000"]  # in an op that can't be interrupted
ALWAYS = ("always", 0)


# ---- ids: 24 bytes of the ChaCha20 keystream of the seed as its key on the stream n, and n

ZEROS = bytes(32)


def keystream(n, seed, block=0):
    state = list(struct.unpack("<4I8I", b"expand 32-byte k" + seed)) + [block, 0, n & 0xFFFFFFFF, n >> 32]
    work = state[:]

    def quarter(a, b, c, d):
        for x, y, z, by in ((a, b, d, 16), (c, d, b, 12), (a, b, d, 8), (c, d, b, 7)):
            work[x] = (work[x] + work[y]) & 0xFFFFFFFF
            turned = work[z] ^ work[x]
            work[z] = ((turned << by) | (turned >> (32 - by))) & 0xFFFFFFFF

    for _ in range(10):
        for i in range(4):
            quarter(i, 4 + i, 8 + i, 12 + i)
        for i in range(4):
            quarter(i, 4 + (i + 1) % 4, 8 + (i + 2) % 4, 12 + (i + 3) % 4)
    return struct.pack("<16I", *((a + b) & 0xFFFFFFFF for a, b in zip(work, state)))


def id_of(n, seed=ZEROS):
    return keystream(n, seed)[:24].hex() + f"{n:016x}"


# ---- requests

def compact(value):
    return json.dumps(value, separators=(",", ":"), ensure_ascii=False)


def get(target, method="GET"):
    return f"{method} {target} HTTP/1.1\r\nHost: x\r\n\r\n"


def post(target, body="", more=""):
    return f"POST {target} HTTP/1.1\r\nHost: x\r\n{more}Content-Length: {len(body)}\r\n\r\n{body}"


def by_chunks(target, pieces, trailers=""):
    chunks = "".join(f"{len(piece):x}\r\n{piece}\r\n" for piece in pieces)
    return f"POST {target} HTTP/1.1\r\nHost: x\r\nTransfer-Encoding: chunked\r\n\r\n{chunks}0\r\n{trailers}\r\n"


def create(name=None, words=None, body=None):
    body = body or compact({"Image": "engine/tools:latest", **({"Cmd": words} if words else {})})
    return post("/v1.43/containers/create" + (f"?name={name}" if name is not None else ""), body)


def with_policy(words, policy):
    return compact({"Image": "engine/tools", "Cmd": words,
                    "HostConfig": {"RestartPolicy": {"Name": policy[0], "MaximumRetryCount": policy[1]}}})


def update(name, policy=None):
    given = {"RestartPolicy": {"Name": policy[0], "MaximumRetryCount": policy[1]}} if policy else {}
    return post(f"/containers/{name}/update", compact(given))


def create_volume(name, labels=None):
    return post("/v1.43/volumes/create", compact({"Name": name, **({"Labels": labels} if labels else {})}))


def create_exec(container, words, **more):
    return post(f"/v1.43/containers/{container}/exec", compact({"Cmd": words, **more}))


def volumes_filtered(filters):
    return get("/volumes?filters=" + urllib.parse.quote(compact(filters)))


def filtered(filters):
    return get("/containers/json?filters=" + urllib.parse.quote(compact(filters)))


WEB = create("web")
FORCE = get("/containers/web?force=1", "DELETE")

# ---- answers

def answer(status, body=None, kind="application/json", close=False, head=False):
    lines = [f"HTTP/1.1 {status} {PHRASES[status]}", "Api-Version: 1.43"]
    lines += ["Connection: close"] if close else []
    lines += [f"Content-Length: {len(body)}", f"Content-Type: {kind}"] if body is not None else []
    return "\r\n".join(lines + ["Server: engined", "", ""]) + ("" if head or body is None else body)


def message(status, text, **more):
    return answer(status, compact({"message": text}), **more)


def bad(status):
    return message(status, PHRASES[status], close=True)


def created(n, seed=ZEROS):
    return answer(201, compact({"Id": id_of(n, seed), "Warnings": []}))


def conflict(name, n):
    return message(409, f'Conflict. The container name "/{name}" is already in use by container "{id_of(n)}". '
                        "You have to remove (or rename) that container to be able to reuse that name.")


PING, PONG = get("/_ping"), answer(200, "OK", kind="text/plain; charset=utf-8")
NOT_RUNNING = message(409, f"Container {id_of(0)} is not running")


UPDATED = answer(200, compact({"Warnings": []}))


def waited(code):
    return answer(200, compact({"StatusCode": code}))


def moment(ms):
    return f"2023-11-14T22:13:20.{ms:03}000000Z"


def second(n):
    return f"2023-11-14T22:13:{20 + n:02}.000000000Z"


def mount(volume, path, writable=True):
    return {"Destination": path, "Driver": "local", "Mode": "", "Name": volume, "RW": writable,
            "Source": f"/var/lib/engine/volumes/{volume}/_data", "Type": "volume"}


def shown(n, name, words, status, code=0, pid=0, started=NEVER, finished=NEVER, policy=("no", 0), restarts=0, mounts=(),
          stdin=False, stop="SIGTERM", made=NOW, auto=False):
    return answer(200, compact({
        "Args": words[1:],
        "Config": {"Cmd": words, "Image": "engine/tools:latest", "Labels": {}, "OpenStdin": stdin, "StdinOnce": stdin,
                   "StopSignal": stop, "StopTimeout": 10, "Tty": False},
        "Created": made,
        "HostConfig": {"AutoRemove": auto, "RestartPolicy": {"MaximumRetryCount": policy[1], "Name": policy[0]}},
        "Id": id_of(n), "Image": "engine/tools:latest", "Mounts": list(mounts), "Name": f"/{name}", "Path": words[0],
        "RestartCount": restarts,
        "State": {"Dead": status == "dead", "Error": "", "ExitCode": code, "FinishedAt": finished, "OOMKilled": False,
                  "Paused": status == "paused", "Pid": pid, "Restarting": status == "restarting",
                  "Running": pid != 0 or status == "restarting", "StartedAt": started, "Status": status}}))


def item(n, name, words, status, text, labels=None, mounts=()):
    return {"Command": " ".join(words), "Created": 1700000000, "Id": id_of(n), "Image": "engine/tools:latest",
            "Labels": labels or {}, "Mounts": list(mounts), "Names": [f"/{name}"], "Ports": [], "State": status,
            "Status": text}


def listed(*items):
    return answer(200, compact(list(items)))


def volume(name, labels=None, at=NOW):
    return {"CreatedAt": at, "Driver": "local", "Labels": labels or {},
            "Mountpoint": f"/var/lib/engine/volumes/{name}/_data", "Name": name, "Options": {}, "Scope": "local"}


def volumes(*items):
    return answer(200, compact({"Volumes": list(items), "Warnings": []}))


def exec_shown(n, container, words, stdin=False, out=False, err=False, code=None):
    return answer(200, compact({
        "CanRemove": False, "ContainerID": id_of(container), "DetachKeys": "", "ExitCode": code, "ID": id_of(n),
        "OpenStderr": err, "OpenStdin": stdin, "OpenStdout": out, "Pid": 0,
        "ProcessConfig": {"arguments": words[1:], "entrypoint": words[0], "privileged": False, "tty": False},
        "Running": False}))


# ---- scenarios: the file, what is in it, how that comes, the words, the status, and what is written

SCENARIOS = []


def scenario(name, requests, wanted, status=0, words=STDIO, comings=("pieces=4096",)):
    text = requests if isinstance(requests, str) else "".join(requests)
    wanted = wanted if isinstance(wanted, str) else "".join(wanted)
    SCENARIOS.append((name + ".http", text, comings, words, status, wanted))


def refused(name, request, status):
    scenario(name, request, bad(status), status=3)


# ---- talks: several connections, one slot behind the other

LISTENS = "--listen 127.0.0.1:2375"
ACTS = ("on", "end", "stop", "gone")


def joined(texts):
    return texts if isinstance(texts, str) else "".join(map(joined, texts))


def slot_line(who, ms, does):
    return f"{who} {ms} {does if does in ACTS else len(does)}"


def talk(name, *slots, status=0, words=LISTENS, ended=(), unheard=()):
    """A slot: the connection, the milliseconds behind the opening, what it does, and what it is written then, until it
    wants more input, pauses or ends. It sends texts, goes on from its pause, its input ends, its pause is answered by a
    stop, or its peer is gone. Behind the last slot the input of each ends, but of those that ended before: by themselves
    are those of `ended`. Slots of `unheard` come behind that, and nothing is written in them."""
    slots = [(who, ms, joined(does), joined(wanted)) for who, ms, does, *wanted in slots]
    over = {who for who, _, does, _ in slots if does in ("end", "stop") or "Connection: close" in does} | set(ended)
    slots += [(who, slots[-1][1], "end", "") for who in sorted({slot[0] for slot in slots} - over)]
    said = [(who, ms, joined(does)) for who, ms, does, *_ in [*slots, *unheard]]
    text = "".join(slot_line(*slot) + "\n" + (slot[2] + "\n" if slot[2] not in ACTS else "") for slot in said)
    told = "".join(f"\n-- {slot_line(who, ms, does)}\n{wanted}" for who, ms, does, wanted in slots)
    SCENARIOS.append((name + ".talk", text, ("talk",), words, status, told))


# ---- courses over sockets, and connections at once

def course(name, *turns, status=0, more=""):
    """A turn: the connection, what it sends, and what it then takes; or `end`, its input ends, and what it then takes; or `rest`,
    all that comes up to the end; or `gone`; or `pour`, `count` and `flood`, and how many blocks it sends, takes or both."""
    said, told = "", ""
    for who, does, wanted in turns:
        does, blocks = joined(does), isinstance(wanted, int)
        wanted = wanted if blocks else joined(wanted)
        word = does if does in ("end", "rest", "gone", "pour", "count", "flood") else len(does)
        line = f"{who} {word} {wanted if blocks else 0 if does == 'rest' else len(wanted)}"
        said += f"{line}\n" + (f"{does}\n" if word == len(does) else "")
        size = f"{wanted * 131 * 251}" if blocks else ""
        told += f"\n-- {line}\n" + (wanted if not blocks else f"{size} of {size} bytes, each at its place\n" if does != "pour" else "")
    count = len({who for who, *_ in turns})
    SCENARIOS.append((name + ".course", said, ("sockets",), f"--connections {count}{more}", status, told))


def crowd(name, sends, *answers):
    """What each connection sends, and each whole of answers that there can be; none where journals are to be legal."""
    text = "".join(f"{word} {len(piece)}\n{piece}\n" for word, pieces in (("send", sends), ("or", answers))
                   for piece in map(joined, pieces))
    told = f"one of {len(answers)}\n" if answers else "".join(
        f"{n}: {'legal' if JOURNAL_TARGET in joined(send) else 'no journal'}\n" for n, send in enumerate(sends))
    SCENARIOS.append((name + ".crowd", text, ("crowd",), LISTENS, 0, f"{len(sends)} connections\n{told}"))


JOURNAL_TARGET = "/engine/journal"

# the body of a create as the docker command line sends it
USUAL = ('{"Hostname":"","Domainname":"","User":"","AttachStdin":false,"AttachStdout":true,"AttachStderr":true,"Tty":false,'
         '"OpenStdin":false,"StdinOnce":false,"Env":null,"Cmd":["echo","hi"],"Image":"engine/tools:latest","Volumes":{},'
         '"WorkingDir":"","Entrypoint":null,"OnBuild":null,"Labels":{},"HostConfig":{"Binds":null,"ContainerIDFile":"",'
         '"LogConfig":{"Type":"","Config":{}},"NetworkMode":"default","PortBindings":{},"RestartPolicy":{"Name":"no",'
         '"MaximumRetryCount":0},"AutoRemove":false,"VolumeDriver":"","VolumesFrom":null,"ConsoleSize":[24,80],"CapAdd":null,'
         '"CapDrop":null,"Dns":[],"DnsOptions":[],"DnsSearch":[],"ExtraHosts":null,"IpcMode":"","Links":null,"OomScoreAdj":0,'
         '"PidMode":"","Privileged":false,"ReadonlyRootfs":false,"SecurityOpt":null,"Memory":0,"NanoCpus":0,"PidsLimit":0,'
         '"Ulimits":null},"NetworkingConfig":{"EndpointsConfig":{}}}')
