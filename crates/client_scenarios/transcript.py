"""Writes `stdin` and `stdout`: commands of dockc by hand, and what docs/CLI.md and docs/API.md say that they print.

It computes nothing with the client's or the daemon's code: ids and bodies are those of engine_scenarios' exchange.py.
"""
import os
import sys

HERE = os.path.dirname(os.path.abspath(__file__))
sys.path.insert(0, os.path.join(HERE, "..", "engine_scenarios"))
from exchange import answer, compact, created, id_of, message, shown, volume  # noqa: E402

COMMANDS = ("create|run|start|pause|unpause|stop|restart|kill|rm|rename|update|ps|inspect|version|logs|attach|exec|wait|events|watch"
            "|health|volume|journal|replay")
ANY = f"{COMMANDS} [OPTIONS] [WORD..]"
WEB, GONE, LONG, FLAKY, TRAP = (id_of(n) for n in range(5))
LINES = []
# parts of a line that stand for no connection
NONE = ("nowhere", "input fails", "output fails", "errors fail")


def line(words, out="", err="", status=0, connections=1, given=""):
    """A command, what it prints on standard output and standard error, its status, and how many requests it makes."""
    LINES.append((words, out, err, status, connections, given, (), 0))


def by(words, *instead, out="", err="", status=0, given="", missed=0):
    """A command that has these connections in the place of the daemon, each what it gives or how it fails; and how many more are asked for."""
    asked = missed + sum(part not in NONE for part in instead)
    LINES.append((words, out, err, status, 0, given, instead, asked))


def names(words, **more):
    """A command that prints the container or the volume that it was given last."""
    line(words, words.split(" ")[-1] + "\n", **more)


def refused(words, message, **more):
    line(words, err=message + "\n", status=125, **more)


def usage(words, form=ANY):
    line(words, err=f"usage: dockc ADDR {form} (ADDR is 127.0.0.1:PORT)\n", status=2, connections=0)


def body(answer):
    return answer.split("\r\n\r\n", 1)[1]


def event(action, behind=0, **more):
    """An event of the container, so many milliseconds behind 1700000000."""
    named = dict(sorted({"image": "engine/tools:latest", "name": "web", **more}.items()))
    return compact({"Action": action, "Actor": {"Attributes": named, "ID": WEB}, "Type": "container", "scope": "local",
                    "time": 1700000000 + behind // 1000, "timeNano": (1700000000000 + behind) * 1000000}) + "\n"


def entry(call, conn, dues, reply):
    return compact({"call": call, "conn": conn, "dues": dues, "moment": 1700000000000, "reply": reply}) + "\n"


def told(status, text=""):
    return {"body": text, "status": status}


# ---- a run, told in every way, and its journal

line("create --name web engine/tools exit 7", WEB + "\n")
names("start web")
line("wait web", "7\n")
CREATE = entry({"after": 10, "image": "engine/tools", "labels": {}, "maximum": 0, "mounts": [], "name": "web", "once": False,
                "op": "create", "policy": "no", "signal": 15, "stdin": False, "words": ["exit", "7"]},
               0, 0, told(201, compact({"Id": WEB, "Warnings": []})))
START = {"op": "start", "ref": "web"}
WAITED = (entry({"condition": "not-running", "op": "wait", "ref": "web"}, 2, 1, {"ticket": 0})
          + entry({"op": "take", "ticket": 0}, 2, 0, told(200, compact({"StatusCode": 7}))))
JOURNAL = CREATE + entry(START, 1, 0, told(204)) + WAITED


def in_second(text):
    """The same in format 2: with a header, and all keys of a create."""
    header = compact({"format": 2, "moment": 1700000000000, "seed": "00" * 32}) + "\n"
    return header + text.replace('"image"', '"auto":false,"health":null,"image"')


line("journal", in_second(JOURNAL))
line("ps")
line("ps -a", f"{WEB} web exited Exited (7)\n")
NOW = "2023-11-14T22:13:20.000000000Z"
line("inspect web", body(shown(0, "web", ["exit", "7"], "exited", code=7, started=NOW, finished=NOW)) + "\n")

# ---- another restart policy, and ones that the daemon doesn't take

names("update --restart on-failure:5 web")
line("inspect web", body(shown(0, "web", ["exit", "7"], "exited", code=7, started=NOW, finished=NOW, policy=("on-failure", 5))) + "\n")
refused("update --restart sometimes web", "bad restart policy")
refused("update --restart always:5 web", "bad restart policy")
names("update --restart no web")
refused("update --restart no nobody", "No such container: nobody")
line("events 1700000000 1700000000",
     event("create") + event("start") + event("die", exitCode="7") + event("update") + event("update"))

# ---- what the events tell: of a container that is gone nothing, and of one that lives that it does

WEB_ROW = f"{WEB} web not-live not-paused 7\n"
line("watch 1700000000", WEB_ROW)
NO_CHECK = "dockc: the container has no health check\n"
line("health 1700000000 web", err=NO_CHECK, status=123)
line("create --name gone engine/tools", GONE + "\n")
line("watch 1700000000", WEB_ROW + f"{GONE} gone not-live not-paused 0\n")
names("rm gone")
line("create --name long --restart on-failure:3 -v data:/d engine/tools deaf", LONG + "\n")
names("start long")
line("watch 1700000000", WEB_ROW + f"{LONG} long live not-paused 0\n")
names("pause long")
line("watch 1700000000", WEB_ROW + f"{LONG} long live paused 0\n")
line("ps", f"{LONG} long paused Up (Paused)\n")
refused("pause long", f"Container {LONG} is already paused")
names("unpause long")
line("ps", f"{LONG} long running Up\n")

# ---- volumes

line("volume ls", "data\n")
names("volume create more")
line("volume inspect more", compact(volume("more")) + "\n")
line("volume ls", "data\nmore\n")
refused("volume rm data", "remove data: volume is in use")
names("volume rm more")

# ---- both streams, signals

line("create --name flaky engine/tools flaky 1", FLAKY + "\n")
names("start flaky")
line("wait flaky", "1\n")
names("start flaky")
line("wait flaky", "0\n")
line("logs flaky", "ok\n", "attempt 1\n")
line("logs -f flaky", "ok\n", "attempt 1\n")
line("attach flaky", "ok\n", "attempt 1\n")
line("create --name trap engine/tools trap", TRAP + "\n")
names("start trap")
names("kill -s TERM trap")
line("wait trap", "0\n")
line("logs trap", "bye\n")
names("start trap")
names("kill trap")
line("wait trap", "137\n")

# ---- runs and execs

line("run engine/tools", "Hello from engine\n", connections=4)
line("run engine/tools exit 7", status=7, connections=4)
line("run --name once engine/tools flaky 1", err="attempt 1\n", status=1, connections=4)
line("run --rm engine/tools echo hi", "hi\n", connections=5)
refused("run nope", "No such image: nope")
refused("run engine/tools frob", "unknown command: frob", connections=2)
line("exec long exit 3", status=3, connections=3)
line("exec long echo -i x", "-i x\n", connections=3)
refused("exec web echo x", f"Container {WEB} is not running")
line("run -i --name cat engine/tools cat", "abc\n", connections=4, given="abc\n")
line("logs cat", "abc\n")
line("exec -i long cat", "two\nlines\n", connections=3, given="two\nlines\n")

# ---- to the end of `long`

names("restart -t 1 long")
refused("rm long", f"You cannot remove a running container {LONG}. Stop the container before attempting removal or force remove")
names("stop -t 1 long")
line("rename long last", "long\n")
refused("kill last", f"Container {LONG} is not running")
names("start last")
names("rm -f last")
names("volume rm data")
line("volume ls")

# ---- refusals, and words that are no line

refused("start nobody", "No such container: nobody")
refused("health 1700000000 nobody", "No such container: nobody")
refused("volume inspect none", "get none: no such volume")
line("version", compact({"ApiVersion": "1.43", "Arch": "amd64", "MinAPIVersion": "1.24", "Os": "linux", "Version": "1.0.0"}) + "\n")
usage("frob")
usage("stop", "stop [-t N] REF")
usage("stop -t", "stop [-t N] REF")
usage("ps web", "ps [-a]")
usage("exec web", "exec [-i] REF WORD..")
usage("run --rm", "run [--rm] [--name NAME] [--restart POLICY[:MAX]] [-i] [-v VOLUME:PATH[:ro]].. IMAGE [WORD..]")
usage("update web", "update --restart POLICY[:MAX] REF")
usage("update --restart always", "update --restart POLICY[:MAX] REF")
usage("update --restart on-failure:many web", "update --restart POLICY[:MAX] REF")
usage("health soon web", "health UNTIL REF")
usage("health 1700000000", "health UNTIL REF")
usage("volume prune", "volume create|inspect|rm NAME, or volume ls")
usage("replay --upgrade --upgrade", "replay [--upgrade] [--seed HEX] [MOMENT]")
usage("replay 5 --upgrade", "replay [--upgrade] [--seed HEX] [MOMENT]")
usage("version 2", "version")
usage("--help")

# ---- journals: this daemon's, one with another reply, with a line cut, and none

line("replay 1700000000000", "legal 5\n", connections=0, given=JOURNAL)
line("replay 1700000000000", f"illegal line 2\nkept {compact(told(304))}\nfound {compact(told(204))}\n", status=1, connections=0,
     given=CREATE + entry(START, 1, 0, told(304)) + WAITED)
line("replay 1700000000000", "bad line 2\n", status=3, connections=0, given=CREATE + "x\n" + WAITED)
# those of format 2 name their opening, and the header is line 1
line("replay", "legal 5\n", connections=0, given=in_second(JOURNAL))
line("replay 5", "legal 5\n", connections=0, given=in_second(JOURNAL))
line("replay", f"illegal line 3\nkept {compact(told(304))}\nfound {compact(told(204))}\n", status=1, connections=0,
     given=in_second(CREATE + entry(START, 1, 0, told(304)) + WAITED))
line("replay", "bad line 2\n", status=3, connections=0, given=in_second("") + JOURNAL)
line("replay", "legal 0\n", connections=0, given=in_second(""))
# (of what ignores TERM, which is started twice: the due step between is counted)
TWO_STARTS = [entry({"after": 10, "image": "engine/tools:latest", "labels": {}, "maximum": 0, "mounts": [], "name": "web", "once": False,
                     "op": "create", "policy": "no", "signal": 15, "stdin": False, "words": ["deaf"]},
                    0, 0, told(201, compact({"Id": WEB, "Warnings": []}))),
              entry(START, 0, 0, told(204)), entry(START, 0, 1, told(304))]
line("replay 1700000000000", "legal 4\n", connections=0, given="".join(TWO_STARTS))
line("replay 1700000000000", f"illegal line 3\nkept {compact(told(204))}\nfound {compact(told(304))}\n", status=1, connections=0,
     given="".join(TWO_STARTS).replace("304", "204"))
line("replay 1700000000000", "bad line 2\n", status=3, connections=0,
     given=TWO_STARTS[0] + TWO_STARTS[1].partition('"dues"')[0] + '"dues"\n' + TWO_STARTS[2])
# a key twice, a blank behind a colon, no last line end, and a number of 65 bits are none; one of 64 bits is a line
TAKE = entry({"op": "take", "ticket": 7}, 0, 0, told(204))
for text in (TAKE.replace('"ticket":7', '"ticket":7,"ticket":7'), TAKE.replace('"ticket":7', '"ticket": 7'), TAKE[:-1],
             TAKE.replace('"ticket":7', f'"ticket":{2 ** 64}')):
    line("replay 1700000000000", "bad line 2\n", status=3, connections=0, given=CREATE + text)
line("replay 1700000000000", f"illegal line 2\nkept {compact(told(204))}\nfound no ticket\n", status=1, connections=0,
     given=CREATE + TAKE.replace('"ticket":7', f'"ticket":{2 ** 64 - 1}'))
line("replay 1700000000000", "legal 0\n", connections=0)

# in format 2: what a legal one becomes that names its opening or doesn't, or is empty; of another the verdict
UPGRADE = "replay --upgrade 1700000000000"
line(UPGRADE, in_second(JOURNAL), connections=0, given=JOURNAL)
line(UPGRADE, in_second("".join(TWO_STARTS)), connections=0, given="".join(TWO_STARTS))
line("replay --upgrade", in_second(JOURNAL), connections=0, given=in_second(JOURNAL))
STARTED = CREATE + entry(START, 1, 0, told(204))
line(UPGRADE, in_second(STARTED).replace('"auto":false', '"auto":true'), connections=0, given=STARTED.replace('"image"', '"auto":true,"image"'))
for given in ("--upgrade --seed " + "5a" * 32, "--seed " + "5a" * 32 + " --upgrade"):
    line(f"replay {given} 7", compact({"format": 2, "moment": 7, "seed": "5a" * 32}) + "\n", connections=0)
line(UPGRADE, f"illegal line 2\nkept {compact(told(304))}\nfound {compact(told(204))}\n", status=1, connections=0,
     given=CREATE + entry(START, 1, 0, told(304)) + WAITED)
line(UPGRADE, "bad line 2\n", status=3, connections=0, given=CREATE + "x\n" + WAITED)
line(UPGRADE, "bad line 2\n", status=3, connections=0, given=in_second("") + JOURNAL)

# ---- in the place of the daemon: streams whole and cut, answers that are none, and what fails outside

BEGINS = "HTTP/1.1 200 OK\r\nApi-Version: 1.43\r\n"
CHUNKED = "Server: engined\r\nTransfer-Encoding: chunked\r\n\r\n"
FRAMES = BEGINS + "Content-Type: application/vnd.docker.multiplexed-stream\r\n" + CHUNKED
TEXT = BEGINS + "Content-Type: text/plain; charset=utf-8\r\n" + CHUNKED
LATER = BEGINS + "Content-Type: application/json\r\nServer: engined\r\nTransfer-Encoding: chunked\r\nX-Engine-From: 1\r\n\r\n"
FIRST = LATER.replace("From: 1", "From: 0")
TAKEN = ("HTTP/1.1 101 UPGRADED\r\nContent-Type: application/vnd.docker.multiplexed-stream\r\nConnection: Upgrade\r\n"
         "Upgrade: tcp\r\n\r\n")
HI, LAST = "\1\0\0\0\0\0\0\3hi\n", "0\r\n\r\n"
NO_CONNECTION, NO_MORE = "dockc: can't connect to the daemon at 127.0.0.1:2375\n", "dockc: the connection to the daemon failed\n"


def chunk(data):
    return f"{len(data):x}\r\n{data}\r\n"


# the last request of a line
LOGS, ATTACH = "logs?stdout=1&stderr=1", "attach?logs=1&stream=1&stdout=1&stderr=1"
EVENTS = f"GET /v1.43/events?since=0&until=1700000003&filters=%7B%22container%22%3A%5B%22{WEB}%22%5D%7D"
INSPECT = "GET /v1.43/containers/web/json"
REQUESTS = {
    "logs web": f"GET /v1.43/containers/web/{LOGS}",
    "logs -f web": f"GET /v1.43/containers/web/{LOGS}&follow=1",
    "attach web": f"POST /v1.43/containers/web/{ATTACH}",
    "run engine/tools": f"POST /v1.43/containers/{WEB}/{ATTACH}",
    "exec -i web cat": f"POST /v1.43/exec/{WEB}/start",
    "ps": "GET /v1.43/containers/json",
    "version": "GET /v1.43/version",
    "journal": "GET /v1.43/engine/journal",
    "start web": "POST /v1.43/containers/web/start",
    "create engine/tools": "POST /v1.43/containers/create",
    "wait web": "POST /v1.43/containers/web/wait?condition=not-running",
    "health 1700000003 web": EVENTS,
}


def no_answer_to(request, status):
    """The line of an answer that isn't one of the API's."""
    return f"dockc: the answer to {request} HTTP/1.1 isn't one of the Engine API's: {f'status {status}' if status else 'no status'}\n"


def no_answer(words, *instead, out="", given="", status=200, request=None):
    """A command whose last answer is none, by its status, which may be none, and the request, if that isn't the command's last."""
    by(words, *instead, out=out, err=no_answer_to(request or REQUESTS[words], status), status=123, given=given)


by("logs web", FRAMES + chunk(HI) + LAST, out="hi\n")
by("logs web", FRAMES + chunk(HI[:5]) + chunk(HI[5:9]) + chunk(HI[9:]) + LAST, out="hi\n")
no_answer("logs web", FRAMES + chunk(HI + "\1\0\0") + LAST, out="hi\n")
no_answer("logs web", FRAMES + chunk(HI + "\1\0\0\0\0\0\0\5ab") + LAST, out="hi\nab\n")
no_answer("logs web", FRAMES + chunk(HI + "\3\0\0\0\0\0\0\3hi\n") + LAST, out="hi\n")
no_answer("logs web", FRAMES + chunk(HI), out="hi\n")
no_answer("logs web", FRAMES + chunk(HI)[:-3], out="hi\n")
by("attach web", TAKEN + HI, out="hi\n")
no_answer("attach web", TAKEN + HI + HI[:3], out="hi\n", status=101)
no_answer("attach web", TAKEN + HI + HI[:9], out="hi\nh\n", status=101)
# connections that stay open: nothing is waited for behind a wrong byte of a frame, of a head or of a chunk
WRONG = "\3\0\0\0\0\0\0\3hi\n"
no_answer("logs -f web", "open " + FRAMES + chunk(HI + WRONG), out="hi\n")
no_answer("logs -f web", "open " + FRAMES + chunk(HI) + chunk("\1\0\1"), out="hi\n")
no_answer("attach web", "open " + TAKEN + HI + WRONG, out="hi\n", status=101)
no_answer("run engine/tools", created(0), answer(204), "open " + TAKEN + HI + WRONG, out="hi\n", status=101)
no_answer("exec -i web cat", created(0), "open " + TAKEN + WRONG, given="abc\n", status=101)
no_answer("ps", "open HTTP/1.1 200 OK\r\nServer: x", status=None)
no_answer("logs -f web", "open " + FRAMES + chunk(HI) + "x", out="hi\n")
by("logs -f web", "open " + FRAMES + chunk(HI), out="hi\n", err=NO_MORE, status=125)

# bodies that are kept have an end, and so has the patience for a refusal
LONG_BODY = "Content-Length: 67108928\r\nContent-Type: application/json\r\nServer: engined\r\n\r\n times 1048577 " + "0123456789abcdef" * 4
TOO_LONG = "dockc: the answer has more than 67108864 bytes\n"
by("inspect web", BEGINS + LONG_BODY, err=TOO_LONG, status=123)
by("logs web", "HTTP/1.1 404 Not Found\r\nApi-Version: 1.43\r\n" + LONG_BODY, err=TOO_LONG, status=123)

# a body of two frames that ends behind each of its bytes, a byte a chunk: it is whole behind a frame alone
TWO = HI + "\2\0\0\0\0\0\0\2no"
for length in range(len(TWO) + 1):
    ahead, whole = TWO[:length], length in (0, len(HI), len(TWO))
    by("logs web", FRAMES + "".join(map(chunk, ahead)) + LAST, out=ahead[8:len(HI)],
       err=ahead[len(HI) + 8:] + ("" if whole else no_answer_to(REQUESTS["logs web"], 200)), status=0 if whole else 123)


def sized(digits):
    """An answer whose length is told so, and of whose body two bytes come."""
    return BEGINS + f"Content-Length: {digits}\r\nContent-Type: application/json\r\nServer: engined\r\n\r\n{{}}"


def told_size(digits):
    """An answer of frames whose first chunk has a size that is told so, and of which a frame comes."""
    return FRAMES + f"{digits}\r\n" + HI


# another protocol, and numbers at their limits: a length has 64 bits, and so has the size of a chunk, in sixteen digits. Behind a greater
# one nothing is waited for, and a body that is shorter than it tells is cut
no_answer("version", "open RTSP/1.0 200 OK\r\nContent-Length: 2\r\n\r\n{}", status=None)
no_answer("version", "open " + sized(2 ** 64), status=None)
no_answer("version", sized(10 ** 18 + 2))
by("version", "open " + sized(10 ** 18 + 2), err=NO_MORE, status=125)
no_answer("logs web", "open " + told_size("1000000000000000b"))
by("logs web", "open " + told_size("100000000000000b"), out="hi\n", err=NO_MORE, status=125)
no_answer("version", "HTTP/1.0 200 OK\r\n\r\n", status=None)
no_answer("version", answer(200, "{}")[:-20], status=None)
no_answer("version", answer(200, "{}")[:-1])
no_answer("journal", TEXT + chunk("x\n"), out="x\n")
no_answer("create engine/tools", answer(201, compact({"Warnings": []})), status=201)
no_answer("start web", answer(404, "{}"), status=404)
no_answer("wait web", answer(200, compact({"StatusCode": "0"})))
by("exec web exit 3", created(0), TAKEN, answer(200, compact({"ExitCode": None})), err="dockc: the exec has no exit code\n", status=123)
KILLED = (event("create"), event("start"), event("pause"), event("kill", signal="9"), event("unpause"), event("die", exitCode="137"))
by("watch 1700000000", FIRST + chunk("".join(KILLED)) + LAST, out=f"{WEB} web not-live not-paused 137\n")
by("watch 1700000000", FIRST + "".join(map(chunk, KILLED[:3])) + LAST, out=f"{WEB} web live paused 0\n")
by("watch 1700000000", LATER + LAST, err="dockc: the first events are no longer kept\n", status=123)

# ---- the health of a container, by its check and its events


def checked(words, retries=1, start=0, interval=1000, timeout=1000, name=WEB):
    """An inspect of a container with this check; its times are milliseconds."""
    check = {"Interval": interval * 1000000, "Retries": retries, "StartPeriod": start * 1000000, "Test": ["CMD", *words.split(" ")],
             "Timeout": timeout * 1000000}
    return answer(200, compact({"Config": {"Cmd": ["deaf"], "Healthcheck": check, "Image": "engine/tools:latest"}, "Id": name}))


def events(*told):
    return FIRST + "".join(map(chunk, told)) + LAST


def bad(behind, **more):
    return event("health_status: unhealthy", behind, **more)


def good(behind, **more):
    return event("health_status: healthy", behind, **more)


STARTED = (event("create"), event("start"))
# it recovers; and a failure while it starts counts nothing, but one behind the start period does
by("health 1700000003 web", checked("flaky 2", retries=2), events(*STARTED), out=bad(2000) + good(3000) + f"{WEB} healthy 0\n")
by("health 1700000001.999 web", checked("flaky 2", retries=2), events(*STARTED), out=f"{WEB} starting 1\n")
by("health 1700000004 web", checked("sleep 5000", start=3000), events(*STARTED), out=bad(4000) + f"{WEB} unhealthy 1\n")
# one failure is enough, or a thousand are; of more failures no change comes
by("health 1700000002 web", checked("exit 3"), events(*STARTED), out=bad(1000) + f"{WEB} unhealthy 2\n")
by("health 1700000001 web", checked("exit 1", retries=1000, interval=1), events(*STARTED), out=bad(1000) + f"{WEB} unhealthy 1000\n")
by("health 1700000000.999 web", checked("exit 1", retries=1000, interval=1), events(*STARTED), out=f"{WEB} starting 999\n")
# a pause over a due moment, one that ends at it, one of no length, and one that stays open; the last event tells the name
by("health 1700000002 web", checked("hello"), events(*STARTED, event("pause", 900), event("unpause", 1500)), out=good(1500) + f"{WEB} healthy 0\n")
by("health 1700000002 web", checked("hello"), events(*STARTED, event("pause", 900), event("unpause", 1000)), out=good(1000) + f"{WEB} healthy 0\n")
by("health 1700000002 web", checked("hello"), events(*STARTED, event("pause", 1000), event("unpause", 1000)), out=good(1000) + f"{WEB} healthy 0\n")
by("health 1700000002 web", checked("hello"), events(*STARTED, event("pause", 900)), out=f"{WEB} starting 0\n")
by("health 1700000002 web", checked("hello"), events(*STARTED, event("rename", 1000, name="last", oldName="web")),
   out=good(1000, name="last") + f"{WEB} healthy 0\n")
by("health 1700000002 web", checked("hello"), events(*STARTED, event("rename", 1001, name="last", oldName="web")), out=good(1000) + f"{WEB} healthy 0\n")
# a restart begins with the first probe; behind an end there is no health, and a result at the end doesn't count
by("health 1700000004.6 web", checked("flaky 2", retries=2), events(*STARTED, event("die", 2500, exitCode="0"), event("start", 2600)),
   out=bad(2000) + bad(4600) + f"{WEB} unhealthy 2\n")
by("health 1700000003 web", checked("flaky 2", retries=2), events(*STARTED, event("die", 3000, exitCode="0")), out=bad(2000) + f"{WEB} none 0\n")
by("health 1700000003 web", checked("hello"), events(event("create")), out=f"{WEB} none 0\n")
by("health 1700000003 web", checked("hello"), events(), out=f"{WEB} none 0\n")
# without a check, by events that aren't all, by moments that fall or are behind UNTIL, and by what is none
by("health 1700000003 web", shown(0, "web", ["deaf"], "running", pid=1000), err=NO_CHECK, status=123)
by("health 1700000003 web", checked("hello"), LATER + LAST, err="dockc: the first events are no longer kept\n", status=123)
no_answer("health 1700000003 web", checked("hello"), events(event("create", 1), event("start")))
no_answer("health 1700000003 web", checked("hello"), events(*STARTED, event("pause", 3001)))
no_answer("health 1700000003 web", checked("hello"), events(bad(1)))
no_answer("health 1700000003 web", checked("hello"), FIRST + chunk(event("create")))
no_answer("health 1700000003 web", checked("hello", name="1f"), request=INSPECT)
no_answer("health 1700000003 web", checked("hello", retries=1001), request=INSPECT)
no_answer("health 1700000003 web", checked("hello", interval=0), events())
by("health 1700000003 web", message(404, "No such container: web"), err="No such container: web\n", status=125)
by("health 1700000003 web", checked("hello"), err=NO_CONNECTION, status=125, missed=1)

by("update --restart always web", message(409, "AutoRemove excludes a restart policy"), err="AutoRemove excludes a restart policy\n", status=125)
by("start web", "nowhere", err=NO_CONNECTION, status=125, missed=1)
by("start web", "read fails", err=NO_MORE, status=125)
by("start web", "write fails", err=NO_MORE, status=125)
by("run engine/tools", created(0), err=NO_CONNECTION, status=125, missed=1)
by("run engine/tools", created(0), message(409, "no"), err="no\n", status=125)
by("start web", message(404, "no"), "errors fail", status=125)
by("start web", answer(204), "output fails", err="dockc: standard output can't be written\n", status=122)
by("logs web", FRAMES + chunk(HI) + LAST, "output fails", err="dockc: standard output can't be written\n", status=122)
by("logs web", FRAMES + chunk("\2" + HI[1:]) + LAST, "errors fail", status=122)
by("replay 1700000000000", "input fails", err="dockc: standard input can't be read\n", status=122, given=CREATE)
by("replay --upgrade", "output fails", err="dockc: standard output can't be written\n", status=122, given=in_second(JOURNAL))
by("run -i engine/tools cat", created(0), answer(204), TAKEN, "input fails", err="dockc: standard input can't be read\n", status=122, given="abc\n")
by("frob", "errors fail", status=2)


def marked(before, text):
    return "".join(f"{before}{row}\n" for row in text.splitlines())


def escaped(text):
    for byte, letter in [("\n", "n"), ("\r", "r")] + [(chr(n), str(n)) for n in range(10)]:
        text = text.replace(byte, "\\" + letter)
    return text


def main():
    lines = [f"connections {sum(connections for *_, connections, _, _, _ in LINES)}\n"]
    wanted = []
    for words, out, err, status, _, given, instead, asked in LINES:
        text = words + "".join(between + escaped(part) for between, part in [(" < ", given)] * bool(given) + [(" ~ ", p) for p in instead])
        lines.append(text + "\n")
        wanted.append(f"$ dockc {text}\n{marked('', out)}{marked('! ', err)}status {status}\n")
        wanted.append(f"asked {asked}, elsewhere 0\n" if instead else "")
    with open(f"{HERE}/stdin", "w", newline="", encoding="utf-8") as file:
        file.write("".join(lines))
    with open(f"{HERE}/stdout", "w", newline="", encoding="utf-8") as file:
        file.write("".join(wanted) + "daemon Closed\nvectors: 26 passed, 0 failed\n")


main()
