"""Scenarios of takeovers: attach and the start of an exec, upgraded and plain, and standard input behind the request."""
from exchange import *
from lives import *
from states import *
from logs import frame

# a clock that goes on, as processes read and write at moments of it
GOES_ON = "--stdio --clock 1700000000000:10"
UPGRADE = "Connection: Upgrade\r\nUpgrade: tcp\r\n"
UPGRADED = ("HTTP/1.1 101 UPGRADED\r\nContent-Type: application/vnd.docker.multiplexed-stream\r\nConnection: Upgrade\r\n"
            "Upgrade: tcp\r\n\r\n")
TAKEN = "HTTP/1.1 200 OK\r\nContent-Type: application/vnd.docker.raw-stream\r\n\r\n"


def attach(name, query, upgrade=True):
    return post(f"/containers/{name}/attach?{query}", more=UPGRADE if upgrade else "")


def start_exec(n, upgrade=True):
    return post(f"/v1.43/exec/{id_of(n)}/start", compact({"Detach": False, "Tty": False}), more=UPGRADE if upgrade else "")


def detach_exec(n):
    return post(f"/v1.43/exec/{id_of(n)}/start", compact({"Detach": True}))


# one that has ended: its log, and the session ends; what comes behind the request isn't answered
ENDED = [create("web", ECHO), post("/containers/web/start")]
scenario("attach_of_the_ended", ENDED + [attach("web", "logs=1&stream=1&stdout=1&stderr=1"), PING],
         [created(0), answer(204), UPGRADED + frame(1, "hi\n")], words=GOES_ON, comings=("pieces=1", "pieces=4096"))
scenario("attach_plain", ENDED + [attach("web", "logs=1&stdout=1", upgrade=False), PING],
         [created(0), answer(204), TAKEN + frame(1, "hi\n")], words=GOES_ON)
scenario("attach_without_logs", ENDED + [attach("web", "stream=1&stdout=1")], [created(0), answer(204), UPGRADED], words=GOES_ON)
# a refusal is an answer as any other
scenario("attach_of_none", [attach("db", "stream=1&stdout=1"), start_exec(1), PING],
         [message(404, "No such container: db"), message(404, f"No such exec instance: {id_of(1)}"), PONG])
# an exec: its output, a detached one, and one that has started
LIVES = [create("web", LONG), post("/containers/web/start")]
LIVE = [created(0), answer(204)]


def exec_made(n):
    return answer(201, compact({"Id": id_of(n)}))


scenario("exec_attached", LIVES + [create_exec("web", ECHO, AttachStdout=True), start_exec(1), PING],
         LIVE + [exec_made(1), UPGRADED + frame(1, "hi\n")], words=GOES_ON, comings=("pieces=1", "pieces=4096"))
scenario("exec_plain", LIVES + [create_exec("web", ECHO, AttachStdout=True), start_exec(1, upgrade=False)],
         LIVE + [exec_made(1), TAKEN + frame(1, "hi\n")], words=GOES_ON)
scenario("exec_detached", LIVES + [create_exec("web", ECHO, AttachStdout=True), detach_exec(1), detach_exec(1), detach_exec(2)],
         LIVE + [exec_made(1), answer(200, ""), message(409, f"exec {id_of(1)} has already started"),
                 message(404, f"No such exec instance: {id_of(2)}")])
# standard input behind the request, whole or byte by byte: what each read brought is a record of its own
CAT = compact({"Image": "engine/tools", "Cmd": ["cat"], "OpenStdin": True, "StdinOnce": True})
FED = "stream=1&stdin=1&stdout=1"
READS = [create("web", body=CAT), post("/containers/web/start")]
BY_BYTES = "".join(frame(1, byte) for byte in "abc\n")
scenario("attach_fed", READS + [attach("web", FED), "abc\n"], LIVE + [UPGRADED + frame(1, "abc\n")], words=GOES_ON)
scenario("attach_fed_at_one_moment", READS + [attach("web", FED), "abc\n"], LIVE + [UPGRADED + frame(1, "abc\n")])
scenario("attach_fed_by_bytes", READS + [attach("web", FED), "abc\n"], LIVE + [UPGRADED + BY_BYTES], words=GOES_ON,
         comings=("pieces=1",))
scenario("attach_fed_plain", READS + [attach("web", FED, upgrade=False), "abc\n"], LIVE + [TAKEN + frame(1, "abc\n")], words=GOES_ON)
scenario("attach_fed_nothing", READS + [attach("web", FED)], LIVE + [UPGRADED], words=GOES_ON)
scenario("exec_fed", LIVES + [create_exec("web", ["cat"], AttachStdin=True, AttachStdout=True), start_exec(1), "abc\n"],
         LIVE + [exec_made(1), UPGRADED + frame(1, "abc\n")], words=GOES_ON)
# one that has no open input is followed, and what comes behind the request isn't answered
scenario("attach_unfed", ENDED + [attach("web", FED + "&logs=1"), PING], [created(0), answer(204), UPGRADED + frame(1, "hi\n")], words=GOES_ON)
# an exec that has ended, as another connection sees it: its code, that it starts once, and that none is made in what is paused
ECHO_X = ["echo", "x"]
talk("exec_to_its_end",
     (0, 0, [create("web", DEAF), post("/containers/web/start"), create_exec("web", ECHO_X, AttachStdout=True),
             get(f"/exec/{id_of(1)}/json"), start_exec(1)],
      [created(0), answer(204), exec_made(1), exec_shown(1, 0, ECHO_X, out=True), UPGRADED + frame(1, "x\n")]),
     (1, 0, [get(f"/exec/{id_of(1)}/json"), detach_exec(1), post("/containers/web/pause"), create_exec("web", ECHO_X)],
      [exec_shown(1, 0, ECHO_X, out=True, code=0), message(409, f"exec {id_of(1)} has already started"), answer(204),
       message(409, f"Container {id_of(0)} is paused, unpause the container first")]),
     ended=[0], words=f"{LISTENS} --clock 1700000000000:0")
