#!/usr/bin/env python3
"""Python's client library against a daemon: the calls that a test suite makes."""
import docker

from steps import Steps

steps = Steps("docker-py")
client = docker.from_env(version="1.43", timeout=20)
TOOLS = "engine/tools"


def step(what, call, holds=lambda it: True):
    """Makes the call; the step is well where what it gives holds."""
    try:
        it = call()
    except docker.errors.APIError as why:
        steps.tell(what, str(why))
        return None
    except Exception as why:  # a library's own faults are told, too
        steps.tell(what, repr(why))
        return None
    steps.tell(what, None if holds(it) else f"gave {it!r}")
    return it


def refused(what, call, status):
    try:
        steps.tell(what, f"gave {call()!r}")
    except docker.errors.APIError as why:
        same = why.response.status_code == status
        steps.tell(what, None if same else str(why))


step("ping", client.ping, bool)
step("version", client.version, lambda it: it["ApiVersion"] == "1.43")
api = client.api
made = step("create", lambda: api.create_container(TOOLS, ["exit", "7"], name="library"), lambda it: len(it["Id"]) == 64)
refused("create of a name that stands: 409", lambda: api.create_container(TOOLS, ["exit", "7"], name="library"), 409)
step("start", lambda: api.start("library"))
step("wait: 7", lambda: api.wait("library"), lambda it: it["StatusCode"] == 7)
step("inspect", lambda: api.inspect_container("library"), lambda it: it["State"]["ExitCode"] == 7)
step("list", lambda: api.containers(all=True), lambda it: any("/library" in one["Names"] for one in it))
step("rename", lambda: api.rename("library", "shelf"))
refused("inspect of the old name: 404", lambda: api.inspect_container("library"), 404)
step("logs", lambda: api.logs("shelf"), lambda it: it == b"")
step("create of a container that ticks", lambda: api.create_container(TOOLS, ["tick", "3", "100"], name="ticks"))
step("its start", lambda: api.start("ticks"))
step("logs, followed", lambda: b"".join(api.logs("ticks", stream=True, follow=True)), lambda it: it == b"tick\n" * 3)
step("logs, the last two", lambda: api.logs("ticks", tail=2), lambda it: it == b"tick\n" * 2)
step("logs of stderr", lambda: api.logs("ticks", stdout=False), lambda it: it == b"")
step("logs with moments", lambda: api.logs("ticks", timestamps=True), lambda it: all(
    line.endswith(b"Z tick") and len(line) == 35 for line in it.splitlines()) and it.count(b"\n") == 3)
step("logs until a second", lambda: api.logs("ticks", until=1), lambda it: it == b"")
step("logs since a second", lambda: api.logs("ticks", since=1), lambda it: it == b"tick\n" * 3)
step("its removal", lambda: api.remove_container("ticks"))
refused("logs of what is removed: 404", lambda: api.logs("ticks"), 404)
step("restart", lambda: api.restart("shelf", timeout=0))
step("stop", lambda: api.stop("shelf", timeout=0))
step("remove", lambda: api.remove_container("shelf", force=True))
refused("remove again: 404", lambda: api.remove_container("shelf"), 404)
host = step("run, detached", lambda: client.containers.run(TOOLS, ["deaf"], name="host", detach=True))
# (the library loses what comes in one read with the head of a takeover, so a first line may lack: docs/API.md)
step("exec", lambda: host.exec_run(["tick", "3", "200"]), lambda it: it.exit_code == 0 and it.output in (b"tick\n" * 3, b"tick\n" * 2))
step("exec that ends with 4", lambda: host.exec_run(["exit", "4"]), lambda it: tuple(it) == (4, b""))
step("exec, its streams apart", lambda: host.exec_run(["tick", "3", "200"], demux=True), lambda it: it.output in ((b"tick\n" * 3, None), (b"tick\n" * 2, None)))
step("exec, detached", lambda: host.exec_run(["echo", "inside"], detach=True))
step("kill", lambda: host.kill())
step("wait: 137", lambda: host.wait(), lambda it: it["StatusCode"] == 137)
step("removal", lambda: host.remove())
step("create of a container to attach to", lambda: api.create_container(TOOLS, ["tick", "4", "300"], name="seen"))
step("its start", lambda: api.start("seen"))
step("attach", lambda: b"".join(api.attach("seen", stream=True)), lambda it: it == b"tick\n" * (len(it) // 5) and len(it) >= 10)
step("its removal", lambda: api.remove_container("seen", force=True))
step("volume create", lambda: api.create_volume("tape"), lambda it: it["Name"] == "tape")
step("volumes", lambda: api.volumes(), lambda it: any(one["Name"] == "tape" for one in it["Volumes"]))
step("volume remove", lambda: api.remove_volume("tape"))
# (the library's own call of events passes over the status, so the status is asked for here)
step("events", lambda: api._result(api._get(api._url("/events"), params={"since": 1, "until": 2})), lambda it: it == "")
steps.end()
