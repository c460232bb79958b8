#!/usr/bin/env python3
"""The docker command line against a daemon: what a person types, and what must come of it.

DOCKER_HOST names the daemon. A step is what is typed, the status that it ends with, and a pattern that
its output or its message matches as a whole.
"""
import re
import shlex
import subprocess
import time

from steps import Steps

steps = Steps("docker")
ID = "[0-9a-f]{64}"


def typed(line, seconds=20, sent=None):
    """Runs a command of docker, with this standard input, and returns its status, what it wrote, and its message."""
    words = ["docker", *shlex.split(line)]
    try:
        given = {"stdin": subprocess.DEVNULL} if sent is None else {"input": sent}
        ran = subprocess.run(words, capture_output=True, text=True, timeout=seconds, check=False, **given)
        return ran.returncode, ran.stdout, ran.stderr
    except subprocess.TimeoutExpired:
        return None, "", f"no end within {seconds} seconds"


def step(line, pattern="", status=0, seconds=20, sent=None):
    ended, out, message = typed(line, seconds, sent)
    said = out + message
    if ended == status and re.fullmatch(pattern, said.strip(), re.DOTALL):
        return steps.tell(line)
    return steps.tell(line, f"status {ended}, not {status}: {said.strip()!r} isn't {pattern!r}")


def state(name, wanted, seconds=3):
    """A step of waiting until the container is in that state."""
    end = time.monotonic() + seconds
    while True:
        _, out, _ = typed(f"inspect --format '{{{{.State.Status}}}} {{{{.State.ExitCode}}}}' {name}")
        if re.fullmatch(wanted, out.strip()) or time.monotonic() > end:
            return steps.tell(f"{name} is {wanted}", None if re.fullmatch(wanted, out.strip()) else f"it is {out.strip()}")
        time.sleep(0.05)


TOOLS = "engine/tools"

# what the daemon is
step("version --format '{{.Server.Version}} {{.Server.APIVersion}}'", "1.0.0 1.43")

# a container from its creation to its end
step(f"create --name web {TOOLS} echo hi", ID)
step(f"create --name web {TOOLS} echo hi", '.*Conflict. The container name "/web" is already in use.*', 1)
step("create other/image", ".*", 1)
step("start web", "web")
state("web", "exited 0")
step("ps --format '{{.Names}}'", "")
step("ps --all --format '{{.Names}} {{.Image}} {{.State}}'", "web engine/tools:latest exited")
step("ps --all --filter status=exited --filter name=we --format '{{.Names}}'", "web")
step("ps --all --filter status=running --format '{{.Names}}'", "")
step("inspect --format '{{.Name}} {{.State.Status}} {{.State.ExitCode}}' web", "/web exited 0")
step("inspect nobody", ".*[Nn]o such object: nobody.*", 1)
step("start nobody", ".*No such container: nobody.*", 1)

# its log
step("logs web", "hi")
step("logs --tail 0 web", "")
step("logs --timestamps web", r"\d{4}-\d\d-\d\dT\d\d:\d\d:\d\d\.\d{9}Z hi")
step("logs --follow web", "hi")
step("logs --since 2000-01-01T00:00:00Z web", "hi")
step("logs --until 2000-01-01T00:00:00Z web", "")
step("logs nobody", ".*No such container: nobody.*", 1)


def apart(line, on_stdout, on_stderr):
    """A step whose output and message are these, each by itself."""
    ended, out, message = typed(line)
    same = (ended, out, message) == (0, on_stdout, on_stderr)
    return steps.tell(line, None if same else f"status {ended}, {out!r} and {message!r}")


def follow(line, pattern, ends, seconds=20):
    """A step that follows, while a second command makes an end of it."""
    words = ["docker", *shlex.split(line)]
    with subprocess.Popen(words, stdout=subprocess.PIPE, stderr=subprocess.STDOUT, text=True, stdin=subprocess.DEVNULL) as run:
        first = run.stdout.readline()
        ended = typed(ends)[0]
        try:
            rest = run.communicate(timeout=seconds)[0]
        except subprocess.TimeoutExpired:
            run.kill()
            return steps.tell(line, f"no end within {seconds} seconds")
    same = ended == 0 and run.returncode == 0 and re.fullmatch(pattern, (first + rest).strip(), re.DOTALL)
    return steps.tell(line, None if same else f"status {run.returncode}: {first + rest!r} isn't {pattern!r}")


# a log as it grows, by its last lines, and from and to each of its moments
step(f"create --name ticks {TOOLS} tick 3 300", ID)
step("start ticks", "ticks")
step("logs --follow ticks", "tick\ntick\ntick")
state("ticks", "exited 0")
for tail, lines in (("0", 0), ("1", 1), ("2", 2), ("3", 3), ("4", 3), ("all", 3)):
    step(f"logs --tail {tail} ticks", "\n".join(["tick"] * lines))
told = [line.split(" ")[0] for line in typed("logs --timestamps ticks")[1].splitlines()]
steps.tell("its three moments rise", None if len(told) == 3 and told == sorted(set(told)) else f"they are {told}")
for moment, since, until in zip(told, (3, 2, 1), (1, 2, 3)):
    step(f"logs --since {moment} ticks", "\n".join(["tick"] * since))
    step(f"logs --until {moment} ticks", "\n".join(["tick"] * until))
    step(f"logs --since {moment} --until {moment} ticks", "tick")
    step(f"logs --timestamps --tail 1 --until {moment} ticks", re.escape(f"{moment} tick"))
step("rm ticks", "ticks")
step("logs ticks", ".*No such container: ticks.*", 1)

# the two streams apart, over a restart, and a log that ends with its container
step(f"create --name two --restart on-failure:3 {TOOLS} flaky 1", ID)
step("start two", "two")
state("two", "exited 0")
apart("logs two", "ok\n", "attempt 1\n")
apart("logs --tail 1 two", "ok\n", "")
step("rm two", "two")
step(f"create --name lasting {TOOLS} tick 0 100", ID)
step("start lasting", "lasting")
follow("logs --follow lasting", "tick(\ntick)*", "rm --force lasting")
step(f"create --name long {TOOLS} noise 100000", ID)
step("start long", "long")
state("long", "exited 0")
step("logs long", "x{100000}")
step("logs --timestamps long", r"(\d{4}-\d\d-\d\dT\d\d:\d\d:\d\d\.\d{9}Z x+){4}")
step("rm long", "long")

# signals, stops and waits
step(f"create --name deaf --label tier=back {TOOLS} deaf", ID)
step("start deaf", "deaf")
state("deaf", "running 0")
step("pause deaf", "deaf")
state("deaf", "paused 0")
step("unpause deaf", "deaf")
step("kill --signal TERM deaf", "deaf")
state("deaf", "running 0")
step("stop -t 1 deaf", "deaf")
state("deaf", "exited 137")
step("start deaf", "deaf")
step("kill deaf", "deaf")
state("deaf", "exited 137")
step("kill deaf", ".*is not running.*", 1)
step("wait deaf", "137")
step("restart -t 0 deaf", "deaf")
state("deaf", "running 0")
step("ps --filter label=tier=back --format '{{.Names}}'", "deaf")

# names and removal
step("rename deaf quiet", "")
step("ps --all --format '{{.Names}}'", "quiet\nweb")
step("rename quiet web", ".*already in use.*", 1)
step("rm quiet", ".*", 1)
step("rm --force quiet", "quiet")
step("rm web", "web")
step("ps --all --quiet", "")

# restart policies
step(f"create --name flaky --restart on-failure:2 {TOOLS} exit 3", ID)
step("start flaky", "flaky")
state("flaky", "exited 3")
step("inspect --format '{{.RestartCount}}' flaky", "2")
step("rm flaky", "flaky")

# volumes
step("volume create data", "data")
step("volume ls --quiet", "data")
step("volume inspect --format '{{.Name}} {{.Driver}}' data", "data local")
step(f"create --name keeper --volume data:/srv {TOOLS} deaf", ID)
step("volume rm data", ".*in use.*", 1)
step("rm keeper", "keeper")
step("volume rm data", "data")
step("volume rm data", ".*[Nn]o such volume.*", 1)

# more processes, attached runs
step(f"create --name host {TOOLS} deaf", ID)
step("start host", "host")
step("exec host echo inside", "inside")
step("exec host exit 4", "", 4)
step("exec --detach host echo inside", "")
step("exec --interactive host cat", "one\ntwo", sent="one\ntwo\n")
step("exec nobody echo inside", ".*No such container: nobody.*", 1)
step("rm --force host", "host")
step(f"run --name once {TOOLS} echo hi", "hi")
step(f"run {TOOLS} exit 7", "", 7)
step("start --attach once", "")  # (its attach comes before its start, and follows the run that has ended)
step(f"run --interactive {TOOLS} cat", "one\ntwo", sent="one\ntwo\n")
step(f"run --interactive {TOOLS} cat", "", sent="")
step(f"run --interactive {TOOLS} cat", "x{1000000}", sent="x" * 1_000_000)
step(f"create --name later {TOOLS} tick 5 300", ID)
step("start later", "later")
step("attach later", "tick(\ntick)*")
state("later", "exited 0")
step("attach later", ".*[Cc]annot attach to a stopped container.*", 1)
step(f"create --name stopped --interactive {TOOLS} cat", ID)
step("start --attach --interactive stopped", "again", sent="again\n")
step(f"run --detach --name behind {TOOLS} deaf", ID)
step("rm --force behind", "behind")
step(f"run --rm {TOOLS} echo hi", "hi")
step(f"create --rm --name brief {TOOLS} sleep 100", ID)
step("update --restart always brief", ".*AutoRemove excludes a restart policy.*", 1)
step("update --restart no brief", "brief")
step("rm brief", "brief")
step("update --restart on-failure:3 stopped", "stopped")

# events
step("events --since 2000-01-01T00:00:00Z --until 2000-01-01T00:00:01Z", "")
time.sleep(1)  # (the client cuts `0s` down to whole seconds)
step("events --since 2000-01-01T00:00:00Z --until 0s --filter container=behind --format '{{.Action}}'", "create\nstart\nkill\ndie\ndestroy")
steps.end()
