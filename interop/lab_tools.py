#!/usr/bin/env python3
"""enginelab as tools meet it: the docker command line and Python's client library, where they are installed.

    interop/lab_tools.py PATH_OF_ENGINELAB [PATH_OF_DOCKC]   (outside the gate)

The journal that is left is checked by dockc where its path is given.
"""
import http.client
import json
import os
import shutil
import subprocess
import sys
import tempfile

from steps import Steps

steps = Steps("lab tools")
lab = subprocess.Popen([sys.argv[1], "--clock", "hand:1700000000000"], stdin=subprocess.PIPE, stdout=subprocess.PIPE,
                       stderr=subprocess.PIPE)
line = json.loads(lab.stdout.readline())
home = tempfile.mkdtemp()
settings = dict(os.environ, DOCKER_HOST="tcp://" + line["listening"], DOCKER_API_VERSION="1.43", DOCKER_CONFIG=home)


def docker(words, status, told):
    """A command line: its status, and a text that stands in what it wrote."""
    try:
        it = subprocess.run(["docker", *words.split()], env=settings, capture_output=True, text=True, timeout=30,
                            stdin=subprocess.DEVNULL)
    except subprocess.TimeoutExpired:
        return steps.tell("docker " + words, "it doesn't end")
    wrote = it.stdout + it.stderr
    is_so = it.returncode == status and told in wrote
    return steps.tell("docker " + words, None if is_so else f"{it.returncode}: {wrote[:300]!r}")


def library(what, call, wanted):
    """A call of the library: what it gives, or the name of the error that it raises."""
    try:
        found = call()
    except Exception as why:
        found = type(why).__name__
    return steps.tell("docker-py: " + what, None if found == wanted else f"{found!r}, and not {wanted!r}")


if shutil.which("docker"):
    docker("info", 0, "Server Version: 1.0.0")
    docker("images", 0, "engine/tools")
    docker("images --filter reference=redis", 0, "REPOSITORY")
    docker("pull engine/tools", 0, "Image is up to date")
    docker("pull redis:7", 1, "pull access denied")
    docker("image inspect engine/tools", 0, "sha256:dc2452a28ddf")
    docker("history engine/tools", 0, "IMAGE")
    docker("rmi engine/tools", 1, "can't be removed")
    docker("rmi redis", 1, "No such image")
    docker("search redis", 0, "NAME")
    docker("network ls", 0, "bridge")
    docker("network inspect none", 0, '"Driver": "null"')
    docker("network inspect app", 1, "not found")
    docker("system df", 0, "Local Volumes")
    docker("image prune -f", 0, "0B")
    docker("network prune -f", 0, "")
    docker("volume prune -f", 0, "0B")
    docker("volume prune -a -f", 1, "prune is left out")
    docker("container prune -f", 1, "prune is left out")
    docker("plugin ls", 0, "ID")
    docker("node ls", 1, "This node is not a swarm manager")
    docker("run --rm engine/tools echo hi", 0, "hi")
    docker("run -d --name web engine/tools deaf", 0, "")
    docker("port web", 0, "")
    docker("inspect --format {{.HostConfig.LogConfig.Type}} web", 0, "json-file")
    docker("top web", 1, "top is left out")
    docker("stats --no-stream web", 1, "stats is left out")
    docker("diff web", 1, "changes is left out")
    docker("exec web echo x", 0, "x")
    docker("rm -f web", 0, "web")
try:
    import docker as client
except ImportError:
    client = None
if client:
    it = client.DockerClient(base_url="tcp://" + line["listening"], version="1.43")
    library("info", lambda: it.info()["ServerVersion"], "1.0.0")
    library("images.list", lambda: [image.tags for image in it.images.list()], [["engine/tools:latest"]])
    library("images.list of a name", lambda: [image.tags for image in it.images.list("engine/tools")], [["engine/tools:latest"]])
    library("images.list of another", lambda: it.images.list("redis"), [])
    library("images.get", lambda: it.images.get("engine/tools").tags, ["engine/tools:latest"])
    library("images.get of another", lambda: it.images.get("redis"), "ImageNotFound")
    library("images.pull", lambda: it.images.pull("engine/tools", tag="latest").tags, ["engine/tools:latest"])
    library("images.pull of another", lambda: it.images.pull("redis", tag="7"), "ImageNotFound")
    library("images.remove of another", lambda: it.images.remove("redis"), "ImageNotFound")
    library("images.prune", lambda: it.images.prune()["SpaceReclaimed"], 0)
    library("volumes.prune", lambda: it.volumes.prune()["SpaceReclaimed"], 0)
    library("containers.prune", lambda: it.containers.prune(), "APIError")
    library("networks.list", lambda: [network.name for network in it.networks.list()], ["bridge", "host", "none"])
    library("networks.get", lambda: it.networks.get("bridge").name, "bridge")
    library("networks.get of another", lambda: it.networks.get("app"), "NotFound")
    library("df", lambda: it.df()["LayersSize"], 0)
    library("plugins.list", lambda: it.plugins.list(), [])
    library("services.list", lambda: it.services.list(), "APIError")
    web = it.containers.create("engine/tools", ["echo", "hi"], name="web")
    library("top", lambda: web.top(), "APIError")
    web.start()
    library("wait", lambda: web.wait()["StatusCode"], 0)
    library("logs", web.logs, b"hi\n")
    web.remove()
    library("run", lambda: it.containers.run("engine/tools", ["echo", "hi"], remove=True), b"hi\n")
    library("run, detached", lambda: it.containers.run("engine/tools", ["deaf"], name="run", detach=True).image.tags, ["engine/tools:latest"])
    it.containers.get("run").remove(force=True)
    deaf = it.containers.create("engine/tools", ["deaf"], name="deaf")
    deaf.start()
    lost = sum(deaf.exec_run(["echo", "x"]).output != b"x\n" for _ in range(200))
    library("200 times exec_run, and how often its output is lost", lambda: lost, 0)
    deaf.remove(force=True)
link = http.client.HTTPConnection(line["control"], timeout=20)
link.request("GET", "/journal")
journal = link.getresponse().read()
if len(sys.argv) > 2:
    checked = subprocess.run([sys.argv[2], "127.0.0.1:1", "replay"], input=journal, capture_output=True)
    steps.tell("the journal is legal", None if checked.stdout.startswith(b"legal ") else repr(checked.stdout[:200]))
link.close()
lab.stdin.close()
steps.tell("its end", None if lab.wait(5) == 0 else "another status")
shutil.rmtree(home)
steps.end()
