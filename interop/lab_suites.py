#!/usr/bin/env python3
"""enginelab as docker-compose, Ansible and Ruby's client library meet it, each where it is installed.

    interop/lab_suites.py PATH_OF_ENGINELAB   (outside the gate; Debian's docker-compose, ansible and ruby-docker-api)

Each has an enginelab of its own, by the system's clock.
"""
import json
import os
import pathlib
import shutil
import subprocess
import sys
import tempfile

from steps import Steps

steps = Steps("lab suites")
here = pathlib.Path(__file__).resolve().parent


class Lab:
    """An enginelab, and a folder for what a tool reads and keeps."""

    def __enter__(self):
        self.process = subprocess.Popen([sys.argv[1]], stdin=subprocess.PIPE, stdout=subprocess.PIPE, stderr=subprocess.DEVNULL)
        listening = json.loads(self.process.stdout.readline())["listening"]
        self.home = tempfile.mkdtemp(prefix="app")
        self.settings = dict(os.environ, DOCKER_HOST="tcp://" + listening, DOCKER_URL="tcp://" + listening,
                             DOCKER_API_VERSION="1.43", DOCKER_CONFIG=self.home, COMPOSE_PROJECT_NAME="app", COMPOSE_API_VERSION="1.43")
        return self

    def __exit__(self, *_):
        self.process.stdin.close()
        steps.tell("its end", None if self.process.wait(5) == 0 else "another status")
        shutil.rmtree(self.home)

    def write(self, name, text):
        pathlib.Path(self.home, name).write_text(text)

    def run(self, words, **more):
        try:
            it = subprocess.run(words, cwd=self.home, env=dict(self.settings, **more), stdin=subprocess.DEVNULL,
                                capture_output=True, text=True, timeout=240)
        except subprocess.TimeoutExpired:
            return None, "", "it doesn't end"
        return it.returncode, it.stdout, it.stderr


# ---- docker-compose: a service that lasts and one that ends, on networks that stand (a volume of a service is refused: the
# tool tells it as an anonymous one, too)
SERVICES = """
version: "2.4"
services:
  web:
    image: engine/tools
    command: deaf
    network_mode: bridge
    labels: {tier: front}
  job:
    image: engine/tools
    command: echo hi
    network_mode: none
    depends_on: [web]
"""
COMPOSED = (
    ("config --quiet", 0, ""),
    ("pull", 0, "done"),
    ("up --detach", 0, "Creating app_web_1"),
    ("ps", 0, "app_web_1"),
    ("ps --quiet web", 0, "0" * 8),
    ("logs job", 0, "hi"),
    ("exec -T web echo inside", 0, "inside"),
    ("exec -T web exit 4", 4, ""),
    ("top", 1, "top is left out"),
    ("port web 80", 0, ""),
    ("images", 0, "engine/tools"),
    ("pause web", 0, "Pausing app_web_1"),
    ("unpause web", 0, "Unpausing app_web_1"),
    ("restart --timeout 0 web", 0, "Restarting app_web_1"),
    ("up --detach", 0, "app_web_1 is up-to-date"),
    ("run --rm job echo again", 0, "again"),
    ("run --rm job exit 3", 3, ""),
    ("up --detach --scale web=2", 0, "Creating app_web_2"),
    ("kill web", 0, "Killing app_web_2"),
    ("start web", 0, "Starting web"),
    ("stop --timeout 1", 0, "Stopping app_web_1"),
    ("rm --force", 0, "Removing app_web_1"),
    ("up --detach", 0, "Creating app_web_1"),
    ("down --timeout 0 --volumes", 0, "Removing app_web_1"),
    ("ps", 0, "Name"),
)
if shutil.which("docker-compose"):
    with Lab() as lab:
        lab.write("docker-compose.yml", SERVICES)
        for line, status, told in COMPOSED:
            ended, out, message = lab.run(["docker-compose", *line.split()])
            is_so = ended == status and told in out + message
            steps.tell("docker-compose " + line, None if is_so else f"{ended}: {(out + message)[-300:]!r}")

# ---- Ansible: a task a step (of the image it compares an id with what an inspect tells, which is a name; of volumes it looks for binds, which
# an inspect doesn't tell)
TASKS = """
- hosts: localhost
  connection: local
  gather_facts: false
  tasks:
  - name: a container that runs
    community.docker.docker_container: {name: web, image: engine/tools, command: deaf, labels: {tier: front}}
    register: web
    failed_when: not web.changed or web.container.State.Status != "running"
  - name: the same again, which changes nothing
    community.docker.docker_container: {name: web, image: engine/tools, command: deaf, labels: {tier: front}, comparisons: {image: ignore}}
    register: again
    failed_when: again.changed
  - name: what it is
    community.docker.docker_container_info: {name: web}
    register: info
    failed_when: not info.exists or info.container.State.Status != "running"
  - name: another process in it
    community.docker.docker_container_exec: {container: web, command: echo inside}
    register: it
    failed_when: it.rc != 0 or it.stdout != "inside"
  - name: one that ends with 4
    community.docker.docker_container_exec: {container: web, argv: [exit, "4"]}
    register: it
    failed_when: it.rc != 4
  - name: one that reads
    community.docker.docker_container_exec: {container: web, command: cat, stdin: one}
    register: it
    failed_when: it.stdout != "one"
  - name: a pause
    community.docker.docker_container: {name: web, paused: true, comparisons: {"*": ignore}}
    register: it
    failed_when: not it.container.State.Paused
  - name: its end
    community.docker.docker_container: {name: web, paused: false, comparisons: {"*": ignore}}
    register: it
    failed_when: it.container.State.Paused
  - name: a restart
    community.docker.docker_container: {name: web, restart: true, stop_timeout: 1, comparisons: {"*": ignore}}
    register: it
    failed_when: not it.changed
  - name: a stop
    community.docker.docker_container: {name: web, state: stopped, stop_timeout: 1, comparisons: {"*": ignore}}
    register: it
    failed_when: it.container.State.ExitCode != 137
  - name: a removal
    community.docker.docker_container: {name: web, state: absent}
    register: it
    failed_when: not it.changed
  - name: a removal of what is gone
    community.docker.docker_container: {name: web, state: absent}
    register: it
    failed_when: it.changed
  - name: a job
    community.docker.docker_container: {name: job, image: engine/tools, command: echo hi, detach: false, cleanup: true}
    register: it
    failed_when: it.container.Output != "hi\\n"
  - name: a job that fails
    community.docker.docker_container: {name: job, image: engine/tools, command: ["exit", "7"], detach: false}
    register: it
    failed_when: it.status != 7
  - name: a volume
    community.docker.docker_volume: {name: tape, labels: {of: tests}}
    register: it
    failed_when: not it.changed or it.volume.Name != "tape"
  - name: the same again, which changes nothing
    community.docker.docker_volume: {name: tape, labels: {of: tests}}
    register: it
    failed_when: it.changed
  - name: what it is
    community.docker.docker_volume_info: {name: tape}
    register: it
    failed_when: not it.exists
  - name: its removal
    community.docker.docker_volume: {name: tape, state: absent}
    register: it
    failed_when: not it.changed
  - name: the host
    community.docker.docker_host_info: {containers: true, images: true, networks: true, volumes: true, disk_usage: true}
    register: it
    failed_when: it.networks | length != 3
  - name: an image
    community.docker.docker_image_info: {name: engine/tools}
    register: it
    failed_when: it.images | length != 1
  - name: an image that isn't there
    community.docker.docker_image_info: {name: redis}
    register: it
    failed_when: it.images | length != 0
  - name: prunes of images, networks, volumes and builds
    community.docker.docker_prune: {images: true, networks: true, volumes: true, builder_cache: true}
    register: it
    failed_when: it.changed
  - name: a prune of containers, which is left out
    community.docker.docker_prune: {containers: true}
    register: it
    failed_when: "'prune is left out' not in it.msg"
"""


def played(text):
    """The tasks that a run of a playbook tells, each with why it failed, if it did."""
    for play in json.loads(text)["plays"]:
        for task in play["tasks"]:
            it = task["hosts"]["localhost"]
            yield task["task"]["name"], json.dumps(it)[:400] if it.get("failed") or it.get("unreachable") else None


if shutil.which("ansible-playbook"):
    with Lab() as lab:
        lab.write("tasks.yml", TASKS)
        _, out, message = lab.run(["ansible-playbook", "tasks.yml"], ANSIBLE_STDOUT_CALLBACK="json", ANSIBLE_HOME=lab.home,
                                  ANSIBLE_LOCALHOST_WARNING="false", ANSIBLE_INVENTORY_UNPARSED_WARNING="false")
        try:
            told = list(played(out[out.index("{"):]))
        except ValueError:
            told = [("playbook", message[-300:])]
        for name, problem in told:
            steps.tell("Ansible: " + name, problem)
        last = told[-1][0] if told else "none"
        steps.tell("Ansible: all tasks", None if len(told) == TASKS.count("- name:") else f"the last was {last!r}")

# ---- Ruby's library, by a script of its own
if shutil.which("ruby") and subprocess.run(["ruby", "-e", "require 'docker'"], capture_output=True).returncode == 0:
    with Lab() as lab:
        status, out, message = lab.run(["ruby", str(here / "library.rb")])
        for line in out.splitlines():
            what, _, problem = line.partition(": ")
            steps.tell("docker-api: " + what, problem or None)
        steps.tell("docker-api: its end", None if status == 0 and out else message[-300:] or "no step")
steps.end()
