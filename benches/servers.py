"""What the scripts here share: a client of one kept connection, and the daemons that a script starts, or finds at an address.

Wherever a script takes WHERE, it is the path of engined, or the address of one that listens; a name may stand before it, as in
NAME=127.0.0.1:2375. How often they are asked stands in rates.py, what goes through attaches and to followers in streams.py.
"""
import io
import json
import os
import resource
import shutil
import socket
import subprocess
import sys
import tarfile
import tempfile
import time


# Some thousand connections, of this process and of those that it starts.
resource.setrlimit(resource.RLIMIT_NOFILE, (min(8192, resource.getrlimit(resource.RLIMIT_NOFILE)[1]),) * 2)

NOISE = 4 << 20  # bytes: what a log has room for

TICK = 100  # milliseconds

# The words of the programs that are run, of ours and of an image of busybox.
OURS = {
    "line": ["echo", "hi"],
    "end": ["exit", "0"],
    "last": ["deaf"],
    "copy": ["cat"],
    "noise": ["noise", str(NOISE)],
    "ticks": ["tick", "0", str(TICK)],
}
BUSYBOX = {
    "line": ["/busybox", "echo", "hi"],
    "end": ["/busybox", "true"],
    "last": ["/busybox", "sleep", "100000"],
    "copy": ["/busybox", "cat"],
    "noise": ["/busybox", "sh", "-c", f"/busybox yes {'x' * 127} | /busybox head -c {NOISE}"],
}


class Client:
    """One kept connection. A request is sent whole, and its answer read to the end."""

    def __init__(self, port):
        self.port, self.link = port, socket.create_connection(("127.0.0.1", port))
        self.link.setsockopt(socket.IPPROTO_TCP, socket.TCP_NODELAY, 1)
        self.ahead = b""

    def more(self):
        got = self.link.recv(1 << 20)
        if not got:
            raise SystemExit("the peer closed")
        self.ahead += got

    def take(self, count):
        while len(self.ahead) < count:
            self.more()
        taken, self.ahead = self.ahead[:count], self.ahead[count:]
        return taken

    def line(self, end=b"\r\n"):
        while (at := self.ahead.find(end)) < 0:
            self.more()
        return self.take(at + len(end))[: -len(end)]

    def chunks(self):
        parts = []
        while size := int(self.line(), 16):
            parts.append(self.take(size))
            self.take(2)
        self.take(2)
        return b"".join(parts)

    def send(self, method, path, body=b"", fields=()):
        lines = [f"{method} {path} HTTP/1.1", "Host: x", f"Content-Length: {len(body)}"]
        if body:
            lines.append("Content-Type: application/json")
        self.link.sendall("\r\n".join([*lines, *fields, "", ""]).encode() + body)

    def head(self):
        """The status, and the fields by their names in small letters."""
        first, *fields = self.line(b"\r\n\r\n").decode().split("\r\n")
        named = (field.partition(":") for field in fields)
        return int(first.split()[1]), {name.lower(): value.strip() for name, _, value in named}

    def ask(self, method, path, body=b""):
        self.send(method, path, body)
        status, named = self.head()
        if named.get("transfer-encoding") == "chunked":
            found = self.chunks()
        else:
            found = self.take(int(named.get("content-length", 0)))
        if status >= 400:
            raise SystemExit(f"{method} {path}: {status} {found[:200]!r}")
        return found

    def take_over(self, path, body=b""):
        """A request for the connection itself: from here on it is the peer's stream."""
        self.send("POST", path, body, ("Connection: Upgrade", "Upgrade: tcp"))
        status, _ = self.head()
        if status != 101:
            raise SystemExit(f"{path}: {status}")


class Server:
    """What answers at a port of this machine."""

    def __init__(self, name, port, started=None, words=None, image="", room=None):
        self.name, self.port, self.started, self.words, self.image, self.room = name, port, started, words, image, room
        self.takes_over = True
        self.process = started.pid if started else listener_at(port)
        self.is_ours = words is OURS

    def spec(self, words, **fields):
        """The body of a create."""
        return json.dumps({"Image": self.image, "Cmd": words, **fields})

    def create(self, client, name, kind, **fields):
        """A container of that program."""
        client.ask("POST", f"/containers/create?name={name}", self.spec(self.words[kind], **fields).encode())

    def resident(self):
        """The memory of the process and of those that it started, in KB."""
        return sum(map(resident, family(self.process)))

    def ticks(self):
        """Seconds of processor time, of the process and of those that it started."""
        return sum(map(ticks, family(self.process)))

    def stop(self):
        if self.started:
            self.started.terminate()
            self.started.wait()
        if self.room:
            shutil.rmtree(self.room, ignore_errors=True)


def resident(process):
    """In KB."""
    with open(f"/proc/{process}/status", encoding="ascii") as lines:
        return next((int(line.split()[1]) for line in lines if line.startswith("VmRSS:")), 0)


def family(process):
    """A process and all below it. Threads start processes too, and end while one looks."""
    found = [process]
    for thread in os.listdir(f"/proc/{process}/task"):
        try:
            with open(f"/proc/{process}/task/{thread}/children", encoding="ascii") as children:
                for child in children.read().split():
                    found += family(int(child))
        except OSError:
            continue
    return found


def ticks(process):
    """Seconds of processor time, in and out of the kernel."""
    with open(f"/proc/{process}/stat", encoding="ascii") as text:
        fields = text.read().rpartition(")")[2].split()
    return (int(fields[11]) + int(fields[12])) / os.sysconf("SC_CLK_TCK")


def used(process, seconds):
    """The share of one processor over so many seconds."""
    begun, at = ticks(process), time.monotonic()
    time.sleep(seconds)
    return (ticks(process) - begun) / (time.monotonic() - at)


def listener_at(port):
    """The process that listens at a port."""
    with open("/proc/net/tcp", encoding="ascii") as lines:
        rows = [line.split() for line in lines][1:]
    here = {f"socket:[{row[9]}]" for row in rows if row[3] == "0A" and int(row[1].partition(":")[2], 16) == port}
    for process in filter(str.isdigit, os.listdir("/proc")):
        try:
            for file in os.listdir(f"/proc/{process}/fd"):
                if os.readlink(f"/proc/{process}/fd/{file}") in here:
                    return int(process)
        except OSError:
            continue
    raise SystemExit(f"nobody listens at port {port}")


def free_port():
    with socket.create_server(("127.0.0.1", 0)) as place:
        return place.getsockname()[1]


def wait_for(port, tries=100):
    """Whether somebody listens at the port, at last."""
    for _ in range(tries):
        try:
            socket.create_connection(("127.0.0.1", port)).close()
            return True
        except OSError:
            time.sleep(0.1)
    return False


def named(where):
    """A name for what is at WHERE, and the WHERE without one: it is that which was given, or the program's."""
    name, _, place = where.rpartition("=")
    return name or (os.path.basename(place) if os.path.exists(place) else "engined"), place


def engined(where, *words):
    """The daemon at an address, or a new one of that program."""
    name, place = named(where)
    if not os.path.exists(place):
        return Server(name, int(place.rpartition(":")[2]), None, OURS, "engine/tools")
    port, is_single = free_port(), os.path.basename(place) == "engineone"
    listens = [f"127.0.0.1:{port}"] if is_single else ["--listen", f"127.0.0.1:{port}"]
    started = subprocess.Popen([os.path.abspath(place), *listens, *words], stdin=subprocess.DEVNULL, stdout=subprocess.DEVNULL)
    if not wait_for(port):
        raise SystemExit(f"{name} didn't come up")
    server = Server(name, port, started, OURS, "engine/tools")
    server.takes_over = not is_single
    return server


def busybox():
    """A file system with one static program, as a tar."""
    made = io.BytesIO()
    with tarfile.open(fileobj=made, mode="w") as tar:
        tar.add(shutil.which("busybox"), arcname="busybox")
    return made.getvalue()


def docker():
    """Debian's dockerd with an image of busybox; or nothing, and it says why."""
    if not shutil.which("dockerd") or not shutil.which("busybox"):
        told("no figures of docker.io: dockerd or busybox isn't here (apt-get install docker.io busybox-static)")
        return None
    room, port = tempfile.mkdtemp(), free_port()
    line = ["dockerd", "-H", f"tcp://127.0.0.1:{port}", "--tls=false", "--data-root", f"{room}/docker", "--exec-root"]
    line += [f"{room}/exec", "--pidfile", f"{room}/docker.pid", "--iptables=false", "--bridge=none"]
    with open(f"{room}/docker.log", "wb") as log:
        started = subprocess.Popen(line, stdin=subprocess.DEVNULL, stdout=log, stderr=log)
    server = Server("dockerd", port, started, BUSYBOX, "bench", room)
    if not wait_for(port, 300):
        with open(f"{room}/docker.log", encoding="utf-8") as log:
            told(f"no figures of docker.io: dockerd didn't come up: {log.read().splitlines()[-1:]}")
        server.stop()
        return None
    Client(port).ask("POST", "/images/create?fromSrc=-&repo=bench", busybox())
    return server


NGINX = """
worker_processes auto;
pid {room}/nginx.pid;
error_log {room}/nginx.err;
daemon off;
events {{ worker_connections 4096; }}
http {{
    access_log off;
    sendfile on;
    keepalive_requests 10000000;
    server {{
        listen 127.0.0.1:{port};
        location / {{ default_type text/plain; return 200 "OK"; }}
        location = /noise {{ root {room}; }}
    }}
}}
"""


def nginx():
    """nginx with a static answer, and with a file as large as a log; or nothing, and it says why."""
    if not shutil.which("nginx"):
        told("no figures of nginx: it isn't here (apt-get install nginx-light)")
        return None
    room, port = tempfile.mkdtemp(), free_port()
    os.chmod(room, 0o755)
    with open(f"{room}/noise", "wb") as file:
        file.write(b"x" * NOISE)
    with open(f"{room}/nginx.conf", "w", encoding="ascii") as conf:
        conf.write(NGINX.format(room=room, port=port))
    started = subprocess.Popen(["nginx", "-c", f"{room}/nginx.conf"], stderr=subprocess.DEVNULL)
    if not wait_for(port):
        raise SystemExit("nginx didn't come up")
    return Server("nginx", port, started, room=room)


def told(line):
    """What a reader of the figures needn't see."""
    print(line, file=sys.stderr, flush=True)
