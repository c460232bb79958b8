"""What the scripts here share of figures: how often something is answered in a second, what many requests at once are answered, and the
median of rounds in turn.
"""
import collections
import json
import re
import socket
import statistics
import subprocess
import tempfile
import threading
import time

from servers import Client

# Requests in a circle, with a number of the round in their paths, which is another in each run. The first that is made is one that wrk
# only looks at.
CIRCLE = """
local steps = {{ {steps} }}
local from, count, looked = os.time() * 1000000, 0, false
function request()
   local method, path, body = unpack(steps[count % #steps + 1])
   path = string.format(path, from + math.floor(count / #steps))
   if looked then count = count + 1 end
   looked = true
   return wrk.format(method, path, {{ ["Content-Type"] = "application/json" }}, body)
end
"""
POST = 'wrk.method = "POST"'
FEWEST, LONGEST = 10, 16  # answers, and seconds


def rate(port, path, seconds, script="", connections=1, fields=()):
    """Requests a second over so many connections, by wrk. Each answer has to be one of success. Where hardly any came it takes longer."""
    line = ["wrk", f"-t{min(connections, 2)}", f"-c{connections}", f"-d{seconds}s", "--timeout", "60s"]
    line += [word for field in fields for word in ("-H", field)]
    with tempfile.NamedTemporaryFile("w", suffix=".lua") as file:
        file.write(script)
        file.flush()
        line += ["-s", file.name, f"http://127.0.0.1:{port}{path}"]
        told = subprocess.run(line, check=True, capture_output=True, text=True).stdout
    if "Non-2xx" in told or "Socket errors" in told:
        raise SystemExit(f"{path}: {told}")
    answers = int(re.search(r"(\d+) requests in", told)[1])
    if answers < FEWEST and seconds < LONGEST:
        return rate(port, path, 4 * seconds, script, connections, fields)
    if not answers:
        raise SystemExit(f"{path}: no answer in {seconds} s")
    return float(re.search(r"Requests/sec: *([\d.]+)", told)[1])


def rounds(port, seconds, *steps):
    """Rounds a second of requests in a circle: each a method, a path, and a body or none."""
    told = ", ".join(f"{{ {json.dumps(method)}, {json.dumps(path)}, [==[{body}]==] }}" for method, path, body in steps)
    return rate(port, "/", seconds, CIRCLE.format(steps=told)) / len(steps)


def again(act, seconds):
    """How often a second something is done, again and again for that long."""
    begun, count = time.perf_counter(), 0
    while (took := time.perf_counter() - begun) < seconds:
        act()
        count += 1
    return count / took


def in_turn(count, samples):
    """The median of each of these, by its name, of so many rounds in which each is taken once."""
    found = {name: [] for name in samples}
    for _ in range(count):
        for name, sample in samples.items():
            found[name].append(sample())
    return {name: statistics.median(figures) for name, figures in found.items()}


def request(method, path, body="", *fields):
    """A request as it is sent."""
    lines = [f"{method} {path} HTTP/1.1", "Host: x", *fields, f"Content-Length: {len(body)}", "", body]
    return "\r\n".join(lines).encode()


def statuses(text):
    """How often each status stands in answers."""
    return collections.Counter(re.findall(rb"HTTP/1.1 (\d{3})", text))


def pour(server, requests):
    """Makes requests over a connection of its own, without waiting for answers: the statuses of these."""
    client = Client(server.port)
    text = b"".join(requests) + request("GET", "/_ping", "", "Connection: close")
    sends = threading.Thread(target=client.link.sendall, args=(text,))
    sends.start()
    came = []
    while got := client.link.recv(1 << 20):
        came.append(got)
    sends.join()
    client.link.close()
    return statuses(b"".join(came)) - collections.Counter([b"200"])


def fetch(port, path):
    """The seconds from the connection to the last byte of a body in chunks, and the body."""
    came, place, begun = bytearray(), memoryview(bytearray(1 << 20)), time.perf_counter()
    with socket.create_connection(("127.0.0.1", port)) as link:
        link.sendall(b"GET %b HTTP/1.1\r\nHost: x\r\nConnection: close\r\n\r\n" % path.encode())
        while got := link.recv_into(place):
            came += place[:got]
        took = time.perf_counter() - begun
    return took, unchunked(came, came.index(b"\r\n\r\n") + 4)


def unchunked(text, at):
    """What chunks carry that stand in a text from there on."""
    parts = []
    while size := int(text[at : (end := text.index(b"\r\n", at))], 16):
        parts.append(text[end + 2 : end + 2 + size])
        at = end + 4 + size
    return b"".join(parts)
