"""What the scripts here share of streams: attaches, followers of logs and of events, execs, waits and idle connections, each over
connections of its own.
"""
import json
import select
import socket
import threading
import time

from servers import Client

PIECE = 64 << 10


def attached(server, name, *streams):
    """A connection to which these streams of a new container were attached that copies its input."""
    client = Client(server.port)
    server.create(client, name, "copy", OpenStdin=True, StdinOnce=True, AttachStdin=True, AttachStdout=True)
    client.ask("POST", f"/containers/{name}/start")
    client.take_over(f"/containers/{name}/attach?stream=1&" + "&".join(f"{stream}=1" for stream in streams))
    if client.ahead:
        raise SystemExit(f"{server.name} wrote what nobody sent")
    return client.link


def send(link, text):
    """All of a text, and its end."""
    for at in range(0, len(text), PIECE):
        link.sendall(text[at : at + PIECE])
    link.shutdown(socket.SHUT_WR)


def through(link, text):
    """The seconds until all has come back, and what came."""
    sends = threading.Thread(target=send, args=(link, text))
    came, begun = [], time.perf_counter()
    sends.start()
    while got := link.recv(1 << 20):
        came.append(got)
    took = time.perf_counter() - begun
    sends.join()
    link.close()
    return took, b"".join(came)


def payload(frames):
    """What frames of stdout carry."""
    at, parts = 0, []
    while at < len(frames):
        size = int.from_bytes(frames[at + 4 : at + 8], "big")
        if frames[at : at + 4] != b"\x01\0\0\0":
            raise SystemExit(f"a frame of another stream, or none: {frames[at:at + 8]!r}")
        parts.append(frames[at + 8 : at + 8 + size])
        at += 8 + size
    return b"".join(parts)


def there_and_back(link, frame, count):
    """The milliseconds of each of so many bytes that are sent one behind the other, and come back in a frame's head of that size."""
    took = []
    for _ in range(count):
        begun = time.perf_counter()
        link.sendall(b"x")
        left = frame + 1
        while left:
            left -= len(link.recv(left))
        took.append((time.perf_counter() - begun) * 1000)
    link.shutdown(socket.SHUT_WR)
    link.close()
    return took


def exec_created(client, name, words, **fields):
    """The id of an exec."""
    made = client.ask("POST", f"/containers/{name}/exec", json.dumps({"Cmd": words, **fields}).encode())
    return json.loads(made)["Id"]


def exec_attached(client, name, words):
    """An exec that goes on to the end of what it writes, over a connection of its own. It has to write something."""
    made = exec_created(client, name, words, AttachStdout=True)
    stream = Client(client.port)
    stream.take_over(f"/exec/{made}/start", b'{"Detach":false,"Tty":false}')
    while got := stream.link.recv(1 << 16):
        stream.ahead += got
    stream.link.close()
    if not payload(stream.ahead):
        raise SystemExit(f"an exec of {words} wrote nothing")


def exec_detached(client, name, words):
    """An exec that is started, and of which nothing more is asked."""
    client.ask("POST", f"/exec/{exec_created(client, name, words)}/start", b'{"Detach":true}')


def followed(port, path):
    """A client whose answer's head has come, and goes on."""
    client = Client(port)
    client.send("GET", path)
    client.head()
    return client


def pauses(count, seconds=0.05):
    """So many pauses one behind the other, of one to two times as long, spread evenly: so what looks every 50 ms isn't always met alike."""
    for number in range(count):
        time.sleep(seconds * (1 + number * 7 % count / count))
        yield number


def delays(feed, follower, count):
    """The milliseconds from each of so many writes to its line at the follower."""
    took = []
    for number in pauses(count):
        line = b"line %d\n" % number
        begun = time.perf_counter()
        feed.sendall(line)
        while line not in follower.ahead:
            follower.more()
        took.append((time.perf_counter() - begun) * 1000)
        follower.ahead = b""
    return took


def arrivals(links, mark, count, begun):
    """The milliseconds from that moment until a first and until each of the links has brought the mark so many times."""
    poll, left, first = select.epoll(), {link.fileno(): [link, b"", 0] for link in links}, None
    for number in left:
        poll.register(number, select.EPOLLIN)
    while left:
        for number, _ in poll.poll(30) or [(None, None)]:
            if number is None:
                raise SystemExit(f"{len(left)} connections didn't bring {mark!r} {count} times")
            link, tail, found = left[number]
            got = link.recv(1 << 18)
            if not got:
                raise SystemExit(f"a peer closed before {mark!r} came {count} times")
            text = tail + got
            found += text.count(mark)
            left[number] = [link, text[len(text) - len(mark) + 1 :], found]
            if found >= count:
                first = first or time.monotonic() - begun
                poll.unregister(number)
                del left[number]
    return first * 1000, (time.monotonic() - begun) * 1000


def waiters(port, count, name, field=b""):
    """So many connections that wait for a container."""
    links = []
    for _ in range(count):
        link = socket.create_connection(("127.0.0.1", port))
        link.sendall(b"POST /containers/%b/wait HTTP/1.1\r\nHost: x\r\nContent-Length: 0\r\n%b\r\n" % (name.encode(), field))
        links.append(link)
    return links


def idle(port, count):
    """So many connections whose first request was answered, so that what each needs is there."""
    links = []
    for _ in range(count):
        link = socket.create_connection(("127.0.0.1", port))
        link.sendall(b"GET /_ping HTTP/1.1\r\nHost: x\r\n\r\n")
        link.recv(4096)
        links.append(link)
    return links
