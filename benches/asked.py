"""A daemon that figures.py asks, and the containers that it was given; and samples of its calls, each of which asks for a second or so."""
import itertools
import os

from rates import POST, again, pour, rate, request, rounds
from servers import Client

SECONDS = 1
JSON = "Content-Type: application/json"
MARKS = (f"b{os.getpid()}-{number}-" for number in itertools.count())


class Asked:
    """Its containers have names of its own, so that several may ask one daemon."""

    def __init__(self, server):
        self.server, self.client, self.mark, self.made = server, Client(server.port), next(MARKS), 0

    def box(self, name, rest=""):
        return f"/containers/{self.mark}{name}{rest}"

    def create(self, name, kind):
        """The request that creates one of that program."""
        return "POST", f"/containers/create?name={self.mark}{name}", self.server.spec(self.server.words[kind])

    def make(self, name, kind):
        method, path, body = self.create(name, kind)
        self.client.ask(method, path, body.encode())

    def act(self, name, act):
        self.client.ask("POST", self.box(name, f"/{act}"))

    def run(self, kind, ends=True):
        """A container of that program, which has run to its end, or runs."""
        self.make(kind, kind)
        self.act(kind, "start")
        if ends:
            self.act(kind, "wait")

    def grown(self, asks, status):
        """How many bytes it has more for each of these requests, which are made at once and answered so."""
        rest = self.server.resident()
        answers = pour(self.server, [request(*ask, *[JSON] * (len(ask) > 2)) for ask in asks])
        if answers != {status: len(asks)}:
            raise SystemExit(f"{self.server.name}: {len(asks)} of {asks[0]} were answered {answers}")
        return (self.server.resident() - rest) * 1024 / len(asks)

    def fill(self, count):
        """As many containers as that; how many bytes it has more for each that came."""
        come, self.made = range(self.made, count), count
        return self.grown([self.create(f"c{at}", "line") for at in come], b"201")

    # Samples: each gives a function, which gives requests a second.

    def reads(self, path, connections=1):
        return lambda: rate(self.server.port, path, SECONDS, connections=connections)

    def inspects(self, connections=1):
        return self.reads(self.box(f"c{self.made // 2}", "/json"), connections)

    def lists(self, count):
        return self.reads(f"/containers/json?all=1&limit={count}")

    def logs(self, kind):
        return self.reads(self.box(kind, "/logs?stdout=1"))

    def waits(self):
        """For one that has ended."""
        return lambda: rate(self.server.port, self.box("line", "/wait"), SECONDS, POST)

    def creates(self):
        return lambda: rounds(self.server.port, SECONDS, self.create("n%d", "end"))

    def creates_and_removes(self):
        return lambda: rounds(self.server.port, SECONDS, self.create("r%d", "end"), ("DELETE", self.box("r%d"), ""))

    def ends(self):
        """Starts, each with a wait for the end."""
        return lambda: rounds(self.server.port, SECONDS, ("POST", self.box("end", "/start"), ""), ("POST", self.box("end", "/wait"), ""))

    def execs(self, act):
        """Execs of a line in a container that runs."""
        return lambda: again(lambda: act(self.client, self.mark + "last", self.server.words["line"]), SECONDS)
