"""The table of figures.py: a row for each figure, a column for each daemon and each of its peers, how many times as good as these the
daemons' figures are, and which of them are as wanted.
"""

ANY = float("inf")
IDLE = {"engineone": 8}  # KB that an idle connection may have, where it isn't 40

ROWS = {
    "ping": ("`_ping` over one connection", "a second"),
    "ping_8": ("`_ping` over 8", "a second"),
    "ping_64": ("`_ping` over 64", "a second"),
    "ping_new": ("`_ping`, a new connection each, 8 at once", "a second"),
    "inspect_few": ("inspect by name among {few}", "µs"),
    "inspect_some": ("inspect by name among {some:,}", "µs"),
    "inspect_many": ("inspect by name among {many:,}", "µs"),
    "inspect_8": ("inspect over 8 connections among {some:,}", "a second"),
    "list_few": ("list of {few}", "µs"),
    "list_some": ("list of {some:,}", "µs"),
    "list_large": ("list of {large:,}", "µs"),
    "list_newest": ("list of the newest 10 of {many:,}", "µs"),
    "create": ("create", "µs"),
    "remove_few": ("create and remove among {few}", "µs"),
    "remove_many": ("create and remove among {many:,}", "µs"),
    "exit_few": ("start to exit among {few}", "µs"),
    "exit_many": ("start to exit among {many:,}", "µs"),
    "wait": ("wait for one that has ended", "µs"),
    "exec": ("exec of a line: create, start, its output to the end", "µs"),
    "exec_detached": ("exec create, and a detached start", "µs"),
    "log_line": ("logs of a line", "µs"),
    "log_whole": ("logs of 4 MiB (of nginx: a file)", "µs"),
    "follower": ("a line at a follower, behind its write: median of {writes}", "ms"),
    "follower_most": ("the same: the longest", "ms"),
    "byte": ("a byte through an attach and back", "ms"),
    "mebibyte": ("a mebibyte through an attach and back", "ms"),
    "event": ("an event at the last of {followers} followers", "ms"),
    "events": ("{events:,} events to {followers} followers: lines that they read", "a second"),
    "wait_first": ("{links:,} waits that a kill ends: the first answer", "ms"),
    "wait_last": ("the same: the last answer", "ms"),
    "wait_share": ("the same before the kill: of a processor", "%"),
    "follow_share": ("a follower of a log that has all: of a processor", "%"),
    "idle_share": ("{links:,} idle connections: of a processor", "%"),
    "journal": ("journal handed out: lines", "a second"),
    "replay": ("journal replayed by `dockc`: lines", "a second"),
    "rest": ("memory at rest", "MB"),
    "container": ("memory of a container, with its event and entry", "bytes"),
    "exec_memory": ("memory of an exec, with its event and entry", "bytes"),
    "event_memory": ("memory of an event", "bytes"),
    "entry": ("memory of an entry of the journal", "bytes"),
    "record": ("memory of a log's record of 5 bytes", "bytes"),
    "idle": ("memory of an idle connection", "KB"),
}


class Figures:
    """What was found, by the keys of rows and the names of columns."""

    def __init__(self, ours, peers):
        self.ours, self.peers, self.found = ours, peers, {key: {} for key in ROWS}

    def note(self, key, name, figure):
        """Less than nothing is no figure: a peer may have let memory go meanwhile."""
        if figure >= 0:
            self.found[key][name] = figure

    def of(self, key, name):
        return self.found[key].get(name)

    def times(self, key, name, peer):
        """How many times as good as the peer's a figure is; nothing where one of them isn't there, or nothing."""
        mine, theirs = self.of(key, name), self.of(key, peer)
        if not mine or not theirs:
            return None
        return mine / theirs if ROWS[key][1] == "a second" else theirs / mine

    def lines(self, counts):
        """The table. Behind each peer stands the ratio of each daemon."""
        yield line(["What", *self.ours, *(cell for peer in self.peers for cell in (peer, "times"))])
        yield "|---" * (1 + len(self.ours) + 2 * len(self.peers)) + "|"
        for key, (text, unit) in ROWS.items():
            cells = [f"{text.format(**counts)}, {unit}", *(shown(self.of(key, name)) for name in self.ours)]
            for peer in self.peers:
                ratios = (shown(self.times(key, name, peer)) for name in self.ours)
                cells += [shown(self.of(key, peer)), ", ".join(filter(None, ratios))]
            yield line(cells)

    def bars(self, name):
        """What is wanted of a daemon: in words, what was found, and the least and the most of it."""
        yield "`_ping` over one connection, of nginx's rate", self.times("ping", name, "nginx"), 1, ANY
        yield "`_ping` over 8, of nginx's rate", self.times("ping_8", name, "nginx"), 1, ANY
        yield "a new connection each, of dockerd's rate", self.times("ping_new", name, "dockerd"), 1, ANY
        yield "a new connection each, of nginx's rate", self.times("ping_new", name, "nginx"), 0.5, ANY
        yield "µs of a list of a thousand", self.of("list_some", name), 0, 1000
        yield "ms of a line at a follower, the median", self.of("follower", name), 0, 10
        yield "ms of a line at a follower, the longest", self.of("follower_most", name), 0, 10
        for call in ("inspect", "remove", "exit"):
            few, many = self.of(f"{call}_few", name), self.of(f"{call}_many", name)
            kind = ROWS[f"{call}_few"][0].partition(" among")[0]
            yield f"{kind} among many, of its time among few", many / few if few and many else None, 0, 1.5
        yield "MB at rest", self.of("rest", name), 0, 3
        yield "KB of an idle connection", self.of("idle", name), 0, IDLE.get(name, 40)

    def judged(self, name):
        """A line for each of these that was found, and one that names the rows in which a peer is better."""
        for words, found, least, most in self.bars(name):
            if found is not None:
                wanted = f"at least {least:g}" if most == ANY else f"at most {most:g}"
                yield f"- {name}: {words}: {shown(found)}, wanted {wanted}: {'met' if least <= found <= most else 'NOT MET'}"
        ratios = {(key, peer): self.times(key, name, peer) for key in ROWS for peer in self.peers}
        worse = [f"{peer} in `{key}` ({shown(ratio)})" for (key, peer), ratio in ratios.items() if ratio and ratio < 1]
        yield f"- {name}: a peer is better: {', '.join(worse) or 'nowhere'}"


def line(cells):
    return f"| {' | '.join(cells)} |"


def shown(figure):
    """A figure with three digits or more, of small ones with two; or nothing."""
    if figure is None:
        return ""
    return f"{figure:,.0f}" if figure >= 100 else f"{figure:.1f}" if figure >= 10 else f"{figure:.2f}" if figure >= 0.1 else f"{figure:.2g}"
