"""Steps of a client against a daemon, and the table of what came of each."""
import sys


class Steps:
    """Counts steps, and prints a line of each: `ok`, or `FAILED` and why."""

    def __init__(self, client):
        self.client, self.counts = client, {"ok": 0, "FAILED": 0}

    def tell(self, what, problem=None):
        kind = "FAILED" if problem else "ok"
        self.counts[kind] += 1
        print(f"{kind:7} {self.client}: {what}" + (f"\n        {problem}" if problem else ""), flush=True)
        return kind == "ok"

    def end(self):
        print(f"{self.client}: " + ", ".join(f"{count} {kind}" for kind, count in self.counts.items()), flush=True)
        sys.exit(1 if self.counts["FAILED"] else 0)
