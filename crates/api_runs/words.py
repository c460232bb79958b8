"""Words of the daemon's line."""
from lines import *

heading("words of the daemon's line")


def line(words, work="Stdio", seed=0, clock="None", connections="None", entries=4194304):
    seeds = ", ".join([str(seed)] * 32)
    ask(f"words|engined|{words}", f"Line {{ work: {work}, seed: [{seeds}], clock: {clock}, connections: {connections}, entries: {entries} }}")


CLOCK = "Some(Stepping { start: 1, step: 0 })"
line("--stdio")
line("--stdio --clock 1:0", clock=CLOCK)
line("--clock=1:0 --stdio --", clock=CLOCK)
line("--listen 127.0.0.1:2375 --seed " + "ab" * 31 + "AB --connections 5 --journal 7", "Listen(2375)", 171, connections="Some(5)", entries=7)
line("--drill 00100000", "Drill(100000)")
heading("other words are no line")
each("words|engined|", """

--stdin
--stdi
--help
-V
--stdio x
--stdio --stdio
--stdio --drill 5
--listen 127.0.0.1:1 --drill 5
--stdio --clock 1:0 --clock 1:0
--stdio --clock 1
--stdio --clock 1:
--stdio --clock 9000000000001:0
--stdio --clock 00000000000001:0
--stdio --seed 00
--stdio --seed=
--stdio --journal 0
--stdio --journal 16777217
--stdio --journal 000000001
--stdio --connections 0
--stdio --connections -1
--stdio --connections
--drill 0
--drill 100001
--drill +5
--listen 127.0.0.1
--listen 127.0.0.1:
--listen 127.0.0.1:65536
--listen 127.0.0.1:000080
--listen 0.0.0.0:80
--listen localhost:80""".split("\n")[1:], "no line")
