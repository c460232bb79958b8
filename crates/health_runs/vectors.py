#!/usr/bin/env python3
"""Writes stdin and stdout: each line with what is to be said of it, worked out by hand from the rules in health_watch's README.

Run it here after a change, and look at the difference.
"""
import pathlib

TABLE = """
flaky 2|1000 1000 2 0|start 0,ask 3000=> unhealthy at 2000; healthy at 3000; Healthy 0 at 3000;
flaky 2|1000 1000 2 0|start 0,ask 1999,ask 2500,ask 3000=> Starting 1 at 1999; unhealthy at 2000; Unhealthy 2 at 2500; healthy at 3000; Healthy 0 at 3000;
sleep 5000|1000 1000 1 3000|start 0,ask 4000=> unhealthy at 4000; Unhealthy 1 at 4000;
sleep 5000|1000 1000 1 2000|start 0,ask 2000=> unhealthy at 2000; Unhealthy 1 at 2000;
flaky 2|1000 1000 2 0|start 0,die 3000,ask 3000=> unhealthy at 2000; None 0 at 3000;
flaky 2|1000 1000 2 0|start 0,die 2500,start 2600,ask 4600=> unhealthy at 2000; unhealthy at 4600; Unhealthy 2 at 4600;
flaky 2|1000 1000 2 0|start 0,start 2000,ask 3500=> Starting 1 at 3500;
exit 1|10 10 1000 0|start 0,ask 9999,ask 10000=> Starting 999 at 9999; unhealthy at 10000; Unhealthy 1000 at 10000;
exit 1|10 10 1 0|start 0,ask 30=> unhealthy at 10; Unhealthy 3 at 30;
hello|1000 1000 1 0|start 0,pause 900,ask 1200,unpause 1500,ask 1499,ask 1500=> Starting 0 at 1200; Starting 0 at 1499; healthy at 1500; Healthy 0 at 1500;
hello|1000 1000 1 0|start 0,pause 1000,unpause 1500,ask 1499,ask 1500=> Starting 0 at 1499; healthy at 1500; Healthy 0 at 1500;
hello|1000 1000 1 0|start 0,pause 900,unpause 1000,ask 1000=> healthy at 1000; Healthy 0 at 1000;
hello|1000 1000 1 0|start 0,pause 1000,unpause 1000,ask 1000=> healthy at 1000; Healthy 0 at 1000;
hello|1000 1000 1 0|start 0,pause 900,unpause 1200,pause 1200,unpause 1500,ask 1499,ask 1500=> Starting 0 at 1499; healthy at 1500; Healthy 0 at 1500;
hello|1000 1000 1 0|start 0,pause 100,die 200,start 500,ask 1499,ask 1500=> Starting 0 at 1499; healthy at 1500; Healthy 0 at 1500;
hello|1000 1000 1 0|start 0,pause 900,ask 9000=> Starting 0 at 9000;
sleep 5000|1000 1000 1 0|start 0,pause 1500,ask 9000=> unhealthy at 2000; Unhealthy 1 at 9000;
hello|1000 1000 1 0|start 0,other 500,kill 600,ask 1000=> healthy at 1000; Healthy 0 at 1000;
hello|1000 1000 1 0|start 10,die 9,ask 20=> too late; Starting 0 at 20;
hello|1000 1000 1 0|start 0,ask 5,die 5,die 6,ask 7=> Starting 0 at 5; too late; None 0 at 7;
hello|1000 1000 1 0|start 0,ask 7,ask 5=> Starting 0 at 7; Starting 0 at 5;
nope|1000 1000 2 0|start 0,ask 2000=> unhealthy at 2000; Unhealthy 2 at 2000;
sleep 1000|1000 1000 1 0|start 0,ask 2000=> healthy at 2000; Healthy 0 at 2000;
sleep 1001|1000 1000 1 0|start 0,ask 2000=> unhealthy at 2000; Unhealthy 1 at 2000;
trap|1000 500 1 0|start 0,ask 1499,ask 1500=> Starting 0 at 1499; unhealthy at 1500; Unhealthy 1 at 1500;
cat|1000 500 1 0|start 0,ask 1000=> healthy at 1000; Healthy 0 at 1000;
tick 0 10|1000 3000000 1 0|start 0,ask 2098149,ask 2098150=> Starting 0 at 2098149; unhealthy at 2098150; Unhealthy 1 at 2098150;
noise 1048576|1000 500 1 0|start 0,ask 1000=> healthy at 1000; Healthy 0 at 1000;
noise 1048577|1000 500 1 0|start 0,ask 1000=> unhealthy at 1000; Unhealthy 1 at 1000;
exit 1|1 1 1 0|start 0,ask 99999,ask 100000,ask 200000=> unhealthy at 1; Unhealthy 99999 at 99999; Unhealthy 100000 at 100000; Unhealthy 100000 at 200000;
hello|0 1000 1 0|start 0,ask 2000=> no check
hello|1000 3600001 1 0|start 0,ask 2000=> no check
"""

HERE = pathlib.Path(__file__).parent
LINES = [line.split("=> ") for line in TABLE.strip().split("\n")]
(HERE / "stdin").write_text("".join(f"{question}\n" for question, _ in LINES))
(HERE / "stdout").write_text("".join(f"{question}\n{answer} \n" if answer[-1] == ";" else f"{question}\n{answer}\n" for question, answer in LINES))
