"""Scenarios of connections beside each other: creates and names, waits that another ends, logs that are followed."""
from exchange import *
from logs import *
from waits import *
from talks import *

WEB_CREATED = item(0, "web", ["hello"], "created", "Created")

# ---- one daemon: its ids, names and journal are shared, and each sees at once what another did

talk("creates_of_two", (0, 0, WEB, created(0)), (1, 0, create("db"), created(1)))
talk("creates_of_two_the_other_way", (0, 0, "on", ""), (1, 0, create("db"), created(0)), (0, 0, WEB, created(1)))
talk("same_name_of_two", (0, 0, WEB, created(0)), (1, 0, WEB, conflict("web", 0)))
talk("same_name_of_two_the_other_way", (0, 0, "on", ""), (1, 0, WEB, created(0)), (0, 0, WEB, conflict("web", 0)))
talk("list_beside_a_create", (0, 0, LIST_ALL, listed()), (1, 0, WEB, created(0)), (0, 0, LIST_ALL, listed(WEB_CREATED)))
BOTH_CREATED = listed(item(1, "db", ["hello"], "created", "Created"), WEB_CREATED)
talk("two_orders", (0, 0, WEB, created(0)), (1, 0, create("db") + LIST_ALL, created(1) + BOTH_CREATED),
     (0, 0, LIST_ALL, BOTH_CREATED), (2, 0, LIST_ALL, BOTH_CREATED))
talk("journal_of_two_connections", (0, 0, WEB, created(0)), (1, 0, create("db"), created(1)),
     (0, 0, LIST_ALL, message(503, "journal is full")), (1, 0, LIST_ALL + PING, message(503, "journal is full") + PONG),
     words=f"{LISTENS} --journal 2")
talk("seed_of_two", (0, 0, WEB, created(0, SEED)), (1, 0, create("db"), created(1, SEED)), words=f"{LISTENS} --seed {SEED.hex()}")


def made(**moments):
    """The answers to creates of these volumes, by their moments."""
    return [answer(201, compact(volume(name, at=moment(ms)))) for name, ms in moments.items()]


# by a line's clock each connection has one of its own, and the daemon's moment doesn't go back
talk("clock_of_a_line", (0, 0, [create_volume("v0"), create_volume("v1")], made(v0=0, v1=10)),
     (1, 0, [create_volume("v2"), create_volume("v3"), create_volume("v4")], made(v2=10, v3=10, v4=20)),
     (0, 0, create_volume("v5"), made(v5=20)), words=f"{LISTENS} --clock 1700000000000:10")
# a third that comes behind the last one of the line isn't served
talk("connections_of_a_line", (0, 0, PING, PONG), (1, 0, PING, PONG), (0, 0, PING, PONG), words=f"{LISTENS} --connections 2",
     unheard=[(2, 0, PING)])
# who goes inside a head or a body, or stays there, loses nobody else anything; who spells badly is told so
HALF_A_HEAD, HALF_A_BODY = "POST /v1.43/containers/create HTTP/1.1\r\nHo", create("db")[:-8]
talk("halfway", (0, 0, HALF_A_HEAD, ""), (1, 0, HALF_A_BODY, ""), (2, 0, HALF_A_HEAD, ""), (0, 0, "end", ""), (1, 0, "end", ""),
     (3, 0, WEB + LIST_ALL, created(0) + listed(WEB_CREATED)), (2, 0, "end", ""), status=3)
talk("refused_beside", (0, 0, WEB, created(0)), (1, 0, "GET / HTTP/1.0\r\nHost: x\r\n\r\n", bad(505)), (0, 0, LIST_ALL, listed(WEB_CREATED)),
     ended=[1], status=3)

# ---- waits that another one ends: by a start, a kill, a removal

EXITS = ["exit", "3"]
talk("wait_before_a_start", (0, 0, [create("web", EXITS), wait("next-exit")], created(0) + EARLY_HEAD), (0, 50, "on", ""),
     (1, 60, START, answer(204)), (0, 100, "on", late(3)), (0, 100, PING, PONG),
     (2, 100, LIST_ALL, listed(item(0, "web", EXITS, "exited", "Exited (3)"))))
RUNS = [create("web", DEAF), START]
RUNS_ANSWERS = created(0) + answer(204)
talk("waits_of_two_and_a_kill", (0, 0, RUNS, RUNS_ANSWERS), (1, 0, wait("next-exit"), EARLY_HEAD), (2, 0, WAIT, ""),
     (1, 50, "on", ""), (2, 50, "on", ""), (0, 60, post("/containers/web/kill"), answer(204)), (2, 100, "on", waited(137)),
     (1, 110, "on", late(137)), (0, 110, INSPECT, shown(0, "web", DEAF, "exited", code=137, started=NOW, finished=at(60))))
talk("waits_of_what_is_removed", (0, 0, WEB, created(0)), (1, 0, wait("removed"), EARLY_HEAD),
     (2, 0, wait("next-exit", early=False), ""), (3, 0, wait(), EARLY_HEAD + late(0)), (1, 50, "on", ""), (2, 50, "on", ""),
     (0, 60, get("/containers/web", "DELETE"), answer(204)), (1, 100, "on", late(0)), (2, 100, "on", waited(0)),
     (0, 100, INSPECT, NO_WEB))
talk("wait_of_what_another_removes_by_force", (0, 0, [*RUNS, WAIT], RUNS_ANSWERS), (1, 10, FORCE, answer(204)),
     (0, 50, "on", waited(137)), (0, 50, LIST_ALL, listed()))
# a stop's answer comes at the end of the run, by whom ever; of two deadlines the earlier one counts
talk("stop_beside_a_kill", (0, 0, [*RUNS, post("/containers/web/stop")], RUNS_ANSWERS), (0, 50, "on", ""),
     (1, 60, post("/containers/web/kill"), answer(204)), (0, 100, "on", answer(204)),
     (1, 100, INSPECT, shown(0, "web", DEAF, "exited", code=137, started=NOW, finished=at(60))))
talk("stops_of_two", (0, 0, [*RUNS, post("/containers/web/stop?t=10")], RUNS_ANSWERS),
     (1, 500, post("/containers/web/stop?t=1"), ""), (0, 1499, "on", ""), (1, 1499, "on", ""),
     (2, 1499, INSPECT, shown(0, "web", DEAF, "running", pid=1001, started=NOW)), (0, 1500, "on", answer(204)),
     (1, 1500, "on", answer(204)), (2, 1500, INSPECT, shown(0, "web", DEAF, "exited", code=137, started=NOW, finished=at(1500))))
talk("restart_beside_a_stop", (0, 0, [*RUNS, post("/containers/web/stop?t=10")], RUNS_ANSWERS),
     (1, 500, post("/containers/web/restart?t=1"), ""), (0, 1499, "on", ""), (0, 1500, "on", answer(204)),
     (1, 1500, "on", answer(204)),
     (2, 1500, INSPECT, shown(0, "web", DEAF, "running", pid=1002, started=at(1500), finished=at(1500))))
# broken off by the clock: what was asked for goes on, and others are served; then the status is 5
talk("stop_given_up", (0, 0, [*RUNS, post("/containers/web/stop?t=1")], RUNS_ANSWERS), (0, 500, "stop", message(503, "stopping")),
     (1, 999, INSPECT, shown(0, "web", DEAF, "running", pid=1001, started=NOW)),
     (1, 1000, INSPECT, shown(0, "web", DEAF, "exited", code=137, started=NOW, finished=at(1000))), status=5)
talk("wait_given_up", (0, 0, [*RUNS, wait()], RUNS_ANSWERS + EARLY_HEAD), (1, 0, WAIT, ""), (0, 50, "on", ""), (0, 100, "stop", ""),
     (1, 100, "on", ""), (2, 120, [INSPECT, post("/containers/web/kill")],
                         shown(0, "web", DEAF, "running", pid=1001, started=NOW) + answer(204)),
     (1, 150, "on", waited(137)), status=5)
# whose peer is gone ends at the first write, and the others are served; then the status is 4
talk("early_head_to_nobody", (0, 0, RUNS, RUNS_ANSWERS), (0, 0, "gone", ""), (0, 0, wait() + INSPECT, ""),
     (1, 50, [post("/containers/web/kill"), INSPECT],
      answer(204) + shown(0, "web", DEAF, "exited", code=137, started=NOW, finished=at(50))), ended=[0], status=4)
talk("late_code_to_nobody", (0, 0, [*RUNS, wait()], RUNS_ANSWERS + EARLY_HEAD), (0, 50, "gone", ""),
     (1, 60, post("/containers/web/kill"), answer(204)), (0, 100, "on", ""), (1, 100, PING, PONG), ended=[0], status=4)

# ---- logs that are followed beside others

FOLLOW = logs("web", "stdout=1&follow=1")
TICK = log_chunk(["tick\n"])
THRICE = ["tick", "3", "100"]
FOLLOWS = [create("web", THRICE), START, FOLLOW]
FOLLOWS_ANSWERS = created(0) + answer(204) + log_head() + TICK
TICKED_ITEM = item(0, "web", THRICE, "running", "Up")
talk("log_beside_creates", (0, 0, FOLLOWS, FOLLOWS_ANSWERS), (1, 0, create("db"), created(1)), (0, 50, "on", ""),
     (1, 100, create("job"), created(2)), (0, 100, "on", TICK), (2, 130, FOLLOW, log_head() + log_chunk(["tick\n"] * 2)),
     (0, 150, "on", ""), (0, 200, "on", TICK), (2, 230, "on", TICK),
     (1, 240, get("/containers/json"), listed(TICKED_ITEM)), (0, 250, "on", ""), (0, 300, "on", LAST_CHUNK),
     (2, 300, "on", LAST_CHUNK), (0, 300, logs("web"), logged(["tick\n"] * 3)),
     (1, 300, LIST_ALL, listed(item(2, "job", ["hello"], "created", "Created"), item(1, "db", ["hello"], "created", "Created"),
                               item(0, "web", THRICE, "exited", "Exited (0)"))))
talk("log_to_a_removal", (0, 0, [*RUNS, FOLLOW], RUNS_ANSWERS + log_head()), (0, 50, "on", ""), (1, 60, FORCE, answer(204)),
     (0, 100, "on", LAST_CHUNK), (0, 100, [LIST_ALL, FOLLOW], listed() + NO_WEB))
talk("log_to_a_kill", (0, 0, FOLLOWS, FOLLOWS_ANSWERS), (1, 150, post("/containers/web/kill"), answer(204)),
     (0, 200, "on", TICK + LAST_CHUNK), (0, 200, logs("web", STAMPED), logged(*ticks(0, 100))))
talk("log_of_what_another_restarts", (0, 0, FOLLOWS, FOLLOWS_ANSWERS), (1, 50, post("/containers/web/restart"), answer(204)),
     (0, 100, "on", TICK), (0, 150, "on", TICK), (0, 250, "on", TICK), (0, 350, "on", LAST_CHUNK),
     (1, 350, logs("web", STAMPED), logged(*ticks(0, 50, 150, 250))))
# the logs of the last 64 removed containers are kept for who follows them: of the 65th it breaks off, and the status is 3
for more, end, status in ((63, LAST_CHUNK, 0), (64, "", 3)):
    talk(f"log_behind_{more}_removals", (0, 0, [*RUNS, FOLLOW], RUNS_ANSWERS + log_head()),
         (1, 10, [FORCE, *(create("db") + get("/containers/db", "DELETE") for _ in range(more))],
          [answer(204), *(created(n + 1) + answer(204) for n in range(more))]),
         (0, 50, "on", end), ended=[0] if status else [], status=status)
talk("log_given_up", (0, 0, FOLLOWS + [logs("web")], FOLLOWS_ANSWERS), (0, 50, "on", ""), (0, 100, "stop", ""),
     (1, 300, logs("web", STAMPED) + INSPECT, logged(*ticks(0, 100, 200)) + shown(0, "web", THRICE, "exited", started=NOW, finished=at(300))),
     status=5)
talk("log_to_nobody", (0, 0, FOLLOWS, FOLLOWS_ANSWERS), (0, 50, "gone", ""), (0, 100, "on", ""),
     (1, 300, logs("web", STAMPED), logged(*ticks(0, 100, 200))), ended=[0], status=4)

# a clock that goes back leaves the moment as it is; one that leaps eight days takes it a week on
A_WEEK_ON = "2023-11-21T22:13:20.500000000Z"
talk("clocks_that_differ", (0, 500, create("web", ECHO), created(0)),
     (1, 100, START + INSPECT, answer(204) + shown(0, "web", ECHO, "exited", started=moment(500), finished=moment(500), made=moment(500))),
     (0, 691200500, START, answer(204)), (1, 100, logs("web", STAMPED), logged([f"{moment(500)} hi\n", f"{A_WEEK_ON} hi\n"])),
     (1, 100, INSPECT, shown(0, "web", ECHO, "exited", started=A_WEEK_ON, finished=A_WEEK_ON, made=moment(500))))
