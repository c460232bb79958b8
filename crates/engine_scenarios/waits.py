"""Scenarios of how runs end, by their programs, by each signal and by the deadline of a stop; and of waits that the clock
breaks off."""
from exchange import *


def later(ms):
    """The moment so many milliseconds behind the opening."""
    return f"2023-11-14T22:13:{20 + ms // 1000:02}.{ms % 1000:03}000000Z"


START, WAIT = post("/containers/web/start"), post("/containers/web/wait")

# what a program comes to by itself: four mebibytes are the most that a run writes
TICKS, TICKS_ON = ["tick", "2", "100"], ["tick", "0", "10"]
FILLS, OVERFLOWS = ["noise", "4194304"], ["noise", "4194305"]
scenario("programs_end", [
    create("web", TICKS), START, WAIT, get("/containers/web/json"), create("full", FILLS), post("/containers/full/start"),
    post("/containers/full/wait"), create("over", OVERFLOWS), post("/containers/over/start"), post("/containers/over/wait"),
    get("/containers/over/json"), create("on", TICKS_ON), post("/containers/on/start"), post("/containers/on/kill"),
    post("/containers/on/wait")],
    [created(0), answer(204), waited(0), shown(0, "web", TICKS, "exited", started=NOW, finished=later(200)), created(1),
     answer(204), waited(0), created(2), answer(204), waited(153),
     shown(2, "over", OVERFLOWS, "exited", code=153, started=later(200), finished=later(200), made=later(200)), created(3),
     answer(204), answer(204), waited(137)])

# each signal by its name and by its number: eight do nothing, and the others end what runs with 128 and the number
SIGNALS = ("HUP INT QUIT ILL TRAP ABRT BUS FPE KILL USR1 SEGV USR2 PIPE ALRM TERM STKFLT CHLD CONT STOP TSTP TTIN TTOU URG "
           "XCPU XFSZ VTALRM PROF WINCH IO PWR SYS").split()
PASSED_OVER = {"CHLD", "CONT", "STOP", "TSTP", "TTIN", "TTOU", "URG", "WINCH"}
BOTH_WAYS = [(n, form) for n, name in enumerate(SIGNALS, 1) for form in ("SIG" + name, str(n)) if name not in PASSED_OVER]
DOING_NOTHING = [form for n, name in enumerate(SIGNALS, 1) for form in (name.lower(), f"{n:02}") if name in PASSED_OVER]


def kill(signal):
    return post(f"/containers/web/kill?signal={signal}")


scenario("every_signal", [create("web", LONG), *(x for _, form in BOTH_WAYS for x in (START, kill(form), WAIT)), START,
                          *map(kill, DOING_NOTHING), get("/containers/web/json")],
         [created(0), *(x for n, _ in BOTH_WAYS for x in (answer(204), answer(204), waited(128 + n))), answer(204),
          *[answer(204) for _ in DOING_NOTHING],
          shown(0, "web", LONG, "running", pid=1001 + len(BOTH_WAYS), started=NOW, finished=NOW)])

# The clock stands but for the pauses of a wait, so what is made next tells when a stop was answered: of a trap once it has
# said good-bye, of what ignores the signal at the deadline
TRAP = ["trap"]
scenario("stop_of_a_trap", [
    create("web", TRAP), START, post("/containers/web/stop?t=1"), create("db", DEAF), get("/containers/web/json"),
    post("/containers/db/start"), post("/containers/db/stop?t=1"), create("job"), get("/containers/db/json"),
    get("/containers/job/json")],
    [created(0), answer(204), answer(204), created(1), shown(0, "web", TRAP, "exited", started=NOW, finished=later(500)),
     answer(204), answer(204), created(2),
     shown(1, "db", DEAF, "exited", code=137, started=later(500), finished=later(1500), made=later(500)),
     shown(2, "job", ["hello"], "created", made=later(1500))])
OWN = compact({"Image": "engine/tools", "Cmd": DEAF, "StopSignal": "SIGHUP", "StopTimeout": 2})
scenario("stop_by_its_own_seconds", [create("web", body=OWN), START, post("/containers/web/stop"), WAIT, create("job"),
                                     get("/containers/job/json")],
         [created(0), answer(204), answer(204), waited(137), created(1),
          shown(1, "job", ["hello"], "created", made=later(2000))])

# a pause that is answered by a stop: the wait is given up, and no more is read
scenario("stop_broken_off", [create("web", DEAF), START, post("/containers/web/stop?t=10"), WAIT],
         [created(0), answer(204), message(503, "stopping")], status=5, words="--stdio", comings=("stop=0", "stop=7"))
scenario("wait_broken_off", [create("web", DEAF), START, WAIT, WAIT],
         [created(0), answer(204), message(503, "stopping")], status=5, words="--stdio", comings=("stop=0",))
EARLY_HEAD = ("HTTP/1.1 200 OK\r\nApi-Version: 1.43\r\nContent-Type: application/json\r\nServer: engined\r\n"
              "Transfer-Encoding: chunked\r\n\r\n")
EARLY = "X-Engine-Early: wait\r\n"
scenario("early_wait_broken_off", [create("web", DEAF), START, post("/containers/web/wait", more=EARLY), WAIT],
         [created(0), answer(204), EARLY_HEAD], status=5, words="--stdio", comings=("stop=0", "stop=7"))
BY_CLIENT = "User-Agent: Docker-Client/28.2.2 (linux)\r\n"
scenario("early_wait_of_a_client_broken_off", [create("web", DEAF), START, post("/containers/web/wait", more=BY_CLIENT), WAIT],
         [created(0), answer(204), EARLY_HEAD], status=5, words="--stdio", comings=("stop=0",))
scenario("early_wait_before_a_start_broken_off", [create("web", ["exit", "3"]),
                                                  post("/containers/web/wait?condition=next-exit", more=EARLY), START],
         [created(0), EARLY_HEAD], status=5, words="--stdio", comings=("stop=0",))
# twenty pauses of fifty milliseconds make a second: the wait is over behind them, and not before the last one
SECOND_RUN = [create("web", ["sleep", "1000"]), START, WAIT]
scenario("wait_of_twenty_pauses", SECOND_RUN, [created(0), answer(204), waited(0)], words="--stdio", comings=("stop=20",))
scenario("wait_before_its_last_pause", SECOND_RUN + [WAIT], [created(0), answer(204), message(503, "stopping")], status=5,
         words="--stdio", comings=("stop=19",))
# no look anew takes room: two entries are the wait and its end
scenario("journal_of_a_wait", SECOND_RUN + [get("/containers/json")],
         [created(0), answer(204), waited(0), message(503, "journal is full")], words=f"{STDIO} --journal 4")
scenario("journal_without_the_end_of_a_wait", SECOND_RUN + [get("/containers/json")],
         [created(0), answer(204), message(503, "journal is full"), listed(item(0, "web", ["sleep", "1000"], "running", "Up"))],
         words=f"{STDIO} --journal 3")
