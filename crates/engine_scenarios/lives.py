"""Scenarios of the daemon's line, of creates and lists, and of what a container goes through: one call behind another."""
import urllib.parse

from exchange import *

USAGE = ("usage: engined --stdio | --listen ADDR | --drill N [--seed HEX] [--clock START:STEP] [--connections N] "
         "[--journal N]\n")

scenario("create", WEB, created(0), comings=("pieces=1", "pieces=4096", "cuts"))
scenario("nothing", "", "", comings=("pieces=1", "read=0"))
scenario("create_failing", WEB, "", status=4, comings=("read=0", "write=0"))
for name, words in (("other_words", "--stdio --listen 127.0.0.1:1"), ("other_word", "--stdin"), ("no_words", "")):
    scenario(name, WEB, USAGE, status=2, words=words)

# what the line sets: the seed of ids, the most entries of the journal, and what is no line
SEED = bytes(range(0xA0, 0xC0))
scenario("seed", [WEB, create("db")], [created(0, SEED), created(1, SEED)], words=f"{STDIO} --seed {SEED.hex().upper()}")
scenario("journal_of_one", [WEB, create("db"), get("/containers/json?all=1"), get("/_ping")],
         [created(0), message(503, "journal is full"), message(503, "journal is full"),
          answer(200, "OK", kind="text/plain; charset=utf-8")], words=f"{STDIO} --journal 1")
scenario("journal_of_three_calls", [create("web", DEAF), post("/containers/web/start"), get("/containers/web/json"),
                                    get("/containers/web/json"), PING],
         [created(0), answer(204), shown(0, "web", DEAF, "running", pid=1001, started=NOW), message(503, "journal is full"), PONG],
         words=f"{STDIO} --journal 3")
scenario("connections", WEB, created(0), words=f"--connections 1 {STDIO}")
# (nobody comes to the door of these runs, and neither input nor output is touched)
scenario("listen", WEB, "", words="--listen 127.0.0.1:2375 --connections 5", comings=("pieces=4096", "read=0", "write=0"))
for host in ("0.0.0.0:2375", "localhost:2375"):
    scenario(f"listen_at_{host.partition(':')[0].replace('.', '_')}", WEB, USAGE, status=2, words=f"--listen {host}")
scenario("clock_twice", WEB, USAGE, status=2, words=f"{STDIO} --clock 1700000000000:0", comings=("pieces=4096", "write=0"))
scenario("same_name", [WEB, WEB, create(), get("/containers/anon-1/json")],
         [created(0), conflict("web", 0), created(1), shown(1, "anon-1", ["hello"], "created")])
scenario("names", [create("a"), create("ab"), create("%2Fab")],
         [message(400, "Invalid container name (a)"), created(0), conflict("ab", 0)])
scenario("other_image", create("web", body='{"Image":"nope"}'), message(404, "No such image: nope"))
scenario("exit_7", [create("web", ["exit", "7"]), post("/v1.43/containers/web/start"), get("/v1.43/containers/web/json")],
         [created(0), answer(204), shown(0, "web", ["exit", "7"], "exited", code=7, started=NOW, finished=NOW)],
         comings=("pieces=7",))
scenario("unknown_command", [create("web", ["nope"]), post("/containers/web/start"), get("/containers/web/json"),
                             create("db", ["sleep", "0000000010"]), post("/containers/db/start")],
         [created(0), message(400, "unknown command: nope"), shown(0, "web", ["nope"], "created"), created(1),
          message(400, "unknown command: sleep")])
scenario("started_twice", [create("web", ["deaf"]), post("/containers/web/start"), post("/containers/web/start"),
                           get("/containers/web/json"), post("/containers/db/start"), create("job"), post("/containers/job/stop")],
         [created(0), answer(204), answer(304), shown(0, "web", ["deaf"], "running", pid=1001, started=NOW),
          message(404, "No such container: db"), created(1), answer(304)])
# the clock is asked once for each call, and never for an answer from the request's bytes
scenario("clock_steps", [create("web", ["sleep", "15"]), get("/_ping"), post("/containers/web/start"),
                         get("/containers/web/json"), get("/containers/web/json")],
         [created(0), answer(200, "OK", kind="text/plain; charset=utf-8"), answer(204),
          shown(0, "web", ["sleep", "15"], "running", pid=1001, started=moment(10)),
          shown(0, "web", ["sleep", "15"], "exited", started=moment(10), finished=moment(25))],
         words="--stdio --clock 1700000000000:10")
scenario("usual_client", [create("web", body=USUAL), post("/containers/web/start"), post("/containers/web/wait"),
                          get("/containers/web/json")],
         [created(0), answer(204), waited(0), shown(0, "web", ["echo", "hi"], "exited", started=NOW, finished=NOW)])
scenario("looks_like_a_prefix", [create("web"), get("/containers/7/json"), create("76"), get("/containers/76/json")],
         [created(0), shown(0, "web", ["hello"], "created"), created(1), shown(1, "76", ["hello"], "created")])

# of seventeen ids two begin with one digit
FIRSTS = [id_of(n)[0] for n in range(17)]
TWICE = next(digit for digit in FIRSTS if FIRSTS.count(digit) > 1)
scenario("prefix_of_two", [create()] * 17 + [get(f"/containers/{TWICE}/json"), get(f"/containers/{TWICE}/logs?stdout=1")],
         [created(n) for n in range(17)] + [message(400, f"multiple IDs found with provided prefix: {TWICE}")] * 2)

# a container that was created, one that runs, and one that has exited
TIER = {"tier": "one", "zone": "a"}
WEB_ITEM = item(0, "web", ["hello"], "created", "Created", TIER)
DB_ITEM = item(1, "db", ["sleep", "600000"], "running", "Up")
JOB_ITEM = item(2, "job", ["exit", "7"], "exited", "Exited (7)", {"tier": "one"})
THREE = [create("web", body=compact({"Image": "engine/tools", "Labels": TIER})), create("db", ["sleep", "600000"]),
         create("job", body=compact({"Image": "engine/tools:latest", "Cmd": ["exit", "7"], "Labels": {"tier": "one"}})),
         post("/containers/db/start"), post("/containers/job/start")]
THREE_ANSWERS = [created(0), created(1), created(2), answer(204), answer(204)]
scenario("list", [get("/v1.43/containers/json?all=1")] + THREE + [
    get("/containers/json"), get("/v1.43/containers/json?all=1"), get("/containers/json?all=1&limit=2"),
    get("/containers/json?limit=1"), get("/containers/json?limit=0"), get("/containers/json?limit=-1&all=0")],
    [listed()] + THREE_ANSWERS + [
    listed(DB_ITEM), listed(JOB_ITEM, DB_ITEM, WEB_ITEM), listed(JOB_ITEM, DB_ITEM), listed(JOB_ITEM), listed(DB_ITEM),
    listed(DB_ITEM)], comings=("pieces=1", "pieces=4096"))
scenario("list_filters", THREE + [
    filtered({"status": ["created", "exited"]}), filtered({"exited": ["7"]}), filtered({"exited": ["7"], "status": ["exited"]}),
    filtered({"status": ["exited"], "exited": ["0"]}), filtered({"name": ["d", "web"]}), filtered({"name": {"we": True, "db": False}}),
    get("/containers/json?all=1&filters=" + urllib.parse.quote(compact({"label": ["tier=one"]}))),
    get("/containers/json?all=1&filters=" + urllib.parse.quote(compact({"label": ["tier", "zone=a"]}))),
    get("/containers/json?all=1&limit=1&filters=" + urllib.parse.quote(compact({"name": ["we"]}))),
    filtered({"id": [id_of(1)[:12]]}), filtered({"ancestor": ["engine/tools"]}), filtered({"ancestor": ["nginx"]}),
    filtered({"volume": ["data"]}), filtered({"name": []}), filtered({}), filtered({"until": ["1h"]}),
    post("/containers/db/kill"), filtered({"status": ["exited"], "exited": ["137"]})],
    THREE_ANSWERS + [
    listed(JOB_ITEM, WEB_ITEM), listed(), listed(JOB_ITEM), listed(), listed(DB_ITEM), listed(), listed(JOB_ITEM, WEB_ITEM),
    listed(WEB_ITEM), listed(WEB_ITEM), listed(DB_ITEM), listed(DB_ITEM), listed(), listed(), listed(), listed(DB_ITEM),
    message(400, "invalid filter"), answer(204), listed(item(1, "db", ["sleep", "600000"], "exited", "Exited (137)"))])
scenario("list_of_one", [get("/containers/json"), WEB, get("/containers/json?all=1"), get("/containers/json")],
         [listed(), created(0), listed(item(0, "web", ["hello"], "created", "Created")), listed()])

# signals: a container that ignores three of them, and how a signal is spelled
scenario("kill", [create("web", DEAF), post("/containers/web/kill"), post("/containers/web/start"),
                  post("/containers/web/kill?signal=TERM"), post("/v1.43/containers/web/kill?signal=SIGHUP"),
                  post("/containers/web/kill?signal=2"), get("/containers/web/json"), post("/containers/web/kill"),
                  get("/containers/web/json"), post("/containers/web/kill?signal="), post("/containers/db/kill"),
                  post("/containers/web/kill?signal=0"), post("/containers/web/kill?signal=32"),
                  post("/containers/web/start"), post("/containers/web/kill?signal=QUIT"), get("/containers/web/json")],
         [created(0), NOT_RUNNING, answer(204), answer(204), answer(204), answer(204),
          shown(0, "web", DEAF, "running", pid=1001, started=NOW), answer(204),
          shown(0, "web", DEAF, "exited", code=137, started=NOW, finished=NOW), NOT_RUNNING,
          message(404, "No such container: db"), message(400, "Invalid signal: 0"), message(400, "Invalid signal: 32"),
          answer(204), answer(204), shown(0, "web", DEAF, "exited", code=131, started=NOW, finished=NOW)],
         comings=("pieces=1", "pieces=4096"))
SPELLED = {"USR1": 138, "sigusr2": 140, "SIGINT": 130, "15": 143, "09": 137, "hup": 129}
scenario("signals", [x for n, form in enumerate(SPELLED) for x in (
    create(f"box{n}", LONG), post(f"/containers/box{n}/start"), post(f"/containers/box{n}/kill?signal=WINCH"),
    post(f"/containers/box{n}/kill?signal={form}"), get(f"/containers/box{n}/json"))],
    [x for n, code in enumerate(SPELLED.values()) for x in (
        created(n), answer(204), answer(204), answer(204),
        shown(n, f"box{n}", LONG, "exited", code=code, started=NOW, finished=NOW))])

# a paused container keeps the time that is left, and signals wait for it, but for those that end it
PAUSED = shown(0, "web", LONG, "paused", pid=1001, started=NOW)
scenario("pause", [create("web", LONG), post("/containers/web/pause"), post("/containers/web/unpause"),
                   post("/containers/web/start"), post("/containers/web/pause"), post("/containers/web/pause"),
                   post("/containers/web/start"), get("/containers/web/json"), get("/containers/json"),
                   post("/containers/web/kill?signal=USR1"), get("/containers/web/json"), post("/containers/web/kill"),
                   get("/containers/web/json"), post("/containers/web/pause"), post("/containers/db/pause")],
         [created(0), NOT_RUNNING, message(409, f"Container {id_of(0)} is not paused"), answer(204), answer(204),
          message(409, f"Container {id_of(0)} is already paused"),
          message(409, "cannot start a paused container, try unpause instead"), PAUSED,
          listed(item(0, "web", LONG, "paused", "Up (Paused)")), answer(204), PAUSED, answer(204),
          shown(0, "web", LONG, "exited", code=137, started=NOW, finished=NOW), NOT_RUNNING,
          message(404, "No such container: db")])
SHORT = ["sleep", "15"]
scenario("pause_keeps_time", [create("web", SHORT), post("/containers/web/start"), post("/containers/web/pause"),
                              get("/containers/web/json"), post("/containers/web/unpause"), get("/containers/web/json"),
                              post("/containers/web/unpause")],
         [created(0), answer(204), answer(204), shown(0, "web", SHORT, "paused", pid=1001, started=moment(10)), answer(204),
          shown(0, "web", SHORT, "exited", started=moment(10), finished=moment(45)),
          message(409, f"Container {id_of(0)} is not paused")], words="--stdio --clock 1700000000000:10")
scenario("waiting_signal", [create("web", LONG), post("/containers/web/start"), post("/containers/web/pause"),
                            post("/containers/web/kill?signal=USR1"), post("/containers/web/unpause"),
                            get("/containers/web/json")],
         [created(0), answer(204), answer(204), answer(204), answer(204),
          shown(0, "web", LONG, "exited", code=138, started=NOW, finished=NOW)])
# an op that can't be interrupted: signals are met when it ends, KILL first
STUCK = ["stuck", "35"]
scenario("stuck", [create("web", STUCK), post("/containers/web/start"), post("/containers/web/kill?signal=TERM"),
                   post("/containers/web/kill"), get("/containers/web/json"), get("/containers/web/json")],
         [created(0), answer(204), answer(204), answer(204),
          shown(0, "web", STUCK, "running", pid=1001, started=moment(10)),
          shown(0, "web", STUCK, "exited", code=137, started=moment(10), finished=moment(45))],
         words="--stdio --clock 1700000000000:10")
# a trap sleeps half a second behind the first TERM, and not again behind the next one
TRAP = ["trap"]
scenario("trap", [create("web", TRAP), post("/containers/web/start"), post("/containers/web/kill?signal=TERM"),
                  post("/containers/web/kill?signal=TERM"), get("/containers/web/json"), get("/containers/web/json")],
         [created(0), answer(204), answer(204), answer(204),
          shown(0, "web", TRAP, "running", pid=1001, started=moment(200)),
          shown(0, "web", TRAP, "exited", started=moment(200), finished=moment(900))],
         words="--stdio --clock 1700000000000:200")

# stops and waits: the answer comes once the run has ended, at once where none is on
ENDED = shown(0, "web", LONG, "exited", code=143, started=NOW, finished=NOW)
scenario("stop", [create("web", LONG), post("/containers/web/stop"), post("/containers/web/wait"),
                  post("/containers/web/start"), post("/v1.43/containers/web/stop?t=5"), get("/containers/web/json"),
                  post("/containers/web/stop"), post("/containers/web/wait?condition=not-running"),
                  post("/containers/db/stop"), post("/containers/db/wait"), post("/containers/web/stop?signal=NOPE")],
         [created(0), answer(304), waited(0), answer(204), answer(204), ENDED, answer(304), waited(143),
          message(404, "No such container: db"), message(404, "No such container: db"),
          message(400, "Invalid signal: NOPE")], comings=("pieces=1", "pieces=4096"))
scenario("stop_signals", [create("web", LONG), post("/containers/web/start"), post("/containers/web/stop?signal=USR1"),
                          create("db", body=compact({"Image": "engine/tools", "Cmd": LONG, "StopSignal": "SIGINT"})),
                          post("/containers/db/start"), post("/containers/db/pause"), post("/containers/db/stop"),
                          get("/containers/web/json"), get("/containers/db/json")],
         [created(0), answer(204), answer(204), created(1), answer(204), answer(204), answer(204),
          shown(0, "web", LONG, "exited", code=138, started=NOW, finished=NOW),
          shown(1, "db", LONG, "exited", code=130, started=NOW, finished=NOW, stop="SIGINT")])
# the clock stands but for the pauses of a wait: the deadline of one second is met behind twenty of them
LATER = "2023-11-14T22:13:21.000000000Z"
scenario("stop_deadline", [create("web", DEAF), post("/containers/web/start"), post("/containers/web/stop?t=1"),
                           get("/containers/web/json")],
         [created(0), answer(204), answer(204), shown(0, "web", DEAF, "exited", code=137, started=NOW, finished=LATER)])
scenario("stop_without_seconds", [create("web", DEAF), post("/containers/web/start"), post("/containers/web/stop?t=0"),
                                  get("/containers/web/json")],
         [created(0), answer(204), answer(204), shown(0, "web", DEAF, "exited", code=137, started=NOW, finished=NOW)])
# a stop gives a pending restart up
scenario("stop_of_a_restart", [create("web", body=compact({"Image": "engine/tools", "Cmd": ["exit", "1"], "HostConfig": {
    "RestartPolicy": {"Name": "always"}}})), post("/containers/web/start"), post("/containers/web/stop"), get("/containers/web/json")],
         [created(0), answer(204), answer(204),
          shown(0, "web", ["exit", "1"], "exited", code=1, started=NOW, finished=NOW, policy=ALWAYS)])
# `next-exit` waits for an end behind it, `not-running` for the last one
ONCE = ("on-failure", 1)
for until in ("next-exit", "not-running"):
    scenario(f"wait_{until.replace('-', '_')}", [
        create("web", body=compact({"Image": "engine/tools", "Cmd": ["exit", "1"], "HostConfig": {
            "RestartPolicy": {"Name": ONCE[0], "MaximumRetryCount": ONCE[1]}}})),
        post("/containers/web/start"), post(f"/containers/web/wait?condition={until}"), get("/containers/web/json")],
        [created(0), answer(204), waited(1),
         shown(0, "web", ["exit", "1"], "exited", code=1, started=moment(100), finished=moment(100), policy=ONCE, restarts=1)])
# a restart launches at once what doesn't live, and ends what does
scenario("restart", [create("web", LONG), post("/containers/web/restart"), post("/containers/web/restart?t=3"),
                     get("/containers/web/json"), post("/containers/web/pause"), post("/containers/web/restart?signal=USR2"),
                     get("/containers/web/json"), create("db", ["nope"]), post("/containers/db/restart"),
                     post("/containers/job/restart")],
         [created(0), answer(204), answer(204), shown(0, "web", LONG, "running", pid=1002, started=NOW, finished=NOW), answer(204),
          answer(204), shown(0, "web", LONG, "running", pid=1003, started=NOW, finished=NOW), created(1),
          message(400, "unknown command: nope"), message(404, "No such container: job")])

# restarts: 100 milliseconds behind the first end, twice as long behind the next one
POLICY = ("on-failure", 2)


def failing(status, at, restarts):
    return shown(0, "web", FAILS, status, code=1, started=moment(at), finished=moment(at), policy=POLICY, restarts=restarts)


scenario("restarts", [create("web", body=with_policy(FAILS, POLICY)), post("/containers/web/start"),
                      get("/containers/web/json"), get("/containers/web/json"), get("/containers/json"),
                      post("/containers/web/start"), post("/containers/web/kill?signal=USR1"), post("/containers/web/pause"),
                      get("/containers/web/json"), post("/containers/web/kill"), post("/containers/web/start"),
                      get("/containers/web/json")],
         [created(0), answer(204), failing("restarting", 50, 0), failing("restarting", 150, 1),
          listed(item(0, "web", FAILS, "restarting", "Restarting (1)")), answer(304),
          message(409, f"Container {id_of(0)} is restarting, wait until the container is running"),
          NOT_RUNNING, failing("exited", 350, 2), NOT_RUNNING, answer(204), failing("restarting", 500, 0)],
         words="--stdio --clock 1700000000000:50")
scenario("restart_given_up", [create("web", body=with_policy(FAILS, ("always", 0))), post("/containers/web/start"),
                              post("/containers/web/kill?signal=15"), get("/containers/web/json")],
         [created(0), answer(204), answer(204),
          shown(0, "web", FAILS, "exited", code=1, started=NOW, finished=NOW, policy=("always", 0))])

# a rename, with a slash or without, to a name that is free; the old name is free then
SAME_NAME = message(400, "same name")
scenario("rename", [create("web", LONG), create("db"), post("/containers/web/rename?name=web"),
                    post("/containers/web/rename?name=%2Fweb"), post("/containers/web/rename?name=db"),
                    post("/containers/web/rename?name=%2Fdb"), post("/containers/web/rename"),
                    post("/containers/web/rename?name=%2Ff"), post("/containers/web/rename?name=front"),
                    get("/containers/web/json"), get("/containers/front/json"), get("/containers/json?all=1"), create("web"),
                    post("/containers/nobody/rename?name=other"), post(f"/containers/{id_of(0)}/rename?name=%2Fback-1"),
                    get("/containers/%2Fback-1/json"), filtered({"name": ["front"], "status": ["created"]}),
                    filtered({"name": ["back"], "status": ["created"]})],
         [created(0), created(1), SAME_NAME, SAME_NAME, conflict("db", 1), conflict("db", 1),
          message(400, "Invalid container name ()"), message(400, "Invalid container name (/f)"), answer(204),
          message(404, "No such container: web"), shown(0, "front", LONG, "created"),
          listed(item(1, "db", ["hello"], "created", "Created"), item(0, "front", LONG, "created", "Created")), created(2),
          message(404, "No such container: nobody"), answer(204), shown(0, "back-1", LONG, "created"), listed(),
          listed(item(0, "back-1", LONG, "created", "Created"))], comings=("pieces=1", "pieces=4096"))
scenario("rename_states", [create("web", LONG), post("/containers/web/start"), post("/containers/web/rename?name=up"),
                           post("/containers/up/pause"), post("/containers/up/rename?name=held"), get("/containers/held/json"),
                           post("/containers/held/kill"), post("/containers/held/rename?name=ended"),
                           get("/containers/ended/json"), create("job", body=with_policy(FAILS, ALWAYS)),
                           post("/containers/job/start"), post("/containers/job/rename?name=again"), get("/containers/again/json"),
                           get("/containers/json")],
         [created(0), answer(204), answer(204), answer(204), answer(204),
          shown(0, "held", LONG, "paused", pid=1001, started=NOW), answer(204), answer(204),
          shown(0, "ended", LONG, "exited", code=137, started=NOW, finished=NOW), created(1), answer(204), answer(204),
          shown(1, "again", FAILS, "restarting", code=1, started=NOW, finished=NOW, policy=ALWAYS),
          listed(item(1, "again", FAILS, "restarting", "Restarting (1)"))])

# a removal: at once of what doesn't live; its name, its id and its number's place are free then
RUNNING = message(409, f"You cannot remove a running container {id_of(0)}. "
                       "Stop the container before attempting removal or force remove")
scenario("remove", [create("web", LONG), create("db"), get("/containers/db", "DELETE"), get("/containers/db/json"),
                    get("/containers/db", "DELETE"), create("db"), post("/containers/web/start"), get("/containers/web", "DELETE"),
                    post("/containers/web/pause"), get("/v1.43/containers/web?force=0&v=1", "DELETE"),
                    post("/containers/web/kill"), get("/v1.43/containers/web?v=1", "DELETE"), get("/containers/json?all=1"),
                    get(f"/containers/{id_of(0)}/json"), post("/containers/db/rename?name=web"), get("/containers/web/json"),
                    create(), get("/containers/anon-3?force=1&link=0", "DELETE"), get("/containers/json?all=1"),
                    get("/containers/web?link=1", "DELETE")],
         [created(0), created(1), answer(204), message(404, "No such container: db"), message(404, "No such container: db"),
          created(2), answer(204), RUNNING, answer(204), RUNNING, answer(204), answer(204),
          listed(item(2, "db", ["hello"], "created", "Created")), message(404, f"No such container: {id_of(0)}"), answer(204),
          shown(2, "web", ["hello"], "created"), created(3), answer(204),
          listed(item(2, "web", ["hello"], "created", "Created")), message(400, "links are left out")],
         comings=("pieces=1", "pieces=4096"))
scenario("remove_restarting", [create("web", body=with_policy(FAILS, ALWAYS)), post("/containers/web/start"),
                               get("/containers/web", "DELETE"), get("/containers/web?force=1", "DELETE"),
                               get("/containers/json?all=1"), create("web"), get("/containers/web/json")],
         [created(0), answer(204), RUNNING, answer(204), listed(), created(1), shown(1, "web", ["hello"], "created")])

# with force what lives is killed, and the answer comes when it is gone
NO_WEB = message(404, "No such container: web")
scenario("remove_by_force", [create("web", LONG), post("/containers/web/start"), FORCE, get("/containers/web/json"),
                             create("web", LONG), post("/containers/web/start"), post("/containers/web/pause"), FORCE,
                             get("/containers/json?all=1"), create("web")],
         [created(0), answer(204), answer(204), NO_WEB, created(1), answer(204), answer(204), answer(204), listed(), created(2)])
# an op that can't be interrupted outlasts the ten seconds: the container is dead, and goes once its process has ended
scenario("removal_timed_out", [create("web", LASTS), post("/containers/web/start"), FORCE, get("/containers/web/json"), FORCE,
                               get("/containers/web/json"), post("/containers/web/rename?name=other"),
                               post("/containers/web/start"), get("/containers/web", "DELETE"), get("/containers/web/json")],
         [created(0), answer(204), message(409, f"removal of container {id_of(0)} timed out"),
          shown(0, "web", LASTS, "dead", pid=1001, started=second(5)),
          message(409, f"removal of container {id_of(0)} is already in progress"),
          shown(0, "web", LASTS, "dead", code=137, started=second(5), finished=second(35)),
          message(409, f"Container {id_of(0)} is dead"), message(409, f"Container {id_of(0)} is dead"), answer(204), NO_WEB],
         words="--stdio --clock 1700000000000:5000")
