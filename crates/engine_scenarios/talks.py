"""Scenarios of what one connection sees of a container that another one removes or pauses."""
from exchange import *
from states import *
from logs import *
from waits import *

INSPECT = get("/containers/web/json")
LIST_ALL = get("/containers/json?all=1")
LAST_CHUNK = "0\r\n\r\n"


def late(code):
    """What comes behind the early head of a wait."""
    body = compact({"StatusCode": code})
    return f"{len(body):x}\r\n{body}\r\n{LAST_CHUNK}"


def wait(until="not-running", early=True):
    return post(f"/containers/web/wait?condition={until}", more=EARLY if early else "")


# ---- in `removing`: its process can't be interrupted for thirty seconds, and the one that asked for its removal waits

REMOVES = [create("web", LASTS), START, FORCE]
REMOVES_ANSWERS = created(0) + answer(204)
REMOVED_ALREADY = refusal(REMOVING_TEXT, "dead")  # (the id of number 0)
IN_REMOVAL = shown(0, "web", LASTS, "removing", pid=1001, started=NOW)
IN_REMOVAL_ITEM = item(0, "web", LASTS, "removing", "Removal In Progress")
DEAD_YET = shown(0, "web", LASTS, "dead", pid=1001, started=NOW)
DEAD_AND_OVER = shown(0, "web", LASTS, "dead", code=137, started=NOW, finished=second(30))
TIMED_OUT = message(409, f"removal of container {id_of(0)} timed out")
REFUSED_IN_REMOVAL = [
    START, post("/containers/web/stop"), post("/containers/web/stop?t=1&signal=KILL"), post("/containers/web/restart"),
    post("/containers/web/kill"), post("/containers/web/kill?signal=TERM"), post("/containers/web/kill?signal=USR2"),
    post("/containers/web/pause"), post("/containers/web/rename?name=db"), post("/containers/web/rename?name=web"),
    create_exec("web", ECHO), get("/containers/web", "DELETE"), FORCE]

talk("removing_in_each_call",
     (0, 0, REMOVES, REMOVES_ANSWERS),
     *((1, 50, call + INSPECT, REMOVED_ALREADY + IN_REMOVAL) for call in REFUSED_IN_REMOVAL),
     (1, 50, post("/containers/web/unpause") + INSPECT, refusal(NOT_PAUSED_TEXT, "dead") + IN_REMOVAL),
     (1, 50, [get(f"/containers/{id_of(0)}/json"), get("/containers/7/json")], IN_REMOVAL * 2),
     (1, 50, [LIST_ALL, get("/containers/json"), filtered({"status": ["removing"]}), filtered({"status": ["running", "dead"]})],
      [listed(IN_REMOVAL_ITEM), listed(), listed(IN_REMOVAL_ITEM), listed()]),
     (1, 50, [logs("web", BOTH), create("web"), create("db")], [logged(), conflict("web", 0), created(1)]),
     (0, 10000, "on", TIMED_OUT))

# its end as it is seen by waits and a follower: dead behind ten seconds, over behind thirty, and then removed
talk("removing_to_its_end",
     (0, 0, REMOVES, REMOVES_ANSWERS),
     (1, 100, wait(), EARLY_HEAD), (2, 100, wait("next-exit"), EARLY_HEAD), (3, 100, wait("removed"), EARLY_HEAD),
     (4, 100, wait(early=False), ""), (5, 100, logs("web", BOTH + "&follow=1"), log_head()),
     (0, 9999, "on", ""), (6, 9999, INSPECT, IN_REMOVAL),
     (0, 10000, "on", TIMED_OUT), (6, 10000, INSPECT, DEAD_YET),
     *((who, 10000, "on", "") for who in range(1, 6)),
     (6, 29999, [get("/containers/web", "DELETE"), INSPECT], REMOVED_ALREADY + DEAD_YET),
     *((who, 29999, "on", "") for who in range(1, 6)),
     (1, 30000, "on", late(137)), (2, 30000, "on", late(137)), (3, 30000, "on", ""), (4, 30000, "on", waited(137)),
     (5, 30000, "on", LAST_CHUNK),
     (6, 30000, [INSPECT, get("/containers/web", "DELETE"), INSPECT], DEAD_AND_OVER + answer(204) + NO_WEB),
     (3, 30050, "on", late(137)))
# (the process of a removal that ends in time)
BRIEFLY = ["stuck", "5000"]
talk("removing_in_time",
     (0, 0, [create("web", BRIEFLY), START, FORCE], REMOVES_ANSWERS),
     (1, 100, wait("removed"), EARLY_HEAD), (2, 100, logs("web", BOTH + "&follow=1"), log_head()),
     (3, 100, wait("next-exit", early=False), ""), (0, 4999, "on", ""),
     (4, 4999, INSPECT, shown(0, "web", BRIEFLY, "removing", pid=1001, started=NOW)),
     (0, 5000, "on", answer(204)), (1, 5000, "on", late(137)), (2, 5000, "on", LAST_CHUNK), (3, 5000, "on", waited(137)),
     (4, 5000, [INSPECT, LIST_ALL, create("web"), INSPECT],
      [NO_WEB, listed(), created(1), shown(1, "web", ["hello"], "created", made=second(5))]))
# the one that asked for the removal is broken off, and the removal goes on
talk("removing_given_up",
     (0, 0, REMOVES, REMOVES_ANSWERS), (0, 5000, "stop", message(503, "stopping")),
     (1, 5000, [INSPECT, FORCE], IN_REMOVAL + REMOVED_ALREADY), (1, 9999, INSPECT, IN_REMOVAL), (1, 10000, INSPECT, DEAD_YET),
     (1, 30000, [INSPECT, FORCE, LIST_ALL], DEAD_AND_OVER + answer(204) + listed()), status=5)

# ---- paused by another: a container for each call, that connection 0 starts, 1 pauses and 2 calls; 0 inspects it then

PAUSED_CALLS = {
    "start": (verb("start"), message(409, "cannot start a paused container, try unpause instead")),
    "pause": (verb("pause"), "Container ID is already paused"),
    "exec": (lambda name: create_exec(name, ECHO), "Container ID is paused, unpause the container first"),
    "remove": (lambda name: get(f"/containers/{name}", "DELETE"), REMOVE_TEXT),
    "usr2": (verb("kill?signal=USR2"), answer(204)),
    "log": (lambda name: logs(name, BOTH), logged()),
    "unpause": (verb("unpause"), answer(204), dict(status="running")),
    "restart": (verb("restart"), answer(204), dict(status="running", pid=1014, finished=NOW)),
    "stop": (verb("stop"), answer(204), dict(status="exited", code=143, pid=0, finished=NOW)),
    "kill": (verb("kill"), answer(204), dict(status="exited", code=137, pid=0, finished=NOW)),
    "term": (verb("kill?signal=TERM"), answer(204), dict(status="exited", code=143, pid=0, finished=NOW)),
    "force": (lambda name: get(f"/containers/{name}?force=1", "DELETE"), answer(204), None),
    "rename": (lambda name: post(f"/containers/{name}/rename?name=other"), answer(204), None)}
PAUSED_NAMES = list(PAUSED_CALLS)


def paused_slots(n, name):
    """The call of another connection, and what is shown behind it."""
    call, reply, *changed = PAUSED_CALLS[name]
    reply = reply if reply.startswith("HTTP") else message(409, reply.replace("ID", id_of(n)))
    behind = changed[0] if changed else {}
    told = gone(name) if behind is None else shown(n, name, LONG, **{**dict(status="paused", pid=1001 + n, started=NOW), **behind})
    return (2, 0, call(name), reply), (0, 0, get(f"/containers/{name}/json"), told)


talk("paused_in_each_call",
     (0, 0, [create(name, LONG) + post(f"/containers/{name}/start") for name in PAUSED_NAMES],
      [created(n) + answer(204) for n in range(len(PAUSED_NAMES))]),
     (1, 0, [post(f"/containers/{name}/pause") for name in PAUSED_NAMES], answer(204) * len(PAUSED_NAMES)),
     *(slot for n, name in enumerate(PAUSED_NAMES) for slot in paused_slots(n, name)),
     (1, 0, [get("/containers/other/json"), filtered({"status": ["paused"], "name": ["other", "log"]})],
      [shown(12, "other", LONG, "paused", pid=1013, started=NOW),
       listed(item(12, "other", LONG, "paused", "Up (Paused)"), item(5, "log", LONG, "paused", "Up (Paused)"))]))

# a wait and a follower of what another pauses at 400 milliseconds and lets go on at 900: a run of a second ends at 1,500
AT_END = dict(started=NOW, finished=at(1500))
talk("wait_of_a_pause",
     (0, 0, [create("web", SECOND), START, WAIT], created(0) + answer(204)), (1, 0, wait("next-exit"), EARLY_HEAD),
     (2, 0, logs("web", BOTH + "&follow=1"), log_head()),
     (3, 400, [post("/containers/web/pause"), INSPECT],
      answer(204) + shown(0, "web", SECOND, "paused", pid=1001, started=NOW)),
     *((who, 450, "on", "") for who in range(3)), (4, 450, wait(early=False), ""),
     *((who, 899, "on", "") for who in (0, 1, 2, 4)),
     (3, 900, [post("/containers/web/unpause"), INSPECT],
      answer(204) + shown(0, "web", SECOND, "running", pid=1001, started=NOW)),
     *((who, 1499, "on", "") for who in (0, 1, 2, 4)),
     (3, 1499, INSPECT, shown(0, "web", SECOND, "running", pid=1001, started=NOW)),
     (0, 1500, "on", waited(0)), (1, 1500, "on", late(0)), (2, 1500, "on", LAST_CHUNK), (4, 1500, "on", waited(0)),
     (3, 1500, INSPECT, shown(0, "web", SECOND, "exited", **AT_END)))
