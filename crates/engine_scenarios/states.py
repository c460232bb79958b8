"""Scenarios of each call in each state, and of restart policies."""
from exchange import *

# ---- each call in each state: a container of each state, named by it, then the call and an inspect of each. Nothing is
# in the state `removing` here, since the one connection waits until it is over (talks.py has it).

FLAKY, ON_FAILURE = ["flaky", "1"], ("on-failure", 0)
THEN = second(10)  # a forced removal has taken ten seconds, and the clock stands again
NUMBERS = {"dead": 0, "created": 1, "running": 2, "paused": 3, "restarting": 4, "exited": 5}
WORDS = {"dead": LASTS, "restarting": FLAKY}
POLICIES = {"restarting": ON_FAILURE}
# what an inspect shows of each state, but for its name
STATES = {"created": {}, "dead": dict(pid=1001, started=NOW), "running": dict(pid=1002, started=THEN),
          "paused": dict(pid=1003, started=THEN), "restarting": dict(code=1, started=THEN, finished=THEN),
          "exited": dict(code=137, started=THEN, finished=THEN)}
OF_EACH = [*(create(name, body=with_policy(WORDS.get(name, LONG), POLICIES.get(name, ("no", 0)))) for name in NUMBERS),
           post("/containers/dead/start"), get("/containers/dead?force=1", "DELETE"), post("/containers/running/start"),
           post("/containers/paused/start"), post("/containers/paused/pause"), post("/containers/restarting/start"),
           post("/containers/exited/start"), post("/containers/exited/kill")]
OF_EACH_ANSWERS = [*(created(n) for n in NUMBERS.values()), answer(204),
                   message(409, f"removal of container {id_of(0)} timed out"), *[answer(204)] * 6]


def now_shown(name, status, called=None, **more):
    """An inspect of the container that was made for that state."""
    policy = more.pop("policy", POLICIES.get(name, ("no", 0)))
    return shown(NUMBERS[name], called or name, WORDS.get(name, LONG), status, policy=policy, **more)


def unchanged(name):
    return now_shown(name, name, **STATES[name])


def refusal(text, name):
    return message(409, text.replace("ID", id_of(NUMBERS[name])))


def gone(name):
    return message(404, f"No such container: {name}")


def ran(name, pid, **more):
    return now_shown(name, "running", pid=pid, started=THEN, **more)


def ended(name, code, **more):
    return now_shown(name, "exited", code=code, **{**dict(started=THEN, finished=THEN), **more})


NOT_RUNNING_TEXT = "Container ID is not running"
RESTARTING_TEXT = "Container ID is restarting, wait until the container is running"
REMOVING_TEXT = "removal of container ID is already in progress"
DEAD_TEXT = "Container ID is dead"
NOT_PAUSED_TEXT = "Container ID is not paused"
REMOVE_TEXT = ("You cannot remove a running container ID. Stop the container before attempting removal or force remove")


def cells(call, request, cells_of, more=(), more_answers=()):
    """The requests of one call, for each state its answer and what is shown behind it, where that changed."""
    asked, told = [], []
    for name, (reply, *behind) in cells_of.items():
        asked += [request(name), get(f"/containers/{name}/json")]
        told += [refusal(reply, name) if isinstance(reply, str) and not reply.startswith("HTTP") else reply,
                 behind[0] if behind else unchanged(name)]
    scenario(f"{call}_in_each_state", [*OF_EACH, *asked, *more], [*OF_EACH_ANSWERS, *told, *more_answers])


def verb(path):
    return lambda name: post(f"/containers/{name}/{path}")


cells("start", verb("start"), {
    "created": (answer(204), ran("created", 1006)),
    "exited": (answer(204), ran("exited", 1007, finished=THEN)),
    "running": (answer(304),),
    "paused": (message(409, "cannot start a paused container, try unpause instead"),),
    "restarting": (answer(304),),
    "dead": (DEAD_TEXT,)})
cells("stop", verb("stop"), {
    "created": (answer(304),),
    "exited": (answer(304),),
    "running": (answer(204), ended("running", 143)),
    "paused": (answer(204), ended("paused", 143)),
    "restarting": (answer(204), ended("restarting", 1)),
    "dead": (answer(304),)})
# (the second run of `flaky 1` ends well, and its count of restarts is of launches by the policy alone)
cells("restart", verb("restart"), {
    "created": (answer(204), ran("created", 1006)),
    "exited": (answer(204), ran("exited", 1007, finished=THEN)),
    "running": (answer(204), ran("running", 1008, finished=THEN)),
    "paused": (answer(204), ran("paused", 1009, finished=THEN)),
    "restarting": (answer(204), ended("restarting", 0)),
    "dead": (DEAD_TEXT,)})
cells("kill", verb("kill"), {
    "created": (NOT_RUNNING_TEXT,),
    "exited": (NOT_RUNNING_TEXT,),
    "running": (answer(204), ended("running", 137)),
    "paused": (answer(204), ended("paused", 137)),
    "restarting": (answer(204), ended("restarting", 1)),
    "dead": (DEAD_TEXT,)})
cells("stop_signal", verb("kill?signal=TERM"), {
    "created": (NOT_RUNNING_TEXT,),
    "exited": (NOT_RUNNING_TEXT,),
    "running": (answer(204), ended("running", 143)),
    "paused": (answer(204), ended("paused", 143)),
    "restarting": (answer(204), ended("restarting", 1)),
    "dead": (DEAD_TEXT,)})
cells("other_signal", verb("kill?signal=USR2"), {
    "created": (NOT_RUNNING_TEXT,),
    "exited": (NOT_RUNNING_TEXT,),
    "running": (answer(204), ended("running", 140)),
    "paused": (answer(204),),
    "restarting": (RESTARTING_TEXT,),
    "dead": (DEAD_TEXT,)})
cells("pause", verb("pause"), {
    "created": (NOT_RUNNING_TEXT,),
    "exited": (NOT_RUNNING_TEXT,),
    "running": (answer(204), now_shown("running", "paused", pid=1002, started=THEN)),
    "paused": ("Container ID is already paused",),
    "restarting": (RESTARTING_TEXT,),
    "dead": (DEAD_TEXT,)})
cells("unpause", verb("unpause"), {
    "created": (NOT_PAUSED_TEXT,),
    "exited": (NOT_PAUSED_TEXT,),
    "running": (NOT_PAUSED_TEXT,),
    "paused": (answer(204), ran("paused", 1003)),
    "restarting": (NOT_PAUSED_TEXT,),
    "dead": (NOT_PAUSED_TEXT,)})
# (the old names are free then, and the new ones taken)
LIVE_ON = ["created", "exited", "running", "paused", "restarting"]
cells("rename", lambda name: post(f"/containers/{name}/rename?name=new-{name}"), {
    **{name: (answer(204), gone(name)) for name in LIVE_ON}, "dead": (DEAD_TEXT,)},
    [get(f"/containers/new-{name}/json") for name in LIVE_ON]
    + [post("/containers/new-paused/rename?name=new-created"), create("paused"), post("/containers/dead/rename?name=dead")],
    [now_shown(name, name, f"new-{name}", **STATES[name]) for name in LIVE_ON]
    + [conflict("new-created", 1), created(6), refusal(DEAD_TEXT, "dead")])
cells("update", lambda name: update(name, ("unless-stopped", 0)), {
    **{name: (UPDATED, now_shown(name, name, policy=("unless-stopped", 0), **STATES[name])) for name in LIVE_ON},
    "dead": (DEAD_TEXT,)})
cells("exec", lambda name: create_exec(name, ECHO), {
    "created": (NOT_RUNNING_TEXT,),
    "exited": (NOT_RUNNING_TEXT,),
    "running": (answer(201, compact({"Id": id_of(6)})),),
    "paused": ("Container ID is paused, unpause the container first",),
    "restarting": (RESTARTING_TEXT,),
    "dead": (DEAD_TEXT,)},
    [get(f"/exec/{id_of(6)}/json")], [exec_shown(6, 2, ECHO)])
# a dead container is removed once its process has ended; then its name is free
cells("remove", lambda name: get(f"/containers/{name}", "DELETE"), {
    "created": (answer(204), gone("created")),
    "exited": (answer(204), gone("exited")),
    "running": (REMOVE_TEXT,),
    "paused": (REMOVE_TEXT,),
    "restarting": (REMOVE_TEXT,),
    "dead": (REMOVING_TEXT,)},
    [create("exited"), post("/containers/dead/wait"), get("/containers/dead/json"), get("/containers/dead", "DELETE"),
     get("/containers/dead/json"), create("dead", LONG), post("/containers/dead/rename?name=created"),
     get("/containers/created/json")],
    [created(6), answer(200, compact({"StatusCode": 137})),
     now_shown("dead", "dead", code=137, started=NOW, finished=second(30)), answer(204), gone("dead"), created(7),
     answer(204), shown(7, "created", LONG, "created", made=second(30))])
cells("force", lambda name: get(f"/containers/{name}?force=1", "DELETE"), {
    **{name: (answer(204), gone(name)) for name in LIVE_ON}, "dead": (REMOVING_TEXT,)},
    [get("/containers/json?all=1"), create("running")],
    [listed(item(0, "dead", LASTS, "dead", "Dead")), created(6)])
# a wait of a paused container lasts as long as its pause, so it isn't asked here (talks.py has it)
AT_AGAIN = "2023-11-14T22:13:30.100000000Z"
AGAIN = ended("restarting", 0, started=AT_AGAIN, finished=AT_AGAIN, restarts=1)
cells("wait", verb("wait"), {
    "created": (waited(0),),
    "exited": (waited(137),),
    "restarting": (waited(0), AGAIN),
    "dead": (waited(137), now_shown("dead", "dead", code=137, started=NOW, finished=second(30)))})
cells("next_exit", verb("wait?condition=next-exit"), {
    "restarting": (waited(0), AGAIN),
    "dead": (waited(137), now_shown("dead", "dead", code=137, started=NOW, finished=second(30)))})
# and of what runs, by a program that doesn't take as long
AWHILE = ["sleep", "200"]
scenario("wait_of_a_run", [create("web", AWHILE), post("/containers/web/start"), post("/containers/web/wait"),
                           post("/containers/web/start"), get("/containers/web/json"),
                           post("/containers/web/wait?condition=next-exit"), get("/containers/web/json")],
         [created(0), answer(204), waited(0), answer(204),
          shown(0, "web", AWHILE, "running", pid=1002, started=moment(200), finished=moment(200)), waited(0),
          shown(0, "web", AWHILE, "exited", started=moment(200), finished=moment(400))])
TEXTS = {"created": "Created", "running": "Up", "paused": "Up (Paused)", "restarting": "Restarting (1)",
         "exited": "Exited (137)", "dead": "Dead"}


def item_of(name):
    return item(NUMBERS[name], name, WORDS.get(name, LONG), name, TEXTS[name])


scenario("list_in_each_state", OF_EACH + [get("/containers/json"), get("/containers/json?all=1")]
         + [filtered({"status": [name]}) for name in NUMBERS]
         + [filtered({"status": ["removing"]}), filtered({"exited": ["137"]})],
         OF_EACH_ANSWERS + [listed(*map(item_of, ["restarting", "paused", "running"])),
                            listed(*map(item_of, ["exited", "restarting", "paused", "running", "created", "dead"]))]
         + [listed(item_of(name)) for name in NUMBERS] + [listed(), listed()])

# ---- policies

# three restarts behind 100, 200 and 400 milliseconds; `not-running` is the last end
THREE_TIMES = ("on-failure", 3)


def third(status, at, restarts):
    return shown(0, "web", FAILS, status, code=1, started=moment(at), finished=moment(at), policy=THREE_TIMES, restarts=restarts)


scenario("given_up_after_three", [create("web", body=with_policy(FAILS, THREE_TIMES)), post("/containers/web/start"),
                                  post("/containers/web/wait"), get("/containers/web/json")],
         [created(0), answer(204), waited(1), third("exited", 700, 3)])
scenario("ends_of_three_restarts", [create("web", body=with_policy(FAILS, THREE_TIMES)), post("/containers/web/start")]
         + [get("/containers/web/json")] * 14,
         [created(0), answer(204), third("restarting", 50, 0), *[third("restarting", 150, 1)] * 4,
          *[third("restarting", 350, 2)] * 8, third("exited", 750, 3)], words="--stdio --clock 1700000000000:50")
# the clock stands but for a wait's pauses: a removal that has timed out, the end, and the removal of what is dead
scenario("dead_and_removed", [create("web", LASTS), post("/containers/web/start"), FORCE, get("/containers/web/json"),
                              post("/containers/web/wait"), get("/containers/web", "DELETE"), get("/containers/json?all=1"),
                              create("web")],
         [created(0), answer(204), message(409, f"removal of container {id_of(0)} timed out"),
          shown(0, "web", LASTS, "dead", pid=1001, started=NOW), waited(137), answer(204), listed(), created(1)])
TWICE_FLAKY = ["flaky", "2"]


def flaky(status, code, at, policy, restarts):
    return shown(0, "web", TWICE_FLAKY, status, code=code, started=moment(at), finished=moment(at), policy=policy,
                 restarts=restarts)


# two runs fail and the next ones end well: started at 100, launched again at 200, 400 and 800, and stopped before 1600
for policy in (ALWAYS, ("unless-stopped", 0)):
    scenario(f"flaky_{policy[0].replace('-', '_')}", [
        create("web", body=with_policy(TWICE_FLAKY, policy)), post("/containers/web/start"), *[get("/containers/web/json")] * 7,
        post("/containers/web/stop"), get("/containers/web/json")],
        [created(0), answer(204), *[flaky("restarting", 1, 200, policy, 1)] * 2, *[flaky("restarting", 0, 400, policy, 2)] * 4,
         flaky("restarting", 0, 800, policy, 3), answer(204), flaky("exited", 0, 800, policy, 3)],
        words="--stdio --clock 1700000000000:100")
for policy, code, at, restarts in ((("no", 0), 1, 100, 0), (("on-failure", 1), 1, 200, 1), (("on-failure", 0), 0, 400, 2)):
    scenario(f"flaky_{policy[0].replace('-', '_')}_{policy[1]}", [
        create("web", body=with_policy(TWICE_FLAKY, policy)), post("/containers/web/start"), post("/containers/web/wait"),
        get("/containers/web/json")],
        [created(0), answer(204), waited(code), flaky("exited", code, at, policy, restarts)],
        words="--stdio --clock 1700000000000:100")
# launched again by its policy at 250 and paused at that moment: its whole time is left, from the unpause at 350 on
BRIEF = ["sleep", "100"]


def brief(status, at, pid=0, finished=150):
    return shown(0, "web", BRIEF, status, pid=pid, started=moment(at), finished=moment(finished), policy=ALWAYS, restarts=1)


scenario("paused_as_restarted", [create("web", body=with_policy(BRIEF, ALWAYS)), post("/containers/web/start")]
         + [get("/containers/web/json")] * 3 + [post("/containers/web/pause"), get("/containers/web/json"),
                                                post("/containers/web/unpause")] + [get("/containers/web/json")] * 2,
         [created(0), answer(204), shown(0, "web", BRIEF, "running", pid=1001, started=moment(50), policy=ALWAYS),
          *[shown(0, "web", BRIEF, "restarting", started=moment(50), finished=moment(150), policy=ALWAYS)] * 2,
          answer(204), brief("paused", 250, 1002), answer(204), brief("running", 250, 1002),
          brief("restarting", 250, finished=450)],
         words="--stdio --clock 1700000000000:50")
# a run of a second that is paused for half a second, 400 milliseconds behind its start
SECOND = ["sleep", "1000"]
scenario("pause_of_half_a_second", [create("web", SECOND), post("/containers/web/start")] + [get("/containers/json?limit=1")] * 3
         + [post("/containers/web/pause")] + [filtered({"name": []})] * 4 + [post("/containers/web/unpause")]
         + [filtered({"name": []})] * 4 + [get("/containers/web/json")] * 2,
         [created(0), answer(204)] + [listed(item(0, "web", SECOND, "running", "Up"))] * 3 + [answer(204)] + [listed()] * 4
         + [answer(204)] + [listed()] * 4
         + [shown(0, "web", SECOND, "running", pid=1001, started=moment(100)),
            shown(0, "web", SECOND, "exited", started=moment(100), finished="2023-11-14T22:13:21.600000000Z")],
         words="--stdio --clock 1700000000000:100")
