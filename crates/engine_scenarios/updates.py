"""Scenarios of containers that are removed by themselves, and of policies that are given anew."""
from exchange import *
from lives import *
from states import *
from events import followed, events, line, told
from journals import JOURNAL, create_call, create_entry, entry, kept, lines_told, named
from beside import FOLLOW, FOLLOWS_ANSWERS, LAST_CHUNK, THRICE, TICK
from takeovers import UPGRADED, attach, detach_exec, exec_made, frame

BRIEF = ["sleep", "100"]
START, WAIT = post("/containers/web/start"), post("/containers/web/wait")
NONE_LEFT, INSPECT = message(404, "No such container: web"), get("/containers/web/json")
EXCLUDES = "AutoRemove excludes a restart policy"


def passing(words, **host):
    """A create of what is removed by itself."""
    return compact({"Image": "engine/tools:latest", "Cmd": words, "HostConfig": {"AutoRemove": True, **host}})


# its end removes it, and answers who waits for that; the journal tells what was asked for
GONE = [create("web", body=passing(BRIEF)), START, post("/containers/web/wait?condition=removed"), INSPECT]
GONE_ANSWERS = [created(0), answer(204), waited(0), NONE_LEFT]
scenario("removed_by_itself", [*GONE, events("since=0&until=1700000000.1")],
         [*GONE_ANSWERS, followed(0, [told("create"), told("start"), told("die", ms=100, exitCode="0"), told("destroy", ms=100)])])
CREATED = dict(sorted((create_call("web", BRIEF) | {"auto": True}).items()))
scenario("journal_of_what_is_removed_by_itself", [*GONE, JOURNAL], [
    *GONE_ANSWERS, lines_told(
        entry(CREATED, kept(201, {"Id": id_of(0), "Warnings": []})), entry(named("start"), kept(204)),
        entry({"condition": "removed", "op": "wait", "ref": "web"}, {"ticket": 0}, dues=1),
        entry({"op": "take", "ticket": 0}, kept(200, {"StatusCode": 0}), dues=1, ms=100),
        entry(named("inspect"), kept(404, {"message": "No such container: web"}), ms=100))])
# also behind a stop, and behind a kill; a restart isn't its end
scenario("removed_behind_a_stop", [create("web", body=passing(DEAF)), START, post("/containers/web/stop?t=1"), INSPECT,
                                   events("since=0&until=1700000001")],
         [created(0), answer(204), answer(204), NONE_LEFT,
          followed(0, [told("create"), told("start"), told("kill", signal="15"), told("kill", ms=1000, signal="9"),
                       told("die", ms=1000, exitCode="137"), told("stop", ms=1000), told("destroy", ms=1000)])])
scenario("removed_behind_a_kill", [create("web", body=passing(LONG)), START, post("/containers/web/restart"), INSPECT,
                                   post("/containers/web/kill"), INSPECT, events("since=0&until=1700000000")],
         [created(0), answer(204), answer(204), shown(0, "web", LONG, "running", pid=1002, started=NOW, finished=NOW, auto=True),
          answer(204), NONE_LEFT,
          followed(0, [told("create"), told("start"), told("kill", signal="15"), told("die", exitCode="143"), told("stop"),
                       told("start"), told("restart"), told("kill", signal="9"), told("die", exitCode="137"), told("destroy")])])
# with it go its exec and the reference of its mount; two go at one moment
WITH_ALL = [create("web", body=passing(BRIEF, Binds=["data:/data"])), START, create_exec("web", LONG), detach_exec(1), WAIT,
            get(f"/exec/{id_of(1)}/json"), get("/volumes/data", "DELETE"), events("since=0&until=1700000000.1")]
scenario("exec_and_mount_of_what_is_removed_by_itself", WITH_ALL, [
    created(0), answer(204), exec_made(1), answer(200, ""), waited(0), message(404, f"No such exec instance: {id_of(1)}"),
    answer(204), followed(0, [
        line("create", "data", kind="volume", driver="local"), told("create"),
        line("mount", "data", kind="volume", container=id_of(0), driver="local"), told("start"),
        told("exec_create", execID=id_of(1)), told("exec_start", execID=id_of(1)),
        told("exec_die", ms=100, execID=id_of(1), exitCode="137"), told("die", ms=100, exitCode="0"),
        line("unmount", "data", kind="volume", ms=100, container=id_of(0), driver="local"), told("destroy", ms=100),
        line("destroy", "data", kind="volume", ms=100, driver="local")])])
scenario("two_are_removed_at_one_moment", [
    create("web", body=passing(BRIEF)), create("db", body=passing(BRIEF)), create("job", AWHILE), START, post("/containers/db/start"),
    post("/containers/job/start"), post("/containers/job/wait"), get("/containers/json?all=1"),
    events("since=1700000000.1&until=1700000000.1")],
    [created(0), created(1), created(2), answer(204), answer(204), answer(204), waited(0),
     listed(item(2, "job", AWHILE, "exited", "Exited (0)")),
     followed(6, [told("die", ms=100, exitCode="0"), told("destroy", ms=100), told("die", 1, "db", 100, exitCode="0"),
                  told("destroy", 1, "db", 100)])])
# who follows its log, and who looks on, is told all that it wrote, though it is gone by then
talk("log_to_a_removal_by_itself", (0, 0, [create("web", body=passing(THRICE)), START, FOLLOW], FOLLOWS_ANSWERS),
     (1, 150, post("/containers/web/kill") + INSPECT, answer(204) + NONE_LEFT), (0, 200, "on", TICK + LAST_CHUNK),
     (0, 200, FOLLOW, NONE_LEFT))
talk("attach_to_a_removal_by_itself", (0, 0, [create("web", body=passing(ECHO)), attach("web", "stream=1&stdout=1")], created(0) + UPGRADED),
     (1, 60, START + INSPECT, answer(204) + NONE_LEFT), (0, 100, "on", frame(1, "hi\n")), ended=[0])
# what is removed by itself has no other policy; the given one counts from the next end on
scenario("auto_remove_excludes_a_policy", [
    create("web", body=passing(BRIEF, RestartPolicy={"Name": "always"})), create("web", body=passing(BRIEF)), START,
    update("web", ALWAYS), update("web", ("no", 0)), update("web"), update("db", ALWAYS),
    post("/containers/web/update", '{"RestartPolicy":{"Name":"sometimes"}}'), WAIT],
    [message(400, EXCLUDES), created(0), answer(204), message(409, EXCLUDES), UPDATED, UPDATED,
     message(404, "No such container: db"), message(400, "bad restart policy"), waited(0)])
NO_MORE = [create("web", body=with_policy(FAILS, ALWAYS)), START, update("web", ("no", 0)), WAIT, INSPECT]
NO_MORE_ANSWERS = [created(0), answer(204), UPDATED, waited(1),
                   shown(0, "web", FAILS, "exited", code=1, started=moment(100), finished=moment(100), restarts=1)]
scenario("policy_given_while_a_restart_is_pending", [*NO_MORE, events("since=0&until=1700000000.1")], [
    *NO_MORE_ANSWERS, followed(0, [told("create"), told("start"), told("die", exitCode="1"), told("update"), told("start", ms=100),
                                   told("die", ms=100, exitCode="1")])])
