"""Courses of several connections over real sockets, and connections that are there at once."""
from exchange import *
from beside import *
from journals import JOURNAL
from takeovers import *

CLOSES = "Connection: close\r\n"
CLOCK = " --clock 1700000000000:0"


def closing(request):
    """A request behind which its connection closes."""
    return request.replace("Host: x\r\n", f"Host: x\r\n{CLOSES}", 1)


def closed(text):
    """The answer to such a one."""
    return text.replace("Api-Version: 1.43\r\n", f"Api-Version: 1.43\r\n{CLOSES}", 1)


LISTS, NONE = closing(LIST_ALL), closed(listed())

# ---- over sockets: the next turn begins when the one before it has brought what it has to

# the first creates and stays; only then the second creates; only then the first lists both; a third lists both
course("two_orders_over_sockets", (0, WEB, created(0)), (1, closing(create("db")), closed(created(1))), (0, LISTS, closed(BOTH_CREATED)),
       (2, LISTS, closed(BOTH_CREATED)), more=CLOCK)
# the head of a wait comes before the start, and its code behind it
course("wait_before_a_start_over_sockets", (0, [create("web", EXITS), wait("next-exit")], created(0) + EARLY_HEAD),
       (1, START, answer(204)), (0, PING, late(3) + PONG),
       (2, LISTS, closed(listed(item(0, "web", EXITS, "exited", "Exited (3)")))), more=CLOCK)
course("waits_of_two_over_sockets", (0, RUNS, RUNS_ANSWERS), (1, wait("next-exit"), EARLY_HEAD), (2, wait("next-exit"), EARLY_HEAD),
       (0, post("/containers/web/kill"), answer(204)), (1, PING, late(137) + PONG), (2, PING, late(137) + PONG))
# a followed log ends with the removal of its container by another
course("log_to_a_removal_over_sockets", (0, RUNS, RUNS_ANSWERS), (0, FOLLOW, log_head()), (1, FORCE, answer(204)),
       (0, LISTS, LAST_CHUNK + NONE))
# a line and the end of input come back: to who sent them, to who looked on from before, and to who comes behind
LOOK = attach("web", "logs=1&stream=1&stdout=1")
COPIES = [create("web", body=CAT), START]
course("a_line_over_sockets", (0, COPIES, created(0) + answer(204)), (1, LOOK, UPGRADED),
       (0, [attach("web", FED), "abc\n"], UPGRADED + frame(1, "abc\n")), (0, "end", ""), (0, "rest", ""), (1, "rest", frame(1, "abc\n")),
       (2, LOOK, UPGRADED), (2, "rest", frame(1, "abc\n")))
# more than a mebibyte comes back beside what is sent; three are sent before any is taken, and another is answered meanwhile
course("mebibytes_over_sockets", (0, create("web", body=CAT), created(0)), (1, [START, attach("web", FED)], answer(204) + UPGRADED),
       (1, "flood", 32), (2, [START, attach("web", FED)], answer(204) + UPGRADED), (2, "pour", 95), (0, PING, PONG), (2, "count", 95))
# who goes inside a frame is a fault alone
course("gone_inside_a_frame", (0, create("web", body=CAT), created(0)), (1, [START, attach("web", FED)], answer(204) + UPGRADED),
       (1, "a", frame(1, "a")), (1, "b", frame(1, "b")[:8]), (1, "gone", ""), (0, FORCE, answer(204)), (0, LISTS, NONE), status=4)
# who waits or follows and is gone, with a byte unread, ends though nothing is to be written, while the container goes on
course("gone_while_it_waits", (0, RUNS, RUNS_ANSWERS), (1, wait("next-exit"), EARLY_HEAD[:-1]), (2, FOLLOW, log_head()[:-1]),
       (1, "gone", ""), (2, "gone", ""), (0, closing(START), closed(answer(304))), status=4)
# who goes inside a head or a body, or stays there, loses nobody else anything
course("halfway_over_sockets", (0, HALF_A_HEAD, ""), (0, "gone", ""), (1, HALF_A_BODY, ""), (1, "gone", ""), (2, HALF_A_HEAD, ""),
       (3, closing(WEB), closed(created(0))), (2, "gone", ""), status=3)
SCENARIOS.append(("taken.course", "", ("taken",), "--connections 3", 4, ""))

# ---- at once: who comes first isn't known, so each whole of answers that there can be stands beside the requests

WEB_CLOSES, DB_CLOSES = closing(WEB), closing(create("db"))
crowd("creates_at_once", [WEB_CLOSES, DB_CLOSES], *(closed(created(n)) + closed(created(1 - n)) for n in (0, 1)))
crowd("same_name_at_once", [WEB_CLOSES] * 2, closed(created(0)) + closed(conflict("web", 0)), closed(conflict("web", 0)) + closed(created(0)))
crowd("list_and_create_at_once", [WEB_CLOSES, LISTS], closed(created(0)) + NONE, closed(created(0)) + closed(listed(WEB_CREATED)))
TICKS = ["tick", "3", "100"]
TICKS_FOLLOWED = [create("ticks", TICKS), post("/containers/ticks/start"), logs("ticks", "stdout=1&follow=1")]
TICK = log_chunk(["tick\n"])
OF_NONE = closing(get("/containers/json?all=1&filters=" + urllib.parse.quote(compact({"name": ["none"]}))))
crowd("log_and_lists_at_once", [TICKS_FOLLOWED, OF_NONE, OF_NONE], [created(0), answer(204), log_head(), TICK * 3, LAST_CHUNK, NONE, NONE])
crowd("journals_at_once", [TICKS_FOLLOWED, WEB + closing(JOURNAL), create("db") + closing(JOURNAL)])
