"""Tables of containers and of timers, by steps."""
from lines import *
from exchange import id_of


def steps(*rows):
    ask("table|" + "|".join(step for step, _ in rows), " | ".join(answer for _, answer in rows))


def timer(moment, rank, number):
    return f"Some(DueAction {{ moment: {moment}, rank: {rank}, number: {number} }})"


# the ids of the seed of zeros, by RFC 8439's block function
IDS = [id_of(n) for n in range(17)]
heading("a reference names one container or many; some are named like ids")
steps(("find ", "None"), ("add 0 w0", "yes"), ("find ", "One(0)"), *((f"add {n} {IDS[n]}", "yes") for n in range(1, 17)),
      (f"find {IDS[0]}", "One(0)"), ("find ", "Many"), ("find /w0", "One(0)"))
heading("a name goes with a rename")
steps(("add 3 old", "yes"), ("add 4 old", "no"), ("add 3 other", "no"), ("rename 3 new", "yes"), ("find old", "None"),
      ("find new", "One(3)"))
heading("the least timer comes first")
steps(("set 5 0 1", "yes"), ("set 5 0 0", "yes"), ("set 4 3 9", "yes"), ("least", timer(4, 3, 9)), ("clear 3 9", "yes"),
      ("least", timer(5, 0, 0)), ("set 9 0 0", "yes"), ("least", timer(5, 0, 1)))
