"""Drills: the requests by the words of the keystream, and what they come to by the rules of docs/API.md.

A model of the few programs and calls that a drill asks for, and of the steps between them. It shares no code with the daemon.
"""
import struct
from collections import Counter

from exchange import *

LAST_STREAM = 2 ** 64 - 1  # no id is made of it
PROGRAMS = ("deaf", "exit", "tick", "flaky")
SEED = bytes(range(0x40, 0x60))
TICKS, PAUSE_OF_A_TICK = 5, 20
SECOND, POLL = 1000, 50
CREATED, RUNNING, PAUSED, RESTARTING, EXITED = "created", "running", "paused", "restarting", "exited"
PROCESS, DEADLINE, TIMER = 0, 1, 3  # ranks of what is due at one moment


def words(seed, count):
    """The 32-bit words of the keystream, block after block."""
    found = []
    for block in range((count + 15) // 16):
        found += struct.unpack("<16I", keystream(LAST_STREAM, seed, block))
    return found[:count]


class Container:
    def __init__(self, number, program):
        self.number, self.program = number, program
        self.status, self.starts, self.restarts, self.delay = CREATED, 0, 0, 0
        self.manual, self.goal = False, None
        self.due = {}  # by rank: the moment of what is due
        self.op = self.left = self.launched = None


class Daemon:
    def __init__(self, start, step):
        self.now, self.held, self.step = start, start, step
        self.boxes, self.number, self.events, self.steps = {}, 0, 0, 0
        self.last_call = 0

    # ---- processes

    def launch(self, box, by_call):
        if by_call:
            box.restarts, box.delay, box.manual, box.goal = 0, 0, False, None
        box.starts += 1
        box.status, box.launched, box.op = RUNNING, self.now, 0
        box.due[PROCESS] = self.now
        self.events += 1  # start

    def make_op(self, box):
        """The op of a process that is due now."""
        at, box.op = box.op, box.op + 1
        if box.program == "deaf":
            del box.due[PROCESS]
        elif box.program == "exit":
            self.end(box, 3)
        elif box.program == "tick":
            if at == 2 * TICKS:
                self.end(box, 0)
            elif at % 2 == 1:
                box.due[PROCESS] = self.now + PAUSE_OF_A_TICK
        elif at == 1:
            self.end(box, 1 if box.starts <= 2 else 0)

    def end(self, box, code):
        box.due, box.left = {}, None
        self.events += 1  # die
        goal, box.goal = box.goal, None
        if goal == "remove":
            self.destroy(box)
        elif goal == "stop":
            box.status = EXITED
            self.events += 1  # stop
        elif goal == "restart":
            self.events += 1  # stop
            self.launch(box, True)
            self.events += 1  # restart
        elif box.program == "flaky" and code != 0 and box.restarts < 5 and not box.manual:
            fresh = box.delay == 0 or self.now - box.launched >= 10 * SECOND
            box.delay = 100 if fresh else min(2 * box.delay, 60 * SECOND)
            box.status, box.due[TIMER] = RESTARTING, self.now + box.delay
        else:
            box.status = EXITED

    def destroy(self, box):
        self.events += 1  # destroy
        del self.boxes[next(name for name, other in self.boxes.items() if other is box)]

    def cancel(self, box):
        del box.due[TIMER]
        box.status, box.manual = EXITED, True

    def thaw(self, box):
        if box.status == PAUSED:
            self.events += 1  # unpause
            box.status = RUNNING
            if box.left is not None:
                box.due[PROCESS], box.left = self.now + box.left, None

    def signal(self, box, number):
        if number == 9 or box.program != "deaf":
            self.end(box, 128 + number)

    # ---- what is due

    def make_due(self, until):
        while True:
            dues = [(moment, rank, box.number, box) for box in self.boxes.values() for rank, moment in box.due.items()]
            if not dues:
                return
            moment, rank, _, box = min(dues, key=lambda due: due[:3])
            if moment > until:
                return
            self.now, self.steps = moment, self.steps + 1
            if rank == PROCESS:
                self.make_op(box)
            elif rank == DEADLINE:
                del box.due[DEADLINE]
                self.events += 1  # kill
                self.thaw(box)
                self.signal(box, 9)
            else:
                del box.due[TIMER]
                box.restarts += 1
                self.launch(box, False)

    def turn(self):
        """The clock is asked, and what is due is made."""
        handed, self.held = self.held, self.held + self.step
        moment = max(self.now, handed)
        self.make_due(moment)
        return moment

    def count_call(self, moment):
        self.now, self.steps = moment, self.steps + 1
        self.last_call = self.steps

    def wait(self, is_ready):
        """A ticket's answer is taken as soon as it is there."""
        while True:
            moment = self.turn()
            if is_ready():
                self.count_call(moment)
                return 204
            self.held += POLL

    # ---- calls

    def answer(self, word):
        name, deed = f"box-{word // 16 % 32}", word % 16
        self.count_call(self.turn())
        box = self.boxes.get(name)
        if deed <= 2:
            return self.create(name, PROGRAMS[word // 512 % 4])
        if deed == 14:
            return 200
        if box is None:
            return 404
        if deed <= 5:
            return self.start(box)
        if deed == 11:
            return self.rename(name, f"box-{(word // 16 % 32 + 1) % 32}")
        if deed == 15:
            return 200
        return (self.stop, self.kill, self.pause, self.unpause, self.restart, None, self.remove, self.remove_by_force)[deed - 6](box)

    def create(self, name, program):
        if name in self.boxes:
            return 409
        self.boxes[name] = Container(self.number, program)
        self.number += 1
        self.events += 1  # create
        return 201

    def start(self, box):
        if box.status in (RUNNING, RESTARTING):
            return 304
        if box.status == PAUSED:
            return 409
        self.launch(box, True)
        return 204

    def signalled(self, box, goal):
        """A stop or a restart of what runs: its signal, and its deadline."""
        self.events += 1  # kill
        box.manual = box.manual or goal == "stop"
        box.goal, launched = goal, box.launched
        starts = box.starts
        box.due[DEADLINE] = min(box.due.get(DEADLINE, self.now + SECOND), self.now + SECOND)
        self.thaw(box)
        self.signal(box, 15)
        return self.wait(lambda: box.status == EXITED or box.starts > starts)

    def stop(self, box):
        if box.status in (CREATED, EXITED):
            return 304
        if box.status == RESTARTING:
            self.cancel(box)
            self.events += 1  # stop
            return 204
        return self.signalled(box, "stop")

    def restart(self, box):
        if box.status in (RUNNING, PAUSED):
            return self.signalled(box, "restart")
        if box.status == RESTARTING:
            self.cancel(box)
        self.launch(box, True)
        self.events += 1  # restart
        return 204

    def kill(self, box):
        if box.status in (CREATED, EXITED):
            return 409
        self.events += 1  # kill
        if box.status == RESTARTING:
            self.cancel(box)
            return 204
        box.manual = True
        self.thaw(box)
        self.signal(box, 9)
        return 204

    def pause(self, box):
        if box.status != RUNNING:
            return 409
        box.status = PAUSED
        box.left = box.due.pop(PROCESS) - self.now if PROCESS in box.due else None
        self.events += 1  # pause
        return 204

    def unpause(self, box):
        if box.status != PAUSED:
            return 409
        self.thaw(box)
        return 204

    def rename(self, name, other):
        if other in self.boxes:
            return 409
        self.boxes[other] = self.boxes.pop(name)
        self.events += 1  # rename
        return 204

    def remove(self, box):
        if box.status not in (CREATED, EXITED):
            return 409
        self.destroy(box)
        return 204

    def remove_by_force(self, box):
        if box.status in (CREATED, EXITED):
            return self.remove(box)
        if box.status == RESTARTING:
            self.cancel(box)
            self.destroy(box)
            return 204
        self.events += 1  # kill
        box.goal = "remove"
        self.thaw(box)
        self.signal(box, 9)
        return self.wait(lambda: box not in self.boxes.values())


def drill(count, start, step, seed=ZEROS):
    """What a drill of so many requests writes."""
    daemon = Daemon(start, step)
    statuses = Counter(daemon.answer(word) for word in words(seed, count))
    lines = [f"requests {count}"]
    lines += [f"status {status} {statuses[status]}" for status in sorted(statuses)]
    lines += [f"events {daemon.events}", f"containers {len(daemon.boxes)}", f"legal {daemon.last_call}"]
    return "".join(line + "\n" for line in lines)


def drilled(name, count, step, more="", seed=ZEROS, **how):
    scenario(name, WEB, drill(count, 1700000000000, step, seed), words=f"--drill {count} --clock 1700000000000:{step}{more}", **how)


# (nothing is read, and a write of the report that fails is told by the status)
drilled("drill", 20, 0, comings=("pieces=4096", "read=0", "write=0"))
drilled("drill_by_a_clock", 1000, 1)
drilled("drill_by_a_seed", 1000, 7, f" --seed {SEED.hex()}", SEED)
drilled("drill_of_many", 20000, 10)
