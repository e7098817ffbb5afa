#!/usr/bin/env python3
"""Makes the calls of random.c on cores that stand alone, on the model of house.py, and compares.

  core_calls.py HEADER < CALLS

A line of CALLS is `CALL CORE NUMBERS = CODE WRITTEN`, behind `null` if a pointer of the call was null. What a call writes stands behind its code. If it
was refused, that is as the caller left it.
It stops at the first difference. The last line is 'N passed, M failed', and the status is 0 if nothing failed.
"""
import re
import sys

from house import RETURN, Core, House, Job, Queue, Refused

# What stands where a call writes, before it does.
LEFT = {"create": [77], "next": [77], "submit_numbered": [77], "stats": [0] * 8, "stats_of_queue": [0] * 9}


def in_range(shares):
    if not 1 <= shares <= 10000:
        raise Refused("FX_BAD_SHARES")


def in_size(wrong):
    if wrong:
        raise Refused("FX_BAD_NUMBER")


class Alone(Core):
    """A core without its house: it keeps no notes, and its jobs come from and go to its host. Each call answers a code, and what is written."""

    def __init__(self, jobs):
        super().__init__(House(1, 1, 1, 0), 0)
        self.room, self.count, self.told = jobs + jobs % 2, 0, None

    def note(self, text):
        pass

    want_room = note

    def give(self, name, outcome, words):
        self.told = outcome

    def has_place(self):
        if self.inside == self.room:
            raise Refused("FX_FULL")

    def known(self, queue):
        if queue >= len(self.queues):
            raise Refused("FX_NO_QUEUE")
        return self.queues[queue]

    def create(self, shares):
        in_range(shares)
        if self.mode is not None:
            raise Refused("FX_CLOSED")
        if len(self.queues) == 256:
            raise Refused("FX_TOO_MANY")
        self.queues.append(Queue(shares))
        return "FX_OK", [len(self.queues) - 1]

    def set_shares(self, queue, shares):
        in_range(shares)
        self.has_place()
        self.count += queue < 256
        self.known(queue).shares = shares

    def submit_numbered(self, queue, job):
        if self.mode is not None:
            raise Refused("FX_CLOSED")
        self.has_place()
        self.count += queue < 256
        if self.known(queue).mode is not None:
            raise Refused("FX_CLOSED")
        self.place(queue)
        self.queues[queue].line.append(Job((1, 0, self.count), queue, job))
        self.inside += 1
        return "FX_OK", [self.count]

    def submit(self, queue, job):
        return self.submit_numbered(queue, job)[0], []

    def wake(self, order):
        self.has_place()
        self.count += 1
        if not super().wake((1, 0, order)):
            raise Refused("FX_ABSENT")

    def next(self):
        code, turn = super().next()
        if code == "FX_IDLE":
            raise Refused(code)
        return code, [self.told[-1] if code == "FX_BACK" else turn[4]]

    def settle(self, step, spent):
        return super().settle(step, 0, spent), []

    def close_queue(self, queue, mode):
        in_size(mode > RETURN)
        it = self.known(queue)
        if it.mode is not None and it.mode >= mode:
            raise Refused("FX_CLOSED")
        it.mode = mode
        self.end_parks(queue, mode)

    def stats(self, wrong_size):
        in_size(wrong_size)
        closed, floor = 0 if self.mode is None else 1 + self.mode, [self.floor % 2**64, self.floor >> 64]
        return "FX_OK", [len(self.queues), self.room, self.inside, self.turns, *floor, int(self.running is not None), closed]

    def stats_of_queue(self, queue, wrong_size):
        in_size(wrong_size)
        it = self.known(queue)
        wide = [it.time % 2**64, it.time >> 64, it.runtime % 2**64, it.runtime >> 64]
        return "FX_OK", [it.shares, it.picks, len(it.line) + len(it.parked), it.done, it.back, *wide]


def made(cores, name, at, *numbers):
    if name == "open":
        if cores[at] is not None:
            raise Refused("FX_OCCUPIED")
        in_size(not 1 <= numbers[0] <= 131070)
        cores[at] = Alone(*numbers)
        return "FX_OK", []
    if cores[at] is None:
        raise Refused("FX_EMPTY")
    if name != "free":
        return getattr(cores[at], name)(*numbers) or ("FX_OK", [])
    cores[at] = None
    return "FX_OK", []


def main():
    with open(sys.argv[1], encoding="utf-8") as header:
        codes = {name: int(number) for name, number in re.findall(r"\b(FX_\w+) = (\d+)", header.read())}
    cores, passed = [None] * 3, 0
    for line in sys.stdin:
        asked, _, found = line.partition(" = ")
        name, *numbers = asked.removeprefix("null ").split()
        try:
            if asked.startswith("null "):
                raise Refused("FX_NULL")
            code, written = made(cores, name, *map(int, numbers))
        except Refused as why:
            code, written = str(why), LEFT.get(name, [])
        if found.split() != [str(it) for it in [codes[code], *written]]:
            print(f"FAILED: call {passed}, {line.strip()}: {code} {written} is wanted\n{passed} passed, 1 failed")
            return 1
        passed += 1
    print(f"{passed} passed, 0 failed")
    return 0


sys.exit(main())
