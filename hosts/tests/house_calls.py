#!/usr/bin/env python3
"""Makes the calls of house_random.c on the model of house.py, and compares.

  house_calls.py HEADER < CALLS

A line of CALLS is `CALL NUMBERS = CODE WRITTEN`: what a call was answered, and what it wrote. It stands behind `null` if a pointer of the call was null. A line that begins with `|` is the next line of
the text that the call before wrote, which has to be the model's, too. It stops at the first difference. The last line is 'N passed, M failed', and the
status is 0 if nothing failed.
"""
import re
import sys

from house import MODES, RETURN, House, Refused

MOST_NOTES = 2**24


class Caller:
    """Makes the calls of the lines. Each answers the name of a code, and what is written."""

    def __init__(self):
        self.house, self.left, self.seats, self.ended, self.lines = None, [], set(), [], iter(())

    def open(self, wrong_size, cores, places, burst, notes):
        if wrong_size or not (1 <= cores <= 16 and 1 <= places <= 1024 and 1 <= burst <= 64 and notes <= MOST_NOTES):
            raise Refused("FX_BAD_NUMBER")
        self.__init__()
        self.house, self.left, self.seats = House(cores, places, burst, notes), [*range(cores, -1, -1)], set(range(cores + 1))

    def take(self):
        if not self.left:
            raise Refused("FX_ABSENT")
        return "FX_OK", [self.left.pop(0)]

    def end(self, actor):
        self.seated(actor)
        if self.left or actor != len(self.ended):
            raise Refused("FX_NO_ACTOR")
        if actor < self.house.cores and not self.house.actors[actor].is_drained():
            raise Refused("FX_NOT_DRAINED")
        self.ended.append(actor)
        self.seats.remove(actor)

    def audit(self, wrong_size):
        self.in_size(wrong_size)
        if len(self.ended) <= self.house.cores:
            raise Refused("FX_PENDING")
        if any(actor.passed for actor in self.house.actors):
            raise Refused("FX_PASSED_ON")
        return "FX_OK", [1, 0]

    def passon(self, actor, room):
        code, written, lines = self.actor(actor).pass_on(room)
        self.lines = iter(lines)
        return code, written

    def notes(self, actor):
        return "FX_OK", self.actor(actor).counts()

    def came(self, actor, place):
        return "FX_OK", self.actor(actor).came(place)

    def copy(self, actor, first, most, room):
        code, written, lines = self.actor(actor).copy(first, most, room)
        self.lines = iter(lines)
        return code, written

    def copybytes(self, actor, before, first, most, room):
        code, written, lines = self.actor(actor).copy_bytes(before, first, most, room)
        self.lines = iter(lines)
        return code, written

    def forget(self, actor):
        return "FX_OK", self.actor(actor).forget()

    def text(self):
        self.lines = iter(self.house.text())

    def leave(self, actor):
        self.seated(actor)
        self.seats.remove(actor)

    def free(self):
        self.house = None

    def seated(self, actor):
        if actor not in self.seats:
            raise Refused("FX_EMPTY")

    def core(self, number):
        if number == self.house.cores:
            raise Refused("FX_EMPTY")
        return self.house.actors[number]

    def actor(self, number):
        return self.house.actors[number]

    def job(self, actor, to, queue, job):
        if queue > 255:
            raise Refused("FX_NO_QUEUE")
        return "FX_OK", self.actor(actor).submit(to, ("job", queue, job), f"job q{queue}")

    def create(self, actor, to, shares):
        self.in_range(shares)
        return "FX_OK", self.actor(actor).submit(to, ("create", shares), f"create {shares}")

    def shares(self, actor, to, queue, shares):
        self.in_range(shares)
        if queue > 255:
            raise Refused("FX_NO_QUEUE")
        return "FX_OK", self.actor(actor).submit(to, ("shares", queue, shares), f"shares q{queue} {shares}")

    def closequeue(self, actor, to, queue, mode):
        if mode > RETURN:
            raise Refused("FX_BAD_NUMBER")
        if queue > 255:
            raise Refused("FX_NO_QUEUE")
        return "FX_OK", self.actor(actor).submit(to, ("closequeue", queue, mode), f"close q{queue} {MODES[mode]}")

    def closecore(self, actor, to, mode):
        if mode > RETURN:
            raise Refused("FX_BAD_NUMBER")
        return "FX_OK", self.actor(actor).submit(to, ("closecore", mode), f"closecore {MODES[mode]}")

    def wake(self, actor, to, sender, number):
        if sender > 255:
            raise Refused("FX_NO_ACTOR")
        return "FX_OK", self.actor(actor).submit(to, ("wake", sender, number), f"wake {sender}#{number}")

    @staticmethod
    def in_range(shares):
        if not 1 <= shares <= 10000:
            raise Refused("FX_BAD_SHARES")

    def next(self, core, wrong_size):
        it = self.core(core)
        self.in_size(wrong_size)
        return it.next()

    def settle(self, core, step, answer, spent):
        return self.core(core).settle(step, answer, spent), []

    def step(self, core, step, answer, spent, wrong_size):
        it = self.core(core)
        self.in_size(wrong_size)
        it.settle(step, answer, spent)
        return it.next()

    def deliver(self, core, sender):
        return "FX_OK" if self.core(core).deliver(sender) else "FX_IDLE", []

    def collect(self, actor, core):
        return "FX_OK", self.actor(actor).collect(core)

    def redeem(self, actor, sender, to, number, wrong_size):
        self.in_size(wrong_size)
        return "FX_OK", self.actor(actor).redeem((sender, to, number))

    @staticmethod
    def in_size(wrong):
        if wrong:
            raise Refused("FX_BAD_NUMBER")

    def detach(self, actor, sender, to, number):
        return "FX_OK", self.actor(actor).detach((sender, to, number))

    def shut(self, core, sender):
        self.core(core).shut(sender)

    def close(self, core, mode):
        self.core(core).close(mode)

    def shows(self, actor):
        return "FX_OK" if self.actor(actor).shows() else "FX_IDLE", []

    def drained(self, core):
        return "FX_OK" if self.core(core).is_drained() else "FX_NOT_DRAINED", []

    def stats(self, core, wrong_size):
        it = self.core(core)
        self.in_size(wrong_size)
        room = (self.house.cores + 1) * self.house.places
        closed = 0 if it.mode is None else 1 + it.mode
        return "FX_OK", [len(it.queues), room, it.inside, it.turns, it.floor % 2**64, it.floor >> 64, int(it.running is not None), closed]

    def statsofqueue(self, core, queue, wrong_size):
        queues = self.core(core).queues
        self.in_size(wrong_size)
        if queue >= len(queues):
            raise Refused("FX_NO_QUEUE")
        it = queues[queue]
        wide = [it.time % 2**64, it.time >> 64, it.runtime % 2**64, it.runtime >> 64]
        return "FX_OK", [it.shares, it.picks, len(it.line) + len(it.parked), it.done, it.back, *wide]

    def made(self, line, codes):
        """What the line should say behind its `=`."""
        name, *numbers = line.removeprefix("null ").split()
        try:
            if line.startswith("null "):
                raise Refused("FX_NULL")
            code, written = getattr(self, name)(*map(int, numbers)) or ("FX_OK", [])
        except Refused as why:
            code, written = str(why), []
        return code, [codes[code], *written]


def told_by(asked, numbers, codes):
    """The kind, the reason and the answer that a call told, by their names."""
    told = []
    if asked.startswith("redeem") and numbers[0] == codes["FX_OK"]:
        told = [("KIND", numbers[1]), ({1: "REASON", 2: "ANSWER"}.get(numbers[1]), numbers[2])]
    elif asked.startswith("next") and numbers[0] == codes["FX_BACK"]:
        told = [("REASON", numbers[-1])]
    return [name for part, number in told for name in codes if codes[name] == number and name.startswith(f"FX_{part}_")]


def main():
    with open(sys.argv[1], encoding="utf-8") as header:
        codes = {name: int(number) for name, number in re.findall(r"\b(FX_\w+) = (\d+)", header.read())}
    caller, passed, seen = Caller(), 0, set()
    for line in sys.stdin:
        if line.startswith("|"):
            found, wanted = line[1:].rstrip("\n"), next(caller.lines, None)
        elif next(caller.lines, None) is not None:
            print(f"FAILED: call {passed}, {line.strip()}: the text before it ends early\n{passed} passed, 1 failed")
            return 1
        else:
            asked, _, found = line.partition(" = ")
            code, numbers = caller.made(asked, codes)
            seen.update([code, *told_by(asked, numbers, codes)])
            found, wanted = found.split(), [str(it) for it in numbers]
        if found != wanted:
            print(f"FAILED: call {passed}, {line.strip()}: {found}, and not {wanted}\n{passed} passed, 1 failed")
            return 1
        passed += 1
    told = {name for name in codes if re.match("FX_(KIND|REASON|ANSWER)_", name)} - {"FX_ANSWER_NO_MEMORY"}
    missing = (WANTED | told if passed >= MANY else WANTED) - seen
    for code in sorted(missing):
        print(f"FAILED: no call was answered {code}")
    print(f"{passed} passed, {len(missing)} failed")
    return 1 if missing else 0


# Of so many calls each kind, reason and answer has to come up, except that there is no memory.
MANY = 500000
# Of any number each of these codes.
WANTED = set("""FX_OK FX_START FX_RESUME FX_DONE FX_BACK FX_IDLE FX_BUSY FX_NO_JOB FX_FULL FX_BAD_SHARES FX_NO_QUEUE FX_CLOSED FX_BAD_NUMBER FX_PARKED
    FX_JOURNAL_FULL FX_UNKNOWN_CORE FX_NO_ACTOR FX_UNKNOWN FX_GONE FX_PENDING FX_OPEN FX_SHUT
    FX_NOT_DRAINED FX_EMPTY FX_ABSENT FX_SHORT FX_PASSED_ON FX_NULL""".split())

sys.exit(main())
