"""What fairexec.h says of a house, once more: the simplest code that does it, over lists. It shares nothing with the library.

Each call answers what is written, or raises `Refused` with the name of a code.
"""
import re
from collections import deque

from parts import part_of

MOST_TIME = 2**40 - 1
FINISH, RETURN = 0, 1
YIELD, DONE, PARK = 0, 1, 2
MODES = ["finish", "return"]
REASONS = ["noqueue", "queueclosed", "coreclosing", "queuereturned", "corereturned"]
NO_QUEUE, QUEUE_CLOSED, CORE_CLOSING, QUEUE_RETURNED, CORE_RETURNED = range(5)
ANSWERS = ["created", "toomany", "nomemory", "closing", "sharesset", "noqueue", "closed", "alreadyclosed", "woken", "nojob"]
CREATED, TOO_MANY, NO_MEMORY, CLOSING, SHARES_SET, NO_SUCH_QUEUE, CLOSED, ALREADY_CLOSED, WOKEN, NO_JOB = range(10)


class Refused(Exception):
    """A call that changes nothing, by its code."""


def text_of(name):
    return f"{name[0]}>{name[1]}#{name[2]}"


class Job:
    def __init__(self, name, queue, job):
        self.name, self.queue, self.job, self.started, self.woken = name, queue, job, False, False


class Queue:
    def __init__(self, shares):
        self.shares, self.mode, self.line, self.parked = shares, None, deque(), []
        self.runtime = self.time = self.picks = self.done = self.back = 0


class Link:
    """From an actor to a core: what waits to be delivered, what waits to be collected, and what the sender still has to ask for."""

    def __init__(self):
        self.sent, self.out, self.given, self.held, self.shut = deque(), deque(), 0, {}, None


class Actor:
    """The outside actor, and what a core is beside its queues: its journal, and its submissions."""

    def __init__(self, house, number):
        self.house, self.number, self.notes, self.passed = house, number, [], 0
        self.links = [Link() for _ in range(house.cores)]

    def note(self, text):
        self.notes.append(f"{self.number} {text}")

    def pass_on(self, room):
        """The notes go out as text, if there is room for it. What is written, and the lines."""
        lines = self.notes
        wanted = sum(len(line) + 1 for line in lines)
        if wanted > room:
            return "FX_SHORT", [wanted], []
        self.notes, self.passed = [], self.passed + len(lines)
        return "FX_OK", [wanted], lines

    def counts(self):
        return [len(self.notes), self.house.room - len(self.notes)]

    def came(self, place):
        """The name in the note at a place, if that says that an outcome was collected."""
        words = self.notes[place].split() if place < len(self.notes) else ["", "none"]
        if words[1] != "collected":
            raise Refused("FX_ABSENT")
        return [int(it) for it in re.split("[>#]", words[2])]

    def copy(self, first, most, room):
        """The text of some notes, if there is room for it. What is written, and the lines."""
        lines = self.notes[first : first + most]
        wanted = sum(len(line) + 1 for line in lines)
        if wanted > room:
            return "FX_SHORT", [wanted], []
        return "FX_OK", [wanted, len(lines)], lines

    def copy_bytes(self, before, first, most, room):
        """Some notes as a part in bytes, if there is room for it. What is written, and the bytes as digits."""
        lines = [line.partition(" ")[2] for line in self.notes[first : first + most]]
        part = part_of(self.number, before, lines)
        if len(part) > room:
            return "FX_SHORT", [len(part)], []
        return "FX_OK", [len(part), len(lines)], [part.hex()]

    def forget(self):
        count = len(self.notes)
        self.notes, self.passed = [], self.passed + count
        return [count]

    def kept(self):
        return 0

    def want_room(self, count):
        if len(self.notes) + self.kept() + count > self.house.room:
            raise Refused("FX_JOURNAL_FULL")

    def known(self, core):
        if core >= self.house.cores:
            raise Refused("FX_UNKNOWN_CORE")

    def submit(self, to, order, words):
        self.known(to)
        self.want_room(1)
        link = self.links[to]
        if link.shut is not None:
            raise Refused("FX_CLOSED")
        if len(link.held) == self.house.places:
            raise Refused("FX_FULL")
        link.given += 1
        link.held[link.given] = "pending"
        link.sent.append((link.given, order))
        self.note(f"sent {text_of((self.number, to, link.given))} {words}")
        return [link.given]

    def collect(self, core):
        self.known(core)
        self.want_room(self.house.places)
        link = self.links[core]
        count = len(link.out)
        while link.out:
            number, outcome, words = link.out.popleft()
            self.note(f"collected {text_of((self.number, core, number))} {words}")
            if link.held[number] == "detached":
                del link.held[number]
            else:
                link.held[number] = (outcome, words)
        return [count]

    def ticket(self, name):
        """The link of a ticket, on which it is outstanding."""
        sender, to, number = name
        if sender > 255 or to > 255:
            raise Refused("FX_UNKNOWN")
        self.want_room(1)
        if sender != self.number or to >= self.house.cores or not 1 <= number <= self.links[to].given:
            raise Refused("FX_UNKNOWN")
        if self.links[to].held.get(number, "detached") == "detached":
            raise Refused("FX_GONE")
        return self.links[to]

    def redeem(self, name):
        link = self.ticket(name)
        if link.held[name[2]] == "pending":
            raise Refused("FX_PENDING")
        outcome, words = link.held.pop(name[2])
        self.note(f"redeemed {text_of(name)} {words}")
        return list(outcome)

    def detach(self, name):
        link = self.ticket(name)
        if link.held[name[2]] == "pending":
            link.held[name[2]] = "detached"
        else:
            del link.held[name[2]]
        self.note(f"detached {text_of(name)}")
        return []

    def shows(self):
        return any(link.out for link in self.links)


class Core(Actor):
    def __init__(self, house, number):
        super().__init__(house, number)
        self.queues, self.mode, self.floor, self.turns, self.inside = [Queue(1000)], None, 0, 0, 0
        # The job that the host runs; and of the open turn its queue, its polls and its time.
        self.running, self.open = None, None

    def kept(self):
        return 0 if self.running is None else 1

    def shows(self):
        return super().shows() or any(actor.links[self.number].sent for actor in self.house.actors)

    # What comes from a sender.

    def deliver(self, sender):
        if sender > self.house.cores:
            raise Refused("FX_NO_ACTOR")
        self.want_room(2)
        link = self.house.actors[sender].links[self.number]
        if not link.sent:
            return False
        number, order = link.sent.popleft()
        getattr(self, "take_" + order[0])((sender, self.number, number), *order[1:])
        return True

    def give(self, name, outcome, words):
        self.house.actors[name[0]].links[self.number].out.append((name[2], outcome, words))

    def answer(self, name, answer, effect=None, queue=0):
        words = f"answered {text_of(name)} {ANSWERS[answer]}" + (f" q{queue}" if answer == CREATED else "")
        self.note(words)
        if effect:
            self.note(effect)
        self.give(name, (2, answer, queue, 0, 0), words.replace(f" {text_of(name)}", ""))

    def take_job(self, name, queue, job):
        reason = None
        if queue >= len(self.queues):
            reason = NO_QUEUE
        elif self.queues[queue].mode is not None:
            reason = QUEUE_CLOSED
        elif self.mode == RETURN:
            reason = CORE_CLOSING
        if reason is not None:
            self.note(f"back {text_of(name)} {REASONS[reason]}")
            self.give(name, (1, reason, queue, 0, job), f"returned {REASONS[reason]}")
            return
        self.note(f"took {text_of(name)} q{queue}")
        self.place(queue)
        self.queues[queue].line.append(Job(name, queue, job))
        self.inside += 1

    def take_create(self, name, shares):
        if self.mode is not None:
            self.answer(name, CLOSING)
        elif len(self.queues) == 256:
            self.answer(name, TOO_MANY)
        else:
            self.queues.append(Queue(shares))
            queue = len(self.queues) - 1
            self.answer(name, CREATED, f"queue q{queue} {shares}", queue)

    def take_shares(self, name, queue, shares):
        if queue >= len(self.queues):
            self.answer(name, NO_SUCH_QUEUE)
            return
        self.queues[queue].shares = shares
        self.answer(name, SHARES_SET, f"shares q{queue} {shares}")

    def take_closequeue(self, name, queue, mode):
        if queue >= len(self.queues):
            self.answer(name, NO_SUCH_QUEUE)
        elif self.queues[queue].mode is not None and self.queues[queue].mode >= mode:
            self.answer(name, ALREADY_CLOSED)
        else:
            self.queues[queue].mode = mode
            self.end_parks(queue, mode)
            self.answer(name, CLOSED, f"closed q{queue} {MODES[mode]}")

    def take_closecore(self, name, mode):
        if self.mode is not None and self.mode >= mode:
            self.answer(name, ALREADY_CLOSED)
        else:
            self.close_in(mode)
            self.answer(name, CLOSED, f"coreclosed {MODES[mode]}")

    def take_wake(self, name, sender, number):
        job = (sender, self.number, number)
        self.answer(name, *((WOKEN, f"woken {text_of(job)}") if self.wake(job) else (NO_JOB,)))

    def wake(self, name):
        if self.running and self.running.name == name:
            self.running.woken = True
            return True
        for number, queue in enumerate(self.queues):
            for job in queue.line:
                if job.name == name:
                    job.woken = True
                    return True
            for job in queue.parked:
                if job.name == name:
                    queue.parked.remove(job)
                    self.unpark(number, job)
                    return True
        return False

    def unpark(self, queue, job):
        self.place(queue)
        job.woken = False
        self.queues[queue].line.append(job)

    def place(self, number):
        """A queue that gets work starts at the floor, if it stood below."""
        queue = self.queues[number]
        if not queue.line and not (self.running and self.running.queue == number):
            queue.runtime = max(queue.runtime, self.floor)

    def close_in(self, mode):
        self.mode = mode
        for queue in range(len(self.queues)):
            self.end_parks(queue, mode)

    def end_parks(self, number, mode):
        queue = self.queues[number]
        while mode == RETURN and queue.parked:
            self.unpark(number, queue.parked.pop(0))

    # Turns.

    def reason_back(self, queue):
        if self.queues[queue].mode == RETURN:
            return QUEUE_RETURNED
        return CORE_RETURNED if self.mode == RETURN else None

    def next(self):
        if self.running:
            raise Refused("FX_BUSY")
        self.want_room(4)
        if self.open:
            queue, polls, _ = self.open
            if polls < self.house.burst and self.queues[queue].line and self.reason_back(queue) is None:
                self.open[1] += 1
                return self.go_out(queue)
            self.end_turn()
        least = min((it for it in enumerate(self.queues) if it[1].line), key=lambda it: (it[1].runtime, it[0]), default=None)
        if least is None:
            return "FX_IDLE", []
        number, queue = least
        self.floor = max(self.floor, queue.runtime)
        self.turns += 1
        queue.picks += 1
        self.note(f"pick q{number} at {queue.runtime}")
        reason = self.reason_back(number)
        if reason is not None:
            job = queue.line.popleft()
            queue.back += 1
            self.inside -= 1
            self.note(f"returned {text_of(job.name)} {REASONS[reason]}")
            self.give(job.name, (1, reason, number, 0, job.job), f"returned {REASONS[reason]}")
            return "FX_BACK", [*job.name, 0, 0, reason]
        if self.house.burst > 1:
            self.open = [number, 1, 0]
        return self.go_out(number)

    def go_out(self, queue):
        job = self.running = self.queues[queue].line.popleft()
        self.note(f"{'resume' if job.started else 'start'} {text_of(job.name)}")
        code = "FX_RESUME" if job.started else "FX_START"
        job.started = True
        return code, [*job.name, queue, job.job, 0]

    def charge(self, queue, time):
        counted = min(max(time, 1), MOST_TIME)
        queue.time += counted
        queue.runtime += -(-counted * 1000 // queue.shares)

    def end_turn(self):
        number, _, time = self.open
        self.open = None
        self.charge(self.queues[number], time)
        self.note(f"turned q{number} {time}")

    def settle(self, step, answer, spent):
        if step > PARK:
            raise Refused("FX_BAD_NUMBER")
        if not self.running:
            raise Refused("FX_NO_JOB")
        job, self.running = self.running, None
        queue = self.queues[job.queue]
        if self.open:
            self.open[2] = min(self.open[2] + max(spent, 1), MOST_TIME)
        else:
            self.charge(queue, spent)
        name = text_of(job.name)
        if step == DONE:
            queue.done += 1
            self.inside -= 1
            self.note(f"done {name} {spent} = {answer}")
            self.give(job.name, (0, 0, 0, answer, 0), f"finished {answer}")
            return "FX_DONE"
        if step == PARK and not job.woken and self.reason_back(job.queue) is None:
            queue.parked.append(job)
            self.note(f"park {name} {spent}")
            return "FX_PARKED"
        if step == PARK:
            job.woken = False
        self.note(f"{'yield' if step == YIELD else 'stayed'} {name} {spent}")
        queue.line.append(job)
        return "FX_OK"

    # Closing.

    def shut(self, sender):
        if sender > self.house.cores:
            raise Refused("FX_NO_ACTOR")
        if self.mode is None:
            raise Refused("FX_OPEN")
        link = self.house.actors[sender].links[self.number]
        if link.shut is not None:
            raise Refused("FX_SHUT")
        self.want_room(1)
        link.shut = link.given
        self.note(f"shut {sender} {link.given}")

    def close(self, mode):
        if mode > RETURN:
            raise Refused("FX_BAD_NUMBER")
        self.want_room(1)
        if self.mode is not None and self.mode >= mode:
            raise Refused("FX_CLOSED")
        self.close_in(mode)
        self.note(f"coreclosed {MODES[mode]}")

    def is_through(self):
        links = [actor.links[self.number] for actor in self.house.actors]
        return self.inside == 0 and all(link.shut is not None and not link.sent for link in links)

    def is_drained(self):
        return not self.running and not self.open and self.is_through()


class House:
    def __init__(self, cores, places, burst, room):
        self.cores, self.places, self.burst, self.room = cores, places, burst, room
        self.actors = []
        self.actors = [Core(self, number) for number in range(cores)] + [Actor(self, cores)]

    def text(self):
        if self.burst == 1:
            head = ["journal 1", f"cores {self.cores} cap {self.places}"]
        else:
            head = ["journal 2", f"cores {self.cores} cap {self.places} burst {self.burst}"]
        return head + [note for actor in self.actors for note in actor.notes] + ["end"]
