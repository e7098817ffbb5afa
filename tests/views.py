#!/usr/bin/env python3
"""Computes what `fairview wait --plain`, `share --csv`, `csv` and `lag --text` print of a journal text once more, for tests/fairview.

  tests/views.py wait_plain|share_csv|csv|lag_text FILE

It reads the notes by itself, and shares nothing with the program.
"""
import sys
from collections import defaultdict


def read(path):
    """The words of the second line, and the words of each note of each actor."""
    lines = open(path).read().split("\n")
    head = lines[1].split()
    cores = int(head[1])
    journals = [[] for _ in range(cores + 1)]
    for line in lines[2 : lines.index("end")]:
        actor, *words = line.split()
        journals[int(actor)].append(words)
    return head, journals


# The notes that settle a poll.
ENDS = "yield", "park", "stayed", "done"


def settled(words):
    """The time of the poll that a note settles, as it counts for its charge, if it settles one."""
    return min(max(int(words[2]), 1), 2**40 - 1) if words[0] in ENDS else 0


def number(word):
    return int(word[1:])


def rows_of_core(core, notes):
    shares, queue_of, created, parked = {0: 1000}, {}, 0, {}
    entered, left, out, most, due, got, picked, finished, returned = (defaultdict(int) for _ in range(9))
    for words in notes:
        kind, time = words[0], settled(words)
        if time:
            asleep = list(parked.values())
            busy = [queue for queue in entered if entered[queue] > left[queue] + asleep.count(queue)]
            whole = sum(shares.get(queue, 1000) for queue in busy)
            for queue in busy:
                due[queue] += time * 1000 * shares.get(queue, 1000) // whole
            got[queue_of[words[1]]] += time
            out[queue_of[words[1]]] -= 1
        if kind == "park":
            parked[words[1]] = queue_of[words[1]]
        elif kind == "woken":
            parked.pop(words[1], None)
        elif kind in ("closed", "coreclosed") and words[-1] == "return":
            parked = {name: queue for name, queue in parked.items() if kind == "closed" and queue != number(words[1])}
        if kind in ("queue", "shares"):
            shares[number(words[1])] = int(words[2])
            created += kind == "queue"
        elif kind == "took":
            queue_of[words[1]] = number(words[2])
            entered[number(words[2])] += 1
        elif kind == "pick":
            picked[number(words[1])] += 1
        elif kind in ("start", "resume"):
            out[queue_of[words[1]]] += 1
        if kind in ("done", "returned"):
            left[queue_of[words[1]]] += 1
            (finished if kind == "done" else returned)[queue_of[words[1]]] += 1
        for queue in entered:
            most[queue] = max(most[queue], entered[queue] - left[queue] - out[queue])
    for queue in range(created + 1):
        row = (core, queue, shares.get(queue, 1000), due[queue] // 1000, got[queue], picked[queue], most[queue], finished[queue], returned[queue])
        yield ",".join(map(str, row))


def share_csv(head, journals):
    yield "core,queue,shares,due,got,selected,most_waiting,finished,returned"
    for core in range(int(head[1])):
        yield from rows_of_core(core, journals[core])


def csv(head, journals):
    yield "core,turn,queue,name,step,time,virtual_runtime,end"
    for core in range(int(head[1])):
        turn, steps = 0, defaultdict(int)
        for words in journals[core]:
            if words[0] == "pick":
                turn, queue, runtime = turn + 1, number(words[1]), words[3]
            elif settled(words):
                steps[words[1]] += 1
                yield f"{core},{turn},{queue},{words[1]},{steps[words[1]]},{words[2]},{runtime},{words[0]}"


def spans_of(notes):
    """The waits and the runs of a core: name, turns, time."""
    turns, time, waits, runs, taken, begun = 0, 0, [], [], {}, {}
    for words in notes:
        turns += words[0] == "pick"
        time += settled(words)
        if words[0] == "took":
            taken[words[1]] = turns, time
        elif words[0] == "start":
            waits.append((words[1], turns - taken[words[1]][0], time - taken[words[1]][1]))
            begun[words[1]] = turns, time
        elif words[0] == "done":
            runs.append((words[1], turns - begun[words[1]][0], time - begun[words[1]][1]))
    return ("wait", waits), ("run", runs)


def wait_plain(head, journals):
    for core in range(int(head[1])):
        for kind, spans in spans_of(journals[core]):
            for place, measure in (1, "turns"), (2, "ns"):
                if spans:
                    yield from lines_of(f"core {core} {kind} {measure}", [(span[0], span[place]) for span in spans])


def lines_of(whose, spans):
    lengths = sorted(length for _, length in spans)
    count = len(lengths)
    told = " ".join(f"p{part / 10:g} {lengths[(count * part + 999) // 1000 - 1]}" for part in (500, 900, 990, 999))
    name = next(name for name, length in spans if length == lengths[-1])
    yield f"{whose} jobs {count} {told} greatest {lengths[-1]} of {name}"
    for digits in range(129):
        here = sum(length.bit_length() == digits for length in lengths)
        if here:
            yield f"{2 ** digits // 2 :>14} {2 ** digits - 1:>14} {here:>8} {'#' * (here * 40 // count)}"


def charges(notes, burst):
    """Of each note of a core: the queue that it charges and how much, whether it ends a turn, and the queues that have work behind it."""
    shares, queue_of, parked, inside = defaultdict(lambda: 1000), {}, {}, defaultdict(int)
    for words in notes:
        kind, charged, cost = words[0], None, 0
        ends = kind == "turned" if burst > 1 else kind in ENDS
        if ends:
            charged = number(words[1]) if kind == "turned" else queue_of[words[1]]
            cost = -(-min(max(int(words[2]), 1), 2**40 - 1) * 1000 // shares[charged])
        if kind in ("queue", "shares"):
            shares[number(words[1])] = int(words[2])
        elif kind == "took":
            queue_of[words[1]] = number(words[2])
            inside[number(words[2])] += 1
        elif kind in ("done", "returned"):
            inside[queue_of[words[1]]] -= 1
        elif kind == "park":
            parked[words[1]] = queue_of[words[1]]
        elif kind == "woken":
            parked.pop(words[1], None)
        elif kind in ("closed", "coreclosed") and words[-1] == "return":
            parked = {name: queue for name, queue in parked.items() if kind == "closed" and queue != number(words[1])}
        asleep = list(parked.values())
        yield charged, cost, ends, {queue for queue in inside if inside[queue] > asleep.count(queue)}


def lags_of_core(core, notes, burst):
    """The greatest lag of each two queues of a core, by the numbers of the second and the first."""
    turns, begun, found = 0, {}, {}
    sums, most = defaultdict(int), defaultdict(int)
    for words, (charged, cost, ends, working) in zip(notes, charges(notes, burst)):
        turns += words[0] == "pick"
        if ends:
            sums[charged] += cost
            most[charged] = max(most[charged], cost)
        pairs = [(second, first) for second in sorted(working) for first in working if first < second]
        begun = {pair: begun.get(pair, (sums[pair[1]], sums[pair[0]])) for pair in pairs}
        for pair in pairs if ends else []:
            ahead = sums[pair[1]] - begun[pair][0] - (sums[pair[0]] - begun[pair][1])
            if pair not in found or abs(ahead) > abs(found[pair][0]):
                found[pair] = ahead, most[pair[0]] + most[pair[1]], turns
    for (second, first), (ahead, bound, turn) in sorted(found.items()):
        leader, other = (first, second) if ahead >= 0 else (second, first)
        yield f"core {core}, q{leader} ahead of q{other}: lead {abs(ahead)} of at most {bound}, at turn {turn}"


def lag_text(head, journals):
    burst = int(head[5]) if len(head) > 4 else 1
    for core in range(int(head[1])):
        yield from lags_of_core(core, journals[core], burst)


KINDS = {"wait_plain": wait_plain, "share_csv": share_csv, "csv": csv, "lag_text": lag_text}
for line in KINDS[sys.argv[1]](*read(sys.argv[2])):
    print(line)
