#!/usr/bin/env python3
"""Reads a picture or a trace that fairview made of a journal text, for tests/fairview, and compares it with the journals.

  tests/pictures.py gantt|lag|trace JOURNAL MADE [--core D] [--from N] [--to N]

A picture is read by Python's reader of XML. It may hold no script and no link, and its bars have to be those of the journals' polls.
A trace is read by Python's reader of JSON. Each event has the fields of the trace event format, the polls are those of the journals,
and each arrow begins where its submission is sent.
It prints each difference, and its status is 0 if there is none. It reads the notes by itself, and shares nothing with the program.
"""
import argparse
import json
import sys
import xml.etree.ElementTree as tree
from collections import defaultdict

SVG = "{http://www.w3.org/2000/svg}"
LANE, LEFT = 2000, 300
MOST = 2**64 - 1

failed = 0


def check(what, found, wanted):
    global failed
    if found != wanted:
        failed += 1
        print(f"FAILED: {what}: {found!r}, and not {wanted!r}")


def read(path):
    """The number of cores, and the words of each note of each actor."""
    lines = open(path).read().split("\n")
    cores = int(lines[1].split()[1])
    journals = [[] for _ in range(cores + 1)]
    for line in lines[2 : lines.index("end")]:
        actor, *words = line.split()
        journals[int(actor)].append(words)
    return cores, journals


def polls(notes):
    """The polls of a core, each with its place on the core's clock: name, queue, turn, start, time, the word of its end."""
    turn, clock, queue = 0, 0, None
    for words in notes:
        if words[0] == "pick":
            turn, queue = turn + 1, words[1]
        elif words[0] in ("yield", "park", "stayed", "done"):
            time = min(max(int(words[2]), 1), 2**40 - 1)
            yield words[1], queue, turn, clock, time, words[0]
            clock += time


def time_before(notes, turn):
    """The processor time of a core before this turn begins."""
    return sum(poll[4] for poll in polls(notes) if poll[2] < turn)


def drawing(text):
    """The root of a picture that holds no script and no link."""
    root = tree.fromstring(text)
    check("the root", root.tag, SVG + "svg")
    for element in root.iter():
        check("an element", element.tag in {SVG + name for name in ("svg", "style", "g", "rect", "text", "title")}, True)
        check("attributes", [name for name in element.attrib if name.lower().startswith("on") or name.lower().endswith("href")], [])
    return root


def lag(cores, journals, text, _):
    drawing(text)


def gantt(cores, journals, text, cut):
    root = drawing(text)
    shown = range(cores) if cut.core is None else [cut.core]
    begins = {core: time_before(journals[core], cut.first) for core in shown}
    span = max(time_before(journals[core], cut.last + 1) - begins[core] for core in shown)
    wanted = []
    for lane, core in enumerate(shown):
        def cell(time):
            return min(max(time - begins[core], 0), span) * LANE // max(span, 1)

        for name, queue, turn, start, time, end in polls(journals[core]):
            left, right = cell(start), cell(start + time)
            if cut.first <= turn <= cut.last and left < right:
                told = {"park": ", parked", "stayed": ", stayed"}.get(end, "")
                title = f"{name} of {queue}, turn {turn}: {time} ns from {start}{told}"
                wanted.append((LEFT + left, 120 + 160 * lane, right - left, title))
    found = [
        tuple(int(bar.get(part)) for part in ("x", "y", "width")) + (bar.find(SVG + "title").text,)
        for bar in root.iter(SVG + "rect")
        if bar.get("height") == "56" and bar.find(SVG + "title") is not None
    ]
    check("the bars", found, wanted)


# The fields of an event by its phase, of which each has to be there and no other may.
FIELDS = {
    "M": {"name", "ph", "pid", "args"},
    "X": {"name", "cat", "ph", "pid", "tid", "ts", "dur", "args"},
    "s": {"name", "cat", "ph", "pid", "tid", "ts", "id", "bp"},
    "t": {"name", "cat", "ph", "pid", "tid", "ts", "id", "bp"},
    "f": {"name", "cat", "ph", "pid", "tid", "ts", "id", "bp"},
}
OPTIONAL = {"tid", "args"}
TYPES = {"name": str, "cat": str, "ph": str, "pid": int, "tid": int, "ts": (int, float), "dur": (int, float), "id": int, "bp": str, "args": dict}


def nanoseconds(micros):
    return round(micros * 1000)


def trace(cores, journals, text, _):
    whole = json.loads(text)
    check("the parts", set(whole), {"displayTimeUnit", "traceEvents"})
    check("the unit", whole["displayTimeUnit"], "ns")
    arrows = defaultdict(list)
    for event in whole["traceEvents"]:
        fields = FIELDS.get(event.get("ph"), set())
        check(f"the fields of {event}", (fields - set(event) <= OPTIONAL, set(event) <= fields | {"tid"}), (True, True))
        check(f"the types of {event}", [name for name in event if not isinstance(event[name], TYPES[name])], [])
        if event["ph"] in "stf":
            arrows[event["cat"], event["name"], event["id"]].append(event["ph"])
    start = len(journals[cores])
    wanted = [
        (core, int(queue[1:]), start + begun, name, time, turn, end == "done")
        for core in range(cores)
        for name, queue, turn, begun, time, end in polls(journals[core])
    ]
    found = [
        (it["pid"], it["tid"], nanoseconds(it["ts"]), it["name"], nanoseconds(it["dur"]), it["args"]["turn"], it["args"]["done"])
        for it in whole["traceEvents"]
        if it.get("cat") == "poll"
    ]
    check("the polls", found, wanted)
    sent = {words[1] for notes in journals for words in notes if words[0] == "sent"}
    check("the arrows", {name for _, name, _ in arrows}, sent)
    for (_, name, number), steps in arrows.items():
        check(f"the number of {name}", number, int(name.split("#")[1]))
        check(f"the first and the last points of {name}", (steps.count("s"), steps.count("f") <= 1), (1, True))


def main():
    parser = argparse.ArgumentParser()
    parser.add_argument("kind", choices=["gantt", "lag", "trace"])
    parser.add_argument("journal")
    parser.add_argument("made")
    parser.add_argument("--core", type=int)
    parser.add_argument("--from", dest="first", type=int, default=0)
    parser.add_argument("--to", dest="last", type=int, default=MOST)
    cut = parser.parse_args()
    cores, journals = read(cut.journal)
    {"gantt": gantt, "lag": lag, "trace": trace}[cut.kind](cores, journals, open(cut.made).read(), cut)
    return 1 if failed else 0


sys.exit(main())
