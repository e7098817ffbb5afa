#!/usr/bin/env python3
"""Tries how much memory fairview takes of a short and of a long text, for tests/fairview.

  tests/peak.py PROGRAM [NOTES]

Makes the journal texts of four cores, with a tenth of NOTES and with all of them (400000 by itself), and runs the calls that read note
by note. It prints each that takes more than it may, and its status is 0 if there is none. With NOTES it prints, of
the long text, each call's seconds of processor time and its megabytes of memory.
"""
import os
import resource
import subprocess
import sys
import tempfile

# The most bytes that a note of the longer text may take beside those of the shorter one. Journals that are kept take 48 and more.
MOST = {"share": 0.5, "lag --text": 0.5, "wait": 24, "csv": 24}
ALL = ["why 4>0#1", "gantt", "lag", "trace"]


def journal(notes):
    """A text of about so many notes: four cores with four queues each, whose jobs are polled twice. Each core has four jobs at a time."""
    rounds = notes // (4 * 4 * 8)
    yield "journal 1\ncores 4 cap 64\n"
    for core in range(4):
        for queue in range(1, 4):
            yield f"{core} queue q{queue} 500\n"
        for turn in range(rounds):
            names = [f"4>{core}#{4 * turn + queue + 1}" for queue in range(4)]
            for queue, name in enumerate(names):
                yield f"{core} took {name} q{queue}\n"
            for begins, ends in ("start", "yield"), ("resume", "done"):
                for queue, name in enumerate(names):
                    told = "" if ends == "yield" else " = 7"
                    yield f"{core} pick q{queue} at {60 * turn}\n{core} {begins} {name}\n{core} {ends} {name} {10 + turn % 5}{told}\n"
    for number in range(1, 4 * rounds + 1):
        for core in range(4):
            yield f"4 sent 4>{core}#{number} job q{(number - 1) % 4}\n"
    yield "end\n"


def run(program, words, path):
    """The status of a call, its processor time, and the most memory that it had, in bytes."""
    child = os.fork()
    if child == 0:
        os.dup2(os.open(os.devnull, os.O_WRONLY), 1)
        os.execv(program, [program, *words.split(), path])
    _, status, used = os.wait4(child, 0)
    return os.waitstatus_to_exitcode(status), used.ru_utime + used.ru_stime, used.ru_maxrss * 1024


def main():
    program = os.path.abspath(sys.argv[1])
    count = int(sys.argv[2]) if len(sys.argv) > 2 else 400000
    failed = 0
    with tempfile.TemporaryDirectory() as room:
        paths = []
        for notes in (count // 10, count):
            paths.append(os.path.join(room, f"{notes}.journal"))
            with open(paths[-1], "w") as text:
                text.writelines(journal(notes))
        calls = [*MOST, *ALL] if len(sys.argv) > 2 else list(MOST)
        for words in calls:
            short, long = (run(program, words, path) for path in paths)
            if short[0] or long[0]:
                failed += 1
                print(f"FAILED: {words}: status {short[0]} and {long[0]}")
            more = (long[2] - short[2]) / (count - count // 10)
            if more > MOST.get(words, 1e9):
                failed += 1
                print(f"FAILED: {words}: {more:.1f} bytes for each note, and not at most {MOST[words]}")
            if len(sys.argv) > 2:
                print(f"{words}: {long[1]:.1f} s, {long[2] / 1e6:.0f} MB, {more:.1f} bytes for each note")
    return 1 if failed else 0


sys.exit(main())
