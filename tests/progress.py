#!/usr/bin/env python3
"""tests/progress.py PROGRAM JOURNAL OUTPUT: tries tools/with-progress on pseudo-terminals. OUTPUT is what the program prints for `csv JOURNAL`.

It prints a line for each fault. The status is 0 if there was none."""
import os
import pty
import re
import signal
import subprocess
import sys
import tempfile
import time
from concurrent.futures import ThreadPoolExecutor
from pathlib import Path

TOOL = Path(__file__).resolve().parent.parent / "tools/with-progress"
CLEAR = b"\r\x1b[K"
failed = []


def check(what, holds, said=b""):
    if not holds:
        failed.append(what)
        print(f"FAILED: {what}: {said[-300:]!r}")


def drained(terminal):
    """All that was written to a terminal, until each that had it open has closed it."""
    said = b""
    while True:
        try:
            part = os.read(terminal, 65536)
        except OSError:
            return said
        if not part:
            return said
        said += part


def on_terminal(words, feed=None, stdin=None, stdout=None, kill=None):
    """Runs the tool with standard error, and standard output if it isn't given, on a terminal. `feed` are pieces for standard input with
    the seconds to wait before each. Returns what the terminal has, and the status."""
    ours, theirs = pty.openpty()
    given = subprocess.PIPE if feed is not None else stdin or subprocess.DEVNULL
    started = subprocess.Popen([TOOL, *words], stdin=given, stdout=stdout or theirs, stderr=theirs, env={**os.environ, "TERM": "xterm"}, start_new_session=True)
    os.close(theirs)
    for seconds, piece in feed or []:
        time.sleep(seconds)
        started.stdin.write(piece)
        started.stdin.flush()
    if feed is not None:
        started.stdin.close()
    if kill:
        time.sleep(kill[0])
        os.killpg(started.pid, kill[1])
    said = drained(ours)
    os.close(ours)
    return said, started.wait()


def shown(said):
    """What a terminal shows at last: a line that is cleared is gone."""
    return re.sub(rb"[^\n]*" + re.escape(CLEAR), b"", said).replace(b"\r\n", b"\n")


def short_call(program, journal, wanted, room):
    """A call that ends within two seconds shows no line. On a machine that stalls it may take longer."""
    started = time.monotonic()
    said, status = on_terminal(["fairview", program, "csv", journal])
    is_short = time.monotonic() - started < 2
    check("a short call on a terminal", status == 0 and not (is_short and CLEAR in said) and shown(said) == wanted, said)


def short_fault(program, journal, wanted, room):
    said, status = on_terminal(["fairview", program, "csv", f"{room}/missing"])
    check("a short call that fails", status == 3 and shown(said) == b"read failed\n", said)


def slow_pipe(program, journal, wanted, room):
    """The line tells the time, and is cleared before the output."""
    text = Path(journal).read_bytes()
    half = len(text) // 2
    said, status = on_terminal(["fairview", program, "csv"], feed=[(0, text[:half]), (3.6, text[half:])])
    check("a slow pipe", status == 0 and re.search(rb"fairview: \d+ s so far", said) and shown(said) == wanted, said)


def slow_fault(program, journal, wanted, room):
    """Output goes to a file as it is, and a fault has a line of its own."""
    text = Path(journal).read_bytes()
    half = len(text) // 2
    with open(f"{room}/out", "wb") as out:
        said, status = on_terminal(["fairview", program, "csv"], feed=[(0, text[:half]), (3.6, b"nonsense\n")], stdout=out)
    check("a slow pipe that is faulty", status == 2 and b" s so far" in said and re.fullmatch(rb"line \d+: \w+\n", shown(said)), said)
    check("a slow pipe that is faulty: its output", Path(f"{room}/out").read_bytes() == b"")


def named_file(program, journal, wanted, room):
    said, status = on_terminal(["slow", f"{room}/slow", f"{room}/text"])
    check("a file by its name", status == 0 and b"slow: 30% of the text read, " in said and shown(said) == b"done\n", said)


def file_as_input(program, journal, wanted, room):
    with open(f"{room}/text", "rb") as source:
        said, status = on_terminal(["slow", f"{room}/slow"], stdin=source)
    check("a file as standard input", status == 0 and b"slow: 30% of the text read, " in said and shown(said) == b"done\n", said)


def interrupted(program, journal, wanted, room):
    """A signal ends the program and the tool."""
    for number in [signal.SIGINT, signal.SIGTERM]:
        said, status = on_terminal(["slow", f"{room}/slow", f"{room}/text"], kill=(2.5, number))
        check(f"signal {number}", status == -number and shown(said) in (b"", b"^C"), said)


# A text of 1000 bytes, and a program that reads 300 of them and then takes its time.
SLOW = f"#!{sys.executable}\n" + """import os, sys, time
file = os.open(sys.argv[1], 0) if sys.argv[1:] else 0
os.read(file, 300)
time.sleep(3.6)
print('done')
"""


def main():
    program, journal, output = sys.argv[1:]
    # A script that runs this in the background has it ignore SIGINT, and so would all that it starts.
    signal.signal(signal.SIGINT, signal.SIG_DFL)
    wanted = Path(output).read_bytes()
    cases = [short_call, short_fault, slow_pipe, slow_fault, named_file, file_as_input, interrupted]
    with tempfile.TemporaryDirectory() as room:
        Path(f"{room}/text").write_bytes(b"x" * 1000)
        Path(f"{room}/slow").write_text(SLOW)
        os.chmod(f"{room}/slow", 0o755)
        with ThreadPoolExecutor(len(cases)) as pool:
            list(pool.map(lambda case: case(program, journal, wanted, room), cases))
    sys.exit(1 if failed else 0)


main()
