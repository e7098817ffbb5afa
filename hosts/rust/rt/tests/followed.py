"""The journal of the example kv, which `fairexec audit --follow` judges while kv serves. tests/rt uses it.

  followed.py KV PROGRAM [SECONDS]      the built example kv, and a built fairexec; 600 seconds if nothing else is said

kv runs on two cores, with a log and with its journal in parts. For so long redis-benchmark sets and gets keys, and the program follows the journal. Each
second it says a line. Behind the end of kv it says that the journal is sound. Then kv runs for some seconds more, and a byte of a part is damaged while it
is followed: the program ends, and kv goes on. It prints how long the journal was, and how far behind kv its judge was. The parts take some 16 MB of the
disk for each second. The last line is 'N passed, M failed', and the status is 0 if nothing failed.
"""
import os
import re
import shutil
import signal
import subprocess
import sys
import tempfile
import time
from pathlib import Path

sys.dont_write_bytecode = True
sys.path.insert(0, str(Path(__file__).resolve().parents[3] / "tests"))
import kv_clients

LOAD = ["redis-benchmark", "-p", str(kv_clients.PORT), "-q", "-l", "-c", "8", "-r", "20000", "-d", "100", "-t", "set,get"]
# Whatever has to come does so before, in seconds.
LIMIT = 60
# Who follows has less memory, in kB, however long the journal is.
MOST_KB = 32 << 10
# The front of a part: its form, its actor, how many notes came before, how many it has, and how many bytes these have.
FRONT, SUMS = 29, 16


class Followed:
    """kv, who asks it for more and more, and the program that follows its journal."""

    def __init__(self, kv, program, room, seconds):
        self.folder, self.errors = room / "parts", room / "errors"
        self.server = kv_clients.Server(kv, "--cores", 2, "--journal", self.folder, "--dir", room / "log", "--fsync", "no")
        # A sound journal is told of by then, however long it grew.
        self.limit = LIMIT + 2 * seconds
        self.load = subprocess.Popen(LOAD, stdin=subprocess.DEVNULL, stdout=subprocess.DEVNULL, stderr=subprocess.DEVNULL)
        with self.errors.open("wb") as errors:
            words = [program, "audit", "--follow", self.folder]
            self.judge = subprocess.Popen(words, stdin=subprocess.DEVNULL, stdout=subprocess.PIPE, stderr=errors, text=True)

    def __enter__(self):
        return self

    def __exit__(self, *_):
        for it in (self.load, self.judge):
            it.kill()
            it.communicate()
        self.server.__exit__()

    def end_load(self):
        self.load.terminate()
        self.load.wait()

    def lines(self):
        return self.errors.read_text().splitlines()

    def verdict(self):
        """The status of the judge, and what it prints."""
        said = self.judge.communicate(timeout=self.limit)[0]
        return self.judge.returncode, said

    def size(self, part):
        return (self.folder / part).stat().st_size


def memory_of(process):
    """The most memory that a process had so far, in kB."""
    return int(re.search(r"^VmHWM:\s+(\d+)", Path(f"/proc/{process.pid}/status").read_text(), re.MULTILINE)[1])


def try_sound(kv, program, room, check, seconds):
    with Followed(kv, program, room, seconds) as it:
        time.sleep(seconds)
        check("kv's journal goes on, and so does who follows it", (it.judge.poll(), (it.folder / "end").exists()), (None, False))
        it.end_load()
        check("kv whose journal is followed ends by SIGTERM", it.server.end()[0], 0)
        check("kv leaves an end behind its parts", (it.folder / "end").read_text(), "end\n")
        ended, lines, memory = time.monotonic(), it.lines(), memory_of(it.judge) if it.judge.poll() is None else 0
        check(f"what follows has little memory: {memory} kB", memory < MOST_KB, True)
        check("it said a line in most seconds", 2 * len(lines) >= seconds, True)
        check("what follows kv's journal says", it.verdict(), (0, "sound\n"))
        behind = time.monotonic() - ended
        size = sum(it.size(part.name) for part in it.folder.glob("part?"))
        last = it.lines()[-1:]
    print(f"kv's journal was followed for {seconds} s: {size >> 20} MB, {memory} kB of memory, judged {behind:.1f} s behind the end of kv; {''.join(last)}")


def part_behind(path, place):
    """Where the first whole part begins that is behind this place of a file, and how many bytes its notes have. None if there is none yet."""
    with path.open("rb") as file:
        at, size = 0, os.fstat(file.fileno()).st_size
        while at + FRONT <= size:
            file.seek(at)
            front = file.read(FRONT)
            count = int.from_bytes(front[21:], "little")
            end = at + FRONT + count + SUMS
            if at >= place and end <= size:
                return at, count
            at = end
    return None


def try_damage(kv, program, room, check):
    with Followed(kv, program, room, 5) as it:
        time.sleep(2)
        # What comes from here on isn't read before it goes on.
        it.judge.send_signal(signal.SIGSTOP)
        read, found, until = it.size("part1"), None, time.monotonic() + LIMIT
        while found is None and time.monotonic() < until:
            time.sleep(0.05)
            found = part_behind(it.folder / "part1", read)
        check("a part comes while nobody reads", found is not None, True)
        if found is None:
            return
        with (it.folder / "part1").open("r+b") as file:
            place = found[0] + FRONT + found[1] // 2
            file.seek(place)
            byte = file.read(1)[0]
            file.seek(place)
            file.write(bytes([byte ^ 4]))
        it.judge.send_signal(signal.SIGCONT)
        check("what follows a damaged journal of kv says", it.verdict(), (2, ""))
        last = it.lines()[-1]
        check(f"it names the part: {last!r}", "part1" in last, True)
        check("kv goes on behind that", ((it.folder / "end").exists(), kv_clients.ask(kv_clients.connect(), b"PING\r\n", b"+PONG\r\n")), (False, b"+PONG\r\n"))
        it.end_load()
        check("kv whose journal was damaged ends by SIGTERM", it.server.end()[0], 0)


def try_all(kv, program, room, check, skip, seconds):
    """Follows kv for so many seconds and for some more, in two folders of the room."""
    if not shutil.which(LOAD[0]):
        skip("kv whose journal is followed: there is no redis-tools")
        return
    for name in ("sound", "damaged"):
        (room / name).mkdir()
    try_sound(kv, program, room / "sound", check, seconds)
    try_damage(kv, program, room / "damaged", check)


def main():
    kv, program = (Path(it).resolve() for it in sys.argv[1:3])
    counts = [0, 0]

    def check(what, found, wanted):
        counts[found != wanted] += 1
        if found != wanted:
            print(f"FAILED: {what}: {found!r}, and not {wanted!r}")

    with tempfile.TemporaryDirectory() as room:
        try_all(kv, program, Path(room), check, print, int(sys.argv[3]) if sys.argv[3:] else 600)
    print(f"{counts[0]} passed, {counts[1]} failed")
    return counts[1] != 0


if __name__ == "__main__":
    sys.exit(main())
