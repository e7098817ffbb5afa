"""Runs the tests of tests/units/LAYER/, and proves nothing.

  tests/run-units [--jobs N] [LAYER..]

LAYER..   these layers alone; without a name all of them
--jobs N  this many side by side (as many as there are processors if left out; each takes about 1 GB)

A layer is a crate that stands in no line of crates.txt, since its tests needn't be proved: the code below them is. Its folder
holds its modules, NAME.rt.txt, and NAME.antt.txt in specs/. A subfolder is a module of all that stands in it. If there is no lib.rt.txt,
one is made that names the modules. A line of tests/units/layers.txt names the libraries that the layer uses, and the modules of
tests/units/shared/ that are copied into its source.

All layers are laid out in one copy of the repository, each as the crate units_LAYER. `rt try --test` compiles it there with all that it
uses and with checks, and runs it. Those that take longest begin first.
The last line is 'N passed, M failed' and counts tests. A layer that isn't compiled, or that ends before its tests, is one failure.
The status is 0 if nothing failed, 1 if not, 2 if the words are wrong.
"""
import contextlib
import os
import re
import shutil
import signal
import subprocess
import sys
import tempfile
import threading
import time
from pathlib import Path

sys.dont_write_bytecode = True

ROOT = Path(__file__).resolve().parent.parent
UNITS = ROOT / "tests" / "units"
SHARED = UNITS / "shared"

# How many seconds the tests of a layer may run for. On a busy machine they must not be too few.
MOST_SECONDS = 300

RESULT = re.compile(r"^test result: .*?(\d+) passed; (\d+) failed;", re.MULTILINE)
PASSED = re.compile(r"^test \S+ \.\.\. ok$", re.MULTILINE)
FAILED = re.compile(r"^test (\S+) \.\.\. FAILED", re.MULTILINE)


def stop(why):
    print(why, file=sys.stderr)
    sys.exit(2)


def layers():
    """Of each layer, slowest first, the libraries that it uses and the modules of shared/."""
    found = {}
    for line in (UNITS / "layers.txt").read_text().splitlines():
        if line.strip() and not line.startswith("#"):
            name, _, words = line.partition(":")
            libraries, _, shared = words.partition("|")
            found[name.split()[0]] = (libraries.split(), shared.split())
    return found


def crate_of(layer):
    return f"units_{layer}"


def lay_out(layer, top):
    """Makes a crate of the layer in a copy of the repository, with its line of crates.txt, or says why it can't."""
    libraries, shared = layers()[layer]
    source = UNITS / layer
    files = {it.relative_to(source): it for it in source.rglob("*.rt.txt")}
    for name in shared:
        files[Path(f"{name}.rt.txt")] = SHARED / f"{name}.rt.txt"
    laid = {Path("src") / it: file for it, file in files.items()}
    laid.update({it.relative_to(source): it for it in source.glob("specs/**/*.antt.txt")})
    folder = top / "crates" / crate_of(layer)
    for place, file in laid.items():
        if not file.is_file():
            return f"there is no {file.relative_to(ROOT)}"
        target = folder / place.with_suffix("")
        target.parent.mkdir(parents=True, exist_ok=True)
        shutil.copyfile(file, target)
    for inner in sorted((it for it in (folder / "src").rglob("*") if it.is_dir()), reverse=True):
        modules = "".join(f"pub(crate) mod {it.stem};\n" for it in sorted(inner.glob("*.rt")))
        inner.with_suffix(".rt").write_text(f"//! The modules of {inner.name}/.\n\n{modules}")
    root = folder / "src" / "lib.rt"
    if not root.exists():
        modules = "".join(f"#[cfg(test)]\nmod {it.stem};\n" for it in sorted((folder / "src").glob("*.rt")))
        root.write_text(f"//! Tests of the layer {layer}.\n#![tactic(auto)]\n\n{modules}")
    with open(top / "crates.txt", "a") as file:
        file.write(f"{crate_of(layer)} tests_may=Threads+Wait: {' '.join(libraries)}\n")
    return None


def copy_of_libraries(top):
    """Copies what the compiler reads of the repository."""
    (top / "crates").mkdir(parents=True)
    for it in (ROOT / "crates").iterdir():
        for part in ("src", "specs"):
            if (it / part).is_dir():
                shutil.copytree(it / part, top / "crates" / it.name / part)
    for name in ("HANDLES", "crates.txt"):
        shutil.copy(ROOT / name, top)


def children(pid):
    """The processes that a process started, each with its words."""
    for name in filter(str.isdigit, os.listdir("/proc")):
        try:
            parent = Path(f"/proc/{name}/stat").read_bytes().rpartition(b")")[2].split()[1]
            if int(parent) == pid:
                yield int(name), Path(f"/proc/{name}/cmdline").read_bytes().split(b"\0")
        except OSError:
            continue


def end_hint(started):
    """Ends the check that `rt try` makes beside its compiling. It takes as long, and only tells of names that a proof would refuse."""
    while started.poll() is None:
        for pid, words in children(started.pid):
            if words[1:2] == [b"check"] and b"--start" in words:
                with contextlib.suppress(ProcessLookupError):
                    os.kill(pid, signal.SIGKILL)
                return
        time.sleep(0.5)


class Commands:
    """The commands that run, which a signal ends."""

    def __init__(self):
        self.lock = threading.Lock()
        self.running = set()
        self.ended_by = None

    def run(self, words, folder, beside=None):
        """Runs a command, and answers what it says and its status. Calls `beside` with its process."""
        how = {"stdin": subprocess.DEVNULL, "stdout": subprocess.PIPE, "stderr": subprocess.STDOUT, "start_new_session": True}
        with self.lock:
            if self.ended_by is not None:
                return "stopped", 1
            try:
                started = subprocess.Popen(words, cwd=folder, text=True, errors="replace", **how)
            except OSError as error:
                return f"{words[0]} doesn't start: {error.strerror}", 1
            self.running.add(started)
        if beside:
            threading.Thread(target=beside, args=(started,), daemon=True).start()
        said = started.communicate()[0]
        with self.lock:
            self.running.discard(started)
        return said, started.returncode

    def try_tests(self, layer, top, seconds, *flags):
        """Compiles and runs the tests of a layer in a copy, for at most so many seconds."""
        return self.run(["rt", "try", "--test", "--seconds", str(seconds), *flags], top / "crates" / crate_of(layer), end_hint)

    def stop(self, number):
        """Ends each command that runs, with all that it started. No other begins."""
        with self.lock:
            self.ended_by = number
            for it in self.running:
                try:
                    os.killpg(it.pid, signal.SIGTERM)
                except ProcessLookupError:
                    pass

    def stop_on_signals(self):
        def ended(number, _):
            for it in (signal.SIGHUP, signal.SIGINT, signal.SIGTERM):
                signal.signal(it, signal.SIG_IGN)
            self.stop(number)

        for it in (signal.SIGHUP, signal.SIGINT, signal.SIGTERM):
            signal.signal(it, ended)

    def end_as_told(self):
        """Ends this process by the signal that ended the commands, if one did."""
        if self.ended_by is not None:
            signal.signal(self.ended_by, signal.SIG_DFL)
            os.kill(os.getpid(), self.ended_by)


def side_by_side(number, work):
    """Calls `work` in so many threads. A signal is seen only between two waits."""
    threads = [threading.Thread(target=work, args=(it,)) for it in range(number)]
    for it in threads:
        it.start()
    for it in threads:
        while it.is_alive():
            it.join(0.2)


def judged(said, status):
    """How many tests passed and failed by what `rt try` said, and the lines that tell of failures."""
    result = RESULT.search(said)
    passed, failed = (int(result[1]), int(result[2])) if result else (len(PASSED.findall(said)), len(FAILED.findall(said)))
    if status and not failed:
        failed = 1
    lines = [it for it in said.rstrip().split("\n") if not PASSED.match(it)]
    return passed, failed, lines[-40:] if failed else []


def main(words):
    jobs, names = os.cpu_count() or 1, []
    while words:
        word = words.pop(0)
        if word == "--jobs" and words and words[0].isdigit() and int(words[0]):
            jobs = int(words.pop(0))
        elif word.startswith("-"):
            stop(__doc__.strip())
        else:
            names.append(word)
    here = layers()
    for name in names:
        if name not in here:
            stop(f"tests/run-units: no layer {name}")
    left = [it for it in here if not names or it in names]
    sums = [0, 0]
    commands, telling = Commands(), threading.Lock()

    def tell(layer, passed, failed, lines, seconds):
        with telling:
            sums[0], sums[1] = sums[0] + passed, sums[1] + failed
            print(f"{layer}: {passed} passed, {failed} failed in {seconds:.0f} s", flush=True)
            for it in lines:
                print(f"    {it}", flush=True)

    with tempfile.TemporaryDirectory() as room:
        top = Path(room) / "copy"
        copy_of_libraries(top)
        laid = []
        for layer in left:
            why = lay_out(layer, top)
            if why:
                tell(layer, 0, 1, [why], 0)
            else:
                laid.append(layer)

        def work(_):
            while commands.ended_by is None:
                with telling:
                    layer = laid.pop(0) if laid else None
                if not layer:
                    return
                began = time.monotonic()
                said, status = commands.try_tests(layer, top, MOST_SECONDS)
                if commands.ended_by is None:
                    tell(layer, *judged(said, status), time.monotonic() - began)

        commands.stop_on_signals()
        side_by_side(min(jobs, len(laid)), work)
    commands.end_as_told()
    print(f"{sums[0]} passed, {sums[1]} failed")
    return 1 if sums[1] else 0


if __name__ == "__main__":
    sys.exit(main(sys.argv[1:]))
