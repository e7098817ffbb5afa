"""How tests/hosts compiles and runs programs. A task answers (what, found, wanted), or a text if it is skipped."""
import re
import shutil
import subprocess
from pathlib import Path

ROOT = Path(__file__).resolve().parent.parent.parent
HOSTS = ROOT / "hosts"
LIMIT = 300


def call(words, source=subprocess.DEVNULL, **more):
    try:
        return subprocess.run([str(it) for it in words], stdin=source, stdout=subprocess.PIPE, stderr=subprocess.STDOUT, text=True, timeout=LIMIT, **more)
    except subprocess.TimeoutExpired as ended:
        return subprocess.CompletedProcess(words, -1, f"{ended.stdout or ''}\nit didn't end in {LIMIT} seconds")


def piped(words, into):
    """Runs a program whose output another one reads: what that says, or what is wrong with the first."""
    with subprocess.Popen([str(it) for it in words], stdin=subprocess.DEVNULL, stdout=subprocess.PIPE, stderr=subprocess.PIPE, text=True) as first:
        said = call(into, source=first.stdout)
        first.stdout.close()
        found = first.communicate()[1]
    return said if first.returncode == 0 else subprocess.CompletedProcess(words, first.returncode, found + said.stdout)


def ended(said):
    """The status of a run, with the end of what it said if it failed."""
    return 0 if said.returncode == 0 else (said.returncode, said.stdout[-2000:])


WARNINGS = ["-Wall", "-Wextra", "-pedantic", "-Werror"]
INCLUDES = [f"-I{HOSTS / 'c'}", f"-I{HOSTS / 'cpp'}"]


def works(compiler, room, flags):
    """Whether the compiler has these flags, and what it makes with them runs here: a sanitizer may lack its library."""
    name = "works" + re.sub(r"\W", "_", "".join([compiler, *flags]))
    Path(f"{room}/{name}.c").write_text("int main(void) { return 0; }\n")
    made = call([compiler, *flags, f"{room}/{name}.c", "-o", f"{room}/{name}"])
    return made.returncode == 0 and call([f"{room}/{name}"]).returncode == 0


SANITIZERS = {"": [], "address,undefined": ["-fsanitize=address,undefined", "-fno-sanitize-recover=undefined"], "thread": ["-fsanitize=thread"]}


# The thread sanitizer doesn't see the library's links. This tells it what they order.
WRAPPED = ",".join(f"--wrap={it}" for it in sorted(set(re.findall(r"\b__wrap_(fx_seat_\w+)\(", (HOSTS / "c/fairexec_tsan.c").read_text()))))
LINKS = [HOSTS / "c/fairexec_tsan.c", f"-Wl,{WRAPPED}"]
OF_HOUSE = ("house.c", "sharded.cpp", "wrapper_house.cpp", "wrapper_drops.cpp", "wrapper_callers.cpp", "wrapper_board.cpp", "wrapper_timers.cpp", "house_threads.c", "house_callers.c", "house_board.c")


# How an example tells what a queue of a core got, or both.
WAITS = r"waited (\d+\.\d) us on average and (\d+\.\d) us at most"
OF_QUEUE = re.compile(rf"^core \d, (foreground|background): (\d+\.\d) % of the time, (\d+) runs, {WAITS}$", re.MULTILINE)
OF_STORE = re.compile(rf"^core \d: requests (\d+\.\d) % of the time, compaction (\d+\.\d) %; (\d+) requests {WAITS}; \d+ compactions$", re.MULTILINE)


def wrong_shares(text, shares):
    """What is wrong with the shares and waits that an example with two cores told: the sum of its shares isn't 100, or nothing ran, or a mean is above
    the greatest. Where both queues have work all the time, the foreground has nine tenths, within three hundredths."""
    queues = [(name, *map(float, numbers)) for name, *numbers in OF_QUEUE.findall(text)]
    cores = [(first[1], second[1], first[2:], second[2:]) for first, second in zip(queues[::2], queues[1::2]) if (first[0], second[0]) == ("foreground", "background")]
    for line in OF_STORE.findall(text):
        first, second, *waits = map(float, line)
        cores.append((first, second, waits, (1, 0, 0)))
    found = [] if len(cores) == 2 else [f"{len(cores)} cores told what their queues got"]
    for first, second, *waits in cores:
        if abs(first + second - 100) > 0.15:
            found.append(f"{first} % and {second} % of the time")
        found += [f"{count} runs that waited {mean} and at most {longest}" for count, mean, longest in waits if not (count > 0 and mean <= longest)]
        if shares == "always" and not 87 <= first <= 93:
            found.append(f"{first} % for the foreground")
    return found


class Builds:
    def __init__(self, room, archive):
        self.room, self.archive, self.works = room, archive, {}
        for compiler in ("gcc", "g++", "clang", "clang++"):
            for name, flags in SANITIZERS.items():
                self.works[compiler, name] = shutil.which(compiler) is not None and works(compiler, room, flags)

    def program(self, compiler, standard, file, *words, sanitizer="", links=(), under=(), into=(), wanted=0, tells="", shares="", fewer=(), made=""):
        """Compiles a file, and runs it with these words. What it prints goes to `into`, if that is there, which has to be content with it.

        `shares` says that both queues of each core have work all the time, or at times; then what is told of them is looked at. `fewer` is a text of
        the file and what stands there instead. `made` is what the file makes, and is compiled in its place.
        """
        if sanitizer == "thread" and file.name in OF_HOUSE:
            links = [*links, *LINKS]
        what = " ".join([compiler, f"-std={standard}", *filter(None, [sanitizer]), str(file.relative_to(ROOT)), *map(str, words), *under[:1], *fewer[1:]])

        def task():
            if not self.works[compiler, sanitizer]:
                return f"{what}: there is no {compiler}{f' with the sanitizer {sanitizer}' if sanitizer else ''}"
            to, source = f"{self.room}/{re.sub(r'[^a-z0-9]', '_', what)}", file
            if made:
                source = Path(f"{to}{'.cpp' if '++' in compiler else '.c'}")
                source.write_text(made)
            if fewer:
                text = file.read_text()
                if text.count(fewer[0]) != 1:
                    return what, f"{text.count(fewer[0])} times {fewer[0]}", "once"
                source = Path(f"{to}{file.suffix}")
                source.write_text(text.replace(*fewer))
            built = call([compiler, f"-std={standard}", "-O1", "-g", *WARNINGS, *INCLUDES, f"-I{file.parent}", *SANITIZERS[sanitizer], source, self.archive, "-pthread", *links, "-o", to])
            if built.returncode:
                return what, ended(built), 0
            said = piped([*under, to, *words], into) if into else call([*under, to, *words])
            found = ended(said) if wanted == 0 else said.returncode != 0
            return what, (found, tells in said.stdout, wrong_shares(said.stdout, shares) if shares else []), (wanted, True, [])

        return task

    def compiles(self, compiler, standard, text, suffix, wanted=True):
        what = f"{compiler} -std={standard}: {text.split(chr(10))[0]}"

        def task():
            if not self.works[compiler, ""]:
                return f"{what}: there is no {compiler}"
            file = Path(f"{self.room}/{re.sub(r'[^a-z0-9]', '_', what)}.{suffix}")
            file.write_text(text)
            return what, call([compiler, f"-std={standard}", "-O1", *WARNINGS, *INCLUDES, "-fsyntax-only" if wanted else "-c", file, *([] if wanted else ["-o", f"{file}.o"])]).returncode == 0, wanted

        return task

    def same_code(self, compiler, text, suffix, flag):
        """The text has the same code with that flag and without it. Below -O3 a compiler may inline otherwise, since a test counts before it is left out."""
        what = f"{compiler}: the first listing with {flag} and without"

        def task():
            if not self.works[compiler, ""] or not shutil.which("objcopy"):
                return f"{what}: there is no {compiler}, or no objcopy"
            codes = []
            for flags in ([], [flag]):
                to = f"{self.room}/same_{re.sub(r'[^a-z]', 'p', compiler)}{len(flags)}"
                Path(f"{to}.{suffix}").write_text(text)
                made = call([compiler, "-std=c++17" if suffix == "cpp" else "-std=c99", "-O3", *INCLUDES, *flags, "-c", f"{to}.{suffix}", "-o", f"{to}.o"])
                made = made if made.returncode else call(["objcopy", "-O", "binary", "-j", ".text*", f"{to}.o", to])
                if made.returncode:
                    return what, ended(made), 0
                codes.append(Path(to).read_bytes())
            return what, (codes[0] == codes[1], len(codes[0]) > 0), (True, True)

        return task
