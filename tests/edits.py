"""Tries the edits of crates/NAME/edits.txt, which the gate does not try: the prover must refuse each.
Those with a line 'tests: LAYER' are left to tests/tested-edits: a test must refuse them.

  tests/edits [--jobs N] [--gate] [--alone] [NAME..]
  tests/edits --look [NAME..]
  tests/edits --compile [NAME..]

NAME..    these crates alone; without a name every crate that has edits
--jobs N  this many crates side by side (1 if left out; a check takes up to 4 GB)
--gate    the edits of must-fail/ too, which the gate tries
--alone   each edit in a check of its own, of the whole crate
--look    proves nothing: names each edit, of must-fail/ too, that can't be applied, in a second for all.
          The last line is 'N passed, M failed', and the status is 0 if each can be.
--compile proves no edit, and gives all to the compiler, many in one pass: names each that it refuses without a line 'compiler:',
          and each with such a line that it doesn't refuse so. The last line and the status are as those of --look.

An edit may change an answer of its function too, behind its change of the function, so that a clause of the contract stays open.
Edits of one crate that change different functions are tried together: one check proves all the functions that they change, and
nothing else. An edit is refused if a goal of its own function is open. Whatever isn't refused so, or changes more than the bodies
of functions, is tried alone by `rt must-fail`, which checks the whole crate. An edit with a line 'compiler: CODE' must be refused
by the compiler with that error, before anything is proved. Any other that the compiler refuses is a BAD EDIT: it says nothing of a contract.

An edit is a name, a file and pairs of lines: what goes, with '- ' before it, and what comes, with '+ '. Each text that goes stands once in its file.

  first_job_is_lost: src/line.rt
  - self.jobs.push(job)
  + self.jobs.push(job); self.jobs.remove(0)

'compiler: CODE' or 'tests: LAYER' is a line below the name. A line of a file alone says that the next pairs are of that file. '#' begins a
comment. The edits of must-fail/, and any in edits/, are files NAME.edit, in the form of `rt must-fail`.

Works on a copy. The libraries that were built on this machine are taken along, and the others are built.
The last line counts the edits that were refused, those that still prove, and those that can't be applied.
The status is 0 if all were refused, 1 if not, 2 if the words are wrong.
"""
import re
import shutil
import subprocess
import sys
import tempfile
from concurrent.futures import ThreadPoolExecutor
from pathlib import Path

ROOT = Path(__file__).resolve().parent.parent

# How many functions one check proves at most, so that its memory stays small.
MOST = 12

# A check of no function ends where the compiler is through.
NO_FUNCTION = "no_function_has_this_name"

# What a proof file says of a name that an edit took away, or of a goal that says nothing any more. It tells nothing of the contract.
NAMES = re.compile(r"has no field|is not in scope|has no `|was not admitted|expected type `Unit \{0\}`")
BY_NAME = "only because a proof file names what the edit took away"


class Edit:
    """An edit: the pairs of texts that it replaces, by file, and what was found out of it."""

    def __init__(self, path, name):
        self.path = path
        self.name = name
        self.compiler = None
        self.tests = None
        self.pairs = []
        self.fault = None
        self.functions = set()
        self.said = None

    def place(self):
        """Where it stands."""
        path = self.path.relative_to(ROOT)
        return str(path) if path.suffix == ".edit" else f"{path}: {self.name}"

    def text(self):
        """Its text in the form of `rt must-fail`."""
        return "".join(f"file: {file}\nold: {old}\nnew: {new}\n" for file, old, new in self.pairs)

    def apply(self, folder, texts):
        """Changes these texts by file, which are read from the crate's folder at need, or says why it can't."""
        if self.fault or not self.pairs:
            return self.fault or "it replaces nothing"
        for file, old, new in self.pairs:
            if not file or not old or not (folder / file).is_file():
                return f"there is no file {file}"
            text = texts.get(file) or (folder / file).read_text()
            found = text.count(old)
            if found != 1:
                return f"its text stands {found} times in {file}: {old}"
            texts[file] = text.replace(old, new)
        return None


def edit_of(path):
    """The edit of a file NAME.edit."""
    edit, file, old = Edit(path, path.stem), None, None
    for line in path.read_text().split("\n"):
        if line.startswith("file: "):
            file = line[6:].strip()
        elif line.startswith("tests: "):
            edit.tests = line[7:].strip()
        elif line.startswith("compiler: "):
            edit.compiler = line[10:].strip()
        elif line.startswith("old: "):
            old = line[5:]
        elif line.startswith("new:"):
            edit.pairs.append((file, old, line[4:].removeprefix(" ")))
    return edit


NAMED = re.compile(r"(\w+): (\S+)")
OF_FILE = re.compile(r"(?:src|specs|proofs)/\S+")


def edits_in(path):
    """The edits of a list. One with a line that can't be read can't be applied."""
    found, file, old = [], None, None
    for number, line in enumerate([*path.read_text().split("\n"), ""] if path.is_file() else (), 1):
        mark, text, head = line[:1], line[2:], NAMED.fullmatch(line.rstrip())
        edit = found[-1] if found else Edit(path, "none")
        if mark == "+" and old is not None:
            edit.pairs.append((file, old, text))
            old = None
        elif old is not None:
            edit.fault = f"line {number - 1} has no line '+ ' below it"
            old = None
        elif mark == "-" and found:
            old = text
        elif head and OF_FILE.fullmatch(head[2]):
            found.append(Edit(path, head[1]))
            file = head[2]
        elif head and head[1] in ("compiler", "tests") and not edit.pairs:
            setattr(edit, head[1], head[2])
        elif OF_FILE.fullmatch(line.strip()):
            file = line.strip()
        elif line.strip() and mark != "#":
            edit.fault = f"line {number} can't be read: {line[:60]}"
            found = found or [edit]
    return found


def edits_of(crate, *kinds):
    folder = ROOT / "crates" / crate
    found = [edit for kind in kinds for edit in map(edit_of, sorted((folder / kind).glob("*.edit")))]
    found += edits_in(folder / "edits.txt") if "edits" in kinds else []
    names = set()
    for edit in found:
        if edit.name in names:
            edit.fault = "another edit has its name"
        names.add(edit.name)
    return found


def look(crates):
    passed, failed = 0, 0
    for crate in crates:
        for edit in edits_of(crate, "edits", "must-fail"):
            why = edit.apply(ROOT / "crates" / crate, {})
            passed, failed = passed + (not why), failed + bool(why)
            if why:
                print(f"{edit.place()}: {why}")
    print(f"{passed} passed, {failed} failed")
    return 1 if failed else 0


HEAD = re.compile(r"^([ \t]*)(?:pub(?:\([a-z]+\))? )?(?:const |unsafe |extern \"C\" )*fn (\w+)", re.MULTILINE)
IMPL = re.compile(r"^impl\b([^{]*)\{", re.MULTILINE)


def owner_of(head):
    """The type of an `impl`, with its trait behind it, as the check names them together."""
    flat = head.replace("->", "")
    while "<" in flat and flat != (shorter := re.sub(r"<[^<>]*>", "", flat)):
        flat = shorter
    words = re.split(r"\bwhere\b", flat)[0].split(" for ")
    trait, kind = (words[0], words[1]) if words[1:] else ("", words[0])
    return "".join(it.strip().split("::")[-1] for it in (kind, trait))


def function_at(file, text, place):
    """The function whose body this place of a file is in: its module, its type with its trait, and its name. None elsewhere."""
    found = None
    for head in HEAD.finditer(text):
        if head.start() > place:
            break
        found = head
    if not found or not re.search(r"\{$", text[found.start() : place], re.MULTILINE):
        return None
    end = re.compile(rf"^{found[1]}\}}", re.MULTILINE).search(text, found.end())
    if end and end.start() < place:
        return None
    owner = ""
    if found[1]:
        impls = [it for it in IMPL.finditer(text) if it.start() < found.start()]
        if not impls:
            return None
        owner = owner_of(impls[-1][1])
    module = [it for it in Path(file).with_suffix("").parts[1:] if it not in ("lib", "main")]
    return "::".join(module), owner, found[2]


def named(crate, functions, place):
    """The one function of the check's list that stands there, by the name that the check gives it, or None."""
    module, owner, name = place
    end = f"::{owner}::{name}" if owner else "::".join(["", *filter(None, [module]), name])
    fitting = [it for it in functions if f"::{it}".endswith(end)]
    near = [it for it in fitting if f"::{it}".startswith(f"::{module}::")] if len(fitting) > 1 else fitting
    return near[0] if len(near) == 1 else None


def changed_functions(crate, edit, folder, functions):
    """The functions whose bodies an edit changes. None if it changes anything else."""
    found = set()
    for file, old, _ in edit.pairs:
        if file.startswith("proofs/") and "::".join(Path(file).parent.parts[1:]) in found:
            continue
        text = (folder / file).read_text()
        place = text.find(old)
        at = file.startswith("src/") and place >= 0 and function_at(file, text, place + len(old) - len(old.lstrip()))
        name = at and named(crate, functions, at)
        if not name:
            return None
        found.add(name)
    return found


class Copy:
    """A crate in a copy of the repository, in which its edits are tried."""

    def __init__(self, crate, room):
        self.crate = crate
        self.top = room / crate
        leave = shutil.ignore_patterns(".git", "out", "benches", "edits", "edits.txt", "must-fail")
        shutil.copytree(ROOT, self.top, ignore=leave)
        self.folder = self.top / "crates" / crate
        # What was built of the crates below. `rt` builds again what isn't of these sources.
        below = subprocess.run([ROOT / "tools/below", crate], capture_output=True, text=True, check=True).stdout.split()[:-1]
        for name in below:
            built = ROOT / "crates" / name / "out" / "rlib"
            if built.is_dir():
                shutil.copytree(built, self.top / "crates" / name / "out" / "rlib")

    def rt(self, *words):
        said = subprocess.run(["rt", *words], cwd=self.folder, stdin=subprocess.DEVNULL, capture_output=True, text=True, errors="replace")
        return (said.stdout + said.stderr).split("\n")

    def with_edits(self, edits, *words):
        """What rt says of the crate with these edits."""
        texts = {}
        for edit in edits:
            edit.apply(self.folder, texts)
        return self.with_texts(texts, *words)

    def with_texts(self, texts, *words):
        """What rt says of the crate with these texts of files."""
        were = {file: (self.folder / file).read_text() for file in texts}
        try:
            for file, text in texts.items():
                (self.folder / file).write_text(text)
            return self.rt(*words)
        finally:
            for file, text in were.items():
                (self.folder / file).write_text(text)

    def alone(self, edits):
        """Tries each edit alone, by `rt must-fail`."""
        (self.folder / "must-fail").mkdir(exist_ok=True)
        for edit in edits:
            (self.folder / "must-fail" / f"{edit.name}.edit").write_text(edit.text())
        said = self.rt("must-fail", self.crate)
        for edit in edits:
            mark = f"must-fail {self.crate}/{edit.name}.edit: "
            edit.said = next((it.split(mark)[1] for it in said if mark in it), "NOT TRIED: " + " ".join(said[-4:]))
        shutil.rmtree(self.folder / "must-fail")


def goal_of(crate, function, said):
    """What a check said of an open goal of this function, or else of a name that its proof misses. Nothing if it is proved."""
    line = next((it for it in said if re.match(rf"fn {crate}::{re.escape(function)}: (?:not proved|no proof)", it)), None)
    if not line:
        return None
    # The check names the goals that have no answer.
    open_ = re.search(r"did not prove (.*)", line)
    if open_:
        return f"refused: {function}: not proved: {open_[1][:120]}"
    *path, name = function.split("::")
    proof = re.compile(rf"(?:\./)?proofs/{'/'.join([*map(re.escape, path), ''])}\+?{re.escape(name)}/\S+ error: (.*)")
    errors = [it[1] for it in map(proof.match, said) if it]
    goal = next((it for it in errors if not NAMES.search(it)), None)
    if goal:
        return f"refused: {function}: {goal[:120]}"
    return f"refused ({BY_NAME}): {function}: {errors[0][:120]}" if errors else None


def judge(copy, edits):
    """Tries edits of different functions in one check. Those that it doesn't refuse are left for a try alone."""
    words = [word for edit in edits for function in sorted(edit.functions) for word in ("--only", function)]
    said = copy.with_edits(edits, "check", "--jobs", "1", *words)
    if not any(it.startswith("only=") for it in said):
        # An edit that the compiler refuses takes the others along.
        half = len(edits) // 2
        for part in (edits[:half], edits[half:]) if half else ():
            judge(copy, part)
        return
    for edit in edits:
        goals = [it for it in (goal_of(copy.crate, function, said) for function in sorted(edit.functions)) if it]
        edit.said = next((it for it in goals if BY_NAME not in it), goals[0] if goals else None)


def batches(edits):
    """The edits in groups, no two of which change one function."""
    found = []
    for edit in edits:
        for group in found:
            taken = set().union(*(it.functions for it in group))
            if not taken & edit.functions and len(taken | edit.functions) <= MOST:
                group.append(edit)
                break
        else:
            found.append([edit])
    return found


def by_compiler(copy, edits):
    """Gives these edits to the compiler, and says of those with a line 'compiler:' whether it refuses them, and of the others which are bad."""
    from compiled_edits import refusals

    for asked in ([it for it in edits if it.compiler], [it for it in edits if not it.compiler]):
        told = refusals(asked, copy.folder, lambda texts: copy.with_texts(texts, "check", "--only", NO_FUNCTION))
        for edit in asked:
            error = told.pop(edit.name, None)
            if edit.compiler:
                is_so = error and f"error[{edit.compiler}]" in error
                edit.said = f"refused: {error}" if is_so else f"NOT REFUSED by the compiler with error[{edit.compiler}]: {error}"
            elif error:
                edit.said = f"BAD EDIT: the compiler refuses it: {error}"
        for where, error in told.items():
            print(f"{copy.crate}: {where}: {error}", flush=True)


def compile_all(crates):
    passed, failed = 0, 0
    with tempfile.TemporaryDirectory() as room:
        for crate in crates:
            edits = [it for it in edits_of(crate, "edits", "must-fail") if not it.apply(ROOT / "crates" / crate, {})]
            if not edits:
                continue
            copy = Copy(crate, Path(room))
            by_compiler(copy, edits)
            bad = [it for it in edits if it.said and not it.said.startswith("refused")]
            for edit in bad:
                print(f"{edit.place()}: {edit.said}", flush=True)
            passed, failed = passed + len(edits) - len(bad), failed + len(bad)
            shutil.rmtree(copy.top, ignore_errors=True)
    print(f"{passed} passed, {failed} failed")
    return 1 if failed else 0


def try_crate(crate, kinds, each_alone, room):
    """Tries the edits of a crate, and answers them."""
    edits = [it for it in edits_of(crate, *kinds) if not it.tests]
    folder = ROOT / "crates" / crate
    for edit in edits:
        why = edit.apply(folder, {})
        edit.said = why and f"BAD EDIT: {why}"
    left = [it for it in edits if not it.said]
    copy = Copy(crate, room)
    by_compiler(copy, left)
    left = [it for it in left if not it.said]
    if not each_alone and left:
        said = copy.rt("check", "--jobs", "1")
        functions = [it[1] for it in (re.match(rf"fn {crate}::(\S+): proved", line) for line in said) if it]
        for edit in left:
            edit.functions = changed_functions(crate, edit, folder, functions)
        for group in batches([it for it in left if it.functions]):
            judge(copy, group)
    left = [it for it in left if not it.said]
    if left:
        copy.alone(left)
    shutil.rmtree(copy.top, ignore_errors=True)
    for edit in edits:
        print(f"{crate}/{edit.name}: {edit.said}", flush=True)
    return edits


def stop(why):
    print(why, file=sys.stderr)
    sys.exit(2)


def main(words):
    jobs, kinds, each_alone, proves_none, names = 1, ["edits"], False, None, []
    while words:
        word = words.pop(0)
        if word == "--jobs" and words and words[0].isdigit() and int(words[0]):
            jobs = int(words.pop(0))
        elif word == "--gate":
            kinds = ["edits", "must-fail"]
        elif word == "--alone":
            each_alone = True
        elif word in ("--look", "--compile"):
            proves_none = look if word == "--look" else compile_all
        elif word.startswith("-"):
            stop(__doc__.strip())
        else:
            names.append(word)
    here = sorted(it.name for it in (ROOT / "crates").iterdir())
    for name in names:
        if name not in here:
            stop(f"tests/edits: no crate {name}")
    if proves_none:
        return proves_none(names or here)
    crates = names or [it for it in here if any(not edit.tests for edit in edits_of(it, *kinds))]
    with tempfile.TemporaryDirectory() as room, ThreadPoolExecutor(jobs) as pool:
        tried = [edit for it in pool.map(lambda crate: try_crate(crate, kinds, each_alone, Path(room)), crates) for edit in it]
    refused = sum(it.said.startswith("refused") for it in tried)
    proved = sum(it.said.startswith("NOT REFUSED") for it in tried)
    by_name = sum(BY_NAME in it.said for it in tried)
    if by_name:
        print(f"of these, refused by a name alone: {by_name}")
    print(f"{refused} refused, {proved} proved, {len(tried) - refused - proved} not applied")
    return 0 if refused == len(tried) else 1


if __name__ == "__main__":
    sys.exit(main(sys.argv[1:]))
