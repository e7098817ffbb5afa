"""Gives wrong bodies to the compiler, many in one pass, for tests/edits: which of them does it refuse?

Each stands in a copy of its function beside it, under another name, so that edits of one function go into one pass. A method of a trait,
a function that C calls, and what isn't in a function, are changed in place, each by one edit of a pass.
"""
import re

from edits import HEAD, IMPL, function_at

BEGIN, END = "// edit: ", "// edit."
ERROR = re.compile(r"^(?:\./)?(\S+\.rt):(\d+):\d+: (error.*)")
# What a check of no function says once the compiler is through.
THROUGH = re.compile(r"has no function")


def span_of(file, text, at):
    """Where a function stands in its file, with what is written above it, and whether it can have a copy under another name."""
    for head in HEAD.finditer(text):
        if head[2] != at[2]:
            continue
        body = re.compile(rf"^{head[1]}\{{|\{{$", re.MULTILINE).search(text, head.end())
        if not body or function_at(file, text, body.end() + 1) != at:
            continue
        end = re.compile(rf"^{head[1]}\}}\n", re.MULTILINE).search(text, body.start())
        start = head.start()
        while start:
            line = text.rfind("\n", 0, start - 1) + 1
            if re.search(r"^\s*\n$|[{};]\n$", text[line:start]):
                break
            start = line
        impls = [it for it in IMPL.finditer(text) if it.start() < head.start()] if head[1] else []
        is_of_trait = bool(impls and re.search(r"\bfor\b", impls[-1][1].replace("for<", "")))
        return start, end.end(), not is_of_trait and "no_mangle" not in text[start : end.end()]
    return None


def places_of(folder, edit):
    """The functions whose bodies an edit changes, by pair, as (file, function). None for what isn't in a function."""
    texts, found = {}, []
    for file, old, new in edit.pairs:
        text = texts.get(file) or (folder / file).read_text()
        place = text.find(old)
        at = function_at(file, text, place + len(old) - len(old.lstrip()))
        found.append((file, at) if at and span_of(file, text, at) else None)
        texts[file] = text.replace(old, new)
    return found


class Pass:
    """The sources of a crate with some of its edits, each between two comments that name it."""

    def __init__(self, folder):
        self.folder = folder
        self.edits = []
        self.changed = {}
        self.marked = []
        self.outside = []

    def add(self, edit):
        """Takes an edit, unless another one of this pass changes the same in place."""
        places = places_of(self.folder, edit)
        if places[0] and set(places) == {places[0]} and self.add_copy(edit, *places[0]):
            return True
        if None in places and self.outside or set(places) & {it[:2] for it in self.marked if not it[3]}:
            return False
        texts = dict(self.changed)
        if edit.apply(self.folder, texts):
            return False
        self.changed = texts
        self.marked += [(*it, edit.name, None) for it in dict.fromkeys(filter(None, places))]
        self.outside += [edit.name] if None in places else []
        self.edits.append(edit)
        return True

    def add_copy(self, edit, file, at):
        """Takes an edit in a copy of its function, if there can be one."""
        text = (self.folder / file).read_text()
        start, end, can_be = span_of(file, text, at)
        if not can_be:
            return False
        text = text[start:end]
        for _, old, new in edit.pairs:
            text = text.replace(old, new)
        text = re.sub(rf"\bfn {at[2]}\b", f"fn {at[2]}_{len(self.edits)}", text, count=1)
        self.marked.append((file, at, edit.name, text))
        self.edits.append(edit)
        return True

    def texts(self):
        found = dict(self.changed)
        for file, at, name, copy in self.marked:
            text = found.get(file) or (self.folder / file).read_text()
            start, end, _ = span_of(file, text, at)
            if copy:
                found[file] = f"{text[:end]}\n{BEGIN}{name}\n{copy}{END}\n{text[end:]}"
            else:
                found[file] = f"{text[:start]}{BEGIN}{name}\n{text[start:end]}{END}\n{text[end:]}"
        return found

    def errors(self, texts, said):
        """What the compiler said of each edit, by name. An error in no edit's text is told of the edit that changes no function."""
        found = {}
        for error in filter(None, map(ERROR.match, said)):
            lines = texts.get(error[1], "").split("\n")[: int(error[2])]
            mark = next((it.strip() for it in reversed(lines) if it.strip().startswith(BEGIN) or it.strip() == END), END)
            names = [mark.removeprefix(BEGIN)] if mark != END else self.outside
            for name in names or [f"line {error[2]} of {error[1]}"]:
                found.setdefault(name, f"{error[1]}: {error[3][:160]}")
        return found


def refusals(edits, folder, build):
    """What the compiler says of these edits, by name: `build` compiles the crate with these texts of files. Whatever hides what stands behind it goes first."""
    told, left = {}, [it for it in edits if all(file.endswith(".rt") for file, _, _ in it.pairs)]
    while left:
        one = Pass(folder)
        later = [it for it in left if not one.add(it)]
        texts = one.texts()
        said = build(texts)
        errors = one.errors(texts, said)
        told.update(errors)
        if errors:
            left = [it for it in left if it.name not in errors]
            if not any(it.name in errors for it in one.edits):
                return told
        elif any(THROUGH.search(it) for it in said):
            left = later
        else:
            told["all"] = " / ".join(said[-4:])[:300]
            return told
    return told
