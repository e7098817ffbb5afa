"""What the gate takes by tools/gate-table.tsv: read by ./check, tests/budget and tools/gate-table.

The table has a row for each crate: its name, the processor seconds of its proof, of its tests and of its edits in must-fail/, and the day.
"""
import re
from pathlib import Path

ROOT = Path(__file__).resolve().parent.parent
TABLE = ROOT / "tools" / "gate-table.tsv"
KINDS = ("proof", "tests", "edits")

# About how many processor seconds the parts of ./check beside `rt ci` take, and how many processors they use at most.
PARTS = {
    "tests/run-units": (1100, 4),
    "tests/front-door": (20, 1),
    "tests/program": (60, 1),
    "tests/follow": (20, 1),
    "tests/fairview": (120, 1),
    "tests/hosts": (480, 2),
    "tests/memory/run": (60, 1),
    "tests/memory/steady": (20, 1),
    "tests/memory/houses": (90, 1),
    "tests/memory/again": (300, 4),
    "tests/tested-edits": (240, 1),
}


def crates():
    """Each crate of crates.txt, with those of the repository that it uses."""
    words = {}
    for line in (ROOT / "crates.txt").read_text().splitlines():
        head, _, tail = line.partition("#")[0].partition(":")
        if head.strip():
            words[head.split()[0]] = re.split(r"[ \t,]+", tail.strip())
    return {name: [it for it in used if it in words] for name, used in words.items()}


def has_edits(name):
    return any((ROOT / "crates" / name / "must-fail").glob("*.edit"))


def table():
    """The seconds of each crate that was measured, and the day, by kind."""
    rows = {}
    for line in TABLE.read_text().splitlines() if TABLE.is_file() else ():
        cells = line.split("\t")
        if not line.startswith("#") and len(cells) == 5 and cells[1].isdigit():
            rows[cells[0]] = {**dict(zip(KINDS, map(int, cells[1:4]))), "day": cells[4]}
            if not has_edits(cells[0]):
                rows[cells[0]]["edits"] = 0
    return rows


def lines_of(name):
    return sum(it.read_bytes().count(b"\n") for it in (ROOT / "crates" / name / "src").rglob("*.rt"))


def whole_table(names):
    """The rows of these crates. One that wasn't measured is taken to cost what a line costs in the others."""
    rows = table()
    measured = [it for it in names if it in rows]
    lines = sum(map(lines_of, measured))
    a_line = sum(rows[it]["proof"] for it in measured) / lines if lines else 0.5
    guessed = {it: {"proof": round(a_line * lines_of(it)), "tests": 0, "edits": 0} for it in names if it not in rows}
    return {it: rows.get(it) or guessed[it] for it in names}


def chain(rows, uses):
    """The dearest chain of proofs, one over another, among the crates of these rows: its seconds and its crates, lowest first."""
    found = {}

    def visit(name):
        if name not in found:
            below = max((visit(it) for it in uses[name] if it in rows), default=(0, []), key=lambda it: it[0])
            found[name] = below[0] + rows[name]["proof"], [*below[1], name]
        return found[name]

    return max((visit(it) for it in rows), default=(0, []), key=lambda it: it[0])


def together(rows):
    return sum(row[kind] for row in rows.values() for kind in KINDS)


def gate_seconds(rows, uses, processors):
    """How long a gate of these rows takes by itself. A crate waits for those below it, but its edits hold up no other."""
    return max(together(rows) / processors, chain(rows, uses)[0])


def part_seconds(part, processors):
    seconds, most = PARTS.get(part, (10, 1))
    return seconds / min(processors, most)
