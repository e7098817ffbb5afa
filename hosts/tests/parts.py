"""Parts of a journal as bytes, once more: the lines of notes as bytes, and bytes as lines. It shares nothing with the library.

  parts.py MOST          writes the bytes of the journals whose text stands on standard input, in parts of at most so many notes
  parts.py MOST FOLDER   writes them to the files FOLDER/head, FOLDER/part0, .. of each actor
"""
import re
import struct
import sys
from pathlib import Path

KINDS = "sent took back answered queue shares closed coreclosed woken pick start resume yield park stayed done returned turned shut collected redeemed detached".split()
ORDERS = "job create shares close closecore wake".split()
OUTCOMES = "finished returned answered".split()
REASONS = "noqueue queueclosed coreclosing queuereturned corereturned".split()
ANSWERS = "created toomany nomemory closing sharesset noqueue closed alreadyclosed woken nojob".split()
MODES = "finish return".split()

# How each field is written: n a name, q a queue, b a byte, 2 shares, 8 a number, r a virtual runtime, m a mode, w a reason, a an answer; the words between
# fields stand in the line alone.
FIELDS = {"took": "n q", "back": "n w", "answered": "n a", "queue": "q 2", "shares": "q 2", "closed": "q m", "coreclosed": "m", "woken": "n", "pick": "q at r", "start": "n",
          "resume": "n", "yield": "n 8", "park": "n 8", "stayed": "n 8", "done": "n 8 = 8", "returned": "n w", "turned": "q 8", "shut": "b 8", "sent": "n o",
          "collected": "n u", "redeemed": "n u", "detached": "n"}
OF_ORDER = {"job": "q", "create": "2", "shares": "q 2", "close": "q m", "closecore": "m", "wake": "k"}
OF_OUTCOME = {"finished": "8", "returned": "w", "answered": "a"}
PACKED = {"b": "<B", "2": "<H", "8": "<Q"}
WORDS = {"m": MODES, "w": REASONS}


def to_bytes(fields, words):
    """The bytes of fields, whose words are taken from the front of `words`."""
    made = b""
    for field in fields.split():
        word = words.pop(0)
        if field in PACKED:
            made += struct.pack(PACKED[field], int(word))
        elif field == "q":
            made += bytes([int(word[1:])])
        elif field == "n":
            sender, to, number = map(int, re.split("[>#]", word))
            made += struct.pack("<BBQ", sender, to, number)
        elif field == "k":
            made += struct.pack("<BQ", *map(int, word.split("#")))
        elif field == "r":
            made += int(word).to_bytes(16, "little")
        elif field in WORDS:
            made += bytes([WORDS[field].index(word)])
        elif field == "a":
            made += bytes([ANSWERS.index(word)]) + (bytes([int(words.pop(0)[1:])]) if word == "created" else b"")
        elif field in "ou":
            kinds, of = (ORDERS, OF_ORDER) if field == "o" else (OUTCOMES, OF_OUTCOME)
            made += bytes([kinds.index(word)]) + to_bytes(of[word], words)
        else:
            assert field == word, (field, word)
    return made


def note_bytes(line):
    """The bytes of a note by its line, without the actor's number."""
    kind, *words = line.split()
    made = bytes([KINDS.index(kind)]) + to_bytes(FIELDS[kind], words)
    assert not words, line
    return made


def from_bytes(fields, data):
    """The words of fields, whose bytes are taken from the front of `data`, an iterator."""
    words = []

    def number(size):
        return int.from_bytes(bytes(next(data) for _ in range(size)), "little")

    for field in fields.split():
        if field in PACKED:
            words.append(str(number(struct.calcsize(PACKED[field]))))
        elif field == "q":
            words.append(f"q{number(1)}")
        elif field == "n":
            words.append(f"{number(1)}>{number(1)}#{number(8)}")
        elif field == "k":
            words.append(f"{number(1)}#{number(8)}")
        elif field == "r":
            words.append(str(number(16)))
        elif field in WORDS:
            words.append(WORDS[field][number(1)])
        elif field == "a":
            words.append(ANSWERS[number(1)])
            words += [f"q{number(1)}"] if words[-1] == "created" else []
        elif field in "ou":
            kinds, of = (ORDERS, OF_ORDER) if field == "o" else (OUTCOMES, OF_OUTCOME)
            words.append(kinds[number(1)])
            words += from_bytes(of[words[-1]], data)
        else:
            words.append(field)
    return words


def sums(data):
    first = second = 0
    for byte in data:
        first += byte
        second += first
    return struct.pack("<QQ", first % 2**64, second % 2**64)


def part_of(actor, before, lines):
    """The part of these notes, each a line without the actor's number."""
    notes = b"".join(map(note_bytes, lines))
    front = b"fxp1" + struct.pack("<BQQQ", actor, before, len(lines), len(notes)) + notes
    return front + sums(front)


def read_part(data, at):
    """The actor, how many notes came before, the lines, and where the part ends. It begins at this byte."""
    mark, actor, before, count, size = struct.unpack_from("<4sBQQQ", data, at)
    end = at + 29 + size
    assert mark == b"fxp1" and data[end : end + 16] == sums(data[at:end]), at
    notes, lines = iter(data[at + 29 : end]), []
    for kind in notes:
        lines.append(" ".join([KINDS[kind], *from_bytes(FIELDS[KINDS[kind]], notes)]))
    assert len(lines) == count, at
    return actor, before, lines, end + 16


def text_of(data):
    """The text of whole journals as bytes: a head, and the parts of each actor in their order, of which none is missing."""
    mark, cores, burst, cap = struct.unpack_from("<4sBBH", data)
    assert mark == b"fxh1"
    lines, at, counts = [], 8, [0] * (cores + 1)
    while at < len(data):
        actor, before, notes, at = read_part(data, at)
        assert before == counts[actor] and not any(counts[actor + 1 :]), (actor, before, at)
        counts[actor] += len(notes)
        lines += [f"{actor} {note}" for note in notes]
    tail = f" burst {burst}" if burst > 1 else ""
    return "\n".join([f"journal {1 if burst == 1 else 2}", f"cores {cores} cap {cap}{tail}", *lines, "end", ""])


def bytes_of(text, most):
    """The bytes of the text of journals: a head, and the notes of each actor in parts of at most so many."""
    _, house, *lines, _ = text.splitlines()
    words = house.split()
    numbers = {"burst": 1, **dict(zip(words[::2], map(int, words[1::2])))}
    notes = [[] for _ in range(numbers["cores"] + 1)]
    for line in lines:
        actor, note = line.split(" ", 1)
        notes[int(actor)].append(note)
    parts = (part_of(actor, at, those[at : at + most]) for actor, those in enumerate(notes) for at in range(0, len(those), most))
    return b"fxh1" + struct.pack("<BBH", numbers["cores"], numbers["burst"], numbers["cap"]) + b"".join(parts)


def files_of(data):
    """The bytes of each file, by its name: the head, and the parts of each actor."""
    files, at = {"head": data[:8], **{f"part{actor}": b"" for actor in range(data[4] + 1)}}, 8
    while at < len(data):
        actor, _, _, end = read_part(data, at)
        files[f"part{actor}"] += data[at:end]
        at = end
    return files


if __name__ == "__main__":
    made = bytes_of(sys.stdin.read(), int(sys.argv[1]))
    if len(sys.argv) == 2:
        sys.stdout.buffer.write(made)
    else:
        Path(sys.argv[2]).mkdir(parents=True, exist_ok=True)
        for name, those in files_of(made).items():
            (Path(sys.argv[2]) / name).write_bytes(those)
