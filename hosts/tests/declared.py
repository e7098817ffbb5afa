"""What the header of the library for hosts declares, and what its crates, its archive and raw.rs do: names, parameters, structs and codes.
And whether its top comment says what the page for hosts asks of them.

A declaration is {"functions": {name: [(type, parameter)]}, "structs": {name: [(type, field)]}, "codes": {name: number}}, in C's types.
"""
import re
import subprocess

def of_c(text):
    text = re.sub(r"/\*.*?\*/", " ", text, flags=re.DOTALL)

    def declared(part):
        return [(re.sub(r"\s+", " ", kind).strip(), name) for kind, name in re.findall(r"^\s*(.*?[\s*])(\w+)\s*$", part, re.MULTILINE | re.DOTALL)]

    functions = {}
    for answer, name, given in re.findall(r"^(\w+) (fx_\w+)\(([^()]*)\)(?: FX_NOT_NULL)?;", text, re.MULTILINE):
        functions[name] = [(answer, "")] + [it for part in given.split(",") if part.strip() != "void" for it in declared(part)]
    structs = {}
    for name, body in re.findall(r"typedef struct (\w+) \{(.*?)\} \1;", text, re.DOTALL):
        structs[name] = [it for part in body.split(";") for it in declared(part)]
    return {"functions": functions, "structs": structs, "codes": {name: int(number) for name, number in re.findall(r"\b(FX_\w+) = (\d+)", text)}}


RUST = {
    "u32": "uint32_t",
    "u64": "uint64_t",
    "usize": "size_t",
    "Name": "fx_name",
    "*mut c_void": "void *",
    "&Name": "const fx_name *",
    "&Config": "const fx_config *",
    "&mut Handle": "fx_core *",
}
# What stands behind `&mut` or `*mut`, and in C before the `*`.
POINTED = {"u8": "uint8_t", "u32": "uint32_t", "u64": "uint64_t", "Name": "fx_name"}
STRUCTS = {
    "Handle": "fx_core",
    "CoreFigures": "fx_core_stats",
    "QueueFigures": "fx_queue_stats",
    "Config": "fx_config",
    "Name": "fx_name",
    "TurnTold": "fx_turn",
    "OutcomeTold": "fx_outcome",
    "VerdictTold": "fx_verdict",
}
CODES = {"QueueClosed": "FX_CLOSED", "CoreClosed": "FX_CLOSED"}


def in_c(kind, name):
    kind = re.sub(r"\s+", " ", kind).strip()
    # One struct of the crate stands behind both handles of a house, and behind timers.
    if kind == "&mut SeatHandle":
        return {"house": "fx_house *", "timers": "fx_timers *"}.get(name, "fx_seat *")
    pointed = re.match(r"(?:&mut|\*mut) (\w+)$", kind)
    if kind in RUST or not pointed:
        return RUST.get(kind) or re.sub(r"^\*const (fx_\w+)$", r"const \1 *", kind)
    of = pointed[1]
    return f"{POINTED.get(of) or STRUCTS.get(of, of)} *"


def of_rust(text):
    """What Rust or Rattle declares. A ghost field has no bytes, and neither has a Global."""
    text = re.sub(r"//.*", "", text)
    # A slice crosses as its first byte and its length.
    text = re.sub(r"bytes: &mut \[u8\]", "bytes: &mut u8, room: usize", text)

    def declared(part):
        found = re.findall(r"(?:^|,|\n)\s*(?:pub(?:\(crate\))? )?(ghost )?(\w+): ([^,{}]+?)(?=,|\s*$)", re.sub(r"ghost (\w+): \{[^{}]*\}", "", part))
        return [(in_c(kind, name), name) for ghost, name, kind in found if not ghost and kind.strip() != "Global"]

    functions = {}
    for name, given, answer in re.findall(r"(?:pub|extern \"C\") fn (fx_\w+)\(([^()]*)\)\s*->\s*(\w+)", text):
        functions[name] = [(in_c(answer, ""), "")] + declared(given)
    structs = {}
    for name, body in re.findall(r"#\[repr\(C\)\]\s*(?:#\[[^\]]*\]\s*)*pub struct (\w+)(?:<[^>]*>)? \{(.*?)\n\}", text, re.DOTALL):
        for of in ["fx_house", "fx_seat", "fx_timers"] if name == "SeatHandle" else [STRUCTS.get(name, name)]:
            structs[of] = [(re.sub(r"^uint8_t \*$", "void *", kind), field) for kind, field in declared(body)]
    codes = {name: int(number.replace("_", "")) for name, number in re.findall(r"const (FX_\w+): u32 = ([\d_]+);", text)}
    for names, number in re.findall(r"^\s*((?:Code|Answer|Reason)::\w+(?:\(_\))?(?: \| Code::\w+)*) => (\d+),", text, re.MULTILINE):
        for kind, name in re.findall(r"(Code|Answer|Reason)::(\w+)", names):
            of = {"Code": "FX", "Answer": "FX_ANSWER", "Reason": "FX_REASON"}[kind]
            codes[(kind == "Code" and CODES.get(name)) or of + re.sub(r"([A-Z])", r"_\1", name).upper()] = int(number)
    return {"functions": functions, "structs": structs, "codes": codes}


def symbols_of(archive, flag="--defined-only"):
    said = subprocess.run(["nm", "-g", flag, archive], capture_output=True, text=True)
    return {line.split()[-1] for line in said.stdout.split("\n") if len(line.split()) == (3 if flag == "--defined-only" else 2)}


# By these the library asks for memory. The toolchain has them in C.
BY_C = {"rattle_alloc", "rattle_realloc", "rattle_dealloc"}


def differs(header, source, raw, symbols):
    """What of the header isn't so elsewhere, as lines."""
    found = []
    for name in sorted({*header["functions"], *source["functions"]}):
        if header["functions"].get(name) != source["functions"].get(name):
            found.append(f"{name}: the header has {header['functions'].get(name)}, and the crate {source['functions'].get(name)}")
    for name in sorted({*header["structs"], *source["structs"]}):
        if header["structs"].get(name) != source["structs"].get(name):
            found.append(f"{name}: the header has {header['structs'].get(name)}, and the crate {source['structs'].get(name)}")
    for part in ("functions", "structs", "codes"):
        for name in sorted({*header[part], *raw[part]}):
            if header[part].get(name) != raw[part].get(name):
                found.append(f"{name}: the header has {header[part].get(name)}, and raw.rs {raw[part].get(name)}")
    answered = as_crate(header)["codes"]
    for name in sorted({*answered, *source["codes"]}):
        if answered.get(name) != source["codes"].get(name):
            found.append(f"{name}: the header has {answered.get(name)}, and the crate {source['codes'].get(name)}")
    exported = symbols - BY_C
    for name in sorted(exported ^ set(header["functions"])):
        found.append(f"{name} stands in {'the archive' if name in exported else 'the header'} alone")
    return found


# The crate takes and tells these by their numbers, without a list of them. FX_NULL is told by the header alone.
NOT_IN_CRATE = r"FX_(STEP|MODE|KIND)_|\bFX_NULL$"


def as_crate(header):
    return {**header, "codes": {name: number for name, number in header["codes"].items() if not re.match(NOT_IN_CRATE, name)}}


def wrong_headers(header):
    for part in ("functions", "structs"):
        for name, parts in header[part].items():
            yield f"a header without {name}", {**header, part: {it: of for it, of in header[part].items() if it != name}}
            for place, (kind, parameter) in enumerate(parts):
                other = "uint64_t" if kind == "uint32_t" else "uint32_t"
                for wrong in ([(other, parameter)], [(kind, parameter + "_")], []):
                    yield f"{name} with another {parameter or 'answer'}", {**header, part: {**header[part], name: [*parts[:place], *wrong, *parts[place + 1 :]]}}
        yield "a header with more", {**header, part: {**header[part], "fx_more": []}}
    for name, number in header["codes"].items():
        yield f"another {name}", {**header, "codes": {**header["codes"], name: number + 1}}


# The rules for a host that no call tests: words of its row in docs/EMBEDDING.md, and what the top comment of the header says of it.
RULES = {
    "each pointer points to a value of its type": ["points to a value of its type, or to as many bytes as", "Two pointers of one call don't overlap"],
    "no pointer is null": ["With FX_NO_NULL_CHECKS no pointer is null"],
    "only one copy of it is used": ["A handle is empty, by FX_NO_CORE or its like, before its first call", "Only one copy of it is used"],
    "one call at a time on a handle": ["at most one call at a time runs on a handle"],
    "goes to another thread by": ["stands a lock, the start or the join of a thread, or a sequentially consistent atomic"],
    "the seats that a house is ended with": ["The seats that a house is ended with are its own"],
    "no call in a signal handler": ["No call may be made from a signal handler", "The forked child of a process with threads makes no call"],
    "aligns blocks to 16": ["malloc, realloc and free are of one allocator", "malloc aligns blocks to 16 bytes"],
    "what a job's number stands for": ["the call that answers FX_DONE or FX_BACK of it", "until the outcome by which the job comes back is redeemed"],
    "exceptions and panics": ["A run that an exception or a panic ends is settled"],
}


def top_of(header):
    """The first comment of the header, on one line."""
    return re.sub(r"\s*\n \*\s*", " ", header[: header.index("*/")])


def unsaid(page, top):
    """Which rules of the page the top comment doesn't say, as lines."""
    section = page[page.index("## Rules for the host") : page.index("## What is promised")]
    rows = [row for row, who in re.findall(r"^\| (.*) \| (.*) \|$", section, re.MULTILINE) if who.startswith("the host")]
    found = [f"{of}: no row of the page" for of in RULES if sum(of in row for row in rows) != 1]
    for row in rows:
        said = [words for of, words in RULES.items() if of in row]
        found += [f"{row}: the header doesn't say: {it}" for words in said for it in words if it not in top] if said else [f"{row}: no word of the header is known"]
    return found
