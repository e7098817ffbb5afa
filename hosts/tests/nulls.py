#!/usr/bin/env python3
"""Makes hosts/c/fairexec_null.h from hosts/c/fairexec.h: a test of the pointers of each call. tests/hosts compares what it makes with what stands there.

  nulls.py           writes hosts/c/fairexec_null.h
  nulls.py --caller  prints a caller in C that hands null to each pointer of each call, which tests/hosts compiles and runs
"""
import re
import sys
from pathlib import Path

sys.path.insert(0, str(Path(__file__).resolve().parent))
from declared import of_c

C = Path(__file__).resolve().parent.parent / "c"

TOP = """/*
 * fairexec_null.h: what fairexec.h includes at its end, and nobody else does. Made by hosts/tests/nulls.py.
 *
 * Behind it the name of each call that takes a pointer stands for the same call with a test of its pointers: if one is null, FX_NULL is
 * answered, and the library isn't called. Where the compiler sees that a pointer isn't null, as of `&core`, it leaves that test out.
 */
#ifndef FAIREXEC_NULL_H
#define FAIREXEC_NULL_H
"""


def pointers(parts):
    """The parameters of a function that are pointers, in their order."""
    return [name for kind, name in parts[1:] if kind.endswith("*")]


def calls(text):
    """The functions of the header that take a pointer, each with its parameters. Each has to refuse null, and to answer a code: no other answer tells of a null."""
    found = {name: parts for name, parts in of_c(text)["functions"].items() if pointers(parts)}
    marked = set(re.findall(r"^uint32_t (fx_\w+)\([^()]*\) FX_NOT_NULL;", text, re.MULTILINE))
    if marked != set(found):
        raise ValueError(f"these take a pointer without FX_NOT_NULL, or have it without a pointer, or answer no code: {sorted(marked ^ set(found))}")
    return found


def checked(name, parts):
    given = ", ".join(kind + name if kind.endswith("*") else f"{kind} {name}" for kind, name in parts[1:])
    other = name.replace("fx_", "fx_checked_", 1)
    return f"""
static inline uint32_t {other}({given}) {{
    if ({' || '.join('!' + it for it in pointers(parts))}) return FX_NULL;
    return {name}({', '.join(it for _, it in parts[1:])});
}}
#define {name} {other}
"""


def header_of(text):
    return TOP + "".join(checked(name, parts) for name, parts in calls(text).items()) + "\n#endif\n"


# What the caller hands in beside a null: with these numbers and places, and at its stage (nulls.h), a call without a null does something.
NUMBERS = {"jobs": "4", "shares": "100", "queue": "0", "job": "7", "order": "1", "step": "FX_STEP_YIELD", "spent": "1", "mode": "FX_MODE_RETURN", "from": "0", "room": "sizeof here.bytes",
           "answer": "1", "before": "0", "sender": "0", "core": "0", "to": "0", "most": "9", "place": "5", "time": "9", "now": "9"}
PLACES = {"fx_core *": "&here.core", "fx_house *": "&here.house", "fx_seat *": "seat", "const fx_config *": "&here.config", "const fx_name *": "&here.job",
          "fx_core_stats *": "&here.core_stats", "fx_queue_stats *": "&here.queue_stats", "fx_turn *": "&here.turn", "fx_outcome *": "&here.outcome", "fx_name *": "&here.name",
          "fx_verdict *": "&here.verdict", "fx_timers *": "&here.timers", "uint32_t *": "&here.number", "uint64_t *": "&here.count", "uint8_t *": "here.bytes"}
# A second number of a call has a place of its own.
SECOND = {"free_notes": "&here.second", "notes": "&here.second"}
# The timers of a seat, which the calls on one take.
OF_SEAT = {"fx_timers *": "&here.seat_timers"}
STAGES = {"fx_open": "VACANT", "fx_house_open": "VACANT", "fx_house_take": "UNTAKEN", "fx_settle": "RUNNING", "fx_seat_settle": "RUNNING", "fx_seat_step": "RUNNING", "fx_seat_next": "DELIVERED",
          "fx_seat_redeem": "COLLECTED", "fx_seat_came": "COLLECTED", "fx_seat_shut": "CLOSED", "fx_seat_drained": "DRAINED", "fx_house_end": "DRAINED", "fx_house_audit": "ENDED", "fx_house_text": "ENDED",
          "fx_timers_open": "VACANT", "fx_settle_until": "RUNNING", "fx_seat_settle_until": "RUNNING", "fx_next_time": "ASLEEP", "fx_wake_due": "ASLEEP", "fx_seat_wake_due": "ASLEEP"}


def caller_of(text):
    """A caller in C: each call with null at each of its pointers, at each two of them and so on, and at last with none."""
    lines = ['#include "nulls.h"', "", "int main(void) {"]
    for name, parts in calls(text).items():
        of = pointers(parts)
        places = {**PLACES, **OF_SEAT} if name.startswith("fx_seat_") else PLACES
        lines.append(f"    begin({STAGES.get(name, 'SUBMITTED')});")
        for nulls in [*range(1, 2 ** len(of)), 0]:
            given = ["NULL" if it in of and nulls >> of.index(it) & 1 else SECOND.get(it) or places[kind] if it in of else NUMBERS[it] for kind, it in parts[1:]]
            lines.append(f"    {'NULLS' if nulls else 'TAKES'}({name}({', '.join(given)}));")
        lines.append("    end();")
    lines += [f"    is(\"each call that takes a pointer\", made, {len(calls(text))});", '    printf("%u passed, %u failed\\n", passed, failed);', "    return failed != 0;", "}", ""]
    return "\n".join(lines)


if __name__ == "__main__":
    header = (C / "fairexec.h").read_text()
    if sys.argv[1:] == ["--caller"]:
        print(caller_of(header), end="")
    else:
        (C / "fairexec_null.h").write_text(header_of(header))
