/*
 * What becomes of the notes of an actor: they are passed on, copied as text or in bytes, counted and forgotten, into too little room, of notes that there
 * aren't, and of a house that is gone. Each call answers the code that fairexec.h names, and a refused one changes nothing.
 * The last line is 'N passed, M failed', and the status is 0 if nothing failed.
 */
#include "house_checks.h"

/* Notes go on as a whole or not at all, at any time: then all places of the journal are free. */
static void passing(void) {
    static const char wanted[] = "0 took 2>0#1 q0\n0 pick q0 at 0\n0 start 2>0#1\n";
    enum { LONG = sizeof wanted - 1 };
    all of = opened(2, 1, 4);
    fx_seat *core = &of.seats[0], *outside = &of.seats[OUTSIDE];
    uint8_t bytes[200];
    fx_name name;
    poison();
    memset(bytes, POISON, sizeof bytes);
    IS(fx_seat_pass_on(core, bytes, 0, &out.count), FX_OK);
    is("no note has no text", (uint32_t)out.count, 0);
    IS(fx_seat_submit(outside, 0, 0, 7, &name), FX_OK);
    IS(fx_seat_deliver(core, OUTSIDE), FX_OK);
    REFUSES(&of, fx_seat_next(core, &out.turn), FX_JOURNAL_FULL);
    IS(fx_seat_pass_on(core, bytes, sizeof bytes, &out.count), FX_OK);
    is("a journal that was full has room", (uint32_t)out.count, 16);
    IS(fx_seat_next(core, &out.turn), FX_START);
    REFUSES(&of, fx_seat_pass_on(core, bytes + 16, LONG - 17, &out.count), FX_SHORT);
    is("the wanted room is told", (uint32_t)out.count, LONG - 16);
    is("and nothing else is written", bytes[16] == POISON && bytes[LONG - 1] == POISON, 1);
    out.count = 7;
    REFUSES(&of, fx_seat_pass_on(core, bytes + 16, 0, &out.count), FX_SHORT);
    is("also of no room", (uint32_t)out.count, LONG - 16);
    IS(fx_seat_pass_on(core, bytes + 16, LONG - 16, &out.count), FX_OK);
    is("while a job runs", (uint32_t)out.count == LONG - 16 && memcmp(bytes, wanted, LONG) == 0 && bytes[LONG] == POISON, 1);
    IS(fx_seat_settle(core, FX_STEP_DONE, 1, 1), FX_DONE);
    IS(fx_seat_pass_on(outside, bytes, sizeof bytes, &out.count), FX_OK);
    is("the outside actor hands on, too", (uint32_t)out.count == 20 && memcmp(bytes, "2 sent 2>0#1 job q0\n", 20) == 0, 1);
    freed(&of);
}

static void has_notes(fx_seat *seat, uint32_t kept, uint32_t free_notes) {
    IS(fx_seat_notes(seat, &out.count, &out.second), FX_OK);
    is("so many notes are kept", (uint32_t)out.count, kept);
    is("and so many are free", (uint32_t)out.second, free_notes);
}

/* A piece of so many notes, whose text is this. */
static void copies(fx_seat *seat, uint64_t from, uint64_t most, uint32_t notes, const char *text) {
    uint8_t bytes[200];
    size_t long_ = strlen(text);
    memset(bytes, POISON, sizeof bytes);
    IS(fx_seat_copy(seat, from, most, bytes, long_, &out.count, &out.second), FX_OK);
    is("a piece has its notes", out.count == long_ && out.second == notes, 1);
    is("and their text alone", memcmp(bytes, text, long_) == 0 && bytes[long_] == POISON, 1);
}

/* A part in bytes of so many notes: its head and its notes are these, and behind them stand their sums. */
static void copies_bytes(fx_seat *seat, uint64_t before, uint64_t from, uint64_t most, uint32_t notes, const uint8_t *part, size_t long_) {
    uint8_t bytes[200];
    uint64_t sums[2] = {0, 0};
    memset(bytes, POISON, sizeof bytes);
    IS(fx_seat_copy_bytes(seat, before, from, most, bytes, long_ + 16, &out.count, &out.second), FX_OK);
    is("a part has its notes", out.count == long_ + 16 && out.second == notes, 1);
    is("its head and their bytes", memcmp(bytes, part, long_) == 0 && bytes[long_ + 16] == POISON, 1);
    for (size_t each = 0; each < long_; each++) sums[1] += sums[0] += bytes[each];
    for (size_t each = 0; each < 16; each++) is("and its sums", bytes[long_ + each], (uint8_t)(sums[each / 8] >> (8 * (each % 8))));
}

/* Notes are copied piece by piece, or not at all, and forgotten: then all places of the journal are free. */
static void copying(void) {
    all of = opened(2, 1, 5);
    fx_seat *core = &of.seats[0], *outside = &of.seats[OUTSIDE];
    uint8_t bytes[200];
    fx_name name;
    poison();
    has_notes(core, 0, 5);
    copies(core, 0, 9, 0, "");
    IS(fx_seat_submit(outside, 0, 0, 7, &name), FX_OK);
    IS(fx_seat_deliver(core, OUTSIDE), FX_OK);
    IS(fx_seat_next(core, &out.turn), FX_START);
    has_notes(core, 3, 2);
    copies(core, 0, 1, 1, "0 took 2>0#1 q0\n");
    copies(core, 1, 1, 1, "0 pick q0 at 0\n");
    copies(core, 2, 9, 1, "0 start 2>0#1\n");
    copies(core, 3, 9, 0, "");
    copies(core, 1, UINT64_MAX, 2, "0 pick q0 at 0\n0 start 2>0#1\n");
    copies(core, 0, 0, 0, "");
    copies(core, UINT64_MAX, UINT64_MAX, 0, "");
    out.second = 7;
    memset(bytes, POISON, sizeof bytes);
    REFUSES(&of, fx_seat_copy(core, 0, 2, bytes, 30, &out.count, &out.second), FX_SHORT);
    is("the wanted room is told, and nothing else", out.count == 31 && out.second == 7 && bytes[0] == POISON, 1);
    has_notes(core, 3, 2);
    /* Three notes: took 2>0#1 q0, pick q0 at 0, start 2>0#1. */
    copies_bytes(core, 0x0102, 0, 9, 3, (const uint8_t *)"fxp1\0\2\1\0\0\0\0\0\0\3\0\0\0\0\0\0\0\51\0\0\0\0\0\0\0"
        "\1\2\0\1\0\0\0\0\0\0\0\0" "\11\0\0\0\0\0\0\0\0\0\0\0\0\0\0\0\0\0" "\12\2\0\1\0\0\0\0\0\0\0", 70);
    copies_bytes(core, UINT64_MAX, 2, UINT64_MAX, 1, (const uint8_t *)"fxp1\0\377\377\377\377\377\377\377\377\1\0\0\0\0\0\0\0\13\0\0\0\0\0\0\0"
        "\12\2\0\1\0\0\0\0\0\0\0", 40);
    copies_bytes(core, 3, UINT64_MAX, 9, 0, (const uint8_t *)"fxp1\0\3\0\0\0\0\0\0\0\0\0\0\0\0\0\0\0\0\0\0\0\0\0\0\0", 29);
    out.second = 7;
    memset(bytes, POISON, sizeof bytes);
    REFUSES(&of, fx_seat_copy_bytes(core, 0, 0, 2, bytes, 74, &out.count, &out.second), FX_SHORT);
    is("the wanted room is told, and nothing else", out.count == 75 && out.second == 7 && bytes[0] == POISON, 1);
    has_notes(core, 3, 2);
    REFUSES(&of, fx_seat_forget(core, &out.count), FX_OK);
    is("while a job runs three are forgotten", (uint32_t)out.count, 3);
    has_notes(core, 0, 5);
    IS(fx_seat_settle(core, FX_STEP_DONE, 1, 1), FX_DONE);
    copies(core, 0, 9, 1, "0 done 2>0#1 1 = 1\n");
    copies(outside, 0, 9, 1, "2 sent 2>0#1 job q0\n");
    copies_bytes(outside, 0, 0, 9, 1, (const uint8_t *)"fxp1\2\0\0\0\0\0\0\0\0\1\0\0\0\0\0\0\0\15\0\0\0\0\0\0\0" "\0\2\0\1\0\0\0\0\0\0\0\0\0", 42);
    IS(fx_seat_forget(outside, &out.count), FX_OK);
    is("the outside actor forgets, too", (uint32_t)out.count, 1);
    has_notes(outside, 0, 5);
    IS(fx_seat_forget(outside, &out.count), FX_OK);
    is("and has nothing to forget then", (uint32_t)out.count, 0);
    freed(&of);
}

/* Copies into too little room, of notes that there aren't, and of a house that is gone. */
static void wrong_copies(void) {
    all of = opened(2, 1, 20);
    fx_seat *core = &of.seats[0], *outside = &of.seats[OUTSIDE];
    uint8_t bytes[200];
    fx_name name;
    memset(bytes, POISON, sizeof bytes);
    IS(fx_seat_submit(outside, 0, 0, 7, &name), FX_OK);
    IS(fx_seat_deliver(core, OUTSIDE), FX_OK);
    poison();
    REFUSES(&of, fx_seat_copy(core, 0, UINT64_MAX, bytes, 0, &out.count, &out.second), FX_SHORT);
    is("no room is too little for a note", (uint32_t)out.count, 16);
    REFUSES(&of, fx_seat_copy_bytes(core, 0, 0, UINT64_MAX, bytes, 0, &out.count, &out.second), FX_SHORT);
    is("and for a part", (uint32_t)out.count, 45 + 12);
    REFUSES(&of, fx_seat_copy_bytes(core, 0, 1, 9, bytes, 44, &out.count, &out.second), FX_SHORT);
    is("also for one of no notes", (uint32_t)out.count, 45);
    out.count = (uint64_t)POISON * (UINT64_MAX / 255);
    is_poisoned();
    REFUSES(&of, fx_seat_copy(core, 1, 9, bytes, 0, &out.count, &out.second), FX_OK);
    is("but enough for no note", out.count == 0 && out.second == 0, 1);
    for (size_t each = 0; each < sizeof bytes; each++) is("nothing was written", bytes[each], POISON);
    has_notes(core, 1, 19);
    IS(fx_seat_forget(core, &out.count), FX_OK);
    copies(core, 1, 9, 0, "");
    /* A house that is freed leaves its seats what they have. */
    IS(fx_house_free(&of.house), FX_OK);
    has_notes(outside, 1, 19);
    copies(outside, 0, 9, 1, "2 sent 2>0#1 job q0\n");
    IS(fx_seat_forget(outside, &out.count), FX_OK);
    for (int each = 0; each < 3; each++) IS(fx_seat_free(&of.seats[each]), FX_OK);
    for (int each = 0; each < 3; each++) empty(&of.seats[each]);
}

/* Outcomes come in another order than jobs were submitted in, and each is redeemed by its name, with no other ticket tried. */
static void came(void) {
    all of = opened(4, 1, 100);
    fx_seat *core = &of.seats[0], *outside = &of.seats[OUTSIDE];
    const uint64_t order[] = {2, 3, 4, 1};
    uint64_t count = 0, kept = 0;
    fx_name names[4];
    poison();
    for (uint64_t each = 0; each < 4; each++) IS(fx_seat_submit(outside, 0, 0, each + 1, &names[each]), FX_OK);
    IS(fx_seat_detach(outside, &names[3]), FX_OK);
    for (int each = 0; each < 4; each++) IS(fx_seat_deliver(core, OUTSIDE), FX_OK);
    for (int each = 0; each < 5; each++) {
        /* The first job yields, and ends last. */
        out.turn.size = sizeof out.turn;
        IS(fx_seat_next(core, &out.turn), each == 4 ? FX_RESUME : FX_START);
        IS(fx_seat_settle(core, each == 0 ? FX_STEP_YIELD : FX_STEP_DONE, 10 * out.turn.job, 1), each == 0 ? FX_OK : FX_DONE);
    }
    IS(fx_seat_notes(outside, &kept, &out.second), FX_OK);
    poison();
    REFUSES(&of, fx_seat_came(outside, kept, &out.name), FX_ABSENT);
    REFUSES(&of, fx_seat_came(outside, kept - 1, &out.name), FX_ABSENT);
    IS(fx_seat_collect(outside, 0, &count), FX_OK);
    is("four came", (uint32_t)count, 4);
    REFUSES(&of, fx_seat_came(outside, kept + count, &out.name), FX_ABSENT);
    REFUSES(&of, fx_seat_came(outside, UINT64_MAX, &out.name), FX_ABSENT);
    REFUSES(&of, fx_seat_came(core, 0, &out.name), FX_ABSENT);
    is_poisoned();
    for (uint64_t each = 0; each < count; each++) {
        fx_name name = {0, 0, 0};
        IS(fx_seat_came(outside, kept + each, &name), FX_OK);
        is("the next that came", name.number == order[each] && name.from == OUTSIDE && name.to == 0, 1);
        /* The one that was let go is told, too. Each redemption is a note behind them. */
        IS(fx_seat_redeem(outside, &name, &out.outcome), name.number == 4 ? FX_GONE : FX_OK);
        if (name.number != 4) is("has its outcome", (uint32_t)out.outcome.answer, (uint32_t)(10 * order[each]));
    }
    IS(fx_seat_forget(outside, &out.count), FX_OK);
    poison();
    REFUSES(&of, fx_seat_came(outside, kept, &out.name), FX_ABSENT);
    is_poisoned();
    freed(&of);
}

int main(void) {
    passing();
    came();
    copying();
    wrong_copies();
    printf("%u passed, %u failed\n", passed, failed);
    return failed != 0;
}
