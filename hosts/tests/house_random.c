/*
 * A caller that picks its calls on houses and their numbers at random: house_random CALLS SEED. Often a call is one that is refused. It
 * prints each call with its numbers, what it was answered, and what it wrote; house_calls.py makes the same calls, and compares. Most houses have
 * two cores. In some the journals run full or the cores have all their queues, and in some notes are passed on, and their text is printed. A house
 * that is drained is ended, and its verdict and the text of its journals are printed.
 * A call that is refused and writes something all the same is printed as `wrote`, which no model answers. One that is handed a null stands behind
 * `null`.
 */
#include "fairexec.h"
#include "printed.h"
#include <inttypes.h>
#include <stdlib.h>

enum { MOST = 3, KEPT = 64 };

static fx_house house = FX_NO_HOUSE;
/* That of the outside actor stands behind those of the cores. */
static fx_seat seats[MOST + 1];
static fx_config config;
/* Names that each actor was given and didn't ask for yet, and how many; few others. */
static fx_name names[MOST + 1][KEPT];
static uint32_t given[MOST + 1];
/* Whether a job of a core runs, and whether somebody closes cores of this house early. */
static bool runs[MOST + 1], closes;
/* Whether notes of this house are passed on, and where their text goes. */
static bool passes;
static uint8_t text_bytes[1 << 24];

/* A number that is mostly in its range. */
static uint32_t about(uint32_t limit) {
    static const uint32_t far[] = {16, 17, 255, 256, 257, 65536, UINT32_MAX};
    return rarely(60) ? far[below(7)] : below(limit + (uint32_t)rarely(12));
}

static void submitted(uint32_t actor, uint32_t code, const fx_name *name) {
    PRINT(" = %" PRIu32 "%s", code, wrote(name, sizeof *name, code == FX_OK));
    if (code == FX_OK) {
        printf(" %" PRIu64 " %s", name->number, name->from == actor ? "" : "wrong");
        names[actor][given[actor] == KEPT ? below(KEPT) : given[actor]++] = *name;
    }
    printf("\n");
}

static fx_name any_name(uint32_t actor) {
    fx_name name;
    uint32_t of = rarely(20) ? below(config.cores + 1) : actor;
    memset(&name, 0, sizeof name);
    if (given[of] > 0 && !rarely(20)) name = names[of][below(given[of])];
    if (rarely(40)) name.number = rarely(2) ? 0 : any() >> below(64);
    if (rarely(60)) name.to = about(config.cores);
    if (rarely(60)) name.from = about(config.cores + 1);
    return name;
}

/* The outcome of a name was told. Some names stay, and are asked for again. */
static void forget(uint32_t actor, const fx_name *name) {
    for (uint32_t each = 0; each < given[actor]; each++) {
        fx_name *of = &names[actor][each];
        if (of->number == name->number && of->to == name->to && !rarely(12)) *of = names[actor][--given[actor]];
    }
}

static void order(uint32_t actor, uint32_t kind) {
    fx_name name, job = any_name(rarely(2) ? actor : below(config.cores + 1));
    uint32_t to = about(config.cores), queue = rarely(4) ? about(6) : below(2), mode = about(2), code;
    uint32_t shares = rarely(30) ? 10001 * below(2) : 1 + below(rarely(3) ? 10000 : 5);
    uint64_t number = any();
    poison(&name, sizeof name);
    switch (kind) {
    case 0:
        code = fx_seat_submit(at(&seats[actor]), to, queue, number, at(&name));
        TELL("job %" PRIu32 " %" PRIu32 " %" PRIu32 " %" PRIu64, actor, to, queue, number);
        break;
    case 1:
        code = fx_seat_create(at(&seats[actor]), to, shares, at(&name));
        TELL("create %" PRIu32 " %" PRIu32 " %" PRIu32, actor, to, shares);
        break;
    case 2:
        code = fx_seat_set_shares(at(&seats[actor]), to, queue, shares, at(&name));
        TELL("shares %" PRIu32 " %" PRIu32 " %" PRIu32 " %" PRIu32, actor, to, queue, shares);
        break;
    case 3:
        code = fx_seat_close_queue(at(&seats[actor]), to, queue, mode, at(&name));
        TELL("closequeue %" PRIu32 " %" PRIu32 " %" PRIu32 " %" PRIu32, actor, to, queue, mode);
        break;
    case 4:
        code = fx_seat_close_core(at(&seats[actor]), to, mode, at(&name));
        TELL("closecore %" PRIu32 " %" PRIu32 " %" PRIu32, actor, to, mode);
        break;
    default:
        code = fx_seat_wake(at(&seats[actor]), at(&job), at(&name));
        TELL("wake %" PRIu32 " %" PRIu32 " %" PRIu32 " %" PRIu64, actor, job.to, job.from, job.number);
        break;
    }
    submitted(actor, code, &name);
}

/* What a turn came to, and what it wrote. */
static void turned(uint32_t core, uint32_t code, const fx_turn *turn) {
    bool starts = code == FX_START || code == FX_RESUME;
    if (starts) runs[core] = true;
    printf(" %" PRIu32 " = %" PRIu32 "%s", turn->size != sizeof *turn, code, wrote((const char *)turn + sizeof turn->size, sizeof *turn - sizeof turn->size, starts || code == FX_BACK));
    if (starts || code == FX_BACK) printf(" %" PRIu32 " %" PRIu32 " %" PRIu64, turn->name.from, turn->name.to, turn->name.number);
    if (starts || code == FX_BACK) printf(" %" PRIu32 " %" PRIu64 " %" PRIu32, turn->queue, turn->job, turn->reason);
    printf("\n");
}

static uint32_t next(uint32_t core) {
    fx_turn turn;
    poison(&turn, sizeof turn);
    turn.size = rarely(200) ? 7 : sizeof turn;
    uint32_t code = fx_seat_next(at(&seats[core]), at(&turn));
    PRINT("next %" PRIu32, core);
    turned(core, code, &turn);
    return code;
}

/* Both in one call. If that is answered a turn or why there is none, the run is settled. */
static void step(uint32_t core, uint32_t came_to) {
    uint64_t answer = any(), spent = below(3000);
    fx_turn turn;
    poison(&turn, sizeof turn);
    turn.size = rarely(100) ? 7 : sizeof turn;
    uint32_t code = fx_seat_step(at(&seats[core]), came_to, answer, spent, at(&turn));
    if (code == FX_BACK || code == FX_IDLE || code == FX_JOURNAL_FULL) runs[core] = false;
    PRINT("step %" PRIu32 " %" PRIu32 " %" PRIu64 " %" PRIu64, core, came_to, answer, spent);
    turned(core, code, &turn);
}

static void settle(uint32_t core, uint32_t step) {
    uint64_t answer = any(), spent = rarely(20) ? any() >> below(64) : below(3000);
    uint32_t code = fx_seat_settle(at(&seats[core]), step, answer, spent);
    PRINT("settle %" PRIu32 " %" PRIu32 " %" PRIu64 " %" PRIu64 " = %" PRIu32 "\n", core, step, answer, spent, code);
    if (code == FX_OK || code == FX_DONE || code == FX_PARKED) runs[core] = false;
}

static void deliver(uint32_t core, uint32_t sender) {
    uint32_t code = fx_seat_deliver(at(&seats[core]), sender);
    PRINT("deliver %" PRIu32 " %" PRIu32 " = %" PRIu32 "\n", core, sender, code);
}

static void collect(uint32_t actor, uint32_t core) {
    uint64_t count = 0x5a5a5a5a5a5a5a5a;
    uint32_t code = fx_seat_collect(at(&seats[actor]), core, at(&count));
    PRINT("collect %" PRIu32 " %" PRIu32 " = %" PRIu32 "%s", actor, core, code, wrote(&count, sizeof count, code == FX_OK));
    if (code == FX_OK) printf(" %" PRIu64, count);
    printf("\n");
}

static void redeem(uint32_t actor) {
    fx_name name = any_name(actor);
    fx_outcome outcome;
    poison(&outcome, sizeof outcome);
    outcome.size = rarely(100) ? 7 : sizeof outcome;
    uint32_t code = fx_seat_redeem(at(&seats[actor]), at(&name), at(&outcome));
    PRINT("redeem %" PRIu32 " %" PRIu32 " %" PRIu32 " %" PRIu64 " %" PRIu32 " = %" PRIu32 "%s", actor, name.from, name.to, name.number, outcome.size != sizeof outcome, code,
          wrote((char *)&outcome + sizeof outcome.size, sizeof outcome - sizeof outcome.size, code == FX_OK));
    if (code == FX_OK || code == FX_GONE) forget(actor, &name);
    if (code == FX_OK) printf(" %" PRIu32 " %" PRIu32 " %" PRIu32 " %" PRIu64 " %" PRIu64, outcome.kind, outcome.why, outcome.queue, outcome.answer, outcome.job);
    printf("\n");
}

static void detach(uint32_t actor) {
    fx_name name = any_name(actor);
    uint32_t code = fx_seat_detach(at(&seats[actor]), at(&name));
    PRINT("detach %" PRIu32 " %" PRIu32 " %" PRIu32 " %" PRIu64 " = %" PRIu32 "\n", actor, name.from, name.to, name.number, code);
    if (code == FX_OK || code == FX_GONE) forget(actor, &name);
}

static void stats(uint32_t core) {
    fx_core_stats of;
    uint32_t queue = rarely(5) ? about(6) : below(2);
    fx_queue_stats q;
    poison(&of, sizeof of);
    poison(&q, sizeof q);
    of.size = rarely(50) ? 7 : sizeof of;
    q.size = rarely(50) ? 7 : sizeof q;
    uint32_t code = fx_seat_stats(at(&seats[core]), at(&of));
    PRINT("stats %" PRIu32 " %" PRIu32 " = %" PRIu32 "%s", core, of.size != sizeof of, code, wrote((char *)&of + sizeof of.size, sizeof of - sizeof of.size, code == FX_OK));
    if (code == FX_OK)
        printf(" %" PRIu32 " %" PRIu64 " %" PRIu64 " %" PRIu64 " %" PRIu64 " %" PRIu64 " %" PRIu32 " %" PRIu32, of.queues, of.room, of.held, of.turns, of.floor_low, of.floor_high, of.running, of.closed);
    printf("\n");
    code = fx_seat_stats_of_queue(at(&seats[core]), queue, at(&q));
    PRINT("statsofqueue %" PRIu32 " %" PRIu32 " %" PRIu32 " = %" PRIu32 "%s", core, queue, q.size != sizeof q, code, wrote((char *)&q + sizeof q.size, sizeof q - sizeof q.size, code == FX_OK));
    if (code == FX_OK)
        printf(" %" PRIu32 " %" PRIu64 " %" PRIu64 " %" PRIu64 " %" PRIu64 " %" PRIu64 " %" PRIu64 " %" PRIu64 " %" PRIu64, q.shares, q.picks, q.waiting, q.done, q.back, q.time_low, q.time_high, q.virtual_low, q.virtual_high);
    printf("\n");
}

static void tell(uint32_t actor) {
    uint32_t code = fx_seat_shows(at(&seats[actor]));
    PRINT("shows %" PRIu32 " = %" PRIu32 "\n", actor, code);
    code = fx_seat_drained(at(&seats[actor]));
    PRINT("drained %" PRIu32 " = %" PRIu32 "\n", actor, code);
}

static void shut(uint32_t core, uint32_t sender) {
    uint32_t code = fx_seat_shut(at(&seats[core]), sender);
    PRINT("shut %" PRIu32 " %" PRIu32 " = %" PRIu32 "\n", core, sender, code);
}

static void close_by_itself(uint32_t core, uint32_t mode) {
    uint32_t code = fx_seat_close(at(&seats[core]), mode);
    PRINT("close %" PRIu32 " %" PRIu32 " = %" PRIu32 "\n", core, mode, code);
}

static void print_text(const uint8_t *bytes, uint64_t count, bool *begins) {
    for (uint64_t each = 0; each < count; each++) {
        if (*begins) putchar('|');
        *begins = bytes[each] == '\n';
        putchar(bytes[each]);
    }
}

static void print_digits(const uint8_t *bytes, uint64_t count) {
    printf("|");
    for (uint64_t each = 0; each < count; each++) printf("%02x", bytes[each]);
    printf("\n");
}

/* The notes of an actor go on, to a buffer of any room, or of the room that a call told, or of one byte less. */
static void pass_on(uint32_t actor) {
    uint64_t count = 0;
    size_t room = below(3000), checked;
    bool begins = true;
    if (rarely(2)) {
        room = fx_seat_pass_on(&seats[actor], text_bytes, 0, &count) == FX_SHORT ? (size_t)count - (size_t)rarely(4) : 0;
        PRINT("passon %" PRIu32 " 0 = %d %" PRIu64 "\n", actor, count > 0 ? FX_SHORT : FX_OK, count);
    }
    checked = room < sizeof text_bytes - 100 ? room + 100 : room;
    poison(text_bytes, checked);
    count = 0x5a5a5a5a5a5a5a5a;
    uint32_t code = fx_seat_pass_on(at(&seats[actor]), at(text_bytes), room, at(&count));
    size_t from = code == FX_OK ? (size_t)count : 0;
    PRINT("passon %" PRIu32 " %zu = %" PRIu32 "%s%s", actor, room, code, wrote(text_bytes + from, checked - from, false), wrote(&count, sizeof count, code == FX_OK || code == FX_SHORT));
    if (code == FX_OK || code == FX_SHORT) printf(" %" PRIu64, count);
    printf("\n");
    if (code == FX_OK) print_text(text_bytes, count, &begins);
}

/* What came, as some of the newest notes say, or one anywhere. */
static void came(uint32_t actor, uint64_t kept) {
    for (uint64_t each = 0; each < 6; each++) {
        fx_name name;
        uint64_t place = rarely(20) ? any() >> below(64) : kept - each;
        poison(&name, sizeof name);
        uint32_t code = fx_seat_came(at(&seats[actor]), place, at(&name));
        PRINT("came %" PRIu32 " %" PRIu64 " = %" PRIu32 "%s", actor, place, code, wrote(&name, sizeof name, code == FX_OK));
        if (code == FX_OK) printf(" %" PRIu32 " %" PRIu32 " %" PRIu64, name.from, name.to, name.number);
        printf("\n");
    }
}

/* Notes of an actor are copied, as text or in bytes, from any place, to a buffer of any room. Those of a house that passes notes on are forgotten at times. */
static void copy(uint32_t actor) {
    uint64_t kept = 0x5a5a5a5a5a5a5a5a, free_notes = kept, count = kept, notes = kept;
    uint32_t code = fx_seat_notes(at(&seats[actor]), at(&kept), at(&free_notes));
    PRINT("notes %" PRIu32 " = %" PRIu32 "%s%s", actor, code, wrote(&kept, sizeof kept, code == FX_OK), wrote(&free_notes, sizeof free_notes, code == FX_OK));
    if (code == FX_OK) printf(" %" PRIu64 " %" PRIu64, kept, free_notes);
    printf("\n");
    came(actor, code == FX_OK ? kept : 9);
    uint64_t first = rarely(20) ? any() >> below(64) : below(code == FX_OK ? (uint32_t)kept + 2 : 9), most = rarely(20) ? any() >> below(64) : below(40);
    size_t room = rarely(3) ? below(400) : 4000, checked = room + 100;
    bool begins = true;
    poison(text_bytes, checked);
    bool in_bytes = rarely(2);
    uint64_t before = in_bytes ? any() >> below(64) : 0;
    code = in_bytes ? fx_seat_copy_bytes(at(&seats[actor]), before, first, most, at(text_bytes), room, at(&count), at(&notes))
                    : fx_seat_copy(at(&seats[actor]), first, most, at(text_bytes), room, at(&count), at(&notes));
    size_t from = code == FX_OK ? (size_t)count : 0;
    if (in_bytes) PRINT("copybytes %" PRIu32 " %" PRIu64, actor, before);
    else PRINT("copy %" PRIu32, actor);
    printf(" %" PRIu64 " %" PRIu64 " %zu = %" PRIu32 "%s%s%s", first, most, room, code, wrote(text_bytes + from, checked - from, false),
           wrote(&count, sizeof count, code == FX_OK || code == FX_SHORT), wrote(&notes, sizeof notes, code == FX_OK));
    if (code == FX_OK || code == FX_SHORT) printf(" %" PRIu64, count);
    if (code == FX_OK) printf(" %" PRIu64, notes);
    printf("\n");
    if (code == FX_OK) in_bytes ? print_digits(text_bytes, count) : print_text(text_bytes, count, &begins);
    if (!passes || !rarely(3)) return;
    count = 0x5a5a5a5a5a5a5a5a;
    code = fx_seat_forget(at(&seats[actor]), at(&count));
    PRINT("forget %" PRIu32 " = %" PRIu32 "%s", actor, code, wrote(&count, sizeof count, code == FX_OK));
    if (code == FX_OK) printf(" %" PRIu64, count);
    printf("\n");
}

static void any_call(void) {
    uint32_t actor = below(config.cores + 1), core = below(config.cores), kind = below(1000);
    if (rarely(100)) core = config.cores; /* the outside actor has no core */
    if (passes && rarely(config.notes < 400 ? 30 : 300)) pass_on(actor);
    if (rarely(config.notes < 400 ? 60 : 600)) copy(actor);
    if (kind < 60 && runs[core] == !rarely(40)) step(core, rarely(50) ? 3 + below(9) : rarely(3) ? below(3) : FX_STEP_DONE);
    else if (kind < 300) runs[core] == !rarely(40) ? settle(core, rarely(50) ? 3 + below(9) : rarely(3) ? below(3) : FX_STEP_DONE) : (void)next(core);
    else if (kind < 500) deliver(core, about(config.cores + 1));
    else if (kind < 580) collect(actor, about(config.cores));
    else if (kind < 700) order(actor, 0);
    else if (kind < 760) order(actor, 5);
    else if (kind < 940) redeem(actor);
    else if (kind < 955) detach(actor);
    else if (kind < 970) stats(core);
    else if (kind < 980) tell(actor);
    else if (kind < 990) order(actor, 1 + below(2));
    else if (kind < 995) shut(core, about(config.cores + 1));
    else if (closes && rarely(4)) order(actor, 3 + (uint32_t)rarely(6));
    else if (closes && rarely(20)) close_by_itself(core, about(2));
}

/* Closes all cores, and makes their rounds until they are drained or their journals are full. */
static void drain(void) {
    for (uint32_t core = 0; core < config.cores; core++) close_by_itself(core, below(2));
    for (uint32_t round = 0; round < 60; round++) {
        for (uint32_t core = 0; core < config.cores; core++) {
            for (uint32_t sender = 0; sender <= config.cores; sender++) {
                shut(core, sender);
                deliver(core, sender);
                if (rarely(3)) order(sender, 5);
            }
            uint32_t code = next(core);
            for (uint32_t each = 0; each < 8 && code != FX_IDLE && code != FX_JOURNAL_FULL; each++) {
                settle(core, FX_STEP_DONE);
                code = next(core);
            }
            settle(core, FX_STEP_DONE);
            if (code == FX_JOURNAL_FULL && round > 4) return;
        }
        for (uint32_t actor = 0; actor <= config.cores; actor++) {
            if (passes && config.notes < 400) pass_on(actor);
            for (uint32_t core = 0; core < config.cores; core++) collect(actor, core);
        }
        bool ended = round > 20;
        for (uint32_t core = 0; core < config.cores; core++) ended = fx_seat_drained(&seats[core]) == FX_OK && ended;
        if (ended) return;
        if (round == 30)
            for (uint32_t core = 0; core < config.cores; core++) close_by_itself(core, FX_MODE_RETURN);
    }
}

static void text(void) {
    static uint8_t bytes[1000];
    uint64_t count = 0, from = 0;
    size_t room = 0;
    bool begins = true;
    do {
        room = 1 + below(sizeof bytes);
        if (fx_house_text(&house, from, bytes, room, &count) != FX_OK) return;
        print_text(bytes, count, &begins);
        from += count;
    } while (count == room);
}

static uint32_t end_of(uint32_t actor) {
    uint32_t code = fx_house_end(at(&house), at(&seats[actor]));
    PRINT("end %" PRIu32 " = %" PRIu32 "\n", actor, code);
    return code == FX_NULL ? end_of(actor) : code;
}

static void audit(void) {
    fx_verdict verdict;
    poison(&verdict, sizeof verdict);
    verdict.size = rarely(20) ? 7 : sizeof verdict;
    uint32_t code = fx_house_audit(at(&house), at(&verdict));
    PRINT("audit %" PRIu32 " = %" PRIu32 "%s", verdict.size != sizeof verdict, code, wrote((char *)&verdict + sizeof verdict.size, sizeof verdict - sizeof verdict.size, code == FX_OK));
    if (code == FX_OK) printf(" %" PRIu32 " %" PRIu32, verdict.sound, verdict.rule);
    printf("\n");
}

/* The journals come back one by one, and are judged. */
static void end(void) {
    bool all_ended = true;
    for (uint32_t actor = 0; passes && rarely(2) && actor <= config.cores; actor++) pass_on(actor);
    few = 10;
    for (uint32_t actor = 0; actor <= config.cores; actor++) {
        uint32_t other = rarely(4) ? below(config.cores + 1) : actor;
        if (other != actor) end_of(other);
        audit();
        all_ended = end_of(actor) == FX_OK && all_ended;
    }
    for (uint32_t each = 0; each < 3; each++) audit();
    if (all_ended) {
        uint64_t count = 0;
        uint32_t code = fx_house_text(at(&house), 0, at(text_bytes), 1, at(&count));
        if (code == FX_NULL) PRINT("text = %" PRIu32 "\n", code);
        PRINT("text = %d\n", FX_OK);
        text();
    }
    for (uint32_t actor = 0, code = FX_OK; actor <= config.cores; actor += code != FX_NULL) {
        code = fx_seat_free(at(&seats[actor]));
        PRINT("leave %" PRIu32 " = %" PRIu32 "\n", actor, code);
    }
    while (house.at != NULL) {
        uint32_t code = fx_house_free(at(&house));
        PRINT("free = %" PRIu32 "\n", code);
    }
    few = 150;
}

static void open(void) {
    memset(&config, 0, sizeof config);
    config.size = rarely(20) ? 7 : sizeof config;
    config.cores = rarely(10) ? about(4) : 2;
    if (config.cores > MOST) config.cores = 17;
    config.places = rarely(20) ? 1025 * below(2) : 1 + below(rarely(3) ? 40 : 6);
    config.burst = rarely(20) ? 65 * below(2) : 1 + below(rarely(2) ? 8 : 1);
    config.notes = rarely(40) ? (1u << 24) + 1 : rarely(3) ? below(400) : 200000;
    uint32_t code = fx_house_open(at(&house), at(&config));
    PRINT("open %" PRIu32 " %" PRIu32 " %" PRIu32 " %" PRIu32 " %" PRIu32 " = %" PRIu32 "\n", config.size != sizeof config, config.cores, config.places, config.burst, config.notes, code);
}

/* All seats, and then none. */
static void take(void) {
    for (uint32_t code = FX_OK; code == FX_OK || code == FX_NULL;) {
        fx_seat taken = FX_NO_SEAT;
        uint32_t actor = MOST;
        code = fx_house_take(at(&house), at(&taken), at(&actor));
        PRINT("take = %" PRIu32, code);
        if (code == FX_OK) {
            printf(" %" PRIu32, actor);
            seats[actor] = taken;
        }
        printf("\n");
    }
    memset(given, 0, sizeof given);
    memset(runs, 0, sizeof runs);
    closes = rarely(3);
    passes = rarely(2);
}

/* Orders for more queues than a core has. */
static void many_queues(void) {
    for (uint32_t each = 0; each < 320 * config.cores; each++) {
        order(config.cores, 1);
        for (uint32_t core = 0; core < config.cores; core++) {
            deliver(core, config.cores);
            collect(config.cores, core);
        }
        for (uint32_t twice = 0; twice < 2; twice++) redeem(config.cores);
    }
}

int main(int count, char **words) {
    uint64_t all = count > 1 ? strtoull(words[1], NULL, 10) : 1000000;
    state = count > 2 ? strtoull(words[2], NULL, 10) : 88172645463325252u;
    uint32_t houses = 0;
    while (calls < all) {
        open();
        if (house.at == NULL) continue;
        take();
        if (config.notes >= 200000 && houses++ % 20 == 0) many_queues();
        for (uint64_t until = calls + (config.notes < 400 ? 8 * config.notes : rarely(10) ? 20000 : 2500); calls < until && calls < all;) any_call();
        drain();
        end();
    }
    return 0;
}
