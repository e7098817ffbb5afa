/*
 * Calls on a house out of order, twice, on empty handles, on a house that has ended, on a core whose job runs, on the outside actor, and with
 * numbers at their limits: each answers the code that fairexec.h names, and a refused one changes nothing, by all counts of the core, by what
 * the links show, and by what its pointers point to. Houses that end with the seats of others, and what their audits and texts say.
 * The last line is 'N passed, M failed', and the status is 0 if nothing failed.
 */
#include "house_checks.h"

static void empty_house(fx_house *house) {
    fx_seat seat = FX_NO_SEAT;
    fx_verdict verdict = {7, 7, 7, 7, 7};
    uint8_t byte = POISON;
    uint32_t actor = POISON;
    uint64_t count = POISON;
    IS(fx_house_take(house, &seat, &actor), FX_EMPTY);
    IS(fx_house_end(house, &seat), FX_EMPTY);
    IS(fx_house_audit(house, &verdict), FX_EMPTY);
    IS(fx_house_text(house, 0, &byte, 1, &count), FX_EMPTY);
    IS(fx_house_free(house), FX_EMPTY);
    is("an empty house writes nothing", actor == POISON && byte == POISON && count == POISON && verdict.sound == 7 && seat.at == NULL, 1);
}

static void opening(void) {
    static const uint32_t bad[][4] = {{0, 1, 1, 9}, {17, 1, 1, 9}, {UINT32_MAX, 1, 1, 9}, {257, 1, 1, 9}, {1, 0, 1, 9}, {1, 1025, 1, 9}, {1, 65537, 1, 9},
                                      {1, 1, 0, 9}, {1, 1, 65, 9}, {1, 1, 257, 9}, {1, 1, 1, (1u << 24) + 1}, {1, 1, 1, UINT32_MAX}};
    fx_house house = FX_NO_HOUSE;
    fx_seat seats[17], more = FX_NO_SEAT;
    fx_config config = config_of(1, 1, 1, 9);
    uint32_t actor = POISON;
    memset(seats, 0, sizeof seats);
    empty_house(&house);
    empty(&more);
    config.size--;
    IS(fx_house_open(&house, &config), FX_BAD_NUMBER);
    for (size_t each = 0; each < sizeof bad / sizeof *bad; each++) {
        config = config_of(bad[each][0], bad[each][1], bad[each][2], bad[each][3]);
        IS(fx_house_open(&house, &config), FX_BAD_NUMBER);
    }
    empty_house(&house);
    config = config_of(16, 1024, 64, 0);
    IS(fx_house_open(&house, &config), FX_OK);
    IS(fx_house_open(&house, &config), FX_OCCUPIED);
    config.cores = 0;
    IS(fx_house_open(&house, &config), FX_OCCUPIED);
    IS(fx_house_take(&house, &seats[16], &actor), FX_OK);
    is("the outside actor comes first", actor, 16);
    actor = POISON;
    IS(fx_house_take(&house, &seats[16], &actor), FX_OCCUPIED);
    is("a seat that is occupied tells no number", actor, POISON);
    IS(fx_house_take(&house, &seats[15], &actor), FX_OK);
    is("then the last core", actor, 15);
    IS(fx_house_end(&house, &seats[15]), FX_NO_ACTOR);
    IS(fx_house_end(&house, &more), FX_EMPTY);
    for (uint32_t left = 15; left > 0; left--) IS(fx_house_take(&house, &seats[left - 1], &actor), FX_OK);
    is("core 0 comes last", actor, 0);
    actor = POISON;
    IS(fx_house_take(&house, &more, &actor), FX_ABSENT);
    is("no more seats tell no number", actor == POISON && more.at == NULL, 1);
    for (int each = 0; each < 17; each++) IS(fx_seat_free(&seats[each]), FX_OK);
    empty(&seats[3]);
    IS(fx_house_free(&house), FX_OK);
    empty_house(&house);
    /* A house may be freed before its seats are taken, and before those that were. */
    config = config_of(2, 2, 1, 9);
    IS(fx_house_open(&house, &config), FX_OK);
    IS(fx_house_take(&house, &seats[2], &actor), FX_OK);
    IS(fx_house_free(&house), FX_OK);
    IS(fx_seat_shows(&seats[2]), FX_IDLE);
    IS(fx_seat_free(&seats[2]), FX_OK);
}

/* Numbers of cores, queues, shares, modes, actors and sizes that there aren't. */
static void numbers(void) {
    all of = opened(2, 1, 100);
    fx_seat *core = &of.seats[0], *outside = &of.seats[OUTSIDE];
    no_core(outside);
    for (int each = 0; each < 3; each++) {
        fx_seat *seat = &of.seats[each];
        fx_name job = {1, 256, 0};
        REFUSES(&of, fx_seat_submit(seat, 2, 0, 1, &out.name), FX_UNKNOWN_CORE);
        REFUSES(&of, fx_seat_submit(seat, UINT32_MAX, 0, 1, &out.name), FX_UNKNOWN_CORE);
        REFUSES(&of, fx_seat_submit(seat, 256, 0, 1, &out.name), FX_UNKNOWN_CORE);
        REFUSES(&of, fx_seat_submit(seat, 2, 256, 1, &out.name), FX_NO_QUEUE);
        REFUSES(&of, fx_seat_submit(seat, 0, UINT32_MAX, 1, &out.name), FX_NO_QUEUE);
        REFUSES(&of, fx_seat_create(seat, 2, 0, &out.name), FX_BAD_SHARES);
        REFUSES(&of, fx_seat_create(seat, 0, 10001, &out.name), FX_BAD_SHARES);
        REFUSES(&of, fx_seat_create(seat, 0, 65536 + 100, &out.name), FX_BAD_SHARES);
        REFUSES(&of, fx_seat_create(seat, 2, 10000, &out.name), FX_UNKNOWN_CORE);
        REFUSES(&of, fx_seat_set_shares(seat, 0, 256, 0, &out.name), FX_BAD_SHARES);
        REFUSES(&of, fx_seat_set_shares(seat, 2, 256, 1, &out.name), FX_NO_QUEUE);
        REFUSES(&of, fx_seat_set_shares(seat, 2, 255, 1, &out.name), FX_UNKNOWN_CORE);
        REFUSES(&of, fx_seat_close_queue(seat, 2, 255, 1, &out.name), FX_UNKNOWN_CORE);
        REFUSES(&of, fx_seat_close_core(seat, 2, 2, &out.name), FX_BAD_NUMBER);
        REFUSES(&of, fx_seat_close_core(seat, 2, 1, &out.name), FX_UNKNOWN_CORE);
        REFUSES(&of, fx_seat_wake(seat, &job, &out.name), FX_NO_ACTOR);
        REFUSES(&of, fx_seat_collect(seat, 2, &out.count), FX_UNKNOWN_CORE);
        REFUSES(&of, fx_seat_collect(seat, UINT32_MAX, &out.count), FX_UNKNOWN_CORE);
        is_poisoned();
    }
    REFUSES(&of, fx_seat_deliver(core, 3), FX_NO_ACTOR);
    REFUSES(&of, fx_seat_deliver(core, UINT32_MAX), FX_NO_ACTOR);
    REFUSES(&of, fx_seat_deliver(core, 2), FX_IDLE);
    REFUSES(&of, fx_seat_shut(core, 3), FX_NO_ACTOR);
    REFUSES(&of, fx_seat_shut(core, 256), FX_NO_ACTOR);
    REFUSES(&of, fx_seat_shut(core, 2), FX_OPEN);
    REFUSES(&of, fx_seat_close(core, 2), FX_BAD_NUMBER);
    REFUSES(&of, fx_seat_settle(core, 3, 0, 0), FX_BAD_NUMBER);
    REFUSES(&of, fx_seat_stats_of_queue(core, 1, &out.queue), FX_NO_QUEUE);
    REFUSES(&of, fx_seat_stats_of_queue(core, UINT32_MAX, &out.queue), FX_NO_QUEUE);
    is_poisoned();
    out.core.size--, out.queue.size++, out.turn.size = 0, out.outcome.size = UINT32_MAX;
    REFUSES(&of, fx_seat_stats(core, &out.core), FX_BAD_NUMBER);
    REFUSES(&of, fx_seat_stats_of_queue(core, 300, &out.queue), FX_BAD_NUMBER);
    REFUSES(&of, fx_seat_next(core, &out.turn), FX_BAD_NUMBER);
    REFUSES(&of, fx_seat_redeem(core, &first_of_outside, &out.outcome), FX_BAD_NUMBER);
    freed(&of);
}

/* A submission from its sending to its outcome, and each call too early or too late. */
static void submissions(void) {
    all of = opened(2, 1, 100);
    fx_seat *core = &of.seats[0], *outside = &of.seats[OUTSIDE];
    fx_name first, second;
    poison();
    REFUSES(&of, fx_seat_redeem(outside, &first_of_outside, &out.outcome), FX_UNKNOWN);
    IS(fx_seat_submit(outside, 0, 0, UINT64_MAX, &first), FX_OK);
    is("its name", first.number == 1 && first.from == 2 && first.to == 0, 1);
    IS(fx_seat_submit(outside, 0, 255, 7, &second), FX_OK);
    REFUSES(&of, fx_seat_submit(outside, 0, 0, 7, &out.name), FX_FULL);
    REFUSES(&of, fx_seat_create(outside, 0, 5, &out.name), FX_FULL);
    REFUSES(&of, fx_seat_redeem(outside, &first, &out.outcome), FX_PENDING);
    REFUSES(&of, fx_seat_redeem(core, &first, &out.outcome), FX_UNKNOWN);
    REFUSES(&of, fx_seat_detach(core, &first), FX_UNKNOWN);
    for (int each = 0; each < 4; each++) {
        fx_name other = first;
        if (each == 0) other.number = 0;
        if (each == 1) other.number = 3;
        if (each == 2) other.number = UINT64_MAX;
        if (each == 3) other.to = 2;
        REFUSES(&of, fx_seat_redeem(outside, &other, &out.outcome), FX_UNKNOWN);
        REFUSES(&of, fx_seat_detach(outside, &other), FX_UNKNOWN);
    }
    REFUSES(&of, fx_seat_next(core, &out.turn), FX_IDLE);
    REFUSES(&of, fx_seat_settle(core, FX_STEP_DONE, 1, 1), FX_NO_JOB);
    is_poisoned();
    IS(fx_seat_deliver(core, OUTSIDE), FX_OK);
    IS(fx_seat_deliver(core, OUTSIDE), FX_OK);
    IS(fx_seat_next(core, &out.turn), FX_START);
    is("any number is a job", out.turn.job == UINT64_MAX && out.turn.name.number == 1 && out.turn.name.from == 2 && out.turn.queue == 0, 1);
    poison();
    REFUSES(&of, fx_seat_next(core, &out.turn), FX_BUSY);
    REFUSES(&of, fx_seat_settle(core, 3, 1, 1), FX_BAD_NUMBER);
    REFUSES(&of, fx_seat_settle(core, UINT32_MAX, 1, 1), FX_BAD_NUMBER);
    IS(fx_house_end(&of.house, core), FX_NOT_DRAINED);
    is_poisoned();
    /* A job that runs may submit, collect and redeem. */
    IS(fx_seat_submit(core, 1, 0, 9, &out.name), FX_OK);
    IS(fx_seat_collect(core, 1, &out.count), FX_OK);
    REFUSES(&of, fx_seat_redeem(core, &out.name, &out.outcome), FX_PENDING);
    IS(fx_seat_settle(core, FX_STEP_DONE, 5, UINT64_MAX), FX_DONE);
    REFUSES(&of, fx_seat_settle(core, FX_STEP_DONE, 5, 1), FX_NO_JOB);
    poison();
    IS(fx_seat_stats_of_queue(core, 0, &out.queue), FX_OK);
    is("no time counts more than 2^40 - 1", out.queue.time_low == ((uint64_t)1 << 40) - 1, 1);
    IS(fx_seat_collect(outside, 0, &out.count), FX_OK);
    is("two outcomes", (uint32_t)out.count, 2);
    IS(fx_seat_redeem(outside, &second, &out.outcome), FX_OK);
    is("a job for no queue comes back", out.outcome.kind == FX_KIND_BACK && out.outcome.why == FX_REASON_NO_QUEUE && out.outcome.job == 7 && out.outcome.queue == 255, 1);
    IS(fx_seat_redeem(outside, &first, &out.outcome), FX_OK);
    is("the other has its answer", out.outcome.kind == FX_KIND_DONE && out.outcome.answer == 5, 1);
    poison();
    REFUSES(&of, fx_seat_redeem(outside, &first, &out.outcome), FX_GONE);
    REFUSES(&of, fx_seat_detach(outside, &first), FX_GONE);
    is_poisoned();
    IS(fx_seat_submit(outside, 0, 0, 7, &first), FX_OK);
    IS(fx_seat_detach(outside, &first), FX_OK);
    REFUSES(&of, fx_seat_detach(outside, &first), FX_GONE);
    REFUSES(&of, fx_seat_redeem(outside, &first, &out.outcome), FX_GONE);
    freed(&of);
}

/* Journals with too few notes free. */
static void full_journals(void) {
    all of = opened(2, 1, 4);
    fx_seat *core = &of.seats[0], *outside = &of.seats[OUTSIDE];
    fx_name name;
    poison();
    for (int each = 0; each < 2; each++) IS(fx_seat_submit(outside, 0, 0, 7, &name), FX_OK);
    IS(fx_seat_deliver(core, OUTSIDE), FX_OK);
    REFUSES(&of, fx_seat_next(core, &out.turn), FX_JOURNAL_FULL);
    IS(fx_seat_deliver(core, OUTSIDE), FX_OK);
    IS(fx_seat_collect(core, 1, &out.count), FX_OK);
    IS(fx_seat_create(core, 0, 5, &name), FX_OK);
    REFUSES(&of, fx_seat_deliver(core, 0), FX_JOURNAL_FULL);
    poison();
    REFUSES(&of, fx_seat_collect(core, 1, &out.count), FX_JOURNAL_FULL);
    IS(fx_seat_submit(core, 1, 0, 7, &name), FX_OK);
    REFUSES(&of, fx_seat_submit(core, 1, 0, 7, &out.name), FX_JOURNAL_FULL);
    REFUSES(&of, fx_seat_submit(core, 2, 0, 7, &out.name), FX_UNKNOWN_CORE);
    REFUSES(&of, fx_seat_redeem(core, &name, &out.outcome), FX_JOURNAL_FULL);
    REFUSES(&of, fx_seat_detach(core, &name), FX_JOURNAL_FULL);
    REFUSES(&of, fx_seat_close(core, FX_MODE_FINISH), FX_JOURNAL_FULL);
    is_poisoned();
    freed(&of);
}

/* A link shows an order until it is delivered, and an outcome until it is collected. */
static void showing(void) {
    all of = opened(2, 1, 20);
    fx_seat *core = &of.seats[0], *outside = &of.seats[OUTSIDE];
    fx_name name;
    for (int each = 0; each < 3; each++) IS(fx_seat_shows(&of.seats[each]), FX_IDLE);
    IS(fx_seat_submit(outside, 0, 255, 7, &name), FX_OK);
    for (int each = 0; each < 3; each++) REFUSES(&of, fx_seat_shows(&of.seats[each]), each == 0 ? FX_OK : FX_IDLE);
    IS(fx_seat_deliver(core, OUTSIDE), FX_OK);
    for (int each = 0; each < 3; each++) REFUSES(&of, fx_seat_shows(&of.seats[each]), each == OUTSIDE ? FX_OK : FX_IDLE);
    IS(fx_seat_collect(outside, 0, &out.count), FX_OK);
    for (int each = 0; each < 3; each++) IS(fx_seat_shows(&of.seats[each]), FX_IDLE);
    freed(&of);
}

/* A step settles and goes on, or does neither. */
static void steps(void) {
    all of = opened(2, 1, 13);
    fx_seat *core = &of.seats[0], *outside = &of.seats[OUTSIDE];
    fx_name name;
    poison();
    REFUSES(&of, fx_seat_step(core, FX_STEP_DONE, 1, 1, &out.turn), FX_NO_JOB);
    REFUSES(&of, fx_seat_step(core, UINT32_MAX, 1, 1, &out.turn), FX_BAD_NUMBER);
    out.turn.size++;
    REFUSES(&of, fx_seat_step(core, FX_STEP_DONE, 1, 1, &out.turn), FX_BAD_NUMBER);
    out.turn.size--;
    is_poisoned();
    for (uint64_t job = 6; job < 8; job++) IS(fx_seat_submit(outside, 0, 0, job, &name), FX_OK);
    for (int each = 0; each < 2; each++) IS(fx_seat_deliver(core, OUTSIDE), FX_OK);
    IS(fx_seat_next(core, &out.turn), FX_START);
    poison();
    REFUSES(&of, fx_seat_step(core, 3, 1, 1, &out.turn), FX_BAD_NUMBER);
    out.turn.size = 7;
    REFUSES(&of, fx_seat_step(core, FX_STEP_DONE, 1, 1, &out.turn), FX_BAD_NUMBER);
    out.turn.size = sizeof out.turn;
    is_poisoned();
    IS(fx_seat_step(core, FX_STEP_DONE, 42, 10, &out.turn), FX_START);
    is("the next job is told", out.turn.job == 7 && out.turn.name.number == 2, 1);
    IS(fx_seat_step(core, FX_STEP_YIELD, 0, 10, &out.turn), FX_RESUME);
    is("one that yields is told again", out.turn.job == 7 && out.turn.name.number == 2, 1);
    /* 10 notes are kept, the settling makes them 11, and the turn behind it wants 4 more. */
    poison();
    IS(fx_seat_step(core, FX_STEP_YIELD, 0, 10, &out.turn), FX_JOURNAL_FULL);
    REFUSES(&of, fx_seat_step(core, FX_STEP_YIELD, 0, 10, &out.turn), FX_NO_JOB);
    is_poisoned();
    IS(fx_seat_forget(core, &out.count), FX_OK);
    is("the run was settled", (uint32_t)out.count, 11);
    IS(fx_seat_next(core, &out.turn), FX_RESUME);
    poison();
    IS(fx_seat_step(core, FX_STEP_DONE, 43, 10, &out.turn), FX_IDLE);
    is_poisoned();
    IS(fx_seat_collect(outside, 0, &out.count), FX_OK);
    name.number = 1;
    IS(fx_seat_redeem(outside, &name, &out.outcome), FX_OK);
    is("the first has its answer", (uint32_t)out.outcome.answer, 42);
    /* A core that hands back settles the run, and tells what goes back. */
    IS(fx_seat_forget(core, &out.count), FX_OK);
    IS(fx_seat_submit(outside, 0, 0, 8, &name), FX_OK);
    IS(fx_seat_deliver(core, OUTSIDE), FX_OK);
    poison();
    IS(fx_seat_next(core, &out.turn), FX_START);
    IS(fx_seat_close(core, FX_MODE_RETURN), FX_OK);
    IS(fx_seat_step(core, FX_STEP_YIELD, 0, 10, &out.turn), FX_BACK);
    is("its job goes back", out.turn.name.number == name.number && out.turn.reason == FX_REASON_CORE_RETURNED, 1);
    REFUSES(&of, fx_seat_step(core, FX_STEP_YIELD, 0, 10, &out.turn), FX_NO_JOB);
    freed(&of);
}

static void drain(all *of) {
    for (int each = 0; each < 2; each++) {
        IS(fx_seat_close(&of->seats[each], FX_MODE_RETURN), FX_OK);
        REFUSES(of, fx_seat_close(&of->seats[each], FX_MODE_RETURN), FX_CLOSED);
        REFUSES(of, fx_seat_close(&of->seats[each], FX_MODE_FINISH), FX_CLOSED);
        for (uint32_t sender = 0; sender < 3; sender++) {
            REFUSES(of, fx_seat_drained(&of->seats[each]), FX_NOT_DRAINED);
            IS(fx_seat_shut(&of->seats[each], sender), FX_OK);
            REFUSES(of, fx_seat_shut(&of->seats[each], sender), FX_SHUT);
        }
        IS(fx_seat_drained(&of->seats[each]), FX_OK);
    }
}

/* The end of a house, and what comes too early, in another order, or behind it. */
static void ending(void) {
    all of = opened(2, 2, 100);
    fx_verdict verdict = {sizeof verdict, 7, 7, 7, 7};
    fx_seat more = FX_NO_SEAT;
    fx_name name;
    uint8_t bytes[64];
    uint64_t count = 7;
    uint32_t actor;
    IS(fx_house_end(&of.house, &of.seats[0]), FX_NOT_DRAINED);
    drain(&of);
    REFUSES(&of, fx_seat_submit(&of.seats[OUTSIDE], 0, 0, 7, &name), FX_CLOSED);
    IS(fx_house_end(&of.house, &of.seats[1]), FX_NO_ACTOR);
    IS(fx_house_end(&of.house, &of.seats[OUTSIDE]), FX_NO_ACTOR);
    for (int each = 0; each < 3; each++) {
        IS(fx_house_take(&of.house, &more, &actor), FX_ABSENT);
        IS(fx_house_audit(&of.house, &verdict), FX_PENDING);
        IS(fx_house_text(&of.house, 0, bytes, sizeof bytes, &count), FX_PENDING);
        IS(fx_house_end(&of.house, &of.seats[each]), FX_OK);
        IS(fx_house_end(&of.house, &of.seats[each]), FX_EMPTY);
        empty(&of.seats[each]);
    }
    /* A house that has ended has no seats, and journals alone. */
    IS(fx_house_take(&of.house, &more, &actor), FX_EMPTY);
    verdict.size++;
    IS(fx_house_audit(&of.house, &verdict), FX_BAD_NUMBER);
    is("until then nothing is written", verdict.sound == 7 && count == 7, 1);
    verdict.size--;
    IS(fx_house_audit(&of.house, &verdict), FX_OK);
    is("the journals are sound", verdict.sound == 1 && verdict.rule == 0, 1);
    IS(fx_house_text(&of.house, 0, bytes, sizeof bytes, &count), FX_OK);
    is("their text begins", count == sizeof bytes && memcmp(bytes, "journal 2\ncores 2 cap 2 burst 2\n0 coreclosed return\n0 shut 0 0\n", 63) == 0, 1);
    IS(fx_house_text(&of.house, 10, bytes, 5, &count), FX_OK);
    is("from any byte on", count == 5 && memcmp(bytes, "cores", 5) == 0, 1);
    IS(fx_house_text(&of.house, 10, bytes, 0, &count), FX_OK);
    is("into no room", (uint32_t)count, 0);
    IS(fx_house_text(&of.house, UINT64_MAX, bytes, sizeof bytes, &count), FX_OK);
    is("and behind its end", (uint32_t)count, 0);
    IS(fx_house_free(&of.house), FX_OK);
    empty_house(&of.house);
}

/* A house whose journals lack notes isn't judged, and its text has what they kept. */
static void ending_with_less(void) {
    static const char wanted[] = "journal 1\ncores 2 cap 2\n0 coreclosed return\n0 shut 0 0\n0 shut 1 0\n0 shut 2 0\nend\n";
    all of = opened(2, 1, 100);
    fx_verdict verdict = {sizeof verdict, 7, 7, 7, 7};
    uint8_t bytes[200];
    uint64_t count = 7;
    drain(&of);
    IS(fx_seat_pass_on(&of.seats[OUTSIDE], bytes, sizeof bytes, &count), FX_OK);
    IS(fx_seat_forget(&of.seats[1], &count), FX_OK);
    for (int each = 0; each < 3; each++) IS(fx_house_end(&of.house, &of.seats[each]), FX_OK);
    verdict.size++;
    IS(fx_house_audit(&of.house, &verdict), FX_BAD_NUMBER);
    verdict.size--;
    IS(fx_house_audit(&of.house, &verdict), FX_PASSED_ON);
    is("nothing is judged", verdict.sound == 7 && verdict.rule == 7, 1);
    IS(fx_house_text(&of.house, 0, bytes, sizeof bytes, &count), FX_OK);
    is("the text has what is left", count == sizeof wanted - 1 && memcmp(bytes, wanted, sizeof wanted - 1) == 0, 1);
    IS(fx_house_free(&of.house), FX_OK);
}

/* A seat may be moved. What it was moved from is no seat any more. */
static void moving(void) {
    all of = opened(2, 1, 100);
    fx_seat moved;
    fx_name name;
    IS(fx_seat_submit(&of.seats[OUTSIDE], 0, 0, 5, &name), FX_OK);
    memcpy(&moved, &of.seats[0], sizeof moved);
    memset(&of.seats[0], 0, sizeof moved);
    empty(&of.seats[0]);
    IS(fx_seat_deliver(&moved, OUTSIDE), FX_OK);
    poison();
    IS(fx_seat_next(&moved, &out.turn), FX_START);
    is("the job moved with the core", (uint32_t)out.turn.job, 5);
    IS(fx_seat_free(&moved), FX_OK);
    /* What the other actors sent stays outstanding, and they send nothing more. */
    IS(fx_seat_collect(&of.seats[OUTSIDE], 0, &out.count), FX_OK);
    IS(fx_seat_redeem(&of.seats[OUTSIDE], &name, &out.outcome), FX_PENDING);
    IS(fx_seat_submit(&of.seats[OUTSIDE], 0, 0, 6, &name), FX_CLOSED);
    freed(&of);
}

/* A house of so many cores, in which core 0 ran so many jobs of the outside actor, and which is drained. */
typedef struct {
    fx_house house;
    fx_seat seats[4];
} ran;

static ran ran_jobs(uint32_t cores, uint32_t jobs) {
    ran of = {FX_NO_HOUSE, {FX_NO_SEAT, FX_NO_SEAT, FX_NO_SEAT, FX_NO_SEAT}};
    fx_config config = config_of(cores, 2, 1, 100);
    fx_name name;
    uint32_t actor;
    IS(fx_house_open(&of.house, &config), FX_OK);
    for (uint32_t left = cores + 1; left > 0; left--) IS(fx_house_take(&of.house, &of.seats[left - 1], &actor), FX_OK);
    for (uint32_t each = 0; each < jobs; each++) {
        poison();
        IS(fx_seat_submit(&of.seats[cores], 0, 0, each, &name), FX_OK);
        IS(fx_seat_deliver(&of.seats[0], cores), FX_OK);
        IS(fx_seat_next(&of.seats[0], &out.turn), FX_START);
        IS(fx_seat_settle(&of.seats[0], FX_STEP_DONE, 1, 1), FX_DONE);
    }
    for (uint32_t core = 0; core < cores; core++) {
        IS(fx_seat_close(&of.seats[core], FX_MODE_FINISH), FX_OK);
        for (uint32_t sender = 0; sender <= cores; sender++) IS(fx_seat_shut(&of.seats[core], sender), FX_OK);
    }
    return of;
}

/* A house of two cores and one job ends with core 0 of another house. Nothing tests that but what is asked of the journals. */
static void crossed(uint32_t cores, uint32_t jobs, uint32_t sound, uint32_t text) {
    ran own = ran_jobs(2, 1), other = ran_jobs(cores, jobs);
    fx_verdict verdict = {sizeof verdict, 7, 7, 7, 7};
    uint8_t bytes[64];
    uint64_t count = POISON;
    memset(bytes, POISON, sizeof bytes);
    IS(fx_house_end(&own.house, &other.seats[1]), FX_NO_ACTOR);
    IS(fx_house_end(&own.house, &other.seats[0]), FX_OK);
    empty(&other.seats[0]);
    for (int each = 1; each < 3; each++) IS(fx_house_end(&own.house, &own.seats[each]), FX_OK);
    IS(fx_house_audit(&own.house, &verdict), FX_OK);
    is("whether it is sound", verdict.sound, sound);
    is("a rule is broken, or none", verdict.rule > 0, !sound);
    IS(fx_house_text(&own.house, 0, bytes, sizeof bytes, &count), text);
    is("what has no text writes none", text != FX_MIXED || (count == POISON && bytes[0] == POISON), 1);
    IS(fx_seat_free(&own.seats[0]), FX_OK);
    for (uint32_t each = 1; each <= cores; each++) IS(fx_seat_free(&other.seats[each]), FX_OK);
    IS(fx_house_free(&own.house), FX_OK);
    IS(fx_house_free(&other.house), FX_OK);
}

/* A core has 256 queues at most. */
static void many_queues(void) {
    all of = opened(2, 1, 1000);
    fx_seat *core = &of.seats[0], *outside = &of.seats[OUTSIDE];
    fx_name name;
    for (uint32_t number = 1; number <= 257; number++) {
        poison();
        IS(fx_seat_create(outside, 0, 100, &name), FX_OK);
        IS(fx_seat_deliver(core, OUTSIDE), FX_OK);
        IS(fx_seat_collect(outside, 0, &out.count), FX_OK);
        IS(fx_seat_redeem(outside, &name, &out.outcome), FX_OK);
        is("an answer", out.outcome.kind, FX_KIND_ANSWER);
        is("the queue is made, or is one too many", out.outcome.why, number < 256 ? FX_ANSWER_CREATED : FX_ANSWER_TOO_MANY);
        is("its number", out.outcome.queue, number < 256 ? number : 0);
    }
    poison();
    IS(fx_seat_stats(core, &out.core), FX_OK);
    is("there are 256", out.core.queues, 256);
    freed(&of);
}

int main(void) {
    opening();
    numbers();
    submissions();
    full_journals();
    showing();
    steps();
    ending();
    ending_with_less();
    moving();
    /* The journals fit, differ from those of the others, or name an actor that the house doesn't have. */
    crossed(2, 1, 1, FX_OK);
    crossed(2, 0, 0, FX_OK);
    crossed(3, 1, 0, FX_MIXED);
    many_queues();
    for (uint32_t code = FX_OK; code <= FX_NULL; code++) is("each code has a text of its own", strcmp(fx_text(code), fx_text(FX_NULL + 1)) != 0, 1);
    printf("%u passed, %u failed\n", passed, failed);
    return failed != 0;
}
