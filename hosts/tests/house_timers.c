/*
 * The timers of a core of a house: each call answers the codes that fairexec.h names, in their order, and a refused one changes nothing. A wake that the
 * journal or the link refuses comes later, a closed core drains behind its sleepers, and the journals are sound.
 * The last line is 'N passed, M failed', and the status is 0 if nothing failed.
 */
#include "house_checks.h"

static all of;
static fx_timers timers = FX_NO_TIMERS;
static fx_seat *const core = &of.seats[0], *const other = &of.seats[1], *const outside = &of.seats[OUTSIDE];

static void begin(uint32_t places, uint32_t notes) {
    of = opened(places, 1, notes);
    poison();
    IS(fx_timers_open(&timers, 3 * places), FX_OK);
}

/* The job of the outside actor comes to the core. */
static fx_name add(uint64_t job) {
    fx_name name = {0, 0, 0};
    IS(fx_seat_submit(outside, 0, 0, job, &name), FX_OK);
    IS(fx_seat_deliver(core, OUTSIDE), FX_OK);
    return name;
}

static void runs(uint64_t job) {
    fx_turn turn;
    turn.size = sizeof turn;
    is("a job runs", fx_seat_next(core, &turn) <= FX_RESUME, 1);
    is("it is this one", (uint32_t)turn.job, (uint32_t)job);
}

static void none_runs(void) {
    fx_turn turn;
    turn.size = sizeof turn;
    IS(fx_seat_next(core, &turn), FX_IDLE);
}

static void sleeps(uint64_t job, uint64_t time) {
    runs(job);
    IS(fx_seat_settle_until(core, &timers, FX_STEP_PARK, 0, 5, time), FX_PARKED);
}

static void ends_run(void) { IS(fx_seat_settle_until(core, &timers, FX_STEP_DONE, 42, 5, 0), FX_DONE); }

static void is_next(uint64_t wanted) {
    uint64_t time = 77;
    IS(fx_next_time(&timers, &time), FX_OK);
    is("the next time is this one", time == wanted, 1);
}

static void none_is_set(void) {
    uint64_t time = 77;
    IS(fx_next_time(&timers, &time), FX_IDLE);
    IS(fx_seat_wake_due(core, &timers, UINT64_MAX), FX_IDLE);
}

/* So many wakes of the core come back to it. */
static void come_back(uint32_t wakes) {
    uint64_t count = 77;
    for (uint32_t each = 0; each < wakes; each++) IS(fx_seat_deliver(core, 0), FX_OK);
    IS(fx_seat_deliver(core, 0), FX_IDLE);
    IS(fx_seat_collect(core, 0, &count), FX_OK);
    is("each has its outcome", (uint32_t)count, wakes);
}

/* Another core wakes the job of this name. */
static void wake(const fx_name *name) {
    fx_name order;
    IS(fx_seat_wake(other, name, &order), FX_OK);
    IS(fx_seat_deliver(core, 1), FX_OK);
    IS(fx_seat_detach(other, &order), FX_OK);
    uint64_t count;
    IS(fx_seat_collect(other, 0, &count), FX_OK);
}

static void end(void) {
    IS(fx_timers_free(&timers), FX_OK);
    freed(&of);
}

/* All cores close and drain, and the journals are sound. */
static void is_sound(void) {
    fx_verdict verdict;
    verdict.size = sizeof verdict;
    for (int each = 0; each < 2; each++) {
        uint32_t code = fx_seat_close(&of.seats[each], FX_MODE_FINISH);
        is("a core is closed", code == FX_OK || code == FX_CLOSED, 1);
        for (uint32_t sender = 0; sender < 3; sender++) {
            code = fx_seat_shut(&of.seats[each], sender);
            is("its gates are shut", code == FX_OK || code == FX_SHUT, 1);
            while (fx_seat_deliver(&of.seats[each], sender) == FX_OK) {}
        }
        IS(fx_seat_drained(&of.seats[each]), FX_OK);
    }
    for (int each = 0; each < 3; each++) IS(fx_house_end(&of.house, &of.seats[each]), FX_OK);
    IS(fx_house_audit(&of.house, &verdict), FX_OK);
    is("the journals are sound", verdict.sound, 1);
    end();
}

static void refusals(void) {
    begin(2, 200);
    fx_timers none = FX_NO_TIMERS, few = FX_NO_TIMERS;
    fx_seat gone = FX_NO_SEAT;
    empty(&gone);
    IS(fx_timers_open(&few, 1), FX_OK);
    fx_seat *const no_cores[] = {&gone, outside};
    for (int each = 0; each < 2; each++) {
        REFUSES(&of, fx_seat_settle_until(no_cores[each], &timers, 3, 0, 5, 10), FX_EMPTY);
        REFUSES(&of, fx_seat_settle_until(no_cores[each], &none, 3, 0, 5, 10), FX_EMPTY);
        REFUSES(&of, fx_seat_wake_due(no_cores[each], &timers, 10), FX_EMPTY);
    }
    REFUSES(&of, fx_seat_settle_until(core, &none, 3, 0, 5, 10), FX_EMPTY);
    REFUSES(&of, fx_seat_wake_due(core, &none, 10), FX_EMPTY);
    REFUSES(&of, fx_seat_settle_until(core, &few, 3, 0, 5, 10), FX_BAD_NUMBER);
    REFUSES(&of, fx_seat_settle_until(core, &few, FX_STEP_PARK, 0, 5, 10), FX_NO_JOB);
    REFUSES(&of, fx_seat_wake_due(core, &few, 10), FX_IDLE);
    fx_name first = add(1);
    add(2);
    runs(1);
    REFUSES(&of, fx_seat_settle_until(core, &none, FX_STEP_PARK, 0, 5, 10), FX_EMPTY);
    IS(fx_seat_settle_until(core, &few, FX_STEP_PARK, 0, 5, 10), FX_PARKED);
    REFUSES(&of, fx_seat_settle_until(core, &few, 3, 0, 5, 20), FX_BAD_NUMBER);
    REFUSES(&of, fx_seat_settle_until(core, &few, FX_STEP_PARK, 0, 5, 20), FX_NO_JOB);
    runs(2);
    REFUSES(&of, fx_seat_settle_until(core, &few, FX_STEP_PARK, 0, 5, 20), FX_FULL);
    REFUSES(&of, fx_seat_next(core, &out.turn), FX_BUSY);
    IS(fx_seat_settle_until(core, &few, FX_STEP_PARK, 0, 5, FX_NEVER), FX_PARKED);
    wake(&first);
    runs(1);
    IS(fx_seat_settle_until(core, &few, FX_STEP_PARK, 0, 5, 30), FX_PARKED);
    REFUSES(&of, fx_seat_wake_due(core, &few, 29), FX_IDLE);
    IS(fx_seat_wake_due(core, &few, 30), FX_OK);
    REFUSES(&of, fx_seat_wake_due(core, &few, UINT64_MAX), FX_IDLE);
    come_back(1);
    runs(1);
    IS(fx_seat_settle_until(core, &few, FX_STEP_DONE, 42, 5, 40), FX_DONE);
    IS(fx_timers_free(&few), FX_OK);
    end();
}

/* The first time comes first, and one wake for each. The answer of a job is told as by fx_seat_settle. */
static void times(void) {
    static const uint64_t set[] = {50, 10, 40};
    static const uint32_t first[] = {1, 2, 0};
    uint64_t count;
    fx_name names[3];
    begin(4, 200);
    for (uint64_t job = 0; job < 3; job++) names[job] = add(job);
    for (uint64_t job = 0; job < 3; job++) sleeps(job, set[job]);
    is_next(10);
    REFUSES(&of, fx_seat_wake_due(core, &timers, 9), FX_IDLE);
    none_runs();
    IS(fx_seat_wake_due(core, &timers, 60), FX_OK);
    is_next(40);
    IS(fx_seat_wake_due(core, &timers, 60), FX_OK);
    is_next(50);
    IS(fx_seat_wake_due(core, &timers, 60), FX_OK);
    none_is_set();
    none_runs();
    come_back(3);
    for (int each = 0; each < 3; each++) {
        runs(first[each]);
        ends_run();
    }
    none_runs();
    IS(fx_seat_collect(outside, 0, &count), FX_OK);
    for (int each = 0; each < 3; each++) {
        IS(fx_seat_redeem(outside, &names[each], &out.outcome), FX_OK);
        is("it has its answer", out.outcome.kind == FX_KIND_DONE && out.outcome.answer == 42, 1);
    }
    is_sound();
}

/* Woken before its time, as it runs, or done: no wake comes from its timer. */
static void woken_before(void) {
    begin(4, 200);
    fx_name name = add(1);
    uint64_t kept, more, kept_then;
    sleeps(1, 10);
    wake(&name);
    is_next(10);
    IS(fx_seat_notes(core, &kept, &more), FX_OK);
    IS(fx_seat_wake_due(core, &timers, 10), FX_ABSENT);
    IS(fx_seat_notes(core, &kept_then, &more), FX_OK);
    is("nothing is noted", (uint32_t)(kept_then - kept), 0);
    none_is_set();
    come_back(0);
    sleeps(1, 20);
    wake(&name);
    sleeps(1, 30);
    is_next(30);
    wake(&name);
    runs(1);
    is_next(30);
    IS(fx_seat_settle_until(core, &timers, FX_STEP_YIELD, 0, 5, 40), FX_OK);
    none_is_set();
    /* A wake that comes while it runs is kept. */
    runs(1);
    wake(&name);
    IS(fx_seat_settle_until(core, &timers, FX_STEP_PARK, 0, 5, 50), FX_OK);
    none_is_set();
    sleeps(1, 60);
    wake(&name);
    runs(1);
    IS(fx_seat_settle(core, FX_STEP_DONE, 42, 5), FX_DONE);
    is_next(60);
    IS(fx_seat_wake_due(core, &timers, 60), FX_ABSENT);
    none_is_set();
    come_back(0);
    is_sound();
}

/* A wake that is on its way comes to a job that sleeps once more by then: that looks again, and its timer is gone with its run. */
static void on_its_way(void) {
    begin(4, 200);
    fx_name name = add(1);
    sleeps(1, 10);
    IS(fx_seat_wake_due(core, &timers, 10), FX_OK);
    wake(&name);
    sleeps(1, 100);
    none_runs();
    come_back(1);
    is_next(100);
    sleeps(1, 100);
    is_next(100);
    come_back(0);
    IS(fx_seat_wake_due(core, &timers, 100), FX_OK);
    none_is_set();
    come_back(1);
    runs(1);
    ends_run();
    is_sound();
}

/* A job that went back isn't woken. */
static void went_back(void) {
    begin(4, 200);
    add(1);
    sleeps(1, 10);
    add(2);
    runs(2);
    IS(fx_seat_close(core, FX_MODE_RETURN), FX_OK);
    IS(fx_seat_settle_until(core, &timers, FX_STEP_PARK, 0, 5, 20), FX_OK);
    is_next(10);
    IS(fx_seat_next(core, &out.turn), FX_BACK);
    IS(fx_seat_next(core, &out.turn), FX_BACK);
    IS(fx_seat_wake_due(core, &timers, 10), FX_ABSENT);
    none_is_set();
    come_back(0);
    is_sound();
}

/* The link to itself takes two, and each has its place until its outcome was collected. */
static void full(void) {
    begin(2, 200);
    fx_name own;
    add(1);
    add(2);
    sleeps(1, 10);
    sleeps(2, 20);
    IS(fx_seat_submit(core, 0, 0, 3, &own), FX_OK);
    IS(fx_seat_wake_due(core, &timers, 30), FX_OK);
    is_next(20);
    REFUSES(&of, fx_seat_wake_due(core, &timers, 30), FX_FULL);
    is_next(20);
    IS(fx_seat_deliver(core, 0), FX_OK);
    IS(fx_seat_deliver(core, 0), FX_OK);
    REFUSES(&of, fx_seat_wake_due(core, &timers, 30), FX_FULL);
    IS(fx_seat_collect(core, 0, &out.count), FX_OK);
    IS(fx_seat_wake_due(core, &timers, 30), FX_OK);
    none_is_set();
    come_back(1);
    static const uint64_t order[] = {3, 1, 2};
    for (int each = 0; each < 3; each++) {
        runs(order[each]);
        ends_run();
    }
    is_sound();
}

/* A wake takes two notes. The job took four before it slept. On links of one place the core's own job has that. */
static void journal_full(void) {
    uint64_t kept, more;
    fx_name name;
    for (uint32_t places = 1; places < 3; places++) {
        begin(places, 7);
        add(1);
        sleeps(1, 10);
        for (uint32_t to = 0; to < 2; to++) IS(fx_seat_submit(core, to, 0, 7, &name), FX_OK);
        IS(fx_seat_notes(core, &kept, &more), FX_OK);
        is("one note is free", (uint32_t)more, 1);
        REFUSES(&of, fx_seat_wake_due(core, &timers, 9), FX_IDLE);
        REFUSES(&of, fx_seat_wake_due(core, &timers, 10), FX_JOURNAL_FULL);
        is_next(10);
        IS(fx_seat_forget(core, &out.count), FX_OK);
        if (places == 1) {
            REFUSES(&of, fx_seat_wake_due(core, &timers, 10), FX_FULL);
            is_next(10);
        } else {
            IS(fx_seat_wake_due(core, &timers, 10), FX_OK);
            IS(fx_seat_notes(core, &kept, &more), FX_OK);
            is("it is sent, and let go", (uint32_t)kept, 2);
            none_is_set();
        }
        end();
    }
    begin(1, 6);
    add(1);
    sleeps(1, 10);
    IS(fx_seat_wake_due(core, &timers, 10), FX_OK);
    IS(fx_seat_notes(core, &kept, &more), FX_OK);
    is("two are enough", (uint32_t)more, 0);
    end();
}

/* A closed core shuts its own gate last, behind its sleepers. One that shut it before wakes none. */
static void closing(void) {
    begin(4, 200);
    add(1);
    add(2);
    sleeps(1, 10);
    sleeps(2, 20);
    IS(fx_seat_close(core, FX_MODE_FINISH), FX_OK);
    IS(fx_seat_shut(core, 1), FX_OK);
    IS(fx_seat_shut(core, OUTSIDE), FX_OK);
    for (uint64_t job = 1; job < 3; job++) {
        IS(fx_seat_drained(core), FX_NOT_DRAINED);
        IS(fx_seat_wake_due(core, &timers, 10 * job), FX_OK);
        come_back(1);
        runs(job);
        ends_run();
    }
    IS(fx_seat_drained(core), FX_NOT_DRAINED);
    IS(fx_seat_shut(core, 0), FX_OK);
    IS(fx_seat_drained(core), FX_OK);
    is_sound();
    begin(4, 200);
    add(1);
    sleeps(1, 10);
    IS(fx_seat_close(core, FX_MODE_FINISH), FX_OK);
    IS(fx_seat_shut(core, 0), FX_OK);
    REFUSES(&of, fx_seat_wake_due(core, &timers, 9), FX_IDLE);
    REFUSES(&of, fx_seat_wake_due(core, &timers, 10), FX_CLOSED);
    is_next(10);
    IS(fx_seat_close(core, FX_MODE_RETURN), FX_OK);
    IS(fx_seat_next(core, &out.turn), FX_BACK);
    IS(fx_seat_wake_due(core, &timers, 10), FX_ABSENT);
    none_is_set();
    is_sound();
}

int main(void) {
    refusals();
    times();
    woken_before();
    on_its_way();
    went_back();
    full();
    journal_full();
    closing();
    printf("%u passed, %u failed\n", passed, failed);
    return failed != 0;
}
