/*
 * The timers of a core that stands alone: each call answers the codes that fairexec.h names, in their order, and a refused one changes nothing. No job is
 * woken before its time, the first time comes first, one wake comes for each timer, and none for a job that doesn't sleep any more.
 * The last line is 'N passed, M failed', and the status is 0 if nothing failed.
 */
#include "checks.h"
#include <string.h>

static fx_core core = FX_NO_CORE;
static fx_timers timers = FX_NO_TIMERS;

/* All that the core and its timers tell of themselves. */
typedef struct {
    fx_core_stats core;
    fx_queue_stats queue;
    uint32_t codes[3];
    uint64_t time;
} counts;

static counts counts_of(void) {
    counts all;
    memset(&all, 0, sizeof all);
    all.core.size = sizeof all.core;
    all.queue.size = sizeof all.queue;
    all.codes[0] = fx_stats(&core, &all.core);
    all.codes[1] = fx_stats_of_queue(&core, 0, &all.queue);
    all.codes[2] = fx_next_time(&timers, &all.time);
    return all;
}

/* A call that is refused with `wanted`, and changes nothing. */
#define REFUSES(call, wanted) \
    do { \
        counts before_it = counts_of(), after_it; \
        IS(call, wanted); \
        after_it = counts_of(); \
        is(#call " changes nothing", memcmp(&before_it, &after_it, sizeof before_it) == 0, 1); \
    } while (0)

static void begin(uint32_t jobs, uint32_t sleepers) {
    IS(fx_open(&core, jobs), FX_OK);
    IS(fx_timers_open(&timers, sleepers), FX_OK);
}

static void end(void) {
    IS(fx_timers_free(&timers), FX_OK);
    IS(fx_free(&core), FX_OK);
}

static uint64_t add(uint64_t job) {
    uint64_t order = 0;
    IS(fx_submit_numbered(&core, 0, job, &order), FX_OK);
    return order;
}

/* The job that runs next is this one. */
static void runs(uint64_t job) {
    uint64_t told = 77;
    is("a job runs", fx_next(&core, &told) <= FX_RESUME, 1);
    is("it is this one", (uint32_t)told, (uint32_t)job);
}

static void none_runs(void) {
    uint64_t told = 77;
    IS(fx_next(&core, &told), FX_IDLE);
}

/* It runs next, and sleeps. */
static void sleeps(uint64_t job, uint64_t time) {
    runs(job);
    IS(fx_settle_until(&core, &timers, FX_STEP_PARK, 5, time), FX_PARKED);
}

static void is_next(uint64_t wanted) {
    uint64_t time = 77;
    IS(fx_next_time(&timers, &time), FX_OK);
    is("the next time is this one", time == wanted, 1);
}

static void none_is_set(void) {
    uint64_t time = 77;
    IS(fx_next_time(&timers, &time), FX_IDLE);
    is("no time is written", (uint32_t)time, 77);
    IS(fx_wake_due(&core, &timers, UINT64_MAX), FX_IDLE);
}

/* One timer is due by now, and no other. */
static void wakes_one(uint64_t now) {
    IS(fx_wake_due(&core, &timers, now), FX_OK);
    REFUSES(fx_wake_due(&core, &timers, now), FX_IDLE);
}

/* The same, but its job isn't parked any more. */
static void passes_one(uint64_t now) {
    IS(fx_wake_due(&core, &timers, now), FX_ABSENT);
    REFUSES(fx_wake_due(&core, &timers, now), FX_IDLE);
}

static void opening(void) {
    uint64_t time = 77;
    IS(fx_timers_free(&timers), FX_EMPTY);
    IS(fx_next_time(&timers, &time), FX_EMPTY);
    is("an empty handle writes nothing", (uint32_t)time, 77);
    IS(fx_settle_until(&core, &timers, 3, 0, 0), FX_EMPTY);
    IS(fx_wake_due(&core, &timers, 0), FX_EMPTY);
    static const uint32_t wrong[] = {0, 131071, UINT32_MAX};
    for (int each = 0; each < 3; each++) {
        IS(fx_timers_open(&timers, wrong[each]), FX_BAD_NUMBER);
        IS(fx_timers_free(&timers), FX_EMPTY);
    }
    IS(fx_timers_open(&timers, 131070), FX_OK);
    IS(fx_timers_free(&timers), FX_OK);
    IS(fx_timers_open(&timers, 1), FX_OK);
    IS(fx_timers_open(&timers, 1), FX_OCCUPIED);
    IS(fx_timers_open(&timers, 0), FX_OCCUPIED);
    IS(fx_timers_free(&timers), FX_OK);
    IS(fx_timers_free(&timers), FX_EMPTY);
}

/* A core without timers, and timers without a core. */
static void halves(void) {
    IS(fx_open(&core, 2), FX_OK);
    add(7);
    runs(7);
    REFUSES(fx_settle_until(&core, &timers, FX_STEP_PARK, 5, 10), FX_EMPTY);
    REFUSES(fx_settle_until(&core, &timers, 3, 5, 10), FX_EMPTY);
    REFUSES(fx_wake_due(&core, &timers, 10), FX_EMPTY);
    IS(fx_timers_open(&timers, 2), FX_OK);
    IS(fx_settle_until(&core, &timers, FX_STEP_PARK, 5, 10), FX_PARKED);
    fx_core whole = core;
    memset(&core, 0, sizeof core);
    REFUSES(fx_settle_until(&core, &timers, 3, 5, 10), FX_EMPTY);
    REFUSES(fx_wake_due(&core, &timers, 10), FX_EMPTY);
    core = whole;
    is_next(10);
    wakes_one(10);
    runs(7);
    end();
}

static void refusals(void) {
    begin(4, 1);
    REFUSES(fx_settle_until(&core, &timers, 3, 5, 10), FX_BAD_NUMBER);
    REFUSES(fx_settle_until(&core, &timers, FX_STEP_PARK, 5, 10), FX_NO_JOB);
    REFUSES(fx_settle_until(&core, &timers, FX_STEP_DONE, 5, 10), FX_NO_JOB);
    uint64_t first = add(1);
    add(2);
    sleeps(1, 10);
    /* The one timer is set. */
    REFUSES(fx_settle_until(&core, &timers, UINT32_MAX, 5, 20), FX_BAD_NUMBER);
    REFUSES(fx_settle_until(&core, &timers, FX_STEP_PARK, 5, 20), FX_NO_JOB);
    runs(2);
    REFUSES(fx_settle_until(&core, &timers, 3, 5, 20), FX_BAD_NUMBER);
    REFUSES(fx_settle_until(&core, &timers, FX_STEP_PARK, 5, 20), FX_FULL);
    uint64_t job = 77;
    REFUSES(fx_next(&core, &job), FX_BUSY);
    /* It may be settled otherwise. */
    IS(fx_settle_until(&core, &timers, FX_STEP_YIELD, 5, 20), FX_OK);
    runs(2);
    REFUSES(fx_settle_until(&core, &timers, FX_STEP_PARK, 5, 0), FX_FULL);
    IS(fx_settle_until(&core, &timers, FX_STEP_PARK, 5, FX_NEVER), FX_PARKED);
    /* The job whose timer it is takes it once more. */
    IS(fx_wake(&core, first), FX_OK);
    sleeps(1, 30);
    is_next(30);
    wakes_one(30);
    runs(1);
    IS(fx_settle_until(&core, &timers, FX_STEP_DONE, 5, 40), FX_DONE);
    none_is_set();
    end();
}

static void times(void) {
    static const uint64_t set[] = {500, 100, UINT64_MAX - 1, 400, 0, 300, 100};
    static const uint32_t first[] = {4, 1, 6, 5, 3, 0, 2};
    begin(16, 16);
    for (uint64_t job = 0; job < 7; job++) add(job);
    for (uint64_t job = 0; job < 7; job++) sleeps(job, set[job]);
    is_next(0);
    wakes_one(0);
    runs(first[0]);
    IS(fx_settle_until(&core, &timers, FX_STEP_DONE, 5, 0), FX_DONE);
    is_next(100);
    REFUSES(fx_wake_due(&core, &timers, 99), FX_IDLE);
    none_runs();
    /* Two are due at once. */
    IS(fx_wake_due(&core, &timers, 100), FX_OK);
    is_next(100);
    wakes_one(100);
    uint64_t one = 77, other = 77;
    is("the first of them", fx_next(&core, &one), FX_RESUME);
    IS(fx_settle_until(&core, &timers, FX_STEP_DONE, 5, 0), FX_DONE);
    is("and the second", fx_next(&core, &other), FX_RESUME);
    IS(fx_settle_until(&core, &timers, FX_STEP_DONE, 5, 0), FX_DONE);
    is("both were woken", one + other == 7 && one * other == 6, 1);
    none_runs();
    /* Late timers come in the order of their times. */
    for (int each = 0; each < 3; each++) {
        is_next(300 + 100 * (uint64_t)each);
        IS(fx_wake_due(&core, &timers, UINT64_MAX - 2), FX_OK);
    }
    REFUSES(fx_wake_due(&core, &timers, UINT64_MAX - 2), FX_IDLE);
    for (int each = 3; each < 6; each++) {
        runs(first[each]);
        IS(fx_settle_until(&core, &timers, FX_STEP_DONE, 5, 0), FX_DONE);
    }
    none_runs();
    wakes_one(UINT64_MAX);
    runs(first[6]);
    /* Parked for ever: it has no timer, and one wake was all. */
    IS(fx_settle_until(&core, &timers, FX_STEP_PARK, 5, FX_NEVER), FX_PARKED);
    none_is_set();
    none_runs();
    end();
}

/* A job that was woken before its time. */
static void woken_before(void) {
    static const uint32_t steps[] = {FX_STEP_YIELD, FX_STEP_DONE, FX_STEP_PARK}, codes[] = {FX_OK, FX_DONE, FX_PARKED};
    for (int each = 0; each < 3; each++) {
        begin(4, 4);
        uint64_t order = add(1);
        sleeps(1, 10);
        IS(fx_wake(&core, order), FX_OK);
        is_next(10);
        runs(1);
        is_next(10);
        IS(fx_settle_until(&core, &timers, steps[each], 5, FX_NEVER), codes[each]);
        none_is_set();
        end();
    }
    /* It waits in its queue, or runs, as its time comes: it isn't woken, and no wake is kept. */
    for (int is_out = 0; is_out < 2; is_out++) {
        begin(4, 4);
        uint64_t order = add(1), next = 0;
        sleeps(1, 10);
        IS(fx_wake(&core, order), FX_OK);
        if (is_out) runs(1);
        passes_one(10);
        none_is_set();
        if (!is_out) runs(1);
        IS(fx_settle_until(&core, &timers, FX_STEP_PARK, 5, 20), FX_PARKED);
        is_next(20);
        next = add(2);
        is("no wake was handed in", next == order + 2, 1);
        end();
    }
    /* A later time takes the place of the one before, and so does an earlier one. */
    begin(4, 4);
    uint64_t order = add(1);
    sleeps(1, 10);
    IS(fx_wake(&core, order), FX_OK);
    sleeps(1, 20);
    is_next(20);
    REFUSES(fx_wake_due(&core, &timers, 19), FX_IDLE);
    IS(fx_wake(&core, order), FX_OK);
    sleeps(1, 15);
    wakes_one(15);
    none_is_set();
    runs(1);
    none_is_set();
    end();
}

/* A wake that comes while the job runs is kept: it doesn't park, and has no timer. */
static void kept(void) {
    begin(4, 1);
    uint64_t order = add(1);
    runs(1);
    IS(fx_wake(&core, order), FX_OK);
    IS(fx_settle_until(&core, &timers, FX_STEP_PARK, 5, 10), FX_OK);
    none_is_set();
    sleeps(1, 10);
    end();
}

/* A timer outlives no job: who is done or handed back isn't woken. */
static void outlived(void) {
    uint64_t job = 77;
    begin(4, 4);
    uint64_t order = add(1);
    sleeps(1, 10);
    IS(fx_wake(&core, order), FX_OK);
    runs(1);
    IS(fx_settle(&core, FX_STEP_DONE, 5), FX_DONE);
    passes_one(10);
    none_is_set();
    is("no wake was handed in", add(2) == order + 2, 1);
    sleeps(2, 20);
    add(3);
    runs(3);
    IS(fx_close(&core, FX_MODE_RETURN), FX_OK);
    IS(fx_settle_until(&core, &timers, FX_STEP_PARK, 5, 15), FX_OK);
    is_next(20);
    /* It waits to be handed back, and is no more. */
    IS(fx_next(&core, &job), FX_BACK);
    passes_one(20);
    IS(fx_next(&core, &job), FX_BACK);
    none_runs();
    none_is_set();
    end();
}

/* A full core takes no wake: the timer stays until it does. */
static void full(void) {
    begin(2, 2);
    add(1);
    add(2);
    sleeps(1, 10);
    REFUSES(fx_wake_due(&core, &timers, 9), FX_IDLE);
    REFUSES(fx_wake_due(&core, &timers, 10), FX_FULL);
    runs(2);
    REFUSES(fx_wake_due(&core, &timers, 10), FX_FULL);
    is_next(10);
    IS(fx_settle_until(&core, &timers, FX_STEP_DONE, 5, 0), FX_DONE);
    wakes_one(10);
    runs(1);
    end();
}

/* A core that finishes wakes those that sleep. Timers may go before, and move. */
static void ends(void) {
    fx_timers moved;
    begin(4, 4);
    add(1);
    uint64_t order = add(2);
    sleeps(1, 10);
    sleeps(2, 20);
    IS(fx_close(&core, FX_MODE_FINISH), FX_OK);
    memcpy(&moved, &timers, sizeof timers);
    memset(&timers, 0, sizeof timers);
    IS(fx_wake_due(&core, &timers, 10), FX_EMPTY);
    memcpy(&timers, &moved, sizeof timers);
    wakes_one(10);
    runs(1);
    IS(fx_settle_until(&core, &timers, FX_STEP_DONE, 5, 0), FX_DONE);
    IS(fx_timers_free(&timers), FX_OK);
    none_runs();
    IS(fx_wake(&core, order), FX_OK);
    runs(2);
    IS(fx_settle(&core, FX_STEP_DONE, 5), FX_DONE);
    IS(fx_timers_open(&timers, 4), FX_OK);
    none_is_set();
    end();
}

int main(void) {
    opening();
    halves();
    refusals();
    times();
    woken_before();
    kept();
    outlived();
    full();
    ends();
    printf("%u passed, %u failed\n", passed, failed);
    return failed != 0;
}
