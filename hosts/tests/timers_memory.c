/*
 * Timers and calls for memory that fail: linked with --wrap for malloc, realloc and free. An opening that finds no memory answers FX_NO_MEMORY, and
 * keeps nothing; no other call on timers asks for memory, on a core that stands alone or on that of a house; and fx_timers_free gives all of it back.
 * The last line is 'N passed, M failed', and the status is 0 if nothing failed.
 */
#include "wraps.h"

enum { JOBS = 63, PLACES = 64, ROUNDS = 500, NOTES = 16 * JOBS * ROUNDS };

static fx_timers timers = FX_NO_TIMERS;

/* Opens timers with one call for memory more each time, until it isn't refused. How often it asks. */
static unsigned long opening(uint32_t jobs) {
    uint32_t code = FX_NO_MEMORY;
    unsigned long calls = 0;
    long before = used;
    uint64_t time;
    for (; calls < 100; calls++) {
        left = calls;
        code = fx_timers_open(&timers, jobs);
        if (code != FX_NO_MEMORY) break;
        is("an opening without memory keeps none", (unsigned long)used, (unsigned long)before);
        is("and leaves the handle empty", fx_next_time(&timers, &time), FX_EMPTY);
    }
    is("an opening with memory succeeds", code, FX_OK);
    is("some openings found none", calls > 0, 1);
    unsigned long asks = asked;
    is("one that is refused asks for none", fx_timers_open(&timers, jobs) == FX_OCCUPIED && asked == asks, 1);
    return calls;
}

/* All jobs sleep, each until a time of its own, and are woken in the order of these. At times one is woken before. */
static unsigned long round_alone(fx_core *core, const uint64_t *orders, uint64_t now) {
    uint64_t job, time = 0, last = 0;
    unsigned long wrong = 0, passed = 0;
    for (uint32_t each = 0; each < JOBS; each++)
        wrong += fx_next(core, &job) > FX_RESUME || fx_settle_until(core, &timers, FX_STEP_PARK, 5, now + job * 37 % JOBS) != FX_PARKED;
    wrong += fx_next(core, &job) != FX_IDLE || fx_settle_until(core, &timers, FX_STEP_DONE, 5, 0) != FX_NO_JOB;
    wrong += now % 3 == 0 && fx_wake(core, orders[now % JOBS]) != FX_OK;
    for (uint32_t each = 0; each < JOBS; each++) {
        wrong += fx_next_time(&timers, &time) != FX_OK || time < last || time < now;
        wrong += fx_wake_due(core, &timers, time - 1) != FX_IDLE;
        uint32_t code = fx_wake_due(core, &timers, time);
        wrong += code != FX_OK && code != FX_ABSENT;
        passed += code == FX_ABSENT;
        last = time;
    }
    return wrong + (passed != (now % 3 == 0)) + (fx_wake_due(core, &timers, UINT64_MAX) != FX_IDLE);
}

static void alone(void) {
    static uint64_t orders[JOBS];
    fx_core core = FX_NO_CORE;
    unsigned long wrong = 0;
    left = 1000;
    is("a core", fx_open(&core, JOBS + 1), FX_OK);
    unsigned long before = asked;
    left = 0;
    for (uint32_t each = 0; each < JOBS; each++) wrong += fx_submit_numbered(&core, 0, each, &orders[each]) != FX_OK;
    for (uint32_t round = 1; round <= ROUNDS; round++) wrong += round_alone(&core, orders, round * JOBS);
    is("the other calls succeed without memory", wrong, 0);
    is("and ask for none", asked - before, 0);
    is("the core is freed", fx_free(&core), FX_OK);
}

static unsigned long round_of_seat(fx_seat *core, uint64_t now) {
    uint64_t time = 0, count;
    unsigned long wrong = 0;
    fx_turn turn = {.size = sizeof turn};
    for (uint32_t each = 0; each < JOBS; each++)
        wrong += fx_seat_next(core, &turn) > FX_RESUME || fx_seat_settle_until(core, &timers, FX_STEP_PARK, 0, 5, now + turn.job * 37 % JOBS) != FX_PARKED;
    for (uint32_t each = 0; each < JOBS; each++) {
        wrong += fx_next_time(&timers, &time) != FX_OK;
        wrong += fx_seat_wake_due(core, &timers, time - 1) != FX_IDLE || fx_seat_wake_due(core, &timers, time) != FX_OK;
        wrong += fx_seat_deliver(core, 0) != FX_OK;
    }
    wrong += fx_seat_collect(core, 0, &count) != FX_OK || count != JOBS;
    return wrong + (fx_seat_wake_due(core, &timers, UINT64_MAX) != FX_IDLE);
}

static void of_house(void) {
    const fx_config config = {sizeof config, 1, PLACES, 1, NOTES};
    fx_house house = FX_NO_HOUSE;
    fx_seat core = FX_NO_SEAT, outside = FX_NO_SEAT;
    uint32_t actor;
    fx_name name;
    unsigned long wrong = 0;
    left = 10000;
    is("a house", fx_house_open(&house, &config), FX_OK);
    is("its seats", fx_house_take(&house, &outside, &actor) == FX_OK && fx_house_take(&house, &core, &actor) == FX_OK, 1);
    unsigned long before = asked;
    left = 0;
    for (uint32_t each = 0; each < JOBS; each++) wrong += fx_seat_submit(&outside, 0, 0, each, &name) != FX_OK || fx_seat_deliver(&core, 1) != FX_OK;
    for (uint32_t round = 1; round <= ROUNDS; round++) wrong += round_of_seat(&core, round * JOBS);
    is("the calls on a seat succeed without memory", wrong, 0);
    is("and ask for none", asked - before, 0);
    is("all is freed", fx_seat_free(&core) == FX_OK && fx_seat_free(&outside) == FX_OK && fx_house_free(&house) == FX_OK, 1);
}

int main(void) {
    unsigned long opened = opening(JOBS);
    alone();
    is("timers are freed", fx_timers_free(&timers), FX_OK);
    is("with all of their memory", (unsigned long)used, 0);
    opening(2 * PLACES);
    of_house();
    is("timers of a house are freed", fx_timers_free(&timers), FX_OK);
    is("with all of their memory", (unsigned long)used, 0);
    opening(131070);
    is("the most timers are freed", fx_timers_free(&timers), FX_OK);
    is("with all of their memory", (unsigned long)used, 0);
    printf("an opening asks for memory %lu times\n%u passed, %u failed\n", opened, passed, failed);
    return failed != 0;
}
