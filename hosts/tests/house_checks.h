/* What house_misuse.c checks with: houses that are opened, all counts of them, and refused calls that change nothing. */
#ifndef HOUSE_CHECKS_H
#define HOUSE_CHECKS_H

#include "checks.h"
#include <string.h>

/* A house of two cores, 2 places on a link, and turns of one run. */
typedef struct {
    fx_house house;
    fx_seat seats[3]; /* core 0, core 1, the outside actor */
} all;

enum { OUTSIDE = 2, POISON = 0x5a };

static fx_config config_of(uint32_t cores, uint32_t places, uint32_t burst, uint32_t notes) {
    fx_config config = {sizeof config, cores, places, burst, notes};
    return config;
}

static all opened(uint32_t places, uint32_t burst, uint32_t notes) {
    all of;
    fx_config config = config_of(2, places, burst, notes);
    uint32_t actor = 0;
    memset(&of, 0, sizeof of);
    IS(fx_house_open(&of.house, &config), FX_OK);
    for (uint32_t left = 3; left > 0; left--) {
        IS(fx_house_take(&of.house, &of.seats[left - 1], &actor), FX_OK);
        is("seats come from the greatest number on", actor, left - 1);
    }
    return of;
}

static void freed(all *of) {
    for (int each = 0; each < 3; each++) fx_seat_free(&of->seats[each]);
    IS(fx_house_free(&of->house), FX_OK);
}

/* All that the cores tell of themselves, and what the links show. */
typedef struct {
    fx_core_stats cores[2];
    fx_queue_stats queues[2][2];
    uint32_t shows[3], drained[2];
} counts;

static counts counts_of(all *of) {
    counts found;
    memset(&found, 0, sizeof found);
    for (int core = 0; core < 2; core++) {
        found.cores[core].size = sizeof found.cores[core];
        IS(fx_seat_stats(&of->seats[core], &found.cores[core]), FX_OK);
        for (uint32_t queue = 0; queue < found.cores[core].queues && queue < 2; queue++) {
            found.queues[core][queue].size = sizeof found.queues[core][queue];
            IS(fx_seat_stats_of_queue(&of->seats[core], queue, &found.queues[core][queue]), FX_OK);
        }
        found.drained[core] = fx_seat_drained(&of->seats[core]);
    }
    for (int each = 0; each < 3; each++) found.shows[each] = fx_seat_shows(&of->seats[each]);
    return found;
}

/* A call that is refused with `wanted`, and changes nothing. */
#define REFUSES(of, call, wanted) \
    do { \
        counts before_it = counts_of(of), after_it; \
        IS(call, wanted); \
        after_it = counts_of(of); \
        is(#call " changes nothing", memcmp(&before_it, &after_it, sizeof before_it) == 0, 1); \
    } while (0)

/* What a refused call has to leave as it was. */
static struct {
    fx_name name;
    fx_turn turn;
    fx_outcome outcome;
    fx_core_stats core;
    fx_queue_stats queue;
    uint64_t count, second;
} out;

static void poison(void) {
    memset(&out, POISON, sizeof out);
    out.turn.size = sizeof out.turn;
    out.outcome.size = sizeof out.outcome;
    out.core.size = sizeof out.core;
    out.queue.size = sizeof out.queue;
}

static void is_poisoned(void) {
    const unsigned char *bytes = (const unsigned char *)&out;
    bool same = true;
    memset(&out.turn.size, POISON, sizeof out.turn.size);
    memset(&out.outcome.size, POISON, sizeof out.outcome.size);
    memset(&out.core.size, POISON, sizeof out.core.size);
    memset(&out.queue.size, POISON, sizeof out.queue.size);
    for (size_t each = 0; each < sizeof out; each++) same = same && bytes[each] == POISON;
    is("refused calls write nothing", same, 1);
    poison();
}

static const fx_name first_of_outside = {1, 2, 0};

/* The calls that want a core. */
static void no_core(fx_seat *seat) {
    fx_timers timers = FX_NO_TIMERS;
    poison();
    IS(fx_seat_next(seat, &out.turn), FX_EMPTY);
    IS(fx_seat_settle(seat, 3, 0, 0), FX_EMPTY);
    IS(fx_seat_step(seat, 3, 0, 0, &out.turn), FX_EMPTY);
    IS(fx_seat_settle_until(seat, &timers, 3, 0, 0, 0), FX_EMPTY);
    IS(fx_seat_wake_due(seat, &timers, 0), FX_EMPTY);
    IS(fx_seat_deliver(seat, 99), FX_EMPTY);
    IS(fx_seat_close(seat, 2), FX_EMPTY);
    IS(fx_seat_shut(seat, 99), FX_EMPTY);
    IS(fx_seat_drained(seat), FX_EMPTY);
    IS(fx_seat_stats(seat, &out.core), FX_EMPTY);
    IS(fx_seat_stats_of_queue(seat, 300, &out.queue), FX_EMPTY);
    is_poisoned();
}

/* The others too. */
static void empty(fx_seat *seat) {
    no_core(seat);
    IS(fx_seat_free(seat), FX_EMPTY);
    IS(fx_seat_collect(seat, 99, &out.count), FX_EMPTY);
    IS(fx_seat_submit(seat, 99, 300, 1, &out.name), FX_EMPTY);
    IS(fx_seat_create(seat, 99, 0, &out.name), FX_EMPTY);
    IS(fx_seat_set_shares(seat, 99, 300, 0, &out.name), FX_EMPTY);
    IS(fx_seat_close_queue(seat, 99, 300, 2, &out.name), FX_EMPTY);
    IS(fx_seat_close_core(seat, 99, 2, &out.name), FX_EMPTY);
    IS(fx_seat_wake(seat, &first_of_outside, &out.name), FX_EMPTY);
    IS(fx_seat_redeem(seat, &first_of_outside, &out.outcome), FX_EMPTY);
    IS(fx_seat_detach(seat, &first_of_outside), FX_EMPTY);
    IS(fx_seat_shows(seat), FX_EMPTY);
    IS(fx_seat_pass_on(seat, (uint8_t *)&out.turn, sizeof out.turn, &out.count), FX_EMPTY);
    IS(fx_seat_notes(seat, &out.count, &out.second), FX_EMPTY);
    IS(fx_seat_came(seat, 0, &out.name), FX_EMPTY);
    IS(fx_seat_copy(seat, 0, 9, (uint8_t *)&out.turn, sizeof out.turn, &out.count, &out.second), FX_EMPTY);
    IS(fx_seat_copy_bytes(seat, 7, 0, 9, (uint8_t *)&out.turn, sizeof out.turn, &out.count, &out.second), FX_EMPTY);
    IS(fx_seat_forget(seat, &out.count), FX_EMPTY);
    is_poisoned();
}

#endif
