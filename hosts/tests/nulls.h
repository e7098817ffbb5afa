/*
 * What the caller that nulls.py makes checks with: a core and a house on which each call would do something, and that a call with a null among
 * its pointers changes nothing of them, of their handles, or of what its other pointers point to.
 */
#ifndef NULLS_H
#define NULLS_H

#include "checks.h"
#include <string.h>

/* How far the job of the core and the job of core 0 of the house came. The house has two cores. A job that sleeps goes no further. */
enum { VACANT, UNTAKEN, SUBMITTED, DELIVERED, RUNNING, ASLEEP, COLLECTED, CLOSED, DRAINED, ENDED };

enum { CORES = 2, POISON = 0x5a };

/* Whatever a call may be handed. */
typedef struct {
    fx_core core;
    fx_house house;
    fx_seat seats[CORES + 1], more;
    fx_timers timers, seat_timers;
    fx_config config;
    fx_name job, name;
    fx_turn turn;
    fx_outcome outcome;
    fx_verdict verdict;
    fx_core_stats core_stats;
    fx_queue_stats queue_stats;
    uint64_t count, second;
    uint32_t number;
    uint8_t bytes[500];
} places;

/* These, and what the library tells of the core and of the house. */
typedef struct {
    places here;
    uint32_t codes[6 + 2 * CORES];
    uint64_t times[2];
    fx_core_stats core, cores[CORES];
    fx_queue_stats queue, queues[CORES];
} state;

static places here;
static fx_seat *seat;
static state before, after;
static unsigned made;

static void look(state *of) {
    uint32_t *code = of->codes;
    memset(of, 0, sizeof *of);
    memcpy(&of->here, &here, sizeof here);
    of->core.size = sizeof of->core;
    of->queue.size = sizeof of->queue;
    *code++ = fx_stats(&here.core, &of->core);
    *code++ = fx_stats_of_queue(&here.core, 0, &of->queue);
    for (int core = 0; core < CORES; core++) {
        of->cores[core].size = sizeof of->cores[core];
        of->queues[core].size = sizeof of->queues[core];
        *code++ = fx_seat_stats(&here.seats[core], &of->cores[core]);
        *code++ = fx_seat_stats_of_queue(&here.seats[core], 0, &of->queues[core]);
    }
    *code++ = fx_seat_shows(&here.seats[0]);
    *code++ = fx_seat_drained(&here.seats[0]);
    *code++ = fx_next_time(&here.timers, &of->times[0]);
    *code++ = fx_next_time(&here.seat_timers, &of->times[1]);
}

/* The job of the core, which gets the number 1. */
static void reach_of_core(int stage) {
    IS(fx_open(&here.core, 4), FX_OK);
    IS(fx_submit_numbered(&here.core, 0, 7, &here.count), FX_OK);
    IS(fx_timers_open(&here.timers, 4), FX_OK);
    if (stage >= RUNNING) IS(fx_next(&here.core, &here.count), FX_START);
    if (stage == ASLEEP) IS(fx_settle_until(&here.core, &here.timers, FX_STEP_PARK, 1, 9), FX_PARKED);
}

static void drain(void) {
    for (int core = 0; core < CORES; core++) {
        if (core > 0) IS(fx_seat_close(&here.seats[core], FX_MODE_FINISH), FX_OK);
        for (uint32_t sender = 0; sender <= CORES; sender++) IS(fx_seat_shut(&here.seats[core], sender), FX_OK);
    }
}

/* The job of core 0, which core 0 submits to itself. */
static void reach_of_house(int stage) {
    IS(fx_house_open(&here.house, &here.config), FX_OK);
    for (int left = CORES; left >= 0 && stage > UNTAKEN; left--) IS(fx_house_take(&here.house, &here.seats[left], &here.number), FX_OK);
    IS(fx_timers_open(&here.seat_timers, 8), FX_OK);
    if (stage >= SUBMITTED) IS(fx_seat_submit(&here.seats[0], 0, 0, 7, &here.job), FX_OK);
    if (stage >= DELIVERED) IS(fx_seat_deliver(&here.seats[0], 0), FX_OK);
    if (stage >= RUNNING) IS(fx_seat_next(&here.seats[0], &here.turn), FX_START);
    if (stage == ASLEEP) IS(fx_seat_settle_until(&here.seats[0], &here.seat_timers, FX_STEP_PARK, 0, 1, 9), FX_PARKED);
    if (stage >= COLLECTED) IS(fx_seat_settle(&here.seats[0], FX_STEP_DONE, 1, 1), FX_DONE);
    if (stage >= COLLECTED) IS(fx_seat_collect(&here.seats[0], 0, &here.count), FX_OK);
    if (stage >= CLOSED) IS(fx_seat_close(&here.seats[0], FX_MODE_FINISH), FX_OK);
    if (stage >= DRAINED) drain();
    for (int each = 0; each <= CORES && stage >= ENDED; each++) IS(fx_house_end(&here.house, &here.seats[each]), FX_OK);
}

static void begin(int stage) {
    const fx_config config = {sizeof config, CORES, 8, 1, 100};
    memset(&here, 0, sizeof here);
    here.config = config;
    here.turn.size = sizeof here.turn;
    seat = stage == UNTAKEN ? &here.more : &here.seats[0];
    if (stage > UNTAKEN) reach_of_core(stage);
    if (stage > VACANT) reach_of_house(stage);
    memset(&here.name, POISON, (size_t)((uint8_t *)(&here + 1) - (uint8_t *)&here.name));
    here.turn.size = sizeof here.turn;
    here.outcome.size = sizeof here.outcome;
    here.verdict.size = sizeof here.verdict;
    here.core_stats.size = sizeof here.core_stats;
    here.queue_stats.size = sizeof here.queue_stats;
}

static void end(void) {
    fx_free(&here.core);
    fx_timers_free(&here.timers);
    fx_timers_free(&here.seat_timers);
    for (int each = 0; each <= CORES; each++) fx_seat_free(&here.seats[each]);
    fx_seat_free(&here.more);
    fx_house_free(&here.house);
    made++;
}

/* A call with a null: it is answered so, and changes nothing. */
#define NULLS(call) \
    do { \
        look(&before); \
        IS(call, FX_NULL); \
        look(&after); \
        is(#call " changes nothing", memcmp(&before, &after, sizeof before) == 0, 1); \
    } while (0)

/* The same call without a null does something. */
#define TAKES(call) is(#call " isn't refused", (call) <= FX_BACK, 1)

#endif
