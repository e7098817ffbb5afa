/*
 * Times the calls of hosts/c/fairexec.h with so many jobs inside: through_c core QUEUES JOBS, or through_c seat QUEUES JOBS SENDERS.
 * It prints a line for each call: its name, and tenths of nanoseconds. A name ends in what is inside: `_parked` if all jobs are parked, `_waiting`
 * if all wait in their queues.
 *   core  a core by itself. QUEUES is 1 to 256, JOBS 1 to 100000
 *   seat  core 0 of a house, to which SENDERS actors, 1 to 17, have sent its JOBS by turns, at most 980 each
 */
#define _POSIX_C_SOURCE 200809L
#include "fairexec.h"
#include <stdio.h>
#include <stdlib.h>
#include <string.h>
#include <time.h>

/* How many calls are timed together, and how often. */
enum { BATCH = 32, TIMES = 400, MOST_JOBS = 100000, MOST_ACTORS = 17, NOTES = 1 << 18, PLACES = 1024 };

static double now(void) {
    struct timespec time;
    clock_gettime(CLOCK_MONOTONIC, &time);
    return (double)time.tv_sec * 1e9 + (double)time.tv_nsec;
}

static uint32_t must(uint32_t code, uint32_t most, const char *call) {
    if (code > most && code != FX_PARKED) {
        fprintf(stderr, "%s: %s\n", call, fx_text(code));
        exit(1);
    }
    return code;
}

#define MUST(call) must(call, FX_BACK, #call)

static void tell(const char *call, double nanoseconds, double times) { printf("%s %.0f\n", call, nanoseconds * 10 / times); }

static uint64_t state = 88172645463325252u;

static uint64_t any(void) {
    state ^= state << 13;
    state ^= state >> 7;
    state ^= state << 17;
    return state;
}

static uint32_t queues, jobs, senders;
static uint64_t orders[MOST_JOBS];

/* A core by itself, with `jobs` jobs, which are polled once if they are to be parked. */
static fx_core filled(int parked) {
    fx_core core = FX_NO_CORE;
    uint32_t queue;
    uint64_t job;
    MUST(fx_open(&core, jobs + 2 * BATCH));
    for (uint32_t each = 1; each < queues; each++) MUST(fx_create(&core, 100 + each * 37 % 900, &queue));
    for (uint32_t each = 0; each < jobs; each++) MUST(fx_submit_numbered(&core, each % queues, each, &orders[each]));
    for (uint32_t each = 0; parked && each < jobs; each++) {
        MUST(fx_next(&core, &job));
        MUST(fx_settle(&core, FX_STEP_PARK, 500 + any() % 1000));
    }
    return core;
}

static void of_waiting(fx_core *core) {
    fx_core_stats counts = {.size = sizeof counts};
    fx_queue_stats of_queue = {.size = sizeof of_queue};
    uint64_t job;
    double began = now();
    for (uint32_t each = 0; each < TIMES * BATCH; each++) {
        MUST(fx_next(core, &job));
        MUST(fx_settle(core, FX_STEP_YIELD, 500 + any() % 1000));
    }
    tell("next_settle_waiting", now() - began, TIMES * BATCH);
    began = now();
    for (uint32_t each = 0; each < TIMES * BATCH; each++) MUST(fx_wake(core, orders[any() % jobs]));
    tell("wake_kept_waiting", now() - began, TIMES * BATCH);
    began = now();
    for (uint32_t each = 0; each < TIMES * BATCH; each++) must(fx_wake(core, UINT64_C(1) << 62 | any()), FX_ABSENT, "fx_wake");
    tell("wake_absent_waiting", now() - began, TIMES * BATCH);
    began = now();
    for (uint32_t each = 0; each < TIMES * BATCH; each++) MUST(fx_set_shares(core, any() % queues, 1 + any() % 10000));
    tell("set_shares_waiting", now() - began, TIMES * BATCH);
    began = now();
    for (uint32_t each = 0; each < TIMES * BATCH; each++) MUST(fx_stats(core, &counts));
    tell("stats_waiting", now() - began, TIMES * BATCH);
    began = now();
    for (uint32_t each = 0; each < TIMES * BATCH; each++) MUST(fx_stats_of_queue(core, each % queues, &of_queue));
    tell("stats_of_queue_waiting", now() - began, TIMES * BATCH);
}

/* Lives of jobs and wakes, where all other jobs are parked. */
static void of_parked(fx_core *core) {
    double submits = 0, dones = 0, wakes = 0, parks = 0;
    uint64_t job;
    for (uint32_t time = 0; time < TIMES; time++) {
        double began = now();
        for (uint32_t each = 0; each < BATCH; each++) MUST(fx_submit(core, any() % queues, each));
        submits += now() - began;
        began = now();
        for (uint32_t each = 0; each < BATCH; each++) {
            MUST(fx_next(core, &job));
            MUST(fx_settle(core, FX_STEP_DONE, 500 + any() % 1000));
        }
        dones += now() - began;
    }
    tell("submit_parked", submits, TIMES * BATCH);
    tell("next_settle_done_parked", dones, TIMES * BATCH);
    /* At most as many wakes at once as there are jobs, since two wakes of one are one. */
    uint32_t many = jobs < BATCH ? jobs : BATCH;
    for (uint32_t time = 0; time < TIMES; time++) {
        uint64_t first = any() % jobs, step = jobs < BATCH ? 1 : jobs / BATCH;
        double began = now();
        for (uint32_t each = 0; each < many; each++) MUST(fx_wake(core, orders[(first + each * step) % jobs]));
        wakes += now() - began;
        began = now();
        for (uint32_t each = 0; each < many; each++) {
            MUST(fx_next(core, &job));
            MUST(fx_settle(core, FX_STEP_PARK, 500 + any() % 1000));
        }
        parks += now() - began;
    }
    tell("wake_parked", wakes, TIMES * many);
    tell("next_settle_park_parked", parks, TIMES * many);
}

/* The calls that a core sees once: openings, creations and closings. */
static void of_ends(void) {
    fx_core core = FX_NO_CORE;
    uint64_t job;
    uint32_t made, more = queues + BATCH <= 256 ? BATCH : 0;
    double began = now();
    MUST(fx_open(&core, jobs + 2 * BATCH));
    tell("open", now() - began, 1);
    MUST(fx_free(&core));
    core = filled(0);
    began = now();
    for (uint32_t each = 0; each < more; each++) MUST(fx_create(&core, 100 + each, &made));
    if (more) tell("create_waiting", now() - began, more);
    began = now();
    for (uint32_t each = 0; each < queues; each++) MUST(fx_close_queue(&core, each, FX_MODE_FINISH));
    tell("close_queue_finish_waiting", now() - began, queues);
    began = now();
    MUST(fx_close(&core, FX_MODE_FINISH));
    tell("close_finish_waiting", now() - began, 1);
    began = now();
    MUST(fx_close(&core, FX_MODE_RETURN));
    tell("close_return_waiting", now() - began, 1);
    began = now();
    for (uint32_t each = 0; each < jobs; each++) must(fx_next(&core, &job), FX_BACK, "fx_next");
    tell("next_back_waiting", now() - began, jobs);
    began = now();
    MUST(fx_free(&core));
    tell("free", now() - began, 1);
    core = filled(1);
    began = now();
    MUST(fx_close_queue(&core, 0, FX_MODE_RETURN));
    tell("close_queue_return_parked", now() - began, 1);
    MUST(fx_free(&core));
    core = filled(1);
    began = now();
    MUST(fx_close(&core, FX_MODE_RETURN));
    tell("close_return_parked", now() - began, 1);
    MUST(fx_free(&core));
}

static void of_core(void) {
    fx_core core = filled(0);
    of_waiting(&core);
    MUST(fx_free(&core));
    core = filled(1);
    of_parked(&core);
    MUST(fx_free(&core));
    of_ends();
}

/* A house, its seats by the numbers of their actors, and the names of the jobs of core 0. */
static fx_house house;
static fx_seat seats[MOST_ACTORS];
static uint32_t actors;
static fx_name names[MOST_JOBS];
static uint8_t *text;
static size_t text_room;

/* The number of the actor that sends by this turn: the outside actor, then the cores from the last one to core 0. */
static uint32_t sender_of(uint32_t turn) { return actors - 1 - turn % senders; }

static void pass_on(fx_seat *seat) {
    uint64_t count;
    uint32_t code = fx_seat_pass_on(seat, text, text_room, &count);
    if (code == FX_SHORT) {
        text_room = count * 2;
        text = realloc(text, text_room);
        if (!text) exit(4);
        code = fx_seat_pass_on(seat, text, text_room, &count);
    }
    must(code, FX_OK, "fx_seat_pass_on");
}

static void pass_all_on(void) {
    for (uint32_t each = 0; each < actors; each++) pass_on(&seats[each]);
}

static void deliver_from(uint32_t actor) { must(fx_seat_deliver(&seats[0], actor), FX_OK, "fx_seat_deliver"); }

static void run_once(uint32_t step) {
    fx_turn turn = {.size = sizeof turn};
    must(fx_seat_next(&seats[0], &turn), FX_RESUME, "fx_seat_next");
    MUST(fx_seat_settle(&seats[0], step, 0, 500 + any() % 1000));
}

static void open_house(void) {
    fx_config config = {sizeof config, senders > 2 ? senders - 1 : 1, PLACES, 1, NOTES};
    fx_name name;
    uint64_t count;
    uint32_t actor;
    house = (fx_house)FX_NO_HOUSE;
    actors = config.cores + 1;
    double began = now();
    MUST(fx_house_open(&house, &config));
    tell("house_open", now() - began, 1);
    began = now();
    for (uint32_t each = 0; each < actors; each++) {
        fx_seat seat = FX_NO_SEAT;
        MUST(fx_house_take(&house, &seat, &actor));
        seats[actor] = seat;
    }
    tell("house_take", now() - began, actors);
    for (uint32_t queue = 1; queue < queues; queue++) {
        MUST(fx_seat_create(&seats[actors - 1], 0, 100 + queue * 37 % 900, &name));
        MUST(fx_seat_detach(&seats[actors - 1], &name));
        deliver_from(actors - 1);
        MUST(fx_seat_collect(&seats[actors - 1], 0, &count));
    }
    for (uint32_t job = 0; job < jobs; job++) {
        uint32_t sender = sender_of(job);
        MUST(fx_seat_submit(&seats[sender], 0, job % queues, job, &names[job]));
        deliver_from(sender);
    }
    pass_all_on();
}

static void free_house(void) {
    double began = now();
    for (uint32_t each = 0; each < actors; each++) MUST(fx_seat_free(&seats[each]));
    tell("seat_free", now() - began, actors);
    MUST(fx_house_free(&house));
}

/* Calls that ask and change nothing, and turns that yield. */
static void asks_of_seat(void) {
    fx_core_stats counts = {.size = sizeof counts};
    fx_queue_stats of_queue = {.size = sizeof of_queue};
    double began = now();
    for (uint32_t each = 0; each < TIMES * BATCH; each++) run_once(FX_STEP_YIELD);
    tell("seat_next_settle_waiting", now() - began, TIMES * BATCH);
    pass_all_on();
    began = now();
    for (uint32_t each = 0; each < TIMES * BATCH; each++) must(fx_seat_shows(&seats[0]), FX_IDLE, "fx_seat_shows");
    tell("seat_shows_waiting", now() - began, TIMES * BATCH);
    began = now();
    for (uint32_t each = 0; each < TIMES * BATCH; each++) must(fx_seat_deliver(&seats[0], each % actors), FX_IDLE, "fx_seat_deliver");
    tell("seat_deliver_none_waiting", now() - began, TIMES * BATCH);
    began = now();
    for (uint32_t each = 0; each < TIMES * BATCH; each++) must(fx_seat_drained(&seats[0]), FX_NOT_DRAINED, "fx_seat_drained");
    tell("seat_drained_waiting", now() - began, TIMES * BATCH);
    began = now();
    for (uint32_t each = 0; each < TIMES * BATCH; each++) MUST(fx_seat_stats(&seats[0], &counts));
    tell("seat_stats_waiting", now() - began, TIMES * BATCH);
    began = now();
    for (uint32_t each = 0; each < TIMES * BATCH; each++) MUST(fx_seat_stats_of_queue(&seats[0], each % queues, &of_queue));
    tell("seat_stats_of_queue_waiting", now() - began, TIMES * BATCH);
}

/* A whole round of a job or of a wake, where all other jobs are parked: each part of it by itself. */
static void lives_of_seat(int wakes) {
    fx_name sent[BATCH];
    fx_outcome outcome = {.size = sizeof outcome};
    fx_seat *outside = &seats[actors - 1];
    double sends = 0, delivers = 0, runs = 0, collects = 0, redeems = 0, detaches = 0;
    uint64_t count;
    uint32_t many = wakes && jobs < BATCH ? jobs : BATCH;
    for (uint32_t time = 0; time < TIMES; time++) {
        uint64_t first = any() % jobs, step = jobs < BATCH ? 1 : jobs / BATCH;
        double began = now();
        for (uint32_t each = 0; each < many; each++) {
            if (wakes)
                MUST(fx_seat_wake(outside, &names[(first + each * step) % jobs], &sent[each]));
            else
                MUST(fx_seat_submit(outside, 0, any() % queues, each, &sent[each]));
        }
        sends += now() - began;
        began = now();
        for (uint32_t each = 0; each < many; each++) deliver_from(actors - 1);
        delivers += now() - began;
        began = now();
        for (uint32_t each = 0; each < many; each++) run_once(wakes ? FX_STEP_PARK : FX_STEP_DONE);
        runs += now() - began;
        began = now();
        MUST(fx_seat_collect(outside, 0, &count));
        collects += now() - began;
        began = now();
        for (uint32_t each = 0; each < many / 2; each++) MUST(fx_seat_redeem(outside, &sent[each], &outcome));
        redeems += now() - began;
        began = now();
        for (uint32_t each = many / 2; each < many; each++) MUST(fx_seat_detach(outside, &sent[each]));
        detaches += now() - began;
    }
    double all = TIMES * many, half = TIMES * (many / 2), rest = TIMES * (many - many / 2);
    tell(wakes ? "seat_wake_parked" : "seat_submit_parked", sends, all);
    tell(wakes ? "seat_deliver_wake_parked" : "seat_deliver_job_parked", delivers, all);
    tell(wakes ? "seat_next_settle_park_parked" : "seat_next_settle_done_parked", runs, all);
    if (wakes) return;
    tell("seat_collect_parked", collects, all);
    tell("seat_redeem_parked", redeems, half);
    tell("seat_detach_parked", detaches, rest);
}

static void closings_of_seat(void) {
    uint64_t count;
    double began = now();
    MUST(fx_seat_close(&seats[0], FX_MODE_FINISH));
    tell("seat_close_finish_parked", now() - began, 1);
    began = now();
    for (uint32_t each = 0; each < actors; each++) MUST(fx_seat_shut(&seats[0], each));
    tell("seat_shut_parked", now() - began, actors);
    began = now();
    MUST(fx_seat_close(&seats[0], FX_MODE_RETURN));
    tell("seat_close_return_parked", now() - began, 1);
    pass_on(&seats[0]);
    fx_turn turn = {.size = sizeof turn};
    began = now();
    for (uint32_t job = 0; job < jobs; job++) must(fx_seat_next(&seats[0], &turn), FX_BACK, "fx_seat_next");
    tell("seat_next_back_parked", now() - began, jobs);
    began = now();
    MUST(fx_seat_pass_on(&seats[0], text, text_room, &count));
    tell("seat_pass_on_a_note", now() - began, 2 * jobs);
}

static void of_seat(void) {
    text_room = (size_t)NOTES * 128;
    text = malloc(text_room);
    if (!text) exit(4);
    open_house();
    asks_of_seat();
    for (uint32_t job = 0; job < jobs; job++) run_once(FX_STEP_PARK);
    pass_all_on();
    lives_of_seat(0);
    pass_all_on();
    lives_of_seat(1);
    pass_all_on();
    closings_of_seat();
    free_house();
    free(text);
}

int main(int count, char **words) {
    if (count < 4) return 2;
    queues = (uint32_t)atoi(words[2]), jobs = (uint32_t)atoi(words[3]), senders = count > 4 ? (uint32_t)atoi(words[4]) : 1;
    if (!queues || queues > 256 || !jobs || jobs > MOST_JOBS || !senders || senders > MOST_ACTORS) return 2;
    if (strcmp(words[1], "core") == 0)
        of_core();
    else if (jobs <= 980 * senders)
        of_seat();
    else
        return 2;
    return 0;
}
