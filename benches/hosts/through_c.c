/*
 * Times calls through hosts/c/fairexec.h: through_c MEASURE QUEUES JOBS ROUNDS. It prints a line for each round: tenths of nanoseconds,
 * and the sum of the jobs that were picked.
 *   turns  fx_next and fx_settle of a job that yields; each of QUEUES queues has JOBS jobs
 *   jobs   fx_submit, fx_next and fx_settle of a job of one run, in queues by turns
 *   seats  fx_seat_next and fx_seat_settle of a job that yields: a core of a house, which keeps its journal
 */
#define _POSIX_C_SOURCE 200809L
#include "fairexec.h"
#include <stdio.h>
#include <stdlib.h>
#include <string.h>
#include <time.h>

enum { TIMES = 200000 };

static double now(void) {
    struct timespec time;
    clock_gettime(CLOCK_MONOTONIC, &time);
    return (double)time.tv_sec * 1e9 + (double)time.tv_nsec;
}

static void must(uint32_t code, uint32_t most) {
    if (code <= most) return;
    fprintf(stderr, "%s\n", fx_text(code));
    exit(1);
}

static uint64_t state = 88172645463325252u;

static uint64_t any(void) {
    state ^= state << 13;
    state ^= state >> 7;
    state ^= state << 17;
    return state;
}

static uint64_t turns(fx_core *core) {
    uint64_t sum = 0, job;
    for (uint32_t each = 0; each < TIMES; each++) {
        must(fx_next(core, &job), FX_RESUME);
        sum += job;
        must(fx_settle(core, FX_STEP_YIELD, 500 + any() % 1000), FX_OK);
    }
    return sum;
}

static uint64_t jobs_of_one_run(fx_core *core, uint32_t queues) {
    uint64_t sum = 0, job;
    for (uint32_t each = 0; each < TIMES; each++) {
        must(fx_submit(core, each % queues, each), FX_OK);
        must(fx_next(core, &job), FX_START);
        sum += job;
        must(fx_settle(core, FX_STEP_DONE, 500 + any() % 1000), FX_DONE);
    }
    return sum;
}

static void of_seats(fx_seat *outside, fx_seat *core, uint32_t queues, uint32_t jobs) {
    fx_name name;
    uint64_t count;
    for (uint32_t queue = 1; queue < queues; queue++) {
        must(fx_seat_create(outside, 0, 100 + queue * 37 % 900, &name), FX_OK);
        must(fx_seat_detach(outside, &name), FX_OK);
        must(fx_seat_deliver(core, 1), FX_OK);
        must(fx_seat_collect(outside, 0, &count), FX_OK);
    }
    for (uint32_t job = 0; job < queues * jobs; job++) {
        must(fx_seat_submit(outside, 0, job / jobs, job, &name), FX_OK);
        must(fx_seat_deliver(core, 1), FX_OK);
    }
}

/* Each round has a house of its own, since a journal has an end. */
static void seats(uint32_t queues, uint32_t jobs, uint32_t rounds) {
    for (uint32_t round = 0; round < rounds; round++) {
        fx_house house = FX_NO_HOUSE;
        fx_seat outside = FX_NO_SEAT, core = FX_NO_SEAT;
        fx_config config = {sizeof config, 1, 1024, 1, 4 * TIMES};
        fx_turn turn = {.size = sizeof turn};
        uint32_t actor;
        uint64_t sum = 0;
        must(fx_house_open(&house, &config), FX_OK);
        must(fx_house_take(&house, &outside, &actor), FX_OK);
        must(fx_house_take(&house, &core, &actor), FX_OK);
        of_seats(&outside, &core, queues, jobs);
        double began = now();
        for (uint32_t each = 0; each < TIMES; each++) {
            must(fx_seat_next(&core, &turn), FX_RESUME);
            sum += turn.job;
            must(fx_seat_settle(&core, FX_STEP_YIELD, 0, 500 + any() % 1000), FX_OK);
        }
        printf("%.0f %llu\n", (now() - began) * 10 / TIMES, (unsigned long long)sum);
        must(fx_seat_free(&outside), FX_OK);
        must(fx_seat_free(&core), FX_OK);
        must(fx_house_free(&house), FX_OK);
    }
}

int main(int count, char **words) {
    if (count != 5) return 2;
    uint32_t queues = (uint32_t)atoi(words[2]), jobs = (uint32_t)atoi(words[3]), rounds = (uint32_t)atoi(words[4]), made;
    int is_turns = strcmp(words[1], "turns") == 0;
    if (strcmp(words[1], "seats") == 0) return seats(queues, jobs, rounds), 0;
    fx_core core = FX_NO_CORE;
    must(fx_open(&core, queues * jobs + 2), FX_OK);
    for (uint32_t queue = 1; queue < queues; queue++) must(fx_create(&core, 100 + queue * 37 % 900, &made), FX_OK);
    for (uint32_t job = 0; is_turns && job < queues * jobs; job++) must(fx_submit(&core, job / jobs, job), FX_OK);
    for (uint32_t round = 0; round < rounds; round++) {
        double began = now();
        uint64_t sum = is_turns ? turns(&core) : jobs_of_one_run(&core, queues);
        printf("%.0f %llu\n", (now() - began) * 10 / TIMES, (unsigned long long)sum);
    }
    must(fx_free(&core), FX_OK);
    return 0;
}
