/*
 * Two threads, each with a core of its own. On each core a foreground queue has 900 shares and a background queue has 100, and both have
 * work all the time. When the foreground's jobs are done, each core tells what its queues got and how long their jobs waited, closes, and
 * takes the background's jobs back.
 *
 *   gcc -std=c11 -O2 -Ihosts/c hosts/examples/two_cores.c hosts/out/libfairexec.a -pthread
 */
#define _POSIX_C_SOURCE 200809L
#include "fairexec.h"
#include <pthread.h>
#include <stdbool.h>
#include <stdio.h>
#include <stdlib.h>
#include <time.h>

enum { CORES = 2, JOBS = 32, RUNS = 60, FOREGROUND = 0 };

/* A job of this host: its number is its place in the seat's array. */
typedef struct {
    uint32_t queue, runs_left;
    uint64_t sum, queued_at;
} job;

typedef struct {
    uint64_t runs, waited, longest;
} waits;

/* A thread's core, and all that its jobs stand for. No other thread uses it meanwhile, so nothing here has a lock. */
typedef struct {
    fx_core core;
    uint32_t background, done, back;
    job jobs[2 * JOBS];
    waits of_queue[2];
} seat;

static uint64_t read_clock(clockid_t clock) {
    struct timespec time;
    clock_gettime(clock, &time);
    return (uint64_t)time.tv_sec * 1000000000u + (uint64_t)time.tv_nsec;
}

/* Waits are told in the time of the wall. */
static uint64_t now(void) { return read_clock(CLOCK_MONOTONIC); }

/* Runs are charged for the processor's time, so a thread that the system set aside isn't charged for that. */
static uint64_t used(void) { return read_clock(CLOCK_THREAD_CPUTIME_ID); }

/* Any code but the wanted one ends the program. */
static void must(uint32_t code, uint32_t wanted, const char *what) {
    if (code == wanted) return;
    fprintf(stderr, "%s: %s\n", what, fx_text(code));
    exit(1);
}

static void submit(seat *s, uint32_t number, uint32_t queue, uint32_t runs) {
    s->jobs[number] = (job){queue, runs, number, now()};
    must(fx_submit(&s->core, queue, number), FX_OK, "submit");
}

/* Some work, of which each run does a part: a background job does more at once. Whether it is done. */
static bool run(job *it) {
    uint32_t steps = it->queue == FOREGROUND ? 4000 : 12000;
    for (uint32_t step = 0; step < steps; step++) it->sum = it->sum * 6364136223846793005u + 1442695040888963407u;
    return --it->runs_left == 0;
}

/* One turn: the next job runs once, and its time is told. */
static void turn(seat *s) {
    uint64_t number;
    uint32_t code = fx_next(&s->core, &number);
    if (code != FX_START) must(code, FX_RESUME, "next");
    job *it = &s->jobs[number];
    waits *w = &s->of_queue[it->queue];
    uint64_t waited = now() - it->queued_at, began = used();
    w->runs++;
    w->waited += waited;
    if (w->longest < waited) w->longest = waited;
    bool done = run(it);
    must(fx_settle(&s->core, done ? FX_STEP_DONE : FX_STEP_YIELD, used() - began), done ? FX_DONE : FX_OK, "settle");
    it->queued_at = now();
    if (done) s->done++;
}

static void *serve(void *given) {
    seat *s = given;
    while (s->done < JOBS) turn(s);
    return NULL;
}

static fx_queue_stats stats_of(seat *s, uint32_t queue) {
    fx_queue_stats stats = {0};
    stats.size = sizeof stats;
    must(fx_stats_of_queue(&s->core, queue, &stats), FX_OK, "stats");
    return stats;
}

static void tell(seat *s, int number) {
    double time[2] = {(double)stats_of(s, FOREGROUND).time_low, (double)stats_of(s, s->background).time_low};
    for (int queue = 0; queue < 2; queue++) {
        waits *w = &s->of_queue[queue];
        printf("core %d, %s: %.1f %% of the time, %llu runs, waited %.1f us on average and %.1f us at most\n", number, queue ? "background" : "foreground",
               100 * time[queue] / (time[0] + time[1]), (unsigned long long)w->runs, w->runs ? (double)w->waited / (double)w->runs / 1e3 : 0, (double)w->longest / 1e3);
    }
}

int main(void) {
    static seat seats[CORES];
    pthread_t threads[CORES];
    if (fx_version() != FX_VERSION) return 1;
    for (int each = 0; each < CORES; each++) {
        seat *s = &seats[each];
        must(fx_open(&s->core, 2 * JOBS), FX_OK, "open");
        must(fx_set_shares(&s->core, FOREGROUND, 900), FX_OK, "set shares");
        must(fx_create(&s->core, 100, &s->background), FX_OK, "create");
        for (uint32_t number = 0; number < JOBS; number++) submit(s, number, FOREGROUND, RUNS);
        for (uint32_t number = JOBS; number < 2 * JOBS; number++) submit(s, number, s->background, UINT32_MAX);
    }
    for (int each = 0; each < CORES; each++)
        if (pthread_create(&threads[each], NULL, serve, &seats[each]) != 0) return 1;
    bool right = true;
    for (int each = 0; each < CORES; each++) {
        seat *s = &seats[each];
        uint64_t number;
        pthread_join(threads[each], NULL);
        tell(s, each);
        must(fx_close(&s->core, FX_MODE_RETURN), FX_OK, "close");
        while (fx_next(&s->core, &number) == FX_BACK) s->back++;
        must(fx_free(&s->core), FX_OK, "free");
        printf("core %d: %u jobs done, %u came back\n", each, s->done, s->back);
        right = right && s->done == JOBS && s->back == JOBS;
    }
    return right ? 0 : 1;
}
