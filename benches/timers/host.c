// How late the timers of a host's core fire: timers_host late JOBS NAPS. So many jobs of one core alone nap so often each, for the times that the program in
// Rattle has. Prints a line for each nap: how many nanoseconds late its run began.
// timers_host naps JOBS NAPS: nanoseconds of a nap that is due at once, in all of them: its run, its timer and its wake. Prints ten times that.
#include "fairexec.h"
#include <stdio.h>
#include <stdlib.h>
#include <string.h>
#include <time.h>

enum { LEAST = 1000000, SPAN = 999000000 };

struct job {
    uint64_t dice, end;
    unsigned left;
};

static fx_core core = FX_NO_CORE;
static fx_timers timers = FX_NO_TIMERS;
static struct job *jobs;
static uint64_t *late;
static size_t naps;

static uint64_t clock_now(void) {
    struct timespec now;
    clock_gettime(CLOCK_MONOTONIC, &now);
    return (uint64_t)now.tv_sec * 1000000000 + (uint64_t)now.tv_nsec;
}

static void sleep_until(uint64_t time) {
    struct timespec at = {(time_t)(time / 1000000000), (long)(time % 1000000000)};
    while (clock_nanosleep(CLOCK_MONOTONIC, TIMER_ABSTIME, &at, NULL) != 0) {}
}

// A chain of numbers, as the program in Rattle has it.
static uint64_t roll(uint64_t *dice) { return (*dice = *dice * 6364136223846793005u + 1442695040888963407u) >> 33; }

static void give_up(const char *call, uint32_t code) {
    fprintf(stderr, "timers_host: %s: %s\n", call, fx_text(code));
    exit(1);
}

// Runs a job that is told: its nap ended, and it takes the next one, for this long or, with 0, for 1 ms to 1 s.
static void run(uint64_t number, uint32_t code, uint64_t nap) {
    struct job *job = &jobs[number];
    uint64_t began = clock_now();
    if (code == FX_RESUME && late != NULL) late[naps++] = began - job->end;
    uint32_t step = job->left == 0 ? FX_STEP_DONE : FX_STEP_PARK;
    if (step == FX_STEP_PARK) job->left--;
    job->end = began + (nap > 0 ? nap : LEAST + roll(&job->dice) % SPAN);
    code = fx_settle_until(&core, &timers, step, clock_now() - began, step == FX_STEP_PARK ? job->end : FX_NEVER);
    if (code != FX_PARKED && code != FX_DONE) give_up("fx_settle_until", code);
}

static void run_all(uint64_t nap) {
    uint64_t number, time;
    for (;;) {
        uint64_t now = clock_now();
        uint32_t code;
        do code = fx_wake_due(&core, &timers, now);
        while (code == FX_OK || code == FX_ABSENT);
        code = fx_next(&core, &number);
        if (code == FX_START || code == FX_RESUME) run(number, code, nap);
        else if (fx_next_time(&timers, &time) != FX_OK) return;
        else if (nap == 0) sleep_until(time);
    }
}

int main(int count, char **words) {
    if (count != 4) return 2;
    unsigned many = (unsigned)atoi(words[2]), each = (unsigned)atoi(words[3]);
    int is_late = strcmp(words[1], "late") == 0;
    uint32_t code = fx_open(&core, many + 2);
    if (code != FX_OK) give_up("fx_open", code);
    if ((code = fx_timers_open(&timers, many)) != FX_OK) give_up("fx_timers_open", code);
    jobs = calloc(many, sizeof *jobs);
    if (is_late) late = calloc((size_t)many * each, sizeof *late);
    if (jobs == NULL || (is_late && late == NULL)) return 1;
    for (unsigned number = 0; number < many; number++) {
        jobs[number].dice = number;
        jobs[number].left = each;
        if ((code = fx_submit(&core, 0, number)) != FX_OK) give_up("fx_submit", code);
    }
    uint64_t began = clock_now();
    run_all(is_late ? 0 : 1);
    if (!is_late) printf("%.0f\n", 10.0 * (double)(clock_now() - began) / ((double)many * each));
    for (size_t nap = 0; nap < naps; nap++) printf("%llu\n", (unsigned long long)late[nap]);
    return 0;
}
