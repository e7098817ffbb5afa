/*
 * The longest that each call of the library on a seat may take at the defaults of the wrappers: calls [ROUNDS [NAME]]. A house of one core has 64 places on a
 * link and journals of 2^20 notes; the core has 256 queues and as many jobs inside as the links carry. Each line has a call in the state in which it has the
 * most to do, the middle and the longest of so many rounds (9) in microseconds. NAME measures one alone. With -NAME all is made for it and it isn't called:
 * the two differ by the call, so valgrind tells its instructions.
 */
#define _POSIX_C_SOURCE 200809L
#include "fairexec.h"
#include <stdio.h>
#include <stdlib.h>
#include <string.h>
#include <time.h>

enum { PLACES = 64, NOTES = 1 << 20, QUEUES = 256, MOST_ROUNDS = 999, BYTES = 1 << 16 };

static fx_house house;
static fx_seat core, outside;
static fx_name names[PLACES], own[PLACES];
static fx_turn turn = {.size = sizeof turn};
static fx_outcome outcome = {.size = sizeof outcome};
static fx_core_stats stats = {.size = sizeof stats};
static fx_queue_stats of_queue = {.size = sizeof of_queue};
static uint8_t bytes[BYTES];
static uint64_t count, notes;

static double now(void) {
    struct timespec time;
    clock_gettime(CLOCK_MONOTONIC, &time);
    return (double)time.tv_sec * 1e6 + (double)time.tv_nsec / 1e3;
}

static void must(uint32_t code, uint32_t wanted) {
    if (code == wanted) return;
    fprintf(stderr, "%s\n", fx_text(code));
    exit(1);
}

static void begin(void) {
    fx_config config = {sizeof config, 1, PLACES, 1, NOTES};
    fx_name name;
    uint32_t actor;
    must(fx_house_open(&house, &config), FX_OK);
    must(fx_house_take(&house, &outside, &actor), FX_OK);
    must(fx_house_take(&house, &core, &actor), FX_OK);
    for (uint32_t queue = 1; queue < QUEUES; queue++) {
        must(fx_seat_create(&outside, 0, 100 + queue * 37 % 900, &name), FX_OK);
        must(fx_seat_deliver(&core, 1), FX_OK);
        must(fx_seat_collect(&outside, 0, &count), FX_OK);
        must(fx_seat_redeem(&outside, &name, &outcome), FX_OK);
    }
}

static void end(void) {
    fx_seat_free(&core);
    fx_seat_free(&outside);
    fx_house_free(&house);
}

/* Both actors submit a job for each place, and the core takes them in. */
static void fill(void) {
    for (uint32_t each = 0; each < PLACES; each++) {
        must(fx_seat_submit(&outside, 0, each * 4, each, &names[each]), FX_OK);
        must(fx_seat_submit(&core, 0, each * 4 + 2, each, &own[each]), FX_OK);
        must(fx_seat_deliver(&core, 1), FX_OK);
        must(fx_seat_deliver(&core, 0), FX_OK);
    }
}

static void run(uint32_t turns, uint32_t step) {
    for (uint32_t each = 0; each < turns; each++) {
        must(fx_seat_next(&core, &turn), each < 2 * PLACES ? FX_START : FX_RESUME);
        must(fx_seat_settle(&core, step, each, 500 + each % 1000), step == FX_STEP_DONE ? FX_DONE : step == FX_STEP_PARK ? FX_PARKED : FX_OK);
    }
}

/* So many jobs are inside and yielded; the journal has some hundred thousand notes, or is full as far as a turn may fill it. */
static void inside(void) { fill(), run(2 * PLACES, FX_STEP_YIELD); }
static void parked(void) { fill(), run(2 * PLACES, FX_STEP_PARK); }
static void done(void) { fill(), run(2 * PLACES, FX_STEP_DONE); }
static void many(void) { fill(), run(100000, FX_STEP_YIELD); }
static void full(void) { fill(), run((NOTES - 1000) / 3, FX_STEP_YIELD); }
static void running(void) { inside(), must(fx_seat_next(&core, &turn), FX_RESUME); }
static void closed(void) { inside(), must(fx_seat_close(&core, FX_MODE_RETURN), FX_OK); }
static void sent(void) { must(fx_seat_submit(&outside, 0, 255, 7, &names[0]), FX_OK); }
static void woken(void) { parked(), must(fx_seat_collect(&core, 0, &count), FX_OK); }
static void collected(void) { done(), must(fx_seat_collect(&outside, 0, &count), FX_OK); }
static void empty(void) {}

static void submit(void) { must(fx_seat_submit(&outside, 0, 0, 7, &names[0]), FX_OK); }
static void deliver(void) { must(fx_seat_deliver(&core, 1), FX_OK); }
static void next(void) { must(fx_seat_next(&core, &turn), FX_RESUME); }
static void back(void) { must(fx_seat_next(&core, &turn), FX_BACK); }
static void settle(void) { must(fx_seat_settle(&core, FX_STEP_YIELD, 0, 1), FX_OK); }
static void step(void) { must(fx_seat_step(&core, FX_STEP_YIELD, 0, 1, &turn), FX_RESUME); }
static void collect(void) { must(fx_seat_collect(&outside, 0, &count), FX_OK); }
static void redeem(void) { must(fx_seat_redeem(&outside, &names[PLACES - 1], &outcome), FX_OK); }
static void detach(void) { must(fx_seat_detach(&outside, &names[PLACES - 1]), FX_OK); }
static void close_it(void) { must(fx_seat_close(&core, FX_MODE_RETURN), FX_OK); }
static void shut(void) { must(fx_seat_shut(&core, 1), FX_OK); }
static void drained(void) { must(fx_seat_drained(&core), FX_NOT_DRAINED); }
static void shows(void) { must(fx_seat_shows(&core), FX_IDLE); }
static void tell(void) { must(fx_seat_stats(&core, &stats), FX_OK); }
static void tell_queue(void) { must(fx_seat_stats_of_queue(&core, 255, &of_queue), FX_OK); }
static void tell_notes(void) { must(fx_seat_notes(&core, &count, &notes), FX_OK); }
static void copy(void) { must(fx_seat_copy(&core, 99999, 128, bytes, BYTES, &count, &notes), FX_OK); }
static void copy_bytes(void) { must(fx_seat_copy_bytes(&core, 99999, 99999, 256, bytes, BYTES, &count, &notes), FX_OK); }
static void forget(void) { must(fx_seat_forget(&core, &count), FX_OK); }

static const struct {
    const char *name, *what;
    void (*before)(void), (*call)(void);
} calls[] = {
    {"submit", "fx_seat_submit", empty, submit},
    {"deliver", "fx_seat_deliver, of a job", sent, deliver},
    {"next", "fx_seat_next, of 128 queues with work", inside, next},
    {"settle", "fx_seat_settle", running, settle},
    {"step", "fx_seat_step", running, step},
    {"collect", "fx_seat_collect, of 64 outcomes", done, collect},
    {"redeem", "fx_seat_redeem", collected, redeem},
    {"detach", "fx_seat_detach", collected, detach},
    {"close", "fx_seat_close, of 256 queues with 128 parked jobs", woken, close_it},
    {"back", "fx_seat_next, of a core that hands back", closed, back},
    {"shut", "fx_seat_shut", closed, shut},
    {"drained", "fx_seat_drained", closed, drained},
    {"shows", "fx_seat_shows", inside, shows},
    {"stats", "fx_seat_stats, of 256 queues", inside, tell},
    {"queue", "fx_seat_stats_of_queue", inside, tell_queue},
    {"notes", "fx_seat_notes", many, tell_notes},
    {"copy", "fx_seat_copy, of 128 notes", many, copy},
    {"bytes", "fx_seat_copy_bytes, of 256 notes", many, copy_bytes},
    {"forget", "fx_seat_forget, of 2^20 notes", full, forget},
};

static int by_size(const void *one, const void *two) {
    double a = *(const double *)one, b = *(const double *)two;
    return (a > b) - (a < b);
}

int main(int words, char **word) {
    int rounds = words > 1 ? atoi(word[1]) : 9, is_made = words < 3 || *word[2] != '-';
    double took[MOST_ROUNDS];
    if (rounds < 1 || rounds > MOST_ROUNDS) return 2;
    for (size_t each = 0; each < sizeof calls / sizeof *calls; each++) {
        if (words > 2 && strcmp(calls[each].name, word[2] + !is_made) != 0) continue;
        for (int round = 0; round < rounds; round++) {
            begin();
            calls[each].before();
            double began = now();
            if (is_made) calls[each].call();
            took[round] = now() - began;
            end();
        }
        qsort(took, (size_t)rounds, sizeof *took, by_size);
        printf("%-52s %9.2f %9.2f\n", calls[each].what, took[rounds / 2], took[rounds - 1]);
    }
    return 0;
}
