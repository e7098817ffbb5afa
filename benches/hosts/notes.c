/*
 * Times what becomes of notes, and calls on them, through hosts/c/fairexec.h: notes [ROUNDS]. Each line has the middle of so many rounds (5):
 *   - nanoseconds a note of a core whose one queue has four jobs that yield, three notes a turn: kept, forgotten, or passed on as text or in bytes.
 *     What is not kept goes each 1,300 turns, of a journal of 2^12 notes;
 *   - nanoseconds and bytes of a copy of some notes, as text and in bytes, and nanoseconds of forgetting many;
 *   - nanoseconds of a turn by fx_seat_settle and fx_seat_next, and by fx_seat_step.
 */
#define _POSIX_C_SOURCE 200809L
#include "fairexec.h"
#include <stdio.h>
#include <stdlib.h>
#include <string.h>
#include <time.h>

enum { TURNS = 650000, EACH = 1300, JOBS = 4, MOST_ROUNDS = 99, BYTES = 1 << 20 };
enum what { KEEP, FORGET, TEXT, IN_BYTES };

static fx_house house;
static fx_seat core, outside;
static uint8_t bytes[BYTES];
static double found[MOST_ROUNDS];
static int rounds = 5;

static double now(void) {
    struct timespec time;
    clock_gettime(CLOCK_THREAD_CPUTIME_ID, &time);
    return (double)time.tv_sec * 1e9 + (double)time.tv_nsec;
}

static void must(uint32_t code, uint32_t most) {
    if (code <= most) return;
    fprintf(stderr, "%s\n", fx_text(code));
    exit(1);
}

static int by_size(const void *one, const void *two) {
    double a = *(const double *)one, b = *(const double *)two;
    return (a > b) - (a < b);
}

static double middle(void) {
    qsort(found, (size_t)rounds, sizeof *found, by_size);
    return found[rounds / 2];
}

/* One core with four jobs inside. A turn resumes the one that came first, or starts another. */
static void begin(uint32_t notes) {
    fx_config config = {sizeof config, 1, 8, 1, notes};
    fx_turn turn = {.size = sizeof turn};
    fx_name name;
    uint32_t actor;
    uint64_t count;
    memset(&house, 0, sizeof house);
    memset(&core, 0, sizeof core);
    memset(&outside, 0, sizeof outside);
    must(fx_house_open(&house, &config), FX_OK);
    must(fx_house_take(&house, &outside, &actor), FX_OK);
    must(fx_house_take(&house, &core, &actor), FX_OK);
    for (uint64_t job = 0; job < JOBS; job++) {
        must(fx_seat_submit(&outside, 0, 0, job, &name), FX_OK);
        must(fx_seat_deliver(&core, 1), FX_OK);
        must(fx_seat_next(&core, &turn), FX_RESUME);
        must(fx_seat_settle(&core, FX_STEP_YIELD, 0, 500), FX_OK);
    }
    must(fx_seat_forget(&core, &count), FX_OK);
}

static void end(void) {
    fx_seat_free(&core);
    fx_seat_free(&outside);
    fx_house_free(&house);
}

static void turn(void) {
    fx_turn turn = {.size = sizeof turn};
    must(fx_seat_next(&core, &turn), FX_RESUME);
    must(fx_seat_settle(&core, FX_STEP_YIELD, 0, 500), FX_OK);
}

static double note(enum what becomes) {
    for (int round = 0; round < rounds; round++) {
        uint64_t count, copied;
        begin(becomes == KEEP ? 3 * TURNS + 4 : 1 << 12);
        double began = now();
        for (uint32_t each = 1; each <= TURNS; each++) {
            turn();
            if (becomes == FORGET && each % EACH == 0) must(fx_seat_forget(&core, &count), FX_OK);
            if (becomes == TEXT && each % EACH == 0) must(fx_seat_pass_on(&core, bytes, BYTES, &count), FX_OK);
            if (becomes == IN_BYTES && each % EACH == 0) {
                must(fx_seat_copy_bytes(&core, 3 * each, 0, UINT64_MAX, bytes, BYTES, &count, &copied), FX_OK);
                must(fx_seat_forget(&core, &count), FX_OK);
            }
        }
        found[round] = (now() - began) / (3 * TURNS);
        end();
    }
    return middle();
}

static double forgetting(uint32_t turns) {
    uint64_t count;
    begin(3 * turns + 4);
    for (int round = 0; round < rounds; round++) {
        for (uint32_t each = 0; each < turns; each++) turn();
        double began = now();
        must(fx_seat_forget(&core, &count), FX_OK);
        found[round] = now() - began;
        if (count != 3 * turns) exit(1);
    }
    end();
    return middle();
}

/* The bytes of it are written, too. */
static double copying(uint64_t notes, int in_bytes, uint64_t *count) {
    uint64_t copied;
    begin(3 * 4000 + 4);
    for (uint32_t each = 0; each < 4000; each++) turn();
    for (int round = 0; round < rounds; round++) {
        double began = now();
        must(in_bytes ? fx_seat_copy_bytes(&core, 999, 999, notes, bytes, BYTES, count, &copied) : fx_seat_copy(&core, 999, notes, bytes, BYTES, count, &copied), FX_OK);
        found[round] = now() - began;
        if (copied != notes) exit(1);
    }
    end();
    return middle();
}

static double going_on(int by_step) {
    for (int round = 0; round < rounds; round++) {
        fx_turn turn = {.size = sizeof turn};
        uint64_t count;
        begin(1 << 12);
        must(fx_seat_next(&core, &turn), FX_RESUME);
        double began = now();
        for (uint32_t each = 1; each <= TURNS; each++) {
            if (!by_step) must(fx_seat_settle(&core, FX_STEP_YIELD, 0, 500), FX_OK);
            must(by_step ? fx_seat_step(&core, FX_STEP_YIELD, 0, 500, &turn) : fx_seat_next(&core, &turn), FX_RESUME);
            if (each % EACH == 0) must(fx_seat_forget(&core, &count), FX_OK);
        }
        found[round] = (now() - began) / TURNS;
        end();
    }
    return middle();
}

int main(int count, char **words) {
    if (count > 1) rounds = atoi(words[1]);
    if (rounds < 1 || rounds > MOST_ROUNDS) return 2;
    printf("a note that is kept      %8.1f\n", note(KEEP));
    printf("a note that is forgotten %8.1f\n", note(FORGET));
    printf("a note that goes as text %8.1f\n", note(TEXT));
    printf("a note that goes in bytes %7.1f\n", note(IN_BYTES));
    for (int in_bytes = 0; in_bytes <= 1; in_bytes++)
        for (uint64_t notes = 128; notes <= 4096; notes *= 2) {
            uint64_t size = 0;
            double took = copying(notes, in_bytes, &size);
            printf("a copy of %4u notes %s %10.0f, of %6u bytes\n", (unsigned)notes, in_bytes ? "in bytes" : "as text ", took, (unsigned)size);
        }
    for (uint32_t turns = 1 << 10; turns <= 1 << 20; turns *= 32) printf("forgetting %7u notes %10.0f\n", 3 * turns, forgetting(turns));
    printf("settle and next %17.1f\n", going_on(0));
    printf("step %28.1f\n", going_on(1));
    return 0;
}
