/*
 * A core that runs for long: soak TURNS. Four queues of 500, 300, 150 and 50 shares have 16 jobs each, and each job is handed in again
 * when it is done. Or a house that does: soak TURNS house. Its core runs one job after the other for the outside actor, and the journals of
 * both have room for few notes: a call that finds one full is made again behind the passing on of its notes, to a buffer.
 *
 * The memory of the process is read behind the first hundredth of the turns, in the middle and at the end. It fails if a call answers another
 * code than its turn has, if a queue's part of the time is off its shares by more than two runs, if a job has another answer, if notes are
 * missing, or if the memory grew by more than 64 KiB. It needs /proc.
 * The last line is 'N passed, M failed', and the status is 0 if nothing failed.
 */
#include "fairexec.h"
#include <inttypes.h>
#include <stdio.h>
#include <stdlib.h>
#include <string.h>
#include <unistd.h>

enum { QUEUES = 4, JOBS = 16, RUNS = 5, NANOSECONDS = 300, NOTES = 24, LONGEST = 128 };

/* A run of 300 ns is charged without rounding under each of them. */
static const uint32_t shares[QUEUES] = {500, 300, 150, 50};
static unsigned passed, failed;
static fx_core core = FX_NO_CORE;
static fx_house house = FX_NO_HOUSE;
static fx_seat seats[2]; /* core 0, and the outside actor */

static void check(const char *what, int holds) {
    if (holds) {
        passed++;
    } else {
        failed++;
        printf("FAILED: %s\n", what);
    }
}

/* The bytes of this process that are in memory, or 0 if nothing tells. */
static uint64_t resident(void) {
    unsigned long long all = 0, here = 0;
    FILE *file = fopen("/proc/self/statm", "r");
    if (file == NULL) return 0;
    if (fscanf(file, "%llu %llu", &all, &here) != 2) here = 0;
    fclose(file);
    return here * (uint64_t)sysconf(_SC_PAGESIZE);
}

static int open_core(void) {
    if (fx_open(&core, QUEUES * JOBS) != FX_OK) return 0;
    for (uint32_t n = 0; n < QUEUES; n++) {
        uint32_t queue = 0;
        if (fx_create(&core, shares[n], &queue) != FX_OK || queue != 1 + n) return 0;
        for (uint32_t job = 0; job < JOBS; job++)
            if (fx_submit(&core, queue, n + (uint64_t)QUEUES * job) != FX_OK) return 0;
    }
    return 1;
}

/* One turn: the job that comes next runs. A job's number tells its queue, and each fifth run of a queue is the last of its job. */
static int turn_of_core(void) {
    uint64_t job = 0;
    uint32_t code = fx_next(&core, &job);
    if (code != FX_START && code != FX_RESUME) return 0;
    uint64_t queue = job % QUEUES;
    static uint64_t runs[QUEUES];
    int is_done = ++runs[queue] % RUNS == 0;
    if (fx_settle(&core, is_done ? FX_STEP_DONE : FX_STEP_YIELD, NANOSECONDS) != (is_done ? FX_DONE : FX_OK)) return 0;
    return !is_done || fx_submit(&core, 1 + (uint32_t)queue, job) == FX_OK;
}

/* Whether each queue got its part of the time by its shares, but for two runs. */
static int is_fair(uint64_t count) {
    for (uint32_t n = 0; n < QUEUES; n++) {
        fx_queue_stats of = {.size = sizeof of};
        if (fx_stats_of_queue(&core, 1 + n, &of) != FX_OK) return 0;
        uint64_t part = count * NANOSECONDS / 1000 * shares[n];
        uint64_t off = of.time_low > part ? of.time_low - part : part - of.time_low;
        printf("queue %" PRIu32 ": %" PRIu64 " ns of %" PRIu64 "\n", 1 + n, of.time_low, part);
        if (off > 2 * NANOSECONDS) return 0;
    }
    return 1;
}

static void end_core(uint64_t count) {
    fx_core_stats of = {.size = sizeof of};
    check("each queue got its part", is_fair(count));
    check("all turns are counted", fx_stats(&core, &of) == FX_OK && of.turns == count && of.held == QUEUES * JOBS);
    check("the core is freed", fx_free(&core) == FX_OK);
}

static uint64_t notes_passed, times_passed;

static int open_house(void) {
    fx_config config = {.size = sizeof config, .cores = 1, .places = 4, .burst = 1, .notes = NOTES};
    uint32_t actor;
    return fx_house_open(&house, &config) == FX_OK && fx_house_take(&house, &seats[1], &actor) == FX_OK && fx_house_take(&house, &seats[0], &actor) == FX_OK;
}

/* The notes of an actor go to the buffer, a line each. */
static int pass_on(fx_seat *seat) {
    static uint8_t bytes[NOTES * LONGEST];
    uint64_t count = 0;
    times_passed++;
    if (fx_seat_pass_on(seat, bytes, sizeof bytes, &count) != FX_OK) return 0;
    for (const uint8_t *at = bytes; (at = memchr(at, '\n', (size_t)(bytes + count - at))) != NULL; at++) notes_passed++;
    return 1;
}

/* Makes a call again once the notes of its seat were passed on. */
#define ON(seat, call, wanted) ((code = (call)) == (wanted) || (code == FX_JOURNAL_FULL && pass_on(seat) && (call) == (wanted)))

/* One turn: a job goes to the core, runs, and its outcome is told. */
static int turn_of_house(void) {
    static uint64_t job;
    fx_turn turn = {.size = sizeof turn};
    fx_outcome outcome = {.size = sizeof outcome};
    fx_seat *of = &seats[0], *outside = &seats[1];
    fx_name name;
    uint64_t count = 0;
    uint32_t code;
    job++;
    return ON(outside, fx_seat_submit(outside, 0, 0, job, &name), FX_OK) && ON(of, fx_seat_deliver(of, 1), FX_OK) && ON(of, fx_seat_next(of, &turn), FX_START) &&
           turn.job == job && fx_seat_settle(of, FX_STEP_DONE, ~job, NANOSECONDS) == FX_DONE && ON(outside, fx_seat_collect(outside, 0, &count), FX_OK) && count == 1 &&
           ON(outside, fx_seat_redeem(outside, &name, &outcome), FX_OK) && outcome.kind == FX_KIND_DONE && outcome.answer == ~job;
}

static void end_house(uint64_t count) {
    fx_core_stats of = {.size = sizeof of};
    check("all turns are counted", fx_seat_stats(&seats[0], &of) == FX_OK && of.turns == count && of.held == 0);
    check("the last notes go on", pass_on(&seats[0]) && pass_on(&seats[1]));
    printf("%" PRIu64 " notes went on in %" PRIu64 " parts\n", notes_passed, times_passed);
    /* The core took, picked, started and ended each job, and the outside actor sent, collected and redeemed it. */
    check("all notes went on", notes_passed == 7 * count);
    check("the seats and the house are freed", fx_seat_free(&seats[0]) == FX_OK && fx_seat_free(&seats[1]) == FX_OK && fx_house_free(&house) == FX_OK);
}

static int turns(int (*turn)(void), uint64_t count) {
    for (uint64_t n = 0; n < count; n++)
        if (!turn()) return 0;
    return 1;
}

int main(int count, char **words) {
    uint64_t all = count > 1 ? strtoull(words[1], NULL, 10) : 1000000;
    int is_house = count > 2 && strcmp(words[2], "house") == 0;
    int (*turn)(void) = is_house ? turn_of_house : turn_of_core;
    check("it opens", is_house ? open_house() : open_core());
    uint64_t first = all / 100, middle = all / 2 - first, last = all - first - middle;
    check("the first turns", turns(turn, first));
    resident(); /* the first reading takes memory of its own */
    uint64_t begun = resident();
    check("the turns up to the middle", turns(turn, middle));
    uint64_t half = resident();
    check("the turns up to the end", turns(turn, last));
    uint64_t end = resident();
    printf("resident: %" PRIu64 " KiB at the start, %" PRIu64 " in the middle, %" PRIu64 " at the end\n", begun / 1024, half / 1024, end / 1024);
    check("memory stays the same", begun > 0 && half <= begun + 65536 && end <= begun + 65536);
    if (is_house) end_house(all);
    else end_core(all);
    printf("%u passed, %u failed\n", passed, failed);
    return failed != 0;
}
