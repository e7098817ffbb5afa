/*
 * Calls out of order, twice, on an empty handle, on a core whose job runs, and with numbers at their limits: each answers the code that
 * fairexec.h names, and a refused one changes nothing, by the counts of the core and of all its queues, and by what its pointers point to.
 * The last line is 'N passed, M failed', and the status is 0 if nothing failed.
 */
#include "checks.h"
#include <string.h>

/* All that a core tells of itself. */
typedef struct {
    fx_core_stats core;
    fx_queue_stats queues[256];
} counts;

static counts counts_of(fx_core *core) {
    counts all;
    memset(&all, 0, sizeof all);
    all.core.size = sizeof all.core;
    IS(fx_stats(core, &all.core), FX_OK);
    for (uint32_t queue = 0; queue < all.core.queues; queue++) {
        all.queues[queue].size = sizeof all.queues[queue];
        IS(fx_stats_of_queue(core, queue, &all.queues[queue]), FX_OK);
    }
    return all;
}

static void is_same(const char *what, const counts *before, fx_core *core) {
    counts after = counts_of(core);
    is(what, memcmp(before, &after, sizeof after) == 0, 1);
}

/* A call that is refused with `wanted`, and changes nothing. */
#define REFUSES(core, call, wanted) \
    do { \
        counts before_it = counts_of(core); \
        IS(call, wanted); \
        is_same(#call " changes nothing", &before_it, core); \
    } while (0)

enum { POISON = 77 };

/* Every call on a handle without a core. */
static void empty(fx_core *core) {
    uint32_t queue = POISON;
    uint64_t job = POISON;
    fx_core_stats stats = {POISON, 0, 0, 0, 0, 0, 0, 0, 0};
    fx_queue_stats queue_stats = {POISON, 0, 0, 0, 0, 0, 0, 0, 0, 0};
    fx_timers timers = FX_NO_TIMERS;
    IS(fx_free(core), FX_EMPTY);
    IS(fx_create(core, 0, &queue), FX_EMPTY);
    IS(fx_set_shares(core, 300, 0), FX_EMPTY);
    IS(fx_submit(core, 300, 1), FX_EMPTY);
    IS(fx_next(core, &job), FX_EMPTY);
    IS(fx_settle(core, 3, 0), FX_EMPTY);
    IS(fx_settle_until(core, &timers, 3, 0, 0), FX_EMPTY);
    IS(fx_wake_due(core, &timers, 0), FX_EMPTY);
    IS(fx_submit_numbered(core, 300, 1, &job), FX_EMPTY);
    IS(fx_wake(core, 1), FX_EMPTY);
    IS(fx_close_queue(core, 300, 2), FX_EMPTY);
    IS(fx_close(core, 2), FX_EMPTY);
    IS(fx_stats(core, &stats), FX_EMPTY);
    IS(fx_stats_of_queue(core, 300, &queue_stats), FX_EMPTY);
    is("an empty handle writes nothing", queue == POISON && job == POISON && stats.size == POISON && queue_stats.size == POISON, 1);
}

static void opening(void) {
    fx_core core = FX_NO_CORE;
    empty(&core);
    IS(fx_open(&core, 0), FX_BAD_NUMBER);
    IS(fx_open(&core, 131071), FX_BAD_NUMBER);
    IS(fx_open(&core, UINT32_MAX), FX_BAD_NUMBER);
    empty(&core);
    IS(fx_open(&core, 131070), FX_OK);
    IS(fx_free(&core), FX_OK);
    empty(&core);
    IS(fx_open(&core, 1), FX_OK);
    REFUSES(&core, fx_open(&core, 1), FX_OCCUPIED);
    REFUSES(&core, fx_open(&core, 0), FX_OCCUPIED);
    counts all = counts_of(&core);
    is("room for an odd number is rounded up", (uint32_t)all.core.room, 2);
    is("queue 0 is there", all.core.queues, 1);
    is("it has 1000 shares", all.queues[0].shares, 1000);
    IS(fx_free(&core), FX_OK);
    IS(fx_free(&core), FX_EMPTY);
    empty(&core);
}

static void queues(void) {
    fx_core core = FX_NO_CORE;
    uint32_t queue = POISON;
    IS(fx_open(&core, 4), FX_OK);
    REFUSES(&core, fx_create(&core, 0, &queue), FX_BAD_SHARES);
    REFUSES(&core, fx_create(&core, 10001, &queue), FX_BAD_SHARES);
    REFUSES(&core, fx_create(&core, UINT32_MAX, &queue), FX_BAD_SHARES);
    REFUSES(&core, fx_create(&core, 65536 + 100, &queue), FX_BAD_SHARES);
    is("a refused creation writes no number", queue, POISON);
    for (uint32_t next = 1; next < 256; next++) {
        IS(fx_create(&core, next == 1 ? 1 : next == 2 ? 10000 : next, &queue), FX_OK);
        is("queues are numbered in their order", queue, next);
    }
    queue = POISON;
    REFUSES(&core, fx_create(&core, 100, &queue), FX_TOO_MANY);
    REFUSES(&core, fx_create(&core, 0, &queue), FX_BAD_SHARES);
    is("a queue too many writes no number", queue, POISON);
    REFUSES(&core, fx_set_shares(&core, 256, 1), FX_NO_QUEUE);
    REFUSES(&core, fx_set_shares(&core, UINT32_MAX, 1), FX_NO_QUEUE);
    REFUSES(&core, fx_set_shares(&core, 256, 0), FX_BAD_SHARES);
    REFUSES(&core, fx_set_shares(&core, 0, 10001), FX_BAD_SHARES);
    IS(fx_set_shares(&core, 255, 10000), FX_OK);
    REFUSES(&core, fx_submit(&core, 256, 1), FX_NO_QUEUE);
    REFUSES(&core, fx_submit(&core, 512, 1), FX_NO_QUEUE);
    REFUSES(&core, fx_submit(&core, UINT32_MAX, 1), FX_NO_QUEUE);
    IS(fx_submit(&core, 255, UINT64_MAX), FX_OK);
    IS(fx_submit(&core, 0, 0), FX_OK);
    counts all = counts_of(&core);
    is("the last queue has its shares", all.queues[255].shares, 10000);
    is("and its job", (uint32_t)all.queues[255].waiting, 1);
    IS(fx_free(&core), FX_OK);
}

static void running(void) {
    fx_core core = FX_NO_CORE;
    uint64_t job = POISON;
    uint32_t queue;
    IS(fx_open(&core, 2), FX_OK);
    REFUSES(&core, fx_next(&core, &job), FX_IDLE);
    is("an idle core writes no job", (uint32_t)job, POISON);
    REFUSES(&core, fx_settle(&core, FX_STEP_DONE, 1), FX_NO_JOB);
    REFUSES(&core, fx_settle(&core, FX_STEP_YIELD, 1), FX_NO_JOB);
    REFUSES(&core, fx_settle(&core, 3, 1), FX_BAD_NUMBER);
    IS(fx_submit(&core, 0, UINT64_MAX), FX_OK);
    IS(fx_next(&core, &job), FX_START);
    is("any number is a job", job == UINT64_MAX, 1);
    job = POISON;
    REFUSES(&core, fx_next(&core, &job), FX_BUSY);
    is("a busy core writes no job", (uint32_t)job, POISON);
    REFUSES(&core, fx_settle(&core, 3, 1), FX_BAD_NUMBER);
    REFUSES(&core, fx_settle(&core, UINT32_MAX, 1), FX_BAD_NUMBER);
    REFUSES(&core, fx_open(&core, 2), FX_OCCUPIED);
    /* A job that runs holds its place, and may submit. */
    REFUSES(&core, fx_submit(&core, 1, 2), FX_NO_QUEUE);
    IS(fx_create(&core, 500, &queue), FX_OK);
    IS(fx_set_shares(&core, 0, 999), FX_OK);
    IS(fx_submit(&core, 0, 1), FX_OK);
    REFUSES(&core, fx_submit(&core, 0, 2), FX_FULL);
    REFUSES(&core, fx_submit(&core, 256, 2), FX_FULL);
    REFUSES(&core, fx_set_shares(&core, 0, 1), FX_FULL);
    REFUSES(&core, fx_set_shares(&core, 0, 0), FX_BAD_SHARES);
    IS(fx_settle(&core, FX_STEP_DONE, 0), FX_DONE);
    REFUSES(&core, fx_settle(&core, FX_STEP_DONE, 0), FX_NO_JOB);
    counts all = counts_of(&core);
    is("a time of 0 counts as 1", (uint32_t)all.queues[0].time_low, 1);
    is("and is charged under the shares of now, rounded up", (uint32_t)all.queues[0].virtual_low, 2);
    IS(fx_next(&core, &job), FX_START);
    IS(fx_settle(&core, FX_STEP_YIELD, UINT64_MAX), FX_OK);
    all = counts_of(&core);
    is("no time counts more than 2^40 - 1", all.queues[0].time_low == 1 + (((uint64_t)1 << 40) - 1), 1);
    IS(fx_next(&core, &job), FX_RESUME);
    /* The core may be freed while a job of it runs. */
    IS(fx_free(&core), FX_OK);
    empty(&core);
}

static void parking(void) {
    fx_core core = FX_NO_CORE;
    uint64_t job = POISON, first = 0, second = 0;
    IS(fx_open(&core, 3), FX_OK);
    REFUSES(&core, fx_submit_numbered(&core, 1, 7, &first), FX_NO_QUEUE);
    is("a refused job writes no number", (uint32_t)first, 0);
    REFUSES(&core, fx_wake(&core, 1), FX_ABSENT);
    REFUSES(&core, fx_wake(&core, UINT64_MAX), FX_ABSENT);
    IS(fx_submit_numbered(&core, 0, 7, &first), FX_OK);
    IS(fx_submit_numbered(&core, 0, 8, &second), FX_OK);
    is("jobs, refused ones too, and wakes are counted together", first == 4 && second == 5, 1);
    IS(fx_next(&core, &job), FX_START);
    IS(fx_settle(&core, FX_STEP_PARK, 10), FX_PARKED);
    counts all = counts_of(&core);
    is("a parked job is held", (uint32_t)all.core.held, 2);
    is("and counts as waiting", (uint32_t)all.queues[0].waiting, 2);
    is("and its run is charged", (uint32_t)all.queues[0].virtual_low, 10);
    IS(fx_next(&core, &job), FX_START);
    is("it is passed over", (uint32_t)job, 8);
    /* Two wakes before a park are one: the job stays once. */
    IS(fx_wake(&core, second), FX_OK);
    IS(fx_wake(&core, second), FX_OK);
    IS(fx_settle(&core, FX_STEP_PARK, 10), FX_OK);
    IS(fx_next(&core, &job), FX_RESUME);
    IS(fx_settle(&core, FX_STEP_PARK, 10), FX_PARKED);
    REFUSES(&core, fx_next(&core, &job), FX_IDLE);
    /* The wake that ends a park isn't kept. A yield keeps one. */
    IS(fx_wake(&core, first), FX_OK);
    IS(fx_next(&core, &job), FX_RESUME);
    is("the woken job runs", (uint32_t)job, 7);
    IS(fx_settle(&core, FX_STEP_PARK, 10), FX_PARKED);
    IS(fx_wake(&core, first), FX_OK);
    IS(fx_wake(&core, first), FX_OK);
    IS(fx_next(&core, &job), FX_RESUME);
    IS(fx_settle(&core, FX_STEP_YIELD, 10), FX_OK);
    IS(fx_next(&core, &job), FX_RESUME);
    IS(fx_settle(&core, FX_STEP_PARK, 10), FX_OK);
    IS(fx_next(&core, &job), FX_RESUME);
    IS(fx_settle(&core, FX_STEP_DONE, 10), FX_DONE);
    REFUSES(&core, fx_wake(&core, first), FX_ABSENT);
    /* A full core takes no wake. One that hands back has no parked job. */
    IS(fx_submit(&core, 0, 9), FX_OK);
    IS(fx_submit(&core, 0, 10), FX_OK);
    IS(fx_submit(&core, 0, 11), FX_OK);
    REFUSES(&core, fx_wake(&core, second), FX_FULL);
    IS(fx_next(&core, &job), FX_START);
    IS(fx_close(&core, FX_MODE_FINISH), FX_OK);
    IS(fx_close(&core, FX_MODE_RETURN), FX_OK);
    IS(fx_settle(&core, FX_STEP_PARK, 10), FX_OK);
    static const uint32_t back[] = {10, 11, 8, 9};
    for (uint32_t each = 0; each < 4; each++) {
        IS(fx_next(&core, &job), FX_BACK);
        is("jobs go back in the order of their queue", (uint32_t)job, back[each]);
    }
    REFUSES(&core, fx_next(&core, &job), FX_IDLE);
    IS(fx_free(&core), FX_OK);
}

static void closing(void) {
    fx_core core = FX_NO_CORE;
    uint64_t job;
    uint32_t queue;
    IS(fx_open(&core, 8), FX_OK);
    IS(fx_create(&core, 100, &queue), FX_OK);
    for (uint64_t each = 0; each < 3; each++) {
        IS(fx_submit(&core, 0, each), FX_OK);
        IS(fx_submit(&core, 1, 10 + each), FX_OK);
    }
    REFUSES(&core, fx_close_queue(&core, 2, FX_MODE_FINISH), FX_NO_QUEUE);
    REFUSES(&core, fx_close_queue(&core, 256, FX_MODE_FINISH), FX_NO_QUEUE);
    REFUSES(&core, fx_close_queue(&core, 256, 2), FX_BAD_NUMBER);
    REFUSES(&core, fx_close(&core, 2), FX_BAD_NUMBER);
    REFUSES(&core, fx_close(&core, UINT32_MAX), FX_BAD_NUMBER);
    IS(fx_close_queue(&core, 1, FX_MODE_FINISH), FX_OK);
    REFUSES(&core, fx_close_queue(&core, 1, FX_MODE_FINISH), FX_CLOSED);
    REFUSES(&core, fx_submit(&core, 1, 99), FX_CLOSED);
    IS(fx_next(&core, &job), FX_START);
    IS(fx_settle(&core, FX_STEP_DONE, 1), FX_DONE);
    IS(fx_next(&core, &job), FX_START);
    is("a queue that finishes runs its jobs", (uint32_t)job, 10);
    IS(fx_close_queue(&core, 1, FX_MODE_RETURN), FX_OK);
    REFUSES(&core, fx_close_queue(&core, 1, FX_MODE_RETURN), FX_CLOSED);
    REFUSES(&core, fx_close_queue(&core, 1, FX_MODE_FINISH), FX_CLOSED);
    IS(fx_settle(&core, FX_STEP_YIELD, 1), FX_OK);
    IS(fx_close(&core, FX_MODE_FINISH), FX_OK);
    REFUSES(&core, fx_close(&core, FX_MODE_FINISH), FX_CLOSED);
    REFUSES(&core, fx_create(&core, 100, &queue), FX_CLOSED);
    REFUSES(&core, fx_create(&core, 0, &queue), FX_BAD_SHARES);
    REFUSES(&core, fx_submit(&core, 0, 99), FX_CLOSED);
    IS(fx_next(&core, &job), FX_START);
    IS(fx_settle(&core, FX_STEP_DONE, 100), FX_DONE);
    IS(fx_close(&core, FX_MODE_RETURN), FX_OK);
    REFUSES(&core, fx_close(&core, FX_MODE_RETURN), FX_CLOSED);
    REFUSES(&core, fx_close(&core, FX_MODE_FINISH), FX_CLOSED);
    uint32_t count = 0;
    uint32_t code;
    while ((code = fx_next(&core, &job)) == FX_BACK) count++;
    is("each job left goes back", count, 4);
    is("and then the core is idle", code, FX_IDLE);
    IS(fx_settle(&core, FX_STEP_DONE, 1), FX_NO_JOB);
    IS(fx_free(&core), FX_OK);
}

static void counting(void) {
    fx_core core = FX_NO_CORE;
    IS(fx_open(&core, 2), FX_OK);
    fx_core_stats stats = {sizeof stats - 1, 0, 0, 0, 0, 0, 0, 0, 0};
    fx_queue_stats queue_stats = {sizeof queue_stats + 1, 0, 0, 0, 0, 0, 0, 0, 0, 0};
    REFUSES(&core, fx_stats(&core, &stats), FX_BAD_NUMBER);
    REFUSES(&core, fx_stats_of_queue(&core, 0, &queue_stats), FX_BAD_NUMBER);
    REFUSES(&core, fx_stats_of_queue(&core, 9, &queue_stats), FX_BAD_NUMBER);
    is("a wrong size writes nothing", stats.queues == 0 && queue_stats.shares == 0, 1);
    queue_stats.size = sizeof queue_stats;
    REFUSES(&core, fx_stats_of_queue(&core, 1, &queue_stats), FX_NO_QUEUE);
    REFUSES(&core, fx_stats_of_queue(&core, 256, &queue_stats), FX_NO_QUEUE);
    is("no queue writes nothing", queue_stats.shares, 0);
    IS(fx_free(&core), FX_OK);
}

/* A handle may be moved. What it was moved from is no handle any more. */
static void moving(void) {
    fx_core first = FX_NO_CORE, second;
    uint64_t job = 0;
    IS(fx_open(&first, 2), FX_OK);
    IS(fx_submit(&first, 0, 5), FX_OK);
    memcpy(&second, &first, sizeof first);
    memset(&first, 0, sizeof first);
    IS(fx_next(&first, &job), FX_EMPTY);
    IS(fx_next(&second, &job), FX_START);
    is("the job moved with the core", (uint32_t)job, 5);
    IS(fx_free(&first), FX_EMPTY);
    IS(fx_free(&second), FX_OK);
}

int main(void) {
    IS(fx_version(), FX_VERSION);
    opening();
    queues();
    running();
    parking();
    closing();
    counting();
    moving();
    for (uint32_t code = FX_OK; code <= FX_OCCUPIED; code++) is("each code has a text of its own", strcmp(fx_text(code), fx_text(FX_OCCUPIED + 1)) != 0, 1);
    printf("%u passed, %u failed\n", passed, failed);
    return failed != 0;
}
