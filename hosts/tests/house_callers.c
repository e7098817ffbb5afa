/*
 * Threads that submit, wait and redeem by handles of fairexec_callers.h: house_callers THREADS JOBS. Two cores run on threads of their own. A job answers
 * twice its number; PARKS parks once, and SPINS yields until it may end. The journals have to be sound.
 */
#define _POSIX_C_SOURCE 200809L
#include "checks.h"
#include "fairexec_callers.h"
#include <pthread.h>
#include <stdlib.h>
#include <string.h>

enum { CORES = 2, OUTSIDE = CORES, MOST_THREADS = 256, SOME = 8 };

static const uint64_t PARKS = 1ull << 60, SPINS = 1ull << 61;

typedef struct {
    fx_seat seat;
    uint32_t number;
    uint64_t wrong;
    bool has_parked;
} place;

typedef struct {
    fx_caller handle;
    uint64_t number, jobs, right;
    bool waits;
} asker;

static place places[CORES];
static fx_callers callers;
static asker askers[MOST_THREADS];
/* Behind this lock: whether jobs that spin may end, and how many waits are over. */
static pthread_mutex_t lock = PTHREAD_MUTEX_INITIALIZER;
static bool may_end;
static unsigned over;

static bool reads(const bool *of) {
    pthread_mutex_lock(&lock);
    bool found = *of;
    pthread_mutex_unlock(&lock);
    return found;
}

static void naps(long nanoseconds) {
    struct timespec time = {0, nanoseconds};
    nanosleep(&time, NULL);
}

static uint32_t step_of(place *p, uint64_t job) {
    if (job == SPINS) {
        naps(200000);
        return reads(&may_end) ? FX_STEP_DONE : FX_STEP_YIELD;
    }
    if (job != PARKS || p->has_parked) return FX_STEP_DONE;
    p->has_parked = true;
    return FX_STEP_PARK;
}

/* Whether there was a turn. */
static bool turn(place *p) {
    fx_turn it = {.size = sizeof it};
    uint32_t code = fx_seat_next(&p->seat, &it);
    if (code == FX_IDLE) return false;
    p->wrong += code != FX_START && code != FX_RESUME;
    code = fx_seat_settle(&p->seat, step_of(p, it.job), 2 * it.job, 1000);
    p->wrong += code != FX_DONE && code != FX_PARKED && code != FX_OK;
    return true;
}

static void *serve(void *given) {
    place *p = given;
    while (fx_seat_drained(&p->seat) != FX_OK) {
        bool did = false;
        for (uint32_t sender = 0; sender <= CORES; sender++) {
            did |= fx_seat_shut(&p->seat, sender) == FX_OK;
            did |= fx_seat_deliver(&p->seat, sender) == FX_OK;
        }
        did |= turn(p);
        if (did) fx_callers_ring(&callers);
        else if (fx_seat_shows(&p->seat) == FX_IDLE) naps(20000);
    }
    return NULL;
}

/* Submits so many jobs to both cores by turns, some at a time, and redeems each outcome. */
static void *ask(void *given) {
    asker *a = given;
    fx_outcome told = {.size = sizeof told};
    fx_ticket tickets[SOME];
    uint64_t count;
    for (uint64_t first = 0; first < a->jobs; first += SOME) {
        for (uint64_t each = 0; each < SOME;) {
            uint32_t code = fx_caller_submit(&a->handle, (uint32_t)each % CORES, 0, a->number << 32 | (first + each), &tickets[each]);
            each += code == FX_OK;
            if (code == FX_OK) continue;
            if (code != FX_FULL || fx_caller_collect(&a->handle, &count) != FX_OK) return NULL;
            naps(50000);
        }
        for (uint64_t each = 0; each < SOME; each++) {
            uint32_t code = fx_caller_wait(&a->handle, &tickets[each], &told);
            a->right += code == FX_OK && told.kind == FX_KIND_DONE && told.answer == 2 * (a->number << 32 | (first + each));
            a->right -= fx_caller_redeem(&a->handle, &tickets[each], &told) != FX_GONE;
        }
    }
    return NULL;
}

/* Whoever leads may leave first, since its time is over, and those who wait without end go on. */
static void *wait_for_a_time(void *given) {
    asker *a = given;
    fx_outcome told = {.size = sizeof told};
    fx_ticket ticket;
    a->right = fx_caller_submit(&a->handle, 0, 0, SPINS, &ticket) == FX_OK;
    if (a->number % 2 == 0) a->right += fx_caller_wait_timeout(&a->handle, &ticket, (5 + a->number) * 1000000, &told) == FX_PENDING;
    else a->right++;
    pthread_mutex_lock(&lock);
    over++;
    pthread_mutex_unlock(&lock);
    a->right += fx_caller_wait(&a->handle, &ticket, &told) == FX_OK && told.kind == FX_KIND_DONE;
    return NULL;
}

/* Waits for a job that another handle wakes. */
static void *wait_for_a_wake(void *given) {
    asker *a = given;
    fx_outcome told = {.size = sizeof told};
    fx_ticket ticket;
    a->right = fx_caller_submit(&a->handle, 0, 0, PARKS, &ticket) == FX_OK && ticket.name.number == 1;
    a->right += fx_caller_wait(&a->handle, &ticket, &told) == FX_OK && told.kind == FX_KIND_DONE;
    pthread_mutex_lock(&lock);
    a->waits = false;
    pthread_mutex_unlock(&lock);
    return NULL;
}

/* Runs a function on so many threads, each with a handle of its own, and what each has to count. */
static void on_threads(void *(*run)(void *), uint64_t count, uint64_t jobs, uint64_t right) {
    static pthread_t threads[MOST_THREADS];
    for (uint64_t each = 0; each < count; each++) {
        askers[each] = (asker){.number = each, .jobs = jobs};
        fx_callers_handle(&callers, &askers[each].handle);
        if (pthread_create(&threads[each], NULL, run, &askers[each]) != 0) exit(1);
    }
    if (run == wait_for_a_time) {
        for (unsigned seen = 0; seen < count; naps(1000000)) {
            pthread_mutex_lock(&lock);
            seen = over;
            pthread_mutex_unlock(&lock);
        }
        pthread_mutex_lock(&lock);
        may_end = true;
        pthread_mutex_unlock(&lock);
    }
    for (uint64_t each = 0; each < count; each++) {
        pthread_join(threads[each], NULL);
        is("each outcome is its own", (uint32_t)askers[each].right, (uint32_t)right);
        IS(fx_caller_free(&askers[each].handle), FX_OK);
    }
}

static void without_the_lock(fx_caller *other) {
    fx_outcome told = {.size = sizeof told};
    asker *a = &askers[0];
    fx_name parked = {1, OUTSIDE, 0};
    fx_ticket ticket;
    pthread_t thread;
    *a = (asker){.waits = true};
    IS(fx_callers_handle(&callers, &a->handle), FX_OK);
    if (pthread_create(&thread, NULL, wait_for_a_wake, a) != 0) exit(1);
    naps(30000000);
    IS(fx_caller_submit(other, 1, 0, 4, &ticket), FX_OK);
    IS(fx_caller_wait(other, &ticket, &told), FX_OK);
    is("another's job is done meanwhile", (uint32_t)told.answer, 8);
    is("and the first one waits", reads(&a->waits), true);
    IS(fx_caller_wake(other, &parked, &ticket), FX_OK);
    IS(fx_caller_wait(other, &ticket, &told), FX_OK);
    is("until it is woken", told.why, FX_ANSWER_WOKEN);
    pthread_join(thread, NULL);
    is("it is told", (uint32_t)a->right, 2);
    IS(fx_caller_free(&a->handle), FX_OK);
}

static void tickets_of_others(fx_caller *first, fx_caller *second) {
    fx_outcome told = {.size = sizeof told}, small = {.size = 1};
    fx_ticket ticket, more;
    uint64_t count, free_notes;
    is("handles have numbers of their own", first->number != second->number, 1);
    IS(fx_caller_submit(first, 0, 0, 21, &ticket), FX_OK);
    IS(fx_caller_redeem(second, &ticket, &told), FX_UNKNOWN);
    IS(fx_caller_detach(second, &ticket), FX_UNKNOWN);
    IS(fx_caller_wait(second, &ticket, &told), FX_UNKNOWN);
    IS(fx_caller_wait_timeout(second, &ticket, UINT64_MAX, &told), FX_UNKNOWN);
    IS(fx_caller_wait(first, &ticket, &small), FX_BAD_NUMBER);
    IS(fx_caller_wait_timeout(first, &ticket, UINT64_MAX, &told), FX_OK);
    is("it is told", (uint32_t)told.answer, 42);
    IS(fx_caller_wait(first, &ticket, &told), FX_GONE);
    IS(fx_caller_detach(first, &ticket), FX_GONE);
    IS(fx_caller_submit(first, CORES, 0, 21, &more), FX_UNKNOWN_CORE);
    IS(fx_caller_create(second, 0, 300, &more), FX_OK);
    IS(fx_caller_wait(second, &more, &told), FX_OK);
    is("a queue is made", told.why, FX_ANSWER_CREATED);
    IS(fx_caller_set_shares(second, 0, 1, 500, &more), FX_OK);
    IS(fx_caller_wait(second, &more, &told), FX_OK);
    is("it has other shares", told.why, FX_ANSWER_SHARES_SET);
    IS(fx_caller_close_queue(second, 0, 1, FX_MODE_FINISH, &more), FX_OK);
    IS(fx_caller_wait(second, &more, &told), FX_OK);
    is("and is closed", told.why, FX_ANSWER_CLOSED);
    IS(fx_seat_notes(fx_caller_enter(first), &count, &free_notes), FX_OK);
    IS(fx_caller_leave(first), FX_OK);
    is("notes are counted", count > 12, 1);
}

static void nulls(fx_caller *handle) {
    fx_outcome told = {.size = sizeof told};
    fx_ticket ticket = {{1, OUTSIDE, 0}, handle->number};
    fx_seat seat = FX_NO_SEAT;
    uint64_t count;
    IS(fx_callers_open(NULL, &seat, 1), FX_NULL);
    IS(fx_callers_open(&callers, NULL, 1), FX_NULL);
    IS(fx_callers_close(NULL, &count), FX_NULL);
    IS(fx_callers_close(&callers, NULL), FX_NULL);
    IS(fx_callers_handle(NULL, handle), FX_NULL);
    IS(fx_callers_handle(&callers, NULL), FX_NULL);
    IS(fx_callers_ring(NULL), FX_NULL);
    IS(fx_caller_free(NULL), FX_NULL);
    is("no seat of no handle", fx_caller_enter(NULL) == NULL, 1);
    IS(fx_caller_leave(NULL), FX_NULL);
    IS(fx_caller_submit(NULL, 0, 0, 1, &ticket), FX_NULL);
    IS(fx_caller_submit(handle, 0, 0, 1, NULL), FX_NULL);
    IS(fx_caller_wake(handle, NULL, &ticket), FX_NULL);
    IS(fx_caller_collect(handle, NULL), FX_NULL);
    IS(fx_caller_redeem(handle, NULL, &told), FX_NULL);
    IS(fx_caller_redeem(handle, &ticket, NULL), FX_NULL);
    IS(fx_caller_detach(handle, NULL), FX_NULL);
    IS(fx_caller_wait(handle, NULL, &told), FX_NULL);
    IS(fx_caller_wait(handle, &ticket, NULL), FX_NULL);
    IS(fx_caller_wait_timeout(NULL, &ticket, 1, &told), FX_NULL);
    IS(fx_caller_wait_timeout(handle, NULL, 1, &told), FX_NULL);
    IS(fx_caller_wait_timeout(handle, &ticket, 1, NULL), FX_NULL);
}

static void closes(fx_caller *handle, fx_caller *last) {
    fx_ticket ticket;
    uint64_t number = 0;
    for (uint32_t core = 0; core < CORES; core++) {
        IS(fx_caller_close_core(handle, core, FX_MODE_FINISH, &ticket), FX_OK);
        IS(fx_caller_detach(handle, &ticket), FX_OK);
    }
    IS(fx_caller_free(handle), FX_OK);
    IS(fx_callers_close(&callers, &number), FX_BUSY);
    is("which handle is out is told", number == last->number, 1);
    IS(fx_caller_free(last), FX_OK);
}

int main(int count, char **words) {
    uint64_t threads = count > 1 ? strtoull(words[1], NULL, 10) : 20, jobs = (count > 2 ? strtoull(words[2], NULL, 10) : 400) / SOME * SOME, number = 0;
    fx_house house = FX_NO_HOUSE;
    fx_seat outside = FX_NO_SEAT;
    fx_config config = {sizeof config, CORES, 1024, 1, 1 << 20};
    fx_verdict verdict = {.size = sizeof verdict};
    fx_caller first, second;
    pthread_t runs[CORES];
    uint32_t actor;
    if (threads > MOST_THREADS) return 2;
    IS(fx_house_open(&house, &config), FX_OK);
    IS(fx_house_take(&house, &outside, &actor), FX_OK);
    for (uint32_t each = CORES; each-- > 0;) IS(fx_house_take(&house, &places[each].seat, &places[each].number), FX_OK);
    IS(fx_callers_open(&callers, &outside, CORES), FX_OK);
    for (uint32_t each = 0; each < CORES; each++)
        if (pthread_create(&runs[each], NULL, serve, &places[each]) != 0) return 1;
    IS(fx_callers_handle(&callers, &first), FX_OK);
    IS(fx_callers_handle(&callers, &second), FX_OK);
    without_the_lock(&first);
    tickets_of_others(&first, &second);
    on_threads(wait_for_a_time, 8, 0, 3);
    on_threads(ask, threads, jobs, jobs);
    nulls(&first);
    closes(&first, &second);
    for (uint32_t each = 0; each < CORES; each++) pthread_join(runs[each], NULL);
    IS(fx_callers_close(&callers, &number), FX_OK);
    for (uint32_t each = 0; each < CORES; each++) {
        is("no call of a core was refused", (uint32_t)places[each].wrong, 0);
        IS(fx_house_end(&house, &places[each].seat), FX_OK);
    }
    IS(fx_house_end(&house, &outside), FX_OK);
    IS(fx_house_audit(&house, &verdict), FX_OK);
    is("the journals are sound", verdict.sound, 1);
    IS(fx_house_free(&house), FX_OK);
    printf("%u passed, %u failed\n", passed, failed);
    return failed != 0;
}
