/*
 * A house whose actors do as they like on threads of their own: house_threads ROUNDS SEED. Three cores and the outside actor submit jobs and
 * orders to each other at random; jobs yield, park, are woken or are done; then each core closes, half of them handing back, and drains.
 * Each submission has to have one outcome, which fits what was submitted, and the journals have to be sound.
 * The last line is 'N passed, M failed', and the status is 0 if nothing failed.
 */
#define _POSIX_C_SOURCE 200809L
#include "checks.h"
#include <pthread.h>
#include <stdlib.h>
#include <time.h>

enum { CORES = 3, OUTSIDE = CORES, PLACES = 16, BURST = 3, MOST_OUTSTANDING = CORES * PLACES };

/* A submission whose outcome isn't told yet: the number of the job, or 0 if it is an order. */
typedef struct {
    fx_name name;
    uint64_t job;
} asked;

/* An actor, which its thread alone uses, with the jobs that are parked on its core. */
typedef struct {
    fx_seat seat;
    uint32_t number, asked_count, parked_count;
    uint64_t state, next_job, rounds, jobs, done, back, answered, wrong;
    asked asks[MOST_OUTSTANDING];
    fx_name parked[(CORES + 1) * PLACES];
} actor;

static actor actors[CORES + 1];

static uint32_t below(actor *a, uint32_t limit) {
    a->state ^= a->state << 13;
    a->state ^= a->state >> 7;
    a->state ^= a->state << 17;
    return (uint32_t)((a->state >> 32) % limit);
}

/* Keeps the name of what was accepted. A link that is full or shut is passed over. Whether it isn't full. */
static bool keep(actor *a, uint32_t code, const fx_name *name, uint64_t job) {
    if (code == FX_OK) a->asks[a->asked_count++] = (asked){*name, job};
    else a->wrong += code != FX_FULL && code != FX_CLOSED;
    a->jobs += code == FX_OK && job != 0;
    return code != FX_FULL;
}

/* On the link of a core to itself a place stays free for wakes: its own jobs, if all of them are parked, would hold all the others. */
static bool may_submit(const actor *a, uint32_t to) {
    uint32_t own = 0;
    for (uint32_t each = 0; each < a->asked_count; each++) own += a->asks[each].name.to == a->number;
    return a->asked_count < MOST_OUTSTANDING && (to != a->number || own + 1 < PLACES);
}

static bool submit(actor *a) {
    fx_name name;
    uint32_t to = below(a, CORES), queue = below(a, 3);
    uint64_t job = ++a->next_job * (CORES + 1) + a->number;
    if (!may_submit(a, to)) return false;
    if (below(a, 20) > 0) return keep(a, fx_seat_submit(&a->seat, to, queue, job, &name), &name, job);
    if (below(a, 2) > 0) return keep(a, fx_seat_create(&a->seat, to, 200 + below(a, 800), &name), &name, 0);
    return keep(a, fx_seat_set_shares(&a->seat, to, queue, 200 + below(a, 800), &name), &name, 0);
}

/* What a submission came to: once, and as it was submitted. Whether it was there. */
static bool redeem(actor *a, uint32_t each) {
    fx_outcome told = {.size = sizeof told};
    asked of = a->asks[each];
    uint32_t code = fx_seat_redeem(&a->seat, &of.name, &told);
    if (code == FX_PENDING) return false;
    a->wrong += code != FX_OK;
    if (of.job == 0) a->wrong += told.kind != FX_KIND_ANSWER;
    else if (told.kind == FX_KIND_DONE) a->wrong += told.answer != 3 * of.job;
    else a->wrong += told.kind != FX_KIND_BACK || told.job != of.job;
    a->done += of.job != 0 && told.kind == FX_KIND_DONE;
    a->back += of.job != 0 && told.kind == FX_KIND_BACK;
    a->answered += of.job == 0;
    a->wrong += fx_seat_redeem(&a->seat, &of.name, &told) != FX_GONE;
    a->asks[each] = a->asks[--a->asked_count];
    return true;
}

static void collect(actor *a) {
    uint64_t count;
    for (uint32_t core = 0; core < CORES; core++) a->wrong += fx_seat_collect(&a->seat, core, &count) != FX_OK;
    for (uint32_t each = 0; each < a->asked_count;) each += !redeem(a, each);
}

/* Wakes one parked job of the own core. One that isn't inside any more is forgotten, too. */
static void wake(actor *a) {
    fx_name name;
    uint32_t each = below(a, a->parked_count);
    if (a->asked_count == MOST_OUTSTANDING) return;
    uint32_t code = fx_seat_wake(&a->seat, &a->parked[each], &name);
    keep(a, code, &name, 0);
    if (code == FX_OK) a->parked[each] = a->parked[--a->parked_count];
}

/* Whether there was a turn. */
static bool turn(actor *a, bool may_park) {
    fx_turn it = {.size = sizeof it};
    uint32_t code = fx_seat_next(&a->seat, &it);
    if (code == FX_IDLE || code == FX_BACK) return code == FX_BACK;
    a->wrong += code != FX_START && code != FX_RESUME;
    if (below(a, 4) == 0) submit(a);
    uint32_t kind = below(a, 10), step = kind < 6 ? FX_STEP_DONE : kind < 8 || !may_park ? FX_STEP_YIELD : FX_STEP_PARK;
    code = fx_seat_settle(&a->seat, step, 3 * it.job, below(a, 5000));
    if (code == FX_PARKED) a->parked[a->parked_count++] = it.name;
    a->wrong += code != (step == FX_STEP_DONE ? FX_DONE : FX_OK) && code != FX_PARKED;
    return true;
}

/* Lets others run, if nothing shows. */
static void rest(actor *a) {
    struct timespec little = {0, 20000};
    if (fx_seat_shows(&a->seat) == FX_IDLE) nanosleep(&little, NULL);
}

/* Gates of others are shut at once, and its own once no job is inside: parked ones have to be woken. */
static void shut(actor *a) {
    fx_core_stats stats = {.size = sizeof stats};
    a->wrong += fx_seat_stats(&a->seat, &stats) != FX_OK;
    for (uint32_t sender = 0; sender <= CORES; sender++)
        if (sender != a->number || stats.held == 0) fx_seat_shut(&a->seat, sender);
}

static bool make_round(actor *a, bool is_open) {
    for (uint32_t sender = 0; sender <= CORES; sender++) a->wrong += fx_seat_deliver(&a->seat, sender) == FX_JOURNAL_FULL;
    bool ran = turn(a, is_open);
    if (a->parked_count > 0 && (!is_open || below(a, 2) == 0)) wake(a);
    collect(a);
    return ran;
}

static void *serve(void *given) {
    actor *a = given;
    for (uint64_t each = 0; each < a->rounds; each++) {
        make_round(a, true);
        submit(a);
    }
    a->wrong += fx_seat_close(&a->seat, a->number % 2 == 0 ? FX_MODE_FINISH : FX_MODE_RETURN) != FX_OK;
    while (fx_seat_drained(&a->seat) != FX_OK) {
        shut(a);
        if (!make_round(a, false)) rest(a);
    }
    return NULL;
}

static void *drive(void *given) {
    actor *a = given;
    for (uint64_t each = 0; each < a->rounds / 4;) {
        each += submit(a);
        collect(a);
        rest(a);
    }
    return NULL;
}

int main(int count, char **words) {
    fx_house house = FX_NO_HOUSE;
    uint64_t rounds = count > 1 ? strtoull(words[1], NULL, 10) : 20000, seed = count > 2 ? strtoull(words[2], NULL, 10) : 88172645463325252u;
    fx_config config = {sizeof config, CORES, PLACES, BURST, 1 << 20};
    fx_verdict verdict = {.size = sizeof verdict};
    pthread_t threads[CORES + 1];
    uint64_t done = 0;
    uint32_t taken;
    IS(fx_house_open(&house, &config), FX_OK);
    for (int each = OUTSIDE; each >= 0; each--) {
        IS(fx_house_take(&house, &actors[each].seat, &taken), FX_OK);
        actors[each].number = taken;
        actors[each].rounds = rounds;
        actors[each].state = seed + 7919 * (uint64_t)each;
    }
    for (int each = 0; each <= OUTSIDE; each++)
        if (pthread_create(&threads[each], NULL, each == OUTSIDE ? drive : serve, &actors[each]) != 0) return 1;
    for (int each = 0; each <= OUTSIDE; each++) pthread_join(threads[each], NULL);
    for (int each = 0; each <= OUTSIDE; each++) {
        actor *a = &actors[each];
        collect(a);
        is("each submission has its outcome", a->asked_count, 0);
        is("which fits it, and no other call was refused", (uint32_t)a->wrong, 0);
        is("each job is done, or came back", a->done + a->back == a->jobs, 1);
        done += a->done;
        printf("actor %d: %llu jobs, %llu done, %llu came back; %llu orders\n", each, (unsigned long long)a->jobs, (unsigned long long)a->done, (unsigned long long)a->back, (unsigned long long)a->answered);
    }
    is("many jobs are done", done > rounds / 2, 1);
    for (int each = 0; each <= OUTSIDE; each++) IS(fx_house_end(&house, &actors[each].seat), FX_OK);
    IS(fx_house_audit(&house, &verdict), FX_OK);
    is("the journals are sound", verdict.sound, 1);
    IS(fx_house_free(&house), FX_OK);
    printf("%u passed, %u failed\n", passed, failed);
    return failed != 0;
}
