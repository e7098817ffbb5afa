/*
 * A caller that picks its calls and their numbers at random, against model.h: random CALLS SEED. Three cores are in use, each with its
 * model, and often a call is one that is refused, at times since its pointers are null. Each call has to answer the model's code, and to write what
 * the model writes: nothing if it is refused. At times all counts of a core are compared.
 * It stops at the first difference, which it tells. The last line is 'N passed, M failed', and the status is 0 if nothing failed.
 * random CALLS SEED print: each call goes to the standard output with its numbers, its code and what it wrote, for core_calls.py, which makes
 * the same calls. All else goes to the standard error then.
 */
#include "dice.h"
#include "model.h"
#include <inttypes.h>
#include <stdio.h>

enum { CORES = 3, CALLS = 13, CODES = FX_NULL + 1 };

static uint64_t seen[CODES];

/* The handle stands at places[at], and moves at times. */
typedef struct {
    fx_core places[2];
    uint32_t at;
    model model;
} pair;

static pair pairs[CORES];
/* Whether each call is printed, and where all else goes. */
static bool prints;
static FILE *told;

/* What a call answers, and what it writes. */
typedef struct {
    uint32_t code, queue;
    uint64_t job, order;
    fx_core_stats core;
    fx_queue_stats of_queue;
} answer;

/* A call with its numbers. In `nulls` 1 says that its handle is null, and 2 that what it writes to is. */
typedef struct {
    uint32_t kind, queue, shares, jobs, step, mode, size_off, nulls;
    uint64_t job, spent, order;
} call;

static const char *const names[CALLS] = {"open", "free", "create", "set_shares", "submit", "next", "settle", "close_queue", "close", "stats", "stats_of_queue", "submit_numbered", "wake"};

/* Which of them write behind a second pointer. */
static const bool writes[CALLS] = {false, false, true, false, false, true, false, false, false, true, true, true, false};

/* How many creations come next, and whose core they are for: without them no core has 256 queues. */
static uint32_t creations, whose;

/* Whether all jobs of a full core are parked: it takes no wake, and only a closing moves it. */
static bool is_stuck(const model *m) {
    uint32_t parked = 0;
    for (uint32_t queue = 0; queue < m->queue_count; queue++) parked += m->queues[queue].parked_count;
    return m->has_core && m->held == m->room && parked == m->room;
}

static uint32_t any_kind(const model *m) {
    static const uint32_t weights[CALLS] = {6, 1, 10, 20, 190, 400, 400, 3, 1, 10, 20, 190, 60};
    if (creations > 0) return 2;
    if (!m->has_core && rarely(2)) return 0;
    if (m->closed && rarely(60)) return 1;
    if (is_stuck(m) && rarely(20)) return 8;
    uint32_t at = below(1311), kind = 0;
    while (at >= weights[kind]) at -= weights[kind++];
    return kind;
}

/* The number of a parked job of this queue, if there is one, or one of the last that were given. */
static uint64_t any_order(const model *m, uint32_t queue) {
    if (!m->has_core || rarely(20)) return any();
    if (queue < m->queue_count && m->queues[queue].parked_count > 0 && !rarely(4)) return m->queues[queue].parked[below(m->queues[queue].parked_count)].order;
    return m->sent - below(24);
}

static call any_call(const model *m) {
    static const uint32_t far[] = {255, 256, 257, 65536, UINT32_MAX};
    call c;
    memset(&c, 0, sizeof c);
    c.kind = any_kind(m);
    c.queue = rarely(50) ? far[below(5)] : below(m->queue_count + (m->queue_count == 0 || rarely(10)));
    c.shares = rarely(50) ? (rarely(2) ? 0 : 10001 + below(100000)) : 1 + below(rarely(3) ? 10000 : 5);
    c.jobs = rarely(20) ? (rarely(2) ? 0 : 131071 + below(9)) : 1 + below(rarely(4) ? 400 : 12);
    c.step = rarely(50) ? 3 + below(1000) : rarely(8) ? FX_STEP_PARK : below(2);
    c.mode = rarely(20) ? 2 + below(1000) : below(2);
    c.size_off = rarely(20) ? 1 + below(8) : 0;
    c.job = any();
    c.order = any_order(m, c.queue);
    c.spent = rarely(20) ? any() >> below(64) : below(3000);
    c.nulls = rarely(60) ? 1 + below(writes[c.kind] ? 3 : 1) : 0;
    return c;
}

static void prepare(answer *a, const call *c) {
    memset(a, 0, sizeof *a);
    a->job = 77;
    a->order = 77;
    a->queue = 77;
    a->core.size = (uint32_t)sizeof a->core + c->size_off;
    a->of_queue.size = (uint32_t)sizeof a->of_queue + c->size_off;
}

static answer by_library(fx_core *handle, const call *c) {
    answer a;
    fx_core *core = c->nulls & 1 ? NULL : handle;
    bool has_place = !(c->nulls & 2);
    prepare(&a, c);
    switch (c->kind) {
    case 0: a.code = fx_open(core, c->jobs); break;
    case 1: a.code = fx_free(core); break;
    case 2: a.code = fx_create(core, c->shares, has_place ? &a.queue : NULL); break;
    case 3: a.code = fx_set_shares(core, c->queue, c->shares); break;
    case 4: a.code = fx_submit(core, c->queue, c->job); break;
    case 5: a.code = fx_next(core, has_place ? &a.job : NULL); break;
    case 6: a.code = fx_settle(core, c->step, c->spent); break;
    case 7: a.code = fx_close_queue(core, c->queue, c->mode); break;
    case 8: a.code = fx_close(core, c->mode); break;
    case 9: a.code = fx_stats(core, has_place ? &a.core : NULL); break;
    case 11: a.code = fx_submit_numbered(core, c->queue, c->job, has_place ? &a.order : NULL); break;
    case 12: a.code = fx_wake(core, c->order); break;
    default: a.code = fx_stats_of_queue(core, c->queue, has_place ? &a.of_queue : NULL); break;
    }
    return a;
}

static answer by_model(model *m, const call *c) {
    answer a;
    prepare(&a, c);
    if (c->nulls) {
        a.code = FX_NULL;
        return a;
    }
    switch (c->kind) {
    case 0: a.code = model_open(m, c->jobs); break;
    case 1: a.code = model_free(m); break;
    case 2: a.code = model_create(m, c->shares, &a.queue); break;
    case 3: a.code = model_set_shares(m, c->queue, c->shares); break;
    case 4: a.code = model_submit(m, c->queue, c->job); break;
    case 5: a.code = model_next(m, &a.job); break;
    case 6: a.code = model_settle(m, c->step, c->spent); break;
    case 7: a.code = model_close_queue(m, c->queue, c->mode); break;
    case 8: a.code = model_close(m, c->mode); break;
    case 9: a.code = model_stats(m, &a.core); break;
    case 11: a.code = model_submit_numbered(m, c->queue, c->job, &a.order); break;
    case 12: a.code = model_wake(m, c->order); break;
    default: a.code = model_stats_of_queue(m, c->queue, &a.of_queue); break;
    }
    return a;
}

/* The numbers of a call. */
static void print_numbers(const call *c) {
    switch (c->kind) {
    case 0: printf(" %" PRIu32, c->jobs); break;
    case 2: printf(" %" PRIu32, c->shares); break;
    case 3: printf(" %" PRIu32 " %" PRIu32, c->queue, c->shares); break;
    case 4:
    case 11: printf(" %" PRIu32 " %" PRIu64, c->queue, c->job); break;
    case 6: printf(" %" PRIu32 " %" PRIu64, c->step, c->spent); break;
    case 7: printf(" %" PRIu32 " %" PRIu32, c->queue, c->mode); break;
    case 8: printf(" %" PRIu32, c->mode); break;
    case 9: printf(" %" PRIu32, c->size_off); break;
    case 10: printf(" %" PRIu32 " %" PRIu32, c->queue, c->size_off); break;
    case 12: printf(" %" PRIu64, c->order); break;
    default: break;
    }
}

/* A call on a core, and what stands behind it where it writes: that is as it was if it was refused. */
static void print_call(const call *c, uint32_t core, const answer *a) {
    const fx_core_stats *of = &a->core;
    const fx_queue_stats *q = &a->of_queue;
    printf("%s%s %" PRIu32, c->nulls ? "null " : "", names[c->kind], core);
    print_numbers(c);
    printf(" = %" PRIu32, a->code);
    if (c->kind == 2) printf(" %" PRIu32, a->queue);
    if (c->kind == 5) printf(" %" PRIu64, a->job);
    if (c->kind == 11) printf(" %" PRIu64, a->order);
    if (c->kind == 9)
        printf(" %" PRIu32 " %" PRIu64 " %" PRIu64 " %" PRIu64 " %" PRIu64 " %" PRIu64 " %" PRIu32 " %" PRIu32, of->queues, of->room, of->held, of->turns, of->floor_low, of->floor_high, of->running, of->closed);
    if (c->kind == 10)
        printf(" %" PRIu32 " %" PRIu64 " %" PRIu64 " %" PRIu64 " %" PRIu64 " %" PRIu64 " %" PRIu64 " %" PRIu64 " %" PRIu64, q->shares, q->picks, q->waiting, q->done, q->back, q->time_low, q->time_high, q->virtual_low, q->virtual_high);
    printf("\n");
}

static bool agrees(pair *p, const call *c, uint64_t number) {
    answer wanted = by_model(&p->model, c);
    answer found = by_library(&p->places[p->at], c);
    if (prints) print_call(c, (uint32_t)(p - pairs), &found);
    if (wanted.code < CODES) seen[wanted.code]++;
    if (memcmp(&wanted, &found, sizeof found) == 0) return true;
    fprintf(told, "FAILED: call %llu, fx_%s of queue %u, shares %u, jobs %u, step %u, mode %u, nulls %u, spent %llu, order %llu: %u (%s), job %llu, queue %u, order %llu, and not %u (%s), job %llu, queue %u, order %llu\n",
           (unsigned long long)number, names[c->kind], c->queue, c->shares, c->jobs, c->step, c->mode, c->nulls, (unsigned long long)c->spent,
           (unsigned long long)c->order,
           found.code, fx_text(found.code), (unsigned long long)found.job, found.queue, (unsigned long long)found.order,
           wanted.code, fx_text(wanted.code), (unsigned long long)wanted.job, wanted.queue, (unsigned long long)wanted.order);
    return false;
}

/* Compares all counts of a core. */
static bool all_agree(pair *p, uint64_t number) {
    call c = {9, 0, 0, 0, 0, 0, 0, 0, 0, 0, 0};
    if (!agrees(p, &c, number)) return false;
    c.kind = 10;
    for (uint32_t queue = 0; p->model.has_core && queue < p->model.queue_count; queue++) {
        c.queue = queue;
        if (!agrees(p, &c, number)) return false;
    }
    return true;
}

int main(int count, char **words) {
    uint64_t calls = count > 1 ? strtoull(words[1], NULL, 10) : 1000000;
    state = count > 2 ? strtoull(words[2], NULL, 10) : 88172645463325252u;
    prints = count > 3;
    told = prints ? stderr : stdout;
    for (uint64_t number = 0; number < calls; number++) {
        if (creations > 0) {
            creations--;
        } else {
            whose = below(CORES);
            creations = rarely(10000) ? 300 : 0;
        }
        pair *p = &pairs[whose];
        call c = any_call(&p->model);
        if (!agrees(p, &c, number) || (rarely(500) && !all_agree(p, number))) {
            fprintf(told, "%llu passed, 1 failed\n", (unsigned long long)number);
            return 1;
        }
        if (rarely(1000)) {
            memcpy(&p->places[1 - p->at], &p->places[p->at], sizeof p->places[0]);
            memset(&p->places[p->at], 0, sizeof p->places[0]);
            p->at = 1 - p->at;
        }
    }
    for (int each = 0; each < CORES; each++) {
        fx_free(&pairs[each].places[pairs[each].at]);
        model_free(&pairs[each].model);
    }
    uint64_t unseen = 0;
    for (uint32_t code = 0; code < CODES; code++) {
        if (seen[code] > 0 || code == FX_SPENT || code == FX_NO_MEMORY || (code > FX_ABSENT && code < FX_NULL)) continue;
        fprintf(told, "FAILED: no call was answered %u (%s)\n", code, fx_text(code));
        unseen++;
    }
    fprintf(told, "%llu passed, %llu failed\n", (unsigned long long)calls, (unsigned long long)unseen);
    return unseen != 0;
}
