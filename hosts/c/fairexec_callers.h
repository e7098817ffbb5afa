/*
 * fairexec_callers.h: handles on the outside actor of a house, for hosts in C with POSIX threads. Any thread submits and waits by a handle.
 *
 *     fx_callers callers;
 *     fx_caller handle;                                       in a thread of the host:
 *     fx_callers_open(&callers, &outside, cores);               fx_caller_submit(&handle, 1, 0, job, &ticket);
 *     fx_callers_handle(&callers, &handle);                     fx_caller_wait(&handle, &ticket, &outcome);
 *                                                               fx_caller_free(&handle);
 *     ... fx_callers_close(&callers, &number) ... fx_house_end ...
 *
 * Each call takes a lock, makes the call of fairexec.h that has its name on the seat of the outside actor, and gives the lock back. So what all handles did
 * is what one thread could have done, and the journal is that of one actor. One that waits has the lock for each look, and not while it sleeps. A ticket
 * is its handle's own: another handle is answered FX_UNKNOWN.
 *
 * The library wakes nobody. The thread of a core calls fx_callers_ring once it settled a job of the outside actor, handed it back or answered an order of
 * it, as at the end of each round that did something. One that waits looks again after 10 ms in any case.
 *
 * Of those that wait one leads: it sleeps until somebody rings. The others follow, each on a condition variable of its own. Who collects redeems what came
 * for those that wait, and wakes these alone. The leader that leaves names the next one.
 *
 * The calls answer codes of fairexec.h, FX_NULL for a null first. As long as handles are out, nobody uses the seat itself, the fx_callers stays where it
 * is, and so does each handle until it is freed. The calls are defined here, and the header stands on POSIX.1-2008: with -std=c99 or -std=c11 a host
 * defines _POSIX_C_SOURCE as 200809L before it includes anything.
 */
#ifndef FAIREXEC_CALLERS_H
#define FAIREXEC_CALLERS_H

#include "fairexec.h"
#include <pthread.h>
#include <time.h>

#ifdef __cplusplus
extern "C" {
#endif

/* The right of one handle to ask for the outcome of one submission. A host reads `name` alone: by it a job is woken. */
typedef struct fx_ticket {
    fx_name name;
    uint64_t by;
} fx_ticket;

/* A handle. A host reads `number` alone: no two handles on one seat have the same, and none has 0. */
typedef struct fx_caller {
    uint64_t number;
    struct fx_callers *of;
    struct fx_caller *before, *behind;
} fx_caller;

/* One that waits, as long as it does. */
struct fx_waiter {
    const fx_ticket *ticket;
    fx_outcome *outcome;
    int leads, is_told;
    uint32_t code;
    pthread_cond_t wakes;
    struct fx_waiter *before, *behind;
};

/* The outside actor behind a lock. A host reads and writes nothing of it. */
typedef struct fx_callers {
    fx_seat *seat;
    uint32_t cores;
    uint64_t numbers;
    pthread_mutex_t lock;
    /* The handles that aren't gone, and who waits, in the order in which they came. If some wait and none of them was told, one leads. */
    fx_caller *handles;
    struct fx_waiter *first, *last;
    /* Rung for the leader. */
    pthread_mutex_t bell;
    pthread_cond_t rings;
    int is_rung;
} fx_callers;

static inline uint32_t fx_callers_cond(pthread_cond_t *cond) {
    pthread_condattr_t by;
    int failed;
    if (pthread_condattr_init(&by) != 0) return FX_NO_MEMORY;
    failed = pthread_condattr_setclock(&by, CLOCK_MONOTONIC) != 0 || pthread_cond_init(cond, &by) != 0;
    pthread_condattr_destroy(&by);
    return failed ? FX_NO_MEMORY : FX_OK;
}

/*
 * Puts the seat of the outside actor of a house with so many cores behind a lock.
 * FX_NO_MEMORY: the system has none for a lock; FX_OK.
 */
static inline uint32_t fx_callers_open(fx_callers *callers, fx_seat *outside, uint32_t cores) {
    if (!callers || !outside) return FX_NULL;
    callers->seat = outside;
    callers->cores = cores;
    callers->numbers = 0;
    callers->handles = 0;
    callers->first = callers->last = 0;
    callers->is_rung = 0;
    if (pthread_mutex_init(&callers->lock, 0) != 0) return FX_NO_MEMORY;
    if (pthread_mutex_init(&callers->bell, 0) == 0) {
        if (fx_callers_cond(&callers->rings) == FX_OK) return FX_OK;
        pthread_mutex_destroy(&callers->bell);
    }
    pthread_mutex_destroy(&callers->lock);
    return FX_NO_MEMORY;
}

/*
 * The seat is the host's again, once all handles are gone. If one isn't, its number is written.
 * FX_BUSY: a handle isn't gone; FX_OK.
 */
static inline uint32_t fx_callers_close(fx_callers *callers, uint64_t *number) {
    fx_caller *out;
    if (!callers || !number) return FX_NULL;
    pthread_mutex_lock(&callers->lock);
    out = callers->handles;
    if (out) *number = out->number;
    pthread_mutex_unlock(&callers->lock);
    if (out) return FX_BUSY;
    pthread_cond_destroy(&callers->rings);
    pthread_mutex_destroy(&callers->bell);
    pthread_mutex_destroy(&callers->lock);
    return FX_OK;
}

/* Makes a handle. As many as the host likes may be out. FX_OK. */
static inline uint32_t fx_callers_handle(fx_callers *callers, fx_caller *handle) {
    if (!callers || !handle) return FX_NULL;
    pthread_mutex_lock(&callers->lock);
    handle->number = ++callers->numbers;
    handle->of = callers;
    handle->before = 0;
    handle->behind = callers->handles;
    if (handle->behind) handle->behind->before = handle;
    callers->handles = handle;
    pthread_mutex_unlock(&callers->lock);
    return FX_OK;
}

/* The handle is gone. The places of its tickets stay taken. FX_OK. */
static inline uint32_t fx_caller_free(fx_caller *handle) {
    fx_callers *of;
    if (!handle) return FX_NULL;
    of = handle->of;
    pthread_mutex_lock(&of->lock);
    if (handle->behind) handle->behind->before = handle->before;
    if (handle->before) handle->before->behind = handle->behind;
    else of->handles = handle->behind;
    pthread_mutex_unlock(&of->lock);
    return FX_OK;
}

/* Tells those that wait to look: called by the threads of the cores. FX_OK. */
static inline uint32_t fx_callers_ring(fx_callers *callers) {
    if (!callers) return FX_NULL;
    pthread_mutex_lock(&callers->bell);
    callers->is_rung = 1;
    pthread_cond_signal(&callers->rings);
    pthread_mutex_unlock(&callers->bell);
    return FX_OK;
}

/*
 * Takes the lock, for calls of fairexec.h on the seat that is answered, as fx_seat_pass_on and fx_seat_forget. fx_caller_leave gives it back. Between
 * them the thread makes no call of this header. Null for a null.
 */
static inline fx_seat *fx_caller_enter(fx_caller *handle) {
    if (!handle) return 0;
    pthread_mutex_lock(&handle->of->lock);
    return handle->of->seat;
}

static inline uint32_t fx_caller_leave(fx_caller *handle) {
    if (!handle) return FX_NULL;
    pthread_mutex_unlock(&handle->of->lock);
    return FX_OK;
}

/* A call on the seat that tells a name, under the lock. */
#define FX_CALLER_SENDS(call) \
    do { \
        uint32_t code_; \
        if (!handle || !ticket) return FX_NULL; \
        pthread_mutex_lock(&handle->of->lock); \
        code_ = call; \
        pthread_mutex_unlock(&handle->of->lock); \
        if (code_ == FX_OK) ticket->by = handle->number; \
        return code_; \
    } while (0)

/* As fx_seat_submit and its neighbours, and with the same codes. The thread of the core is woken by the host's own means. */
static inline uint32_t fx_caller_submit(fx_caller *handle, uint32_t to, uint32_t queue, uint64_t job, fx_ticket *ticket) {
    FX_CALLER_SENDS(fx_seat_submit(handle->of->seat, to, queue, job, &ticket->name));
}

static inline uint32_t fx_caller_create(fx_caller *handle, uint32_t to, uint32_t shares, fx_ticket *ticket) {
    FX_CALLER_SENDS(fx_seat_create(handle->of->seat, to, shares, &ticket->name));
}

static inline uint32_t fx_caller_set_shares(fx_caller *handle, uint32_t to, uint32_t queue, uint32_t shares, fx_ticket *ticket) {
    FX_CALLER_SENDS(fx_seat_set_shares(handle->of->seat, to, queue, shares, &ticket->name));
}

static inline uint32_t fx_caller_close_queue(fx_caller *handle, uint32_t to, uint32_t queue, uint32_t mode, fx_ticket *ticket) {
    FX_CALLER_SENDS(fx_seat_close_queue(handle->of->seat, to, queue, mode, &ticket->name));
}

static inline uint32_t fx_caller_close_core(fx_caller *handle, uint32_t to, uint32_t mode, fx_ticket *ticket) {
    FX_CALLER_SENDS(fx_seat_close_core(handle->of->seat, to, mode, &ticket->name));
}

/* It wakes any job, also another's. */
static inline uint32_t fx_caller_wake(fx_caller *handle, const fx_name *job, fx_ticket *ticket) {
    if (!job) return FX_NULL;
    FX_CALLER_SENDS(fx_seat_wake(handle->of->seat, job, &ticket->name));
}

/* Wakes one that waits. The lock is held. */
static inline void fx_callers_wake(fx_callers *callers, struct fx_waiter *waiter) {
    if (waiter->leads) fx_callers_ring(callers);
    else pthread_cond_signal(&waiter->wakes);
}

/* Redeems what came for those that wait, and wakes these. The lock is held. */
static inline void fx_callers_tell(fx_callers *callers, uint32_t core) {
    struct fx_waiter *each;
    for (each = callers->first; each; each = each->behind) {
        if (each->is_told || each->ticket->name.to != core) continue;
        each->code = fx_seat_redeem(callers->seat, &each->ticket->name, each->outcome);
        each->is_told = each->code != FX_PENDING;
        if (each->is_told) fx_callers_wake(callers, each);
    }
}

/* Collects what all links show. The lock is held. */
static inline uint32_t fx_callers_collect(fx_callers *callers, uint64_t *count) {
    uint32_t core, code;
    uint64_t some = 0, all = 0;
    for (core = 0; core < callers->cores; core++) {
        code = fx_seat_collect(callers->seat, core, &some);
        if (code != FX_OK) return code;
        if (some > 0) fx_callers_tell(callers, core);
        all += some;
    }
    *count = all;
    return FX_OK;
}

/*
 * Collects all outcomes that the links of all cores show, whoever submitted, and writes how many there were. Those that wait for one of them wake.
 * The codes of fx_seat_collect.
 */
static inline uint32_t fx_caller_collect(fx_caller *handle, uint64_t *count) {
    uint32_t code;
    if (!handle || !count) return FX_NULL;
    pthread_mutex_lock(&handle->of->lock);
    code = fx_callers_collect(handle->of, count);
    pthread_mutex_unlock(&handle->of->lock);
    return code;
}

/* As fx_seat_redeem. FX_UNKNOWN for the ticket of another handle. */
static inline uint32_t fx_caller_redeem(fx_caller *handle, const fx_ticket *ticket, fx_outcome *outcome) {
    uint32_t code;
    if (!handle || !ticket || !outcome) return FX_NULL;
    if (ticket->by != handle->number) return FX_UNKNOWN;
    pthread_mutex_lock(&handle->of->lock);
    code = fx_seat_redeem(handle->of->seat, &ticket->name, outcome);
    pthread_mutex_unlock(&handle->of->lock);
    return code;
}

/* As fx_seat_detach. FX_UNKNOWN for the ticket of another handle. */
static inline uint32_t fx_caller_detach(fx_caller *handle, const fx_ticket *ticket) {
    uint32_t code;
    if (!handle || !ticket) return FX_NULL;
    if (ticket->by != handle->number) return FX_UNKNOWN;
    pthread_mutex_lock(&handle->of->lock);
    code = fx_seat_detach(handle->of->seat, &ticket->name);
    pthread_mutex_unlock(&handle->of->lock);
    return code;
}

/* The time of the monotonic clock so many nanoseconds from now. */
static inline struct timespec fx_callers_in(uint64_t nanoseconds) {
    struct timespec time;
    clock_gettime(CLOCK_MONOTONIC, &time);
    nanoseconds += (uint64_t)time.tv_nsec;
    time.tv_sec += (time_t)(nanoseconds / 1000000000u);
    time.tv_nsec = (long)(nanoseconds % 1000000000u);
    return time;
}

static inline int fx_callers_is_before(const struct timespec *one, const struct timespec *other) {
    return one->tv_sec < other->tv_sec || (one->tv_sec == other->tv_sec && one->tv_nsec < other->tv_nsec);
}

/* Sleeps without the lock until somebody rings, for 10 ms at most, and not beyond that time if there is one. */
static inline void fx_callers_lead(fx_callers *callers, const struct timespec *end) {
    struct timespec until = fx_callers_in(10000000u);
    int late = 0;
    if (end && fx_callers_is_before(end, &until)) until = *end;
    pthread_mutex_unlock(&callers->lock);
    pthread_mutex_lock(&callers->bell);
    while (!callers->is_rung && !late) late = pthread_cond_timedwait(&callers->rings, &callers->bell, &until) != 0;
    callers->is_rung = 0;
    pthread_mutex_unlock(&callers->bell);
    pthread_mutex_lock(&callers->lock);
}

/* Takes one off that waited. If it led, the one leads from now on who waits longest and wasn't told. The lock is held. */
static inline void fx_callers_leave(fx_callers *callers, struct fx_waiter *own) {
    struct fx_waiter *each;
    if (own->behind) own->behind->before = own->before;
    else callers->last = own->before;
    if (own->before) own->before->behind = own->behind;
    else callers->first = own->behind;
    if (!own->leads) return;
    for (each = callers->first; each; each = each->behind) {
        if (each->is_told) continue;
        each->leads = 1;
        pthread_cond_signal(&each->wakes);
        return;
    }
}

/* Waits until it is told, or until that time, if there is one. The lock is held. */
static inline uint32_t fx_callers_wait(fx_callers *callers, struct fx_waiter *own, const struct timespec *end) {
    for (;;) {
        struct timespec now = fx_callers_in(0);
        int is_over = end && !fx_callers_is_before(&now, end);
        uint32_t code = FX_OK;
        uint64_t count;
        if (!own->is_told && (own->leads || is_over)) code = fx_callers_collect(callers, &count);
        if (own->is_told) return own->code;
        if (code != FX_OK) return code;
        if (is_over) return FX_PENDING;
        if (own->leads) fx_callers_lead(callers, end);
        else if (end) pthread_cond_timedwait(&own->wakes, &callers->lock, end);
        else pthread_cond_wait(&own->wakes, &callers->lock);
    }
}

/* The same of one that doesn't wait yet. */
static inline uint32_t fx_callers_wait_for(fx_callers *callers, const fx_ticket *ticket, fx_outcome *outcome, const struct timespec *end) {
    struct fx_waiter own, *each;
    uint64_t count;
    uint32_t code = fx_callers_collect(callers, &count);
    if (code == FX_OK) code = fx_seat_redeem(callers->seat, &ticket->name, outcome);
    if (code != FX_PENDING) return code;
    if (fx_callers_cond(&own.wakes) != FX_OK) return FX_NO_MEMORY;
    own.ticket = ticket;
    own.outcome = outcome;
    own.is_told = 0;
    own.code = FX_PENDING;
    own.leads = 1;
    for (each = callers->first; each; each = each->behind) own.leads = own.leads && !each->leads;
    own.behind = 0;
    own.before = callers->last;
    if (own.before) own.before->behind = &own;
    else callers->first = &own;
    callers->last = &own;
    code = fx_callers_wait(callers, &own, end);
    fx_callers_leave(callers, &own);
    pthread_cond_destroy(&own.wakes);
    return code;
}

/*
 * Waits for the outcome of a submission of this handle, and writes it. Others make their calls while it sleeps.
 * FX_UNKNOWN: the ticket of another handle; the codes of fx_seat_collect and fx_seat_redeem, and never FX_PENDING; FX_NO_MEMORY; FX_OK.
 */
static inline uint32_t fx_caller_wait(fx_caller *handle, const fx_ticket *ticket, fx_outcome *outcome) {
    uint32_t code;
    if (!handle || !ticket || !outcome) return FX_NULL;
    if (ticket->by != handle->number) return FX_UNKNOWN;
    pthread_mutex_lock(&handle->of->lock);
    code = fx_callers_wait_for(handle->of, ticket, outcome, 0);
    pthread_mutex_unlock(&handle->of->lock);
    return code;
}

/* The same for so many nanoseconds at most, and then FX_PENDING: the ticket is good for further calls. */
static inline uint32_t fx_caller_wait_timeout(fx_caller *handle, const fx_ticket *ticket, uint64_t nanoseconds, fx_outcome *outcome) {
    struct timespec end;
    uint32_t code;
    if (!handle || !ticket || !outcome) return FX_NULL;
    if (ticket->by != handle->number) return FX_UNKNOWN;
    /* 2^62 ns are 146 years. */
    end = fx_callers_in(nanoseconds >> 62 ? (uint64_t)1 << 62 : nanoseconds);
    pthread_mutex_lock(&handle->of->lock);
    code = fx_callers_wait_for(handle->of, ticket, outcome, &end);
    pthread_mutex_unlock(&handle->of->lock);
    return code;
}

#ifdef __cplusplus
}
#endif

#endif
