/*
 * What fairexec.h says of its calls, once more: the simplest code that does it, over lists that are walked. The random caller compares
 * each call of the library with it. It shares nothing with the library, and asks for memory as it likes.
 */
#ifndef MODEL_H
#define MODEL_H

#include "fairexec.h"
#include <stdbool.h>
#include <stdlib.h>
#include <string.h>

__extension__ typedef unsigned __int128 wide;

enum { MODEL_QUEUES = 256 };

typedef struct {
    uint64_t job, order;
    bool started, woken;
} model_job;

/*
 * `closed` is 0 for an open queue, else 1 + its mode; so it is of a core. The jobs that wait stand in a ring of the core's room, and those
 * that are parked in a list beside it.
 */
typedef struct {
    uint32_t shares, closed, first, count, parked_count;
    wide virtual_runtime, time;
    uint64_t picks, done, back;
    model_job *ring, *parked;
} model_queue;

typedef struct {
    bool has_core, running;
    uint32_t room, held, queue_count, closed, out_queue;
    wide floor;
    uint64_t turns, sent;
    model_job out;
    model_queue queues[MODEL_QUEUES];
} model;

static inline bool model_add_queue(model *m, uint32_t shares) {
    model_job *ring = calloc(2 * (size_t)m->room, sizeof *ring);
    if (ring == NULL) return false;
    model_queue *q = &m->queues[m->queue_count++];
    memset(q, 0, sizeof *q);
    q->shares = shares;
    q->ring = ring;
    q->parked = ring + m->room;
    return true;
}

static inline uint32_t model_open(model *m, uint32_t jobs) {
    if (m->has_core) return FX_OCCUPIED;
    if (jobs == 0 || jobs > 131070) return FX_BAD_NUMBER;
    memset(m, 0, sizeof *m);
    m->has_core = true;
    m->room = jobs + jobs % 2;
    return model_add_queue(m, 1000) ? FX_OK : FX_NO_MEMORY;
}

static inline uint32_t model_free(model *m) {
    if (!m->has_core) return FX_EMPTY;
    for (uint32_t n = 0; n < m->queue_count; n++) free(m->queues[n].ring);
    m->has_core = false;
    return FX_OK;
}

static inline uint32_t model_create(model *m, uint32_t shares, uint32_t *queue) {
    if (!m->has_core) return FX_EMPTY;
    if (shares == 0 || shares > 10000) return FX_BAD_SHARES;
    if (m->closed) return FX_CLOSED;
    if (m->queue_count == MODEL_QUEUES) return FX_TOO_MANY;
    if (!model_add_queue(m, shares)) return FX_NO_MEMORY;
    *queue = m->queue_count - 1;
    return FX_OK;
}

static inline uint32_t model_set_shares(model *m, uint32_t queue, uint32_t shares) {
    if (!m->has_core) return FX_EMPTY;
    if (shares == 0 || shares > 10000) return FX_BAD_SHARES;
    if (m->held == m->room) return FX_FULL;
    if (queue < MODEL_QUEUES) m->sent++;
    if (queue >= m->queue_count) return FX_NO_QUEUE;
    m->queues[queue].shares = shares;
    return FX_OK;
}

static inline void model_push(model *m, uint32_t queue, model_job job) {
    model_queue *q = &m->queues[queue];
    q->ring[(q->first + q->count++) % m->room] = job;
}

/* A queue that gets work starts at the floor, if it stood below. */
static inline void model_place(model *m, uint32_t queue) {
    model_queue *q = &m->queues[queue];
    bool works = q->count > 0 || (m->running && m->out_queue == queue);
    if (!works && q->virtual_runtime < m->floor) q->virtual_runtime = m->floor;
}

static inline uint32_t model_submit_numbered(model *m, uint32_t queue, uint64_t job, uint64_t *order) {
    if (!m->has_core) return FX_EMPTY;
    if (m->closed) return FX_CLOSED;
    if (m->held == m->room) return FX_FULL;
    if (queue < MODEL_QUEUES) m->sent++;
    if (queue >= m->queue_count) return FX_NO_QUEUE;
    if (m->queues[queue].closed) return FX_CLOSED;
    model_place(m, queue);
    model_push(m, queue, (model_job){job, m->sent, false, false});
    m->held++;
    *order = m->sent;
    return FX_OK;
}

static inline uint32_t model_submit(model *m, uint32_t queue, uint64_t job) {
    uint64_t order;
    return model_submit_numbered(m, queue, job, &order);
}

/* The parked job at this place goes to the tail of its queue. */
static inline void model_unpark(model *m, uint32_t queue, uint32_t place) {
    model_queue *q = &m->queues[queue];
    model_place(m, queue);
    model_push(m, queue, (model_job){q->parked[place].job, q->parked[place].order, true, false});
    memmove(&q->parked[place], &q->parked[place + 1], (--q->parked_count - place) * sizeof *q->parked);
}

static inline uint32_t model_wake(model *m, uint64_t order) {
    if (!m->has_core) return FX_EMPTY;
    if (m->held == m->room) return FX_FULL;
    m->sent++;
    if (m->running && m->out.order == order) {
        m->out.woken = true;
        return FX_OK;
    }
    for (uint32_t n = 0; n < m->queue_count; n++) {
        model_queue *q = &m->queues[n];
        for (uint32_t place = 0; place < q->count; place++) {
            model_job *job = &q->ring[(q->first + place) % m->room];
            if (job->order != order) continue;
            job->woken = true;
            return FX_OK;
        }
        for (uint32_t place = 0; place < q->parked_count; place++) {
            if (q->parked[place].order != order) continue;
            model_unpark(m, n, place);
            return FX_OK;
        }
    }
    return FX_ABSENT;
}

static inline uint32_t model_next(model *m, uint64_t *job) {
    if (!m->has_core) return FX_EMPTY;
    if (m->running) return FX_BUSY;
    model_queue *least = NULL;
    for (uint32_t n = 0; n < m->queue_count; n++) {
        model_queue *q = &m->queues[n];
        if (q->count > 0 && (least == NULL || q->virtual_runtime < least->virtual_runtime)) least = q;
    }
    if (least == NULL) return FX_IDLE;
    model_job first = least->ring[least->first];
    least->first = (least->first + 1) % m->room;
    least->count--;
    least->picks++;
    m->turns++;
    if (m->floor < least->virtual_runtime) m->floor = least->virtual_runtime;
    *job = first.job;
    if (least->closed == 1 + FX_MODE_RETURN || m->closed == 1 + FX_MODE_RETURN) {
        least->back++;
        m->held--;
        return FX_BACK;
    }
    m->running = true;
    m->out = first;
    m->out_queue = (uint32_t)(least - m->queues);
    return first.started ? FX_RESUME : FX_START;
}

static inline uint32_t model_settle(model *m, uint32_t step, uint64_t spent) {
    if (!m->has_core) return FX_EMPTY;
    if (step > FX_STEP_PARK) return FX_BAD_NUMBER;
    if (!m->running) return FX_NO_JOB;
    model_queue *q = &m->queues[m->out_queue];
    uint64_t longest = ((uint64_t)1 << 40) - 1;
    uint64_t counted = spent < 1 ? 1 : spent > longest ? longest : spent;
    q->time += counted;
    q->virtual_runtime += (counted * 1000 + q->shares - 1) / q->shares;
    m->running = false;
    if (step == FX_STEP_YIELD) {
        model_push(m, m->out_queue, (model_job){m->out.job, m->out.order, true, m->out.woken});
        return FX_OK;
    }
    if (step == FX_STEP_PARK) {
        if (m->out.woken || q->closed == 1 + FX_MODE_RETURN || m->closed == 1 + FX_MODE_RETURN) {
            model_push(m, m->out_queue, (model_job){m->out.job, m->out.order, true, false});
            return FX_OK;
        }
        q->parked[q->parked_count++] = m->out;
        return FX_PARKED;
    }
    q->done++;
    m->held--;
    return FX_DONE;
}

static inline uint32_t model_shut(uint32_t *closed, uint32_t mode) {
    if (*closed >= 1 + mode) return FX_CLOSED;
    *closed = 1 + mode;
    return FX_OK;
}

/* Where a queue hands back, its parked jobs come to the tail, in the order in which they were parked. */
static inline void model_end_parks(model *m, uint32_t queue, uint32_t mode) {
    while (mode == FX_MODE_RETURN && m->queues[queue].parked_count > 0) model_unpark(m, queue, 0);
}

static inline uint32_t model_close_queue(model *m, uint32_t queue, uint32_t mode) {
    if (!m->has_core) return FX_EMPTY;
    if (mode > FX_MODE_RETURN) return FX_BAD_NUMBER;
    if (queue >= m->queue_count) return FX_NO_QUEUE;
    uint32_t code = model_shut(&m->queues[queue].closed, mode);
    if (code == FX_OK) model_end_parks(m, queue, mode);
    return code;
}

static inline uint32_t model_close(model *m, uint32_t mode) {
    if (!m->has_core) return FX_EMPTY;
    if (mode > FX_MODE_RETURN) return FX_BAD_NUMBER;
    uint32_t code = model_shut(&m->closed, mode);
    for (uint32_t queue = 0; code == FX_OK && queue < m->queue_count; queue++) model_end_parks(m, queue, mode);
    return code;
}

static inline uint32_t model_stats(model *m, fx_core_stats *stats) {
    if (!m->has_core) return FX_EMPTY;
    if (stats->size != sizeof *stats) return FX_BAD_NUMBER;
    stats->queues = m->queue_count;
    stats->room = m->room;
    stats->held = m->held;
    stats->turns = m->turns;
    stats->floor_low = (uint64_t)m->floor;
    stats->floor_high = (uint64_t)(m->floor >> 64);
    stats->running = m->running;
    stats->closed = m->closed;
    return FX_OK;
}

static inline uint32_t model_stats_of_queue(model *m, uint32_t queue, fx_queue_stats *stats) {
    if (!m->has_core) return FX_EMPTY;
    if (stats->size != sizeof *stats) return FX_BAD_NUMBER;
    if (queue >= m->queue_count) return FX_NO_QUEUE;
    model_queue *q = &m->queues[queue];
    stats->shares = q->shares;
    stats->picks = q->picks;
    stats->waiting = q->count + q->parked_count;
    stats->done = q->done;
    stats->back = q->back;
    stats->time_low = (uint64_t)q->time;
    stats->time_high = (uint64_t)(q->time >> 64);
    stats->virtual_low = (uint64_t)q->virtual_runtime;
    stats->virtual_high = (uint64_t)(q->virtual_runtime >> 64);
    return FX_OK;
}

#endif
