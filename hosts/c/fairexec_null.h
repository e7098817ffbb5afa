/*
 * fairexec_null.h: what fairexec.h includes at its end, and nobody else does. Made by hosts/tests/nulls.py.
 *
 * Behind it the name of each call that takes a pointer stands for the same call with a test of its pointers: if one is null, FX_NULL is
 * answered, and the library isn't called. Where the compiler sees that a pointer isn't null, as of `&core`, it leaves that test out.
 */
#ifndef FAIREXEC_NULL_H
#define FAIREXEC_NULL_H

static inline uint32_t fx_checked_open(fx_core *core, uint32_t jobs) {
    if (!core) return FX_NULL;
    return fx_open(core, jobs);
}
#define fx_open fx_checked_open

static inline uint32_t fx_checked_free(fx_core *core) {
    if (!core) return FX_NULL;
    return fx_free(core);
}
#define fx_free fx_checked_free

static inline uint32_t fx_checked_create(fx_core *core, uint32_t shares, uint32_t *queue) {
    if (!core || !queue) return FX_NULL;
    return fx_create(core, shares, queue);
}
#define fx_create fx_checked_create

static inline uint32_t fx_checked_set_shares(fx_core *core, uint32_t queue, uint32_t shares) {
    if (!core) return FX_NULL;
    return fx_set_shares(core, queue, shares);
}
#define fx_set_shares fx_checked_set_shares

static inline uint32_t fx_checked_submit(fx_core *core, uint32_t queue, uint64_t job) {
    if (!core) return FX_NULL;
    return fx_submit(core, queue, job);
}
#define fx_submit fx_checked_submit

static inline uint32_t fx_checked_submit_numbered(fx_core *core, uint32_t queue, uint64_t job, uint64_t *order) {
    if (!core || !order) return FX_NULL;
    return fx_submit_numbered(core, queue, job, order);
}
#define fx_submit_numbered fx_checked_submit_numbered

static inline uint32_t fx_checked_wake(fx_core *core, uint64_t order) {
    if (!core) return FX_NULL;
    return fx_wake(core, order);
}
#define fx_wake fx_checked_wake

static inline uint32_t fx_checked_next(fx_core *core, uint64_t *job) {
    if (!core || !job) return FX_NULL;
    return fx_next(core, job);
}
#define fx_next fx_checked_next

static inline uint32_t fx_checked_settle(fx_core *core, uint32_t step, uint64_t spent) {
    if (!core) return FX_NULL;
    return fx_settle(core, step, spent);
}
#define fx_settle fx_checked_settle

static inline uint32_t fx_checked_close_queue(fx_core *core, uint32_t queue, uint32_t mode) {
    if (!core) return FX_NULL;
    return fx_close_queue(core, queue, mode);
}
#define fx_close_queue fx_checked_close_queue

static inline uint32_t fx_checked_close(fx_core *core, uint32_t mode) {
    if (!core) return FX_NULL;
    return fx_close(core, mode);
}
#define fx_close fx_checked_close

static inline uint32_t fx_checked_stats(fx_core *core, fx_core_stats *stats) {
    if (!core || !stats) return FX_NULL;
    return fx_stats(core, stats);
}
#define fx_stats fx_checked_stats

static inline uint32_t fx_checked_stats_of_queue(fx_core *core, uint32_t queue, fx_queue_stats *stats) {
    if (!core || !stats) return FX_NULL;
    return fx_stats_of_queue(core, queue, stats);
}
#define fx_stats_of_queue fx_checked_stats_of_queue

static inline uint32_t fx_checked_house_open(fx_house *house, const fx_config *config) {
    if (!house || !config) return FX_NULL;
    return fx_house_open(house, config);
}
#define fx_house_open fx_checked_house_open

static inline uint32_t fx_checked_house_take(fx_house *house, fx_seat *seat, uint32_t *actor) {
    if (!house || !seat || !actor) return FX_NULL;
    return fx_house_take(house, seat, actor);
}
#define fx_house_take fx_checked_house_take

static inline uint32_t fx_checked_house_end(fx_house *house, fx_seat *seat) {
    if (!house || !seat) return FX_NULL;
    return fx_house_end(house, seat);
}
#define fx_house_end fx_checked_house_end

static inline uint32_t fx_checked_house_audit(fx_house *house, fx_verdict *verdict) {
    if (!house || !verdict) return FX_NULL;
    return fx_house_audit(house, verdict);
}
#define fx_house_audit fx_checked_house_audit

static inline uint32_t fx_checked_house_text(fx_house *house, uint64_t from, uint8_t *bytes, size_t room, uint64_t *count) {
    if (!house || !bytes || !count) return FX_NULL;
    return fx_house_text(house, from, bytes, room, count);
}
#define fx_house_text fx_checked_house_text

static inline uint32_t fx_checked_house_free(fx_house *house) {
    if (!house) return FX_NULL;
    return fx_house_free(house);
}
#define fx_house_free fx_checked_house_free

static inline uint32_t fx_checked_seat_free(fx_seat *seat) {
    if (!seat) return FX_NULL;
    return fx_seat_free(seat);
}
#define fx_seat_free fx_checked_seat_free

static inline uint32_t fx_checked_seat_next(fx_seat *seat, fx_turn *turn) {
    if (!seat || !turn) return FX_NULL;
    return fx_seat_next(seat, turn);
}
#define fx_seat_next fx_checked_seat_next

static inline uint32_t fx_checked_seat_settle(fx_seat *seat, uint32_t step, uint64_t answer, uint64_t spent) {
    if (!seat) return FX_NULL;
    return fx_seat_settle(seat, step, answer, spent);
}
#define fx_seat_settle fx_checked_seat_settle

static inline uint32_t fx_checked_seat_step(fx_seat *seat, uint32_t step, uint64_t answer, uint64_t spent, fx_turn *turn) {
    if (!seat || !turn) return FX_NULL;
    return fx_seat_step(seat, step, answer, spent, turn);
}
#define fx_seat_step fx_checked_seat_step

static inline uint32_t fx_checked_seat_deliver(fx_seat *seat, uint32_t sender) {
    if (!seat) return FX_NULL;
    return fx_seat_deliver(seat, sender);
}
#define fx_seat_deliver fx_checked_seat_deliver

static inline uint32_t fx_checked_seat_collect(fx_seat *seat, uint32_t core, uint64_t *count) {
    if (!seat || !count) return FX_NULL;
    return fx_seat_collect(seat, core, count);
}
#define fx_seat_collect fx_checked_seat_collect

static inline uint32_t fx_checked_seat_came(fx_seat *seat, uint64_t place, fx_name *name) {
    if (!seat || !name) return FX_NULL;
    return fx_seat_came(seat, place, name);
}
#define fx_seat_came fx_checked_seat_came

static inline uint32_t fx_checked_seat_submit(fx_seat *seat, uint32_t to, uint32_t queue, uint64_t job, fx_name *name) {
    if (!seat || !name) return FX_NULL;
    return fx_seat_submit(seat, to, queue, job, name);
}
#define fx_seat_submit fx_checked_seat_submit

static inline uint32_t fx_checked_seat_create(fx_seat *seat, uint32_t to, uint32_t shares, fx_name *name) {
    if (!seat || !name) return FX_NULL;
    return fx_seat_create(seat, to, shares, name);
}
#define fx_seat_create fx_checked_seat_create

static inline uint32_t fx_checked_seat_set_shares(fx_seat *seat, uint32_t to, uint32_t queue, uint32_t shares, fx_name *name) {
    if (!seat || !name) return FX_NULL;
    return fx_seat_set_shares(seat, to, queue, shares, name);
}
#define fx_seat_set_shares fx_checked_seat_set_shares

static inline uint32_t fx_checked_seat_close_queue(fx_seat *seat, uint32_t to, uint32_t queue, uint32_t mode, fx_name *name) {
    if (!seat || !name) return FX_NULL;
    return fx_seat_close_queue(seat, to, queue, mode, name);
}
#define fx_seat_close_queue fx_checked_seat_close_queue

static inline uint32_t fx_checked_seat_close_core(fx_seat *seat, uint32_t to, uint32_t mode, fx_name *name) {
    if (!seat || !name) return FX_NULL;
    return fx_seat_close_core(seat, to, mode, name);
}
#define fx_seat_close_core fx_checked_seat_close_core

static inline uint32_t fx_checked_seat_wake(fx_seat *seat, const fx_name *job, fx_name *name) {
    if (!seat || !job || !name) return FX_NULL;
    return fx_seat_wake(seat, job, name);
}
#define fx_seat_wake fx_checked_seat_wake

static inline uint32_t fx_checked_seat_redeem(fx_seat *seat, const fx_name *name, fx_outcome *outcome) {
    if (!seat || !name || !outcome) return FX_NULL;
    return fx_seat_redeem(seat, name, outcome);
}
#define fx_seat_redeem fx_checked_seat_redeem

static inline uint32_t fx_checked_seat_detach(fx_seat *seat, const fx_name *name) {
    if (!seat || !name) return FX_NULL;
    return fx_seat_detach(seat, name);
}
#define fx_seat_detach fx_checked_seat_detach

static inline uint32_t fx_checked_seat_pass_on(fx_seat *seat, uint8_t *bytes, size_t room, uint64_t *count) {
    if (!seat || !bytes || !count) return FX_NULL;
    return fx_seat_pass_on(seat, bytes, room, count);
}
#define fx_seat_pass_on fx_checked_seat_pass_on

static inline uint32_t fx_checked_seat_notes(fx_seat *seat, uint64_t *kept, uint64_t *free_notes) {
    if (!seat || !kept || !free_notes) return FX_NULL;
    return fx_seat_notes(seat, kept, free_notes);
}
#define fx_seat_notes fx_checked_seat_notes

static inline uint32_t fx_checked_seat_copy(fx_seat *seat, uint64_t from, uint64_t most, uint8_t *bytes, size_t room, uint64_t *count, uint64_t *notes) {
    if (!seat || !bytes || !count || !notes) return FX_NULL;
    return fx_seat_copy(seat, from, most, bytes, room, count, notes);
}
#define fx_seat_copy fx_checked_seat_copy

static inline uint32_t fx_checked_seat_copy_bytes(fx_seat *seat, uint64_t before, uint64_t from, uint64_t most, uint8_t *bytes, size_t room, uint64_t *count, uint64_t *notes) {
    if (!seat || !bytes || !count || !notes) return FX_NULL;
    return fx_seat_copy_bytes(seat, before, from, most, bytes, room, count, notes);
}
#define fx_seat_copy_bytes fx_checked_seat_copy_bytes

static inline uint32_t fx_checked_seat_forget(fx_seat *seat, uint64_t *count) {
    if (!seat || !count) return FX_NULL;
    return fx_seat_forget(seat, count);
}
#define fx_seat_forget fx_checked_seat_forget

static inline uint32_t fx_checked_seat_close(fx_seat *seat, uint32_t mode) {
    if (!seat) return FX_NULL;
    return fx_seat_close(seat, mode);
}
#define fx_seat_close fx_checked_seat_close

static inline uint32_t fx_checked_seat_shut(fx_seat *seat, uint32_t sender) {
    if (!seat) return FX_NULL;
    return fx_seat_shut(seat, sender);
}
#define fx_seat_shut fx_checked_seat_shut

static inline uint32_t fx_checked_seat_drained(fx_seat *seat) {
    if (!seat) return FX_NULL;
    return fx_seat_drained(seat);
}
#define fx_seat_drained fx_checked_seat_drained

static inline uint32_t fx_checked_seat_shows(fx_seat *seat) {
    if (!seat) return FX_NULL;
    return fx_seat_shows(seat);
}
#define fx_seat_shows fx_checked_seat_shows

static inline uint32_t fx_checked_seat_stats(fx_seat *seat, fx_core_stats *stats) {
    if (!seat || !stats) return FX_NULL;
    return fx_seat_stats(seat, stats);
}
#define fx_seat_stats fx_checked_seat_stats

static inline uint32_t fx_checked_seat_stats_of_queue(fx_seat *seat, uint32_t queue, fx_queue_stats *stats) {
    if (!seat || !stats) return FX_NULL;
    return fx_seat_stats_of_queue(seat, queue, stats);
}
#define fx_seat_stats_of_queue fx_checked_seat_stats_of_queue

static inline uint32_t fx_checked_timers_open(fx_timers *timers, uint32_t jobs) {
    if (!timers) return FX_NULL;
    return fx_timers_open(timers, jobs);
}
#define fx_timers_open fx_checked_timers_open

static inline uint32_t fx_checked_timers_free(fx_timers *timers) {
    if (!timers) return FX_NULL;
    return fx_timers_free(timers);
}
#define fx_timers_free fx_checked_timers_free

static inline uint32_t fx_checked_next_time(fx_timers *timers, uint64_t *time) {
    if (!timers || !time) return FX_NULL;
    return fx_next_time(timers, time);
}
#define fx_next_time fx_checked_next_time

static inline uint32_t fx_checked_settle_until(fx_core *core, fx_timers *timers, uint32_t step, uint64_t spent, uint64_t time) {
    if (!core || !timers) return FX_NULL;
    return fx_settle_until(core, timers, step, spent, time);
}
#define fx_settle_until fx_checked_settle_until

static inline uint32_t fx_checked_seat_settle_until(fx_seat *seat, fx_timers *timers, uint32_t step, uint64_t answer, uint64_t spent, uint64_t time) {
    if (!seat || !timers) return FX_NULL;
    return fx_seat_settle_until(seat, timers, step, answer, spent, time);
}
#define fx_seat_settle_until fx_checked_seat_settle_until

static inline uint32_t fx_checked_wake_due(fx_core *core, fx_timers *timers, uint64_t now) {
    if (!core || !timers) return FX_NULL;
    return fx_wake_due(core, timers, now);
}
#define fx_wake_due fx_checked_wake_due

static inline uint32_t fx_checked_seat_wake_due(fx_seat *seat, fx_timers *timers, uint64_t now) {
    if (!seat || !timers) return FX_NULL;
    return fx_seat_wake_due(seat, timers, now);
}
#define fx_seat_wake_due fx_checked_seat_wake_due

#endif
