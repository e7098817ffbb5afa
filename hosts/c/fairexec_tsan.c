/*
 * fairexec_tsan.c: tells the thread sanitizer what it can't see: the library isn't compiled with it, and its links order what actors hand to each
 * other. What is submitted comes before its delivery, and what a run left before the collecting of its outcome. All links count as one here, so a
 * race that another link hides isn't found. A host that is compiled with -fsanitize=thread links this file beside it, in C or C++, with
 *
 *     -Wl,--wrap=fx_seat_submit,--wrap=fx_seat_deliver,--wrap=fx_seat_settle,--wrap=fx_seat_settle_until,--wrap=fx_seat_step,--wrap=fx_seat_collect
 */
#include "fairexec.h"

#ifdef __cplusplus
extern "C" {
#endif

void __tsan_acquire(void *at);
void __tsan_release(void *at);

static char orders, outcomes;

uint32_t __real_fx_seat_submit(fx_seat *seat, uint32_t to, uint32_t queue, uint64_t job, fx_name *name);
uint32_t __wrap_fx_seat_submit(fx_seat *seat, uint32_t to, uint32_t queue, uint64_t job, fx_name *name);
uint32_t __real_fx_seat_deliver(fx_seat *seat, uint32_t sender);
uint32_t __wrap_fx_seat_deliver(fx_seat *seat, uint32_t sender);
uint32_t __real_fx_seat_settle(fx_seat *seat, uint32_t step, uint64_t answer, uint64_t spent);
uint32_t __wrap_fx_seat_settle(fx_seat *seat, uint32_t step, uint64_t answer, uint64_t spent);
uint32_t __real_fx_seat_settle_until(fx_seat *seat, fx_timers *timers, uint32_t step, uint64_t answer, uint64_t spent, uint64_t time);
uint32_t __wrap_fx_seat_settle_until(fx_seat *seat, fx_timers *timers, uint32_t step, uint64_t answer, uint64_t spent, uint64_t time);
uint32_t __real_fx_seat_step(fx_seat *seat, uint32_t step, uint64_t answer, uint64_t spent, fx_turn *turn);
uint32_t __wrap_fx_seat_step(fx_seat *seat, uint32_t step, uint64_t answer, uint64_t spent, fx_turn *turn);
uint32_t __real_fx_seat_collect(fx_seat *seat, uint32_t core, uint64_t *count);
uint32_t __wrap_fx_seat_collect(fx_seat *seat, uint32_t core, uint64_t *count);

uint32_t __wrap_fx_seat_submit(fx_seat *seat, uint32_t to, uint32_t queue, uint64_t job, fx_name *name) {
    __tsan_release(&orders);
    return __real_fx_seat_submit(seat, to, queue, job, name);
}

uint32_t __wrap_fx_seat_deliver(fx_seat *seat, uint32_t sender) {
    uint32_t code = __real_fx_seat_deliver(seat, sender);
    __tsan_acquire(&orders);
    return code;
}

uint32_t __wrap_fx_seat_settle(fx_seat *seat, uint32_t step, uint64_t answer, uint64_t spent) {
    __tsan_release(&outcomes);
    return __real_fx_seat_settle(seat, step, answer, spent);
}

uint32_t __wrap_fx_seat_settle_until(fx_seat *seat, fx_timers *timers, uint32_t step, uint64_t answer, uint64_t spent, uint64_t time) {
    __tsan_release(&outcomes);
    return __real_fx_seat_settle_until(seat, timers, step, answer, spent, time);
}

uint32_t __wrap_fx_seat_step(fx_seat *seat, uint32_t step, uint64_t answer, uint64_t spent, fx_turn *turn) {
    __tsan_release(&outcomes);
    return __real_fx_seat_step(seat, step, answer, spent, turn);
}

uint32_t __wrap_fx_seat_collect(fx_seat *seat, uint32_t core, uint64_t *count) {
    uint32_t code = __real_fx_seat_collect(seat, core, count);
    __tsan_acquire(&outcomes);
    return code;
}

#ifdef __cplusplus
}
#endif
