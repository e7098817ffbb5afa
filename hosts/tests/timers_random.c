/*
 * Jobs that sleep at random, against a plain model: timers_random CALLS SEED on a core that stands alone, timers_random CALLS SEED house on that of a house.
 * The model has a line of the jobs that wait, and a list of timers in the order of their times. Each call has to answer the model's code, each run has to
 * be that of the model's job, and the next time is the model's behind each call. At times the core closes, and all its jobs end or go back; the journals
 * of a house are sound then.
 * It stops at the first difference. The last line is 'N passed, M failed', and the status is 0 if nothing failed.
 */
#include "dice.h"
#include "fairexec.h"
#include <stdio.h>
#include <stdlib.h>
#include <string.h>

enum { ROOM = 8, TIMERS = 6, PLACES = ROOM + 1, OUTSIDE = 1, MOST = ROOM + TIMERS, CLOSING = 1500 };
enum { VACANT, QUEUED, OUT, PARKED };

/* Its places are the jobs' numbers. A place is used again, so a job also has a name. */
typedef struct {
    uint32_t state;
    bool is_kept;
    fx_name name;
} job;

typedef struct {
    uint64_t time;
    uint32_t place;
    fx_name name;
} entry;

static job jobs[ROOM];
static uint32_t line[ROOM], waiting, held;
static entry set[MOST], flight[PLACES];
static uint32_t set_count, flying, uncollected;
static uint64_t now, codes[FX_NULL + 1], passed_over, woken;
static bool is_house;

static fx_core core;
static fx_house house;
static fx_seat seat, outside;
static fx_timers timers;

static uint64_t calls, passed;

static void is(const char *what, uint64_t found, uint64_t wanted) {
    if (found == wanted) {
        passed++;
        return;
    }
    printf("FAILED: call %llu, %s: %llu, and not %llu\n%llu passed, 1 failed\n", (unsigned long long)calls, what, (unsigned long long)found, (unsigned long long)wanted, (unsigned long long)passed);
    exit(1);
}

static void answers(const char *what, uint32_t code, uint32_t wanted) {
    is(what, code, wanted);
    codes[code]++;
}

/* --- The model --- */

static bool is_inside(uint32_t place, const fx_name *name) { return jobs[place].state != VACANT && jobs[place].name.number == name->number && jobs[place].name.from == name->from; }

static void to_line(uint32_t place) {
    jobs[place].state = QUEUED;
    line[waiting++] = place;
}

/* A wake comes to the core. */
static void comes(uint32_t place, const fx_name *name) {
    if (!is_inside(place, name)) return;
    if (jobs[place].state == PARKED) to_line(place);
    else jobs[place].is_kept = true;
}

static void forget(uint32_t at) {
    memmove(&set[at], &set[at + 1], (--set_count - at) * sizeof set[0]);
}

static uint32_t timer_of(uint32_t place) {
    uint32_t at = 0;
    while (at < set_count && !(set[at].place == place && is_inside(place, &set[at].name))) at++;
    return at;
}

static void insert(uint32_t place, uint64_t time) {
    uint32_t at = 0;
    while (at < set_count && set[at].time < time) at++;
    memmove(&set[at + 1], &set[at], (set_count++ - at) * sizeof set[0]);
    set[at].time = time;
    set[at].place = place;
    set[at].name = jobs[place].name;
}

static uint32_t out(void) {
    uint32_t place = 0;
    while (place < ROOM && jobs[place].state != OUT) place++;
    return place;
}

/* A time that no timer has. At times it is now, or before, or none. */
static uint64_t any_time(void) {
    if (rarely(8)) return FX_NEVER;
    uint64_t time = rarely(10) ? now : rarely(20) ? below(10) : rarely(40) ? FX_NEVER - 1 - below(50) : now + below(200);
    for (uint32_t at = 0; at < set_count; at++)
        if (set[at].time == time) at = UINT32_MAX, time--;
    return time;
}

/* --- Calls on the library and on the model --- */

static void look(void) {
    uint64_t time = 77;
    is("the code of the next time", fx_next_time(&timers, &time), set_count == 0 ? FX_IDLE : FX_OK);
    is("the next time", time, set_count == 0 ? 77 : set[0].time);
}

static void deliver(uint32_t sender) {
    uint32_t wanted = sender == OUTSIDE || flying > 0 ? FX_OK : FX_IDLE;
    answers("a delivery", fx_seat_deliver(&seat, sender), wanted);
    if (sender == OUTSIDE || flying == 0) return;
    entry it = flight[0];
    memmove(&flight[0], &flight[1], --flying * sizeof flight[0]);
    comes(it.place, &it.name);
}

static void collect(void) {
    uint64_t count = 77;
    answers("a collection", fx_seat_collect(&seat, 0, &count), FX_OK);
    is("so many wakes came back", count, uncollected - flying);
    uncollected = flying;
}

static void let_go(const fx_name *name) {
    uint64_t count;
    answers("a detachment", fx_seat_detach(&outside, name), FX_OK);
    answers("its collection", fx_seat_collect(&outside, 0, &count), FX_OK);
}

static void submit(void) {
    uint32_t place = 0;
    fx_name name = {0, 0, 0};
    while (place < ROOM && jobs[place].state != VACANT) place++;
    /* A full core takes no wake, so it is rarely one. */
    if (place == ROOM || (held == ROOM - 1 && !is_house && !rarely(30))) return;
    if (is_house) {
        uint64_t count;
        answers("what is done comes", fx_seat_collect(&outside, 0, &count), FX_OK);
        answers("a submission", fx_seat_submit(&outside, 0, 0, place, &name), FX_OK);
        deliver(OUTSIDE);
        answers("a job is let go", fx_seat_detach(&outside, &name), FX_OK);
    } else {
        answers("a submission", fx_submit_numbered(&core, 0, place, &name.number), FX_OK);
    }
    jobs[place].name = name;
    jobs[place].is_kept = false;
    to_line(place);
    held++;
}

static void wake(void) {
    uint32_t place = below(ROOM);
    fx_name *name = &jobs[place].name, order;
    if (is_house) {
        if (jobs[place].state == VACANT) return;
        answers("a wake of the outside actor", fx_seat_wake(&outside, name, &order), FX_OK);
        deliver(OUTSIDE);
        let_go(&order);
    } else {
        answers("a wake", fx_wake(&core, name->number), held == ROOM ? FX_FULL : jobs[place].state == VACANT ? FX_ABSENT : FX_OK);
        if (held == ROOM) return;
    }
    comes(place, name);
}

static void next(void) {
    uint64_t told = 77;
    uint32_t code;
    if (is_house) {
        fx_turn turn;
        memset(&turn, 0, sizeof turn);
        turn.size = sizeof turn;
        code = fx_seat_next(&seat, &turn);
        told = turn.job;
    } else {
        code = fx_next(&core, &told);
    }
    bool is_out = out() < ROOM;
    is("a job is told", code == FX_START || code == FX_RESUME, !is_out && waiting > 0);
    codes[code]++;
    if (code > FX_RESUME) {
        is("why no job is told", code, is_out ? FX_BUSY : FX_IDLE);
        return;
    }
    is("the first of the line", told, line[0]);
    memmove(&line[0], &line[1], --waiting * sizeof line[0]);
    jobs[told].state = OUT;
}

static uint32_t settled(uint32_t step, uint64_t time) {
    if (is_house) return fx_seat_settle_until(&seat, &timers, step, 7, below(900), time);
    return fx_settle_until(&core, &timers, step, below(900), time);
}

/* Why the run isn't settled, or FX_OK. */
static uint32_t refusal(uint32_t step, uint64_t time, uint32_t place) {
    if (step > FX_STEP_PARK) return FX_BAD_NUMBER;
    if (place == ROOM) return FX_NO_JOB;
    return step == FX_STEP_PARK && time != FX_NEVER && set_count == TIMERS && timer_of(place) == set_count ? FX_FULL : FX_OK;
}

static void settle(uint32_t step, uint64_t time) {
    uint32_t place = out(), wanted = refusal(step, time, place);
    if (wanted != FX_OK) {
        answers("a run that isn't settled", settled(step, time), wanted);
        return;
    }
    bool parks = step == FX_STEP_PARK && !jobs[place].is_kept;
    answers("a run is settled", settled(step, time), parks ? FX_PARKED : step == FX_STEP_DONE ? FX_DONE : FX_OK);
    uint32_t own = timer_of(place);
    if (own < set_count) forget(own);
    if (step == FX_STEP_PARK) jobs[place].is_kept = false;
    if (parks && time != FX_NEVER) insert(place, time);
    if (parks) jobs[place].state = PARKED;
    else if (step == FX_STEP_DONE) jobs[place].state = VACANT, held--;
    else to_line(place);
}

/* At times a run is settled by the other call, which leaves its timer. */
static void settle_otherwise(void) {
    uint32_t place = out();
    if (place == ROOM) return;
    answers("a job is done", is_house ? fx_seat_settle(&seat, FX_STEP_DONE, 7, 5) : fx_settle(&core, FX_STEP_DONE, 5), FX_DONE);
    jobs[place].state = VACANT;
    held--;
}

/* Whether a timer went. */
static bool wake_due(void) {
    uint32_t code = is_house ? fx_seat_wake_due(&seat, &timers, now) : fx_wake_due(&core, &timers, now);
    if (set_count == 0 || set[0].time > now) {
        answers("no timer is due", code, FX_IDLE);
        return false;
    }
    entry it = set[0];
    bool sleeps = is_inside(it.place, &it.name) && jobs[it.place].state == PARKED;
    bool is_full = sleeps && (is_house ? uncollected == PLACES : held == ROOM);
    answers("a timer is due", code, is_full ? FX_FULL : sleeps ? FX_OK : FX_ABSENT);
    if (is_full) return false;
    forget(0);
    woken += sleeps;
    passed_over += !sleeps;
    if (sleeps && !is_house) comes(it.place, &it.name);
    if (!sleeps || !is_house) return true;
    flight[flying++] = it;
    uncollected++;
    return true;
}

/* --- Beginnings and ends --- */

static void begin(void) {
    const fx_config config = {sizeof config, 1, is_house ? PLACES : 1, 1, 1 << 16};
    uint32_t actor;
    memset(jobs, 0, sizeof jobs);
    waiting = held = set_count = flying = uncollected = 0;
    now = rarely(2) ? below(1000) : (uint64_t)1 << 63;
    answers("timers", fx_timers_open(&timers, TIMERS), FX_OK);
    if (!is_house) {
        answers("a core", fx_open(&core, ROOM), FX_OK);
        return;
    }
    answers("a house", fx_house_open(&house, &config), FX_OK);
    answers("the outside actor", fx_house_take(&house, &outside, &actor), FX_OK);
    answers("the core", fx_house_take(&house, &seat, &actor), FX_OK);
}

static void end(void) {
    fx_verdict verdict;
    verdict.size = sizeof verdict;
    answers("timers go", fx_timers_free(&timers), FX_OK);
    if (!is_house) {
        answers("the core goes", fx_free(&core), FX_OK);
        return;
    }
    for (uint32_t sender = 0; sender < 2; sender++) answers("a gate", fx_seat_shut(&seat, sender), FX_OK);
    while (flying > 0) deliver(0);
    answers("it is drained", fx_seat_drained(&seat), FX_OK);
    answers("the core ends", fx_house_end(&house, &seat), FX_OK);
    answers("the outside actor ends", fx_house_end(&house, &outside), FX_OK);
    answers("an audit", fx_house_audit(&house, &verdict), FX_OK);
    is("the journals are sound", verdict.sound, 1);
    answers("the house goes", fx_house_free(&house), FX_OK);
}

/* All sleep on to their times, and are done. Those that wait for another wake get it. */
static void finish(void) {
    answers("it closes", is_house ? fx_seat_close(&seat, FX_MODE_FINISH) : fx_close(&core, FX_MODE_FINISH), FX_OK);
    if (out() < ROOM) settle(FX_STEP_DONE, 0);
    while (held > 0) {
        wake();
        if (set_count > 0 && set[0].time > now) now = set[0].time;
        while (wake_due()) look();
        while (is_house && flying > 0) deliver(0);
        if (is_house) collect();
        next();
        settle(FX_STEP_DONE, 0);
    }
}

/* All go back, each once. No timer wakes one. */
static void hand_back(void) {
    fx_turn turn;
    uint64_t place, count, is_back = 0;
    memset(&turn, 0, sizeof turn);
    turn.size = sizeof turn;
    if (out() < ROOM) settle(FX_STEP_DONE, 0);
    answers("it closes", is_house ? fx_seat_close(&seat, FX_MODE_RETURN) : fx_close(&core, FX_MODE_RETURN), FX_OK);
    for (; held > 0; held--) {
        answers("a job goes back", is_house ? fx_seat_next(&seat, &turn) : fx_next(&core, &place), FX_BACK);
        if (is_house) continue;
        is("a job that is inside", jobs[place].state != VACANT && !(is_back >> place & 1), 1);
        is_back |= (uint64_t)1 << place;
    }
    for (uint32_t each = 0; each < ROOM; each++) jobs[each].state = VACANT;
    waiting = 0;
    now = FX_NEVER;
    while (wake_due()) look();
    is("no timer is left", set_count, 0);
    answers("none runs", is_house ? fx_seat_next(&seat, &turn) : fx_next(&core, &place), FX_IDLE);
    if (is_house) answers("all came", fx_seat_collect(&outside, 0, &count), FX_OK);
}

/* Of a full core no job parks: it would take no wake. */
static uint32_t any_step(void) {
    if (rarely(40)) return 3 + below(9);
    uint32_t step = rarely(6) ? below(2) : FX_STEP_PARK;
    return step == FX_STEP_PARK && !is_house && held == ROOM ? FX_STEP_DONE : step;
}

static void any_call(void) {
    uint32_t kind = below(100), step = any_step();
    if (kind < 15) submit();
    else if (kind < 35) next();
    else if (kind < 55) settle(step, any_time());
    else if (kind < 56) settle_otherwise();
    else if (kind < 60) wake();
    else if (kind < 75) wake_due();
    else if (kind < 88) now += below(120);
    else if (is_house && kind < 95) deliver(0);
    else if (is_house) collect();
}

int main(int count, char **words) {
    static const uint32_t wanted[] = {FX_OK, FX_START, FX_RESUME, FX_DONE, FX_BACK, FX_IDLE, FX_BUSY, FX_NO_JOB, FX_FULL, FX_BAD_NUMBER, FX_PARKED};
    if (count < 3) return 2;
    uint64_t most = strtoull(words[1], NULL, 10);
    state = strtoull(words[2], NULL, 10);
    is_house = count > 3;
    begin();
    for (calls = 0; calls < most; calls++) {
        any_call();
        look();
        if (!rarely(CLOSING)) continue;
        if (rarely(2)) finish();
        else hand_back();
        end();
        begin();
    }
    finish();
    end();
    for (uint32_t each = 0; each < sizeof wanted / sizeof wanted[0]; each++) is("each code came up", codes[wanted[each]] > 0, 1);
    is("jobs were woken, and others passed over", woken > most / 40 && passed_over > most / 1000, 1);
    printf("%llu were woken, %llu passed over\n%llu passed, 0 failed\n", (unsigned long long)woken, (unsigned long long)passed_over, (unsigned long long)passed);
    return 0;
}
