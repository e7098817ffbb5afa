/*
 * A house of two cores, each on a thread of its own. On each core a foreground queue has 900 shares and a background queue has 100, and the
 * background has work all the time. A foreground job asks the other core for a sum halfway, parks, and is woken when the sum is there.
 * The main thread is the outside actor: it makes the queues, submits the jobs, asks for their outcomes, and closes the cores. At the end it
 * tells what each queue got and how long its jobs waited, and whether the journals of all actors are sound.
 *
 * With the name of a folder, journals have room for few notes, as in a house that runs without end: each actor passes its notes on, to the file
 * part0, part1 or part2 there. At the end the file rest has the first two lines of the journals, and the last one. `fairexec audit` judges them:
 *
 *   (head -n 2 rest; cat part0 part1 part2; tail -n 1 rest) > journal && fairexec audit journal
 *
 *   gcc -std=c11 -O2 -Ihosts/c hosts/examples/house.c hosts/out/libfairexec.a -pthread
 */
#define _POSIX_C_SOURCE 200809L
#include "fairexec.h"
#include <pthread.h>
#include <stdatomic.h>
#include <stdbool.h>
#include <stdio.h>
#include <stdlib.h>
#include <time.h>

enum { CORES = 2, OUTSIDE = CORES, PLACES = 64, NOTES = 1 << 20, FEW_NOTES = 1 << 12, LONGEST = 128, FOREGROUND = 0, BACKGROUND = 1, REQUESTS = 1000, WINDOW = 96, COMPACTIONS = 4 };

typedef enum { REQUEST, SUM, COMPACT } kind;

/* A job of this host: its number is its place in `jobs`. Who submits it fills it; the core that runs it has it until it is done. */
typedef struct {
    kind kind;
    uint32_t queue, runs;
    uint64_t sum, queued_at;
    bool asks;
    fx_name name, asked;
} job;

typedef struct {
    uint64_t runs, waited, longest;
} waits;

/* Rung by who gives a sleeping actor something to do. */
typedef struct {
    pthread_mutex_t lock;
    pthread_cond_t rings;
    bool rung;
} bell;

/* A core, and what its thread alone uses: no lock. */
typedef struct {
    fx_seat seat;
    uint32_t number, asking_count;
    uint64_t asking[PLACES]; /* the jobs of this core that wait for a sum */
    waits of_queue[2];
} place;

static job jobs[CORES * (REQUESTS * 2 + COMPACTIONS)];
static place places[CORES];
static bell bells[CORES + 1] = {{PTHREAD_MUTEX_INITIALIZER, PTHREAD_COND_INITIALIZER, false},
                                {PTHREAD_MUTEX_INITIALIZER, PTHREAD_COND_INITIALIZER, false},
                                {PTHREAD_MUTEX_INITIALIZER, PTHREAD_COND_INITIALIZER, false}};
static atomic_bool stops;
/* Where the notes of each actor go, if they go anywhere. */
static FILE *parts[CORES + 1];

static uint64_t read_clock(clockid_t clock) {
    struct timespec time;
    clock_gettime(clock, &time);
    return (uint64_t)time.tv_sec * 1000000000u + (uint64_t)time.tv_nsec;
}

/* Waits are told in the time of the wall. Runs are charged for the processor's time, so a thread that was set aside isn't charged for that. */
static uint64_t now(void) { return read_clock(CLOCK_MONOTONIC); }
static uint64_t used(void) { return read_clock(CLOCK_THREAD_CPUTIME_ID); }

/* Any code but the wanted one ends the program. */
static void must(uint32_t code, uint32_t wanted, const char *what) {
    if (code == wanted) return;
    fprintf(stderr, "%s: %s\n", what, fx_text(code));
    exit(1);
}

static void ring(uint32_t actor) {
    pthread_mutex_lock(&bells[actor].lock);
    bells[actor].rung = true;
    pthread_cond_signal(&bells[actor].rings);
    pthread_mutex_unlock(&bells[actor].lock);
}

/* Sleeps until the bell was rung since the last sleep. */
static void sleep_until_rung(uint32_t actor) {
    pthread_mutex_lock(&bells[actor].lock);
    while (!bells[actor].rung) pthread_cond_wait(&bells[actor].rings, &bells[actor].lock);
    bells[actor].rung = false;
    pthread_mutex_unlock(&bells[actor].lock);
}

/* The notes of an actor go to its file. A journal has room for FEW_NOTES notes, each of which is a line of LONGEST bytes at most. */
static void pass_on(fx_seat *seat, uint32_t actor) {
    static _Thread_local uint8_t bytes[FEW_NOTES * LONGEST];
    uint64_t count;
    if (parts[actor] == NULL) return;
    must(fx_seat_pass_on(seat, bytes, sizeof bytes, &count), FX_OK, "pass on");
    if (fwrite(bytes, 1, (size_t)count, parts[actor]) != count) must(FX_SHORT, FX_OK, "write");
}

static void work(job *it, uint32_t steps) {
    for (uint32_t step = 0; step < steps; step++) it->sum = it->sum * 6364136223846793005u + 1442695040888963407u;
}

/* The first run of a request asks the other core, and the last one takes the answer. */
static uint32_t run_request(place *p, uint64_t number) {
    job *it = &jobs[number];
    if (it->asks) return FX_STEP_PARK; /* woken early: it still waits */
    work(it, 16000);
    if (it->runs++ > 0) return FX_STEP_DONE;
    uint32_t other = (p->number + 1) % CORES;
    uint64_t sum = number + CORES * REQUESTS;
    jobs[sum] = (job){.kind = SUM, .queue = FOREGROUND, .sum = number, .queued_at = now()};
    uint32_t code = fx_seat_submit(&p->seat, other, FOREGROUND, sum, &it->asked);
    if (code == FX_FULL || code == FX_CLOSED) return FX_STEP_DONE;
    must(code, FX_OK, "ask");
    it->asks = true;
    p->asking[p->asking_count++] = number;
    ring(other);
    return FX_STEP_PARK;
}

static uint32_t run(place *p, uint64_t number) {
    switch (jobs[number].kind) {
    case REQUEST: return run_request(p, number);
    case SUM: return work(&jobs[number], 8000), FX_STEP_DONE;
    default: return work(&jobs[number], 24000), stops ? FX_STEP_DONE : FX_STEP_YIELD;
    }
}

/* One turn: the next job runs once, and its time is told. Whether there was one. */
static bool turn(place *p) {
    fx_turn it = {.size = sizeof it};
    uint32_t code = fx_seat_next(&p->seat, &it);
    if (code == FX_IDLE) return false;
    if (code != FX_START) must(code, FX_RESUME, "next");
    job *runs = &jobs[it.job];
    waits *w = &p->of_queue[runs->queue];
    uint64_t waited = now() - runs->queued_at, began = used();
    w->runs++;
    w->waited += waited;
    if (w->longest < waited) w->longest = waited;
    runs->name = it.name;
    uint32_t step = run(p, it.job);
    uint64_t took = used() - began;
    runs->queued_at = now();
    /* From here on a job that is done is its sender's again. */
    code = fx_seat_settle(&p->seat, step, it.job, took);
    if (code != FX_OK && code != FX_PARKED) must(code, FX_DONE, "settle");
    if (code == FX_DONE) ring(it.name.from);
    return true;
}

/* Wakes each job whose sum has come. The answer to the wake interests nobody. */
static void take_answers(place *p) {
    fx_outcome outcome = {.size = sizeof outcome};
    fx_name wake;
    for (uint32_t each = 0; each < p->asking_count; each++) {
        job *it = &jobs[p->asking[each]];
        if (fx_seat_redeem(&p->seat, &it->asked, &outcome) == FX_PENDING) continue;
        it->asks = false;
        it->queued_at = now();
        must(fx_seat_wake(&p->seat, &it->name, &wake), FX_OK, "wake");
        must(fx_seat_detach(&p->seat, &wake), FX_OK, "detach");
        p->asking[each--] = p->asking[--p->asking_count];
    }
}

/* What comes in, a turn, and what comes back. Whether anything did. */
static bool make_round(place *p) {
    uint64_t count;
    bool did = false;
    for (uint32_t sender = 0; sender <= CORES; sender++) {
        /* Once the core is closed. Its own gate stays open for wakes while a job waits. */
        if (sender != p->number || p->asking_count == 0) did |= fx_seat_shut(&p->seat, sender) == FX_OK;
        did |= fx_seat_deliver(&p->seat, sender) == FX_OK;
    }
    did |= turn(p);
    for (uint32_t core = 0; core < CORES; core++) {
        must(fx_seat_collect(&p->seat, core, &count), FX_OK, "collect");
        did |= count > 0;
    }
    take_answers(p);
    return did;
}

/* A core's thread: rounds until the core is drained. It sleeps only if nothing happened, and no link shows anything. */
static void *serve(void *given) {
    place *p = given;
    for (uint32_t round = 1; fx_seat_drained(&p->seat) != FX_OK; round++) {
        /* A round takes below 400 notes: a turn, an order of each actor, and what the links hold, each collected, redeemed, woken and detached. */
        if (round % 8 == 0) pass_on(&p->seat, p->number);
        if (!make_round(p) && fx_seat_shows(&p->seat) == FX_IDLE) sleep_until_rung(p->number);
    }
    return NULL;
}

/* Waits for the outcome of a submission of the outside actor. */
static fx_outcome wait_for(fx_seat *outside, fx_name *name) {
    fx_outcome outcome = {.size = sizeof outcome};
    uint32_t code;
    uint64_t count;
    for (;;) {
        must(fx_seat_collect(outside, name->to, &count), FX_OK, "collect");
        code = fx_seat_redeem(outside, name, &outcome);
        if (code != FX_PENDING) break;
        sleep_until_rung(OUTSIDE);
    }
    must(code, FX_OK, "redeem");
    return outcome;
}

/* An order that is no job is carried out as it is delivered, and rings nobody: its sender looks. */
static void order(fx_seat *outside, uint32_t core, uint32_t code, fx_name *name, uint32_t wanted) {
    fx_outcome outcome = {.size = sizeof outcome};
    uint64_t count;
    must(code, FX_OK, "order");
    ring(core);
    while ((code = fx_seat_redeem(outside, name, &outcome)) == FX_PENDING) must(fx_seat_collect(outside, core, &count), FX_OK, "collect");
    must(code, FX_OK, "redeem");
    must(outcome.why, wanted, "answer");
}

static void open_queues(fx_seat *outside, uint32_t core) {
    fx_name name;
    order(outside, core, fx_seat_set_shares(outside, core, FOREGROUND, 900, &name), &name, FX_ANSWER_SHARES_SET);
    order(outside, core, fx_seat_create(outside, core, 100, &name), &name, FX_ANSWER_CREATED);
    for (uint32_t each = 0; each < COMPACTIONS; each++) {
        uint64_t number = (uint64_t)CORES * REQUESTS * 2 + core * COMPACTIONS + each;
        jobs[number] = (job){.kind = COMPACT, .queue = BACKGROUND, .queued_at = now()};
        must(fx_seat_submit(outside, core, BACKGROUND, number, &name), FX_OK, "submit");
        must(fx_seat_detach(outside, &name), FX_OK, "detach");
    }
    ring(core);
}

/* Requests to both cores, a window of them at a time. How many are done with their number as the answer. */
static uint32_t drive(fx_seat *outside) {
    fx_name names[CORES * REQUESTS];
    uint32_t done = 0;
    for (uint32_t number = 0; number < CORES * REQUESTS + WINDOW; number++) {
        if (number >= WINDOW) {
            fx_outcome outcome = wait_for(outside, &names[number - WINDOW]);
            done += outcome.kind == FX_KIND_DONE && outcome.answer == number - WINDOW;
        }
        if (number % WINDOW == 0) pass_on(outside, OUTSIDE);
        if (number >= CORES * REQUESTS) continue;
        jobs[number] = (job){.kind = REQUEST, .queue = FOREGROUND, .queued_at = now()};
        must(fx_seat_submit(outside, number % CORES, FOREGROUND, number, &names[number]), FX_OK, "submit");
        ring(number % CORES);
    }
    return done;
}

static double time_of(place *p, uint32_t queue) {
    fx_queue_stats stats = {.size = sizeof stats};
    must(fx_seat_stats_of_queue(&p->seat, queue, &stats), FX_OK, "stats");
    return (double)stats.time_low;
}

static void tell(place *p) {
    double time[2] = {time_of(p, FOREGROUND), time_of(p, BACKGROUND)};
    for (uint32_t queue = 0; queue < 2; queue++) {
        waits *w = &p->of_queue[queue];
        printf("core %u, %s: %.1f %% of the time, %llu runs, waited %.1f us on average and %.1f us at most\n", p->number, queue ? "background" : "foreground",
               100 * time[queue] / (time[0] + time[1]), (unsigned long long)w->runs, (double)w->waited / (double)w->runs / 1e3, (double)w->longest / 1e3);
    }
}

/* Opens the files of the parts. */
static void keep_in(const char *folder) {
    char path[4096];
    for (uint32_t actor = 0; actor <= CORES; actor++) {
        snprintf(path, sizeof path, "%s/part%u", folder, actor);
        if ((parts[actor] = fopen(path, "w")) == NULL) must(FX_ABSENT, FX_OK, path);
    }
}

/* The last notes of an actor go on, and its seat ends. */
static void end(fx_house *house, fx_seat *seat, uint32_t actor) {
    pass_on(seat, actor);
    must(fx_house_end(house, seat), FX_OK, "end");
    if (parts[actor] != NULL && fclose(parts[actor]) != 0) must(FX_SHORT, FX_OK, "write");
}

/* What the house knows of its journals: a verdict, or, if it passed them on, the lines around them. Whether nothing is wrong. */
static bool judge(fx_house *house, const char *folder) {
    fx_verdict verdict = {.size = sizeof verdict};
    char path[4096];
    uint8_t bytes[LONGEST];
    uint64_t count;
    if (folder == NULL) {
        must(fx_house_audit(house, &verdict), FX_OK, "audit");
        return verdict.sound;
    }
    must(fx_house_text(house, 0, bytes, sizeof bytes, &count), FX_OK, "text");
    snprintf(path, sizeof path, "%s/rest", folder);
    FILE *rest = fopen(path, "w");
    return rest != NULL && fwrite(bytes, 1, (size_t)count, rest) == count && fclose(rest) == 0;
}

int main(int count, char **words) {
    const char *folder = count > 1 ? words[1] : NULL;
    fx_house house = FX_NO_HOUSE;
    fx_seat outside = FX_NO_SEAT;
    fx_config config = {.size = sizeof config, .cores = CORES, .places = PLACES, .burst = 1, .notes = folder ? FEW_NOTES : NOTES};
    fx_name name;
    uint32_t actor;
    pthread_t threads[CORES];
    if (fx_version() != FX_VERSION) return 1;
    if (folder) keep_in(folder);
    must(fx_house_open(&house, &config), FX_OK, "open");
    must(fx_house_take(&house, &outside, &actor), FX_OK, "take");
    for (uint32_t each = CORES; each-- > 0;) must(fx_house_take(&house, &places[each].seat, &places[each].number), FX_OK, "take");
    for (uint32_t each = 0; each < CORES; each++)
        if (pthread_create(&threads[each], NULL, serve, &places[each]) != 0) return 1;
    for (uint32_t core = 0; core < CORES; core++) open_queues(&outside, core);
    uint32_t done = drive(&outside);
    stops = true;
    for (uint32_t core = 0; core < CORES; core++) order(&outside, core, fx_seat_close_core(&outside, core, FX_MODE_FINISH, &name), &name, FX_ANSWER_CLOSED);
    for (uint32_t core = 0; core < CORES; core++) pthread_join(threads[core], NULL);
    for (uint32_t core = 0; core < CORES; core++) {
        tell(&places[core]);
        end(&house, &places[core].seat, core);
    }
    end(&house, &outside, OUTSIDE);
    bool is_well = judge(&house, folder);
    printf("%u of %u requests are done, and the journals are %s\n", done, CORES * REQUESTS, !is_well ? "not sound" : folder ? "passed on" : "sound");
    must(fx_house_free(&house), FX_OK, "free");
    return done == CORES * REQUESTS && is_well ? 0 : 1;
}
