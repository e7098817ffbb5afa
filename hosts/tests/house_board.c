/*
 * The counts of cores on boards of fairexec_board.h, which other threads read: house_board JOBS YIELDS. Two cores run on threads of their own, and each job
 * yields so often; SPINS yields until it may end. Readers read before, meanwhile, as the cores end and behind that.
 * The last line is 'N passed, M failed', and the status is 0 if nothing failed.
 */
#define _POSIX_C_SOURCE 200809L
#include "checks.h"
#include "fairexec_board.h"
#include <pthread.h>
#include <stdlib.h>
#include <time.h>

enum { CORES = 2, READERS = 3, PLACES = 16, QUEUES = 3, SPINS = PLACES, A_ROUND = 64 };

typedef struct {
    fx_seat seat;
    uint32_t number;
    uint64_t wrong;
    fx_board board;
} place;

typedef struct {
    pthread_t thread;
    fx_counts found;
    uint64_t reads, wrong;
} reader;

static place places[CORES];
static uint64_t yields;
static reader readers[READERS];
/* Behind this lock: whether jobs that spin may end, and readers. */
static pthread_mutex_t lock = PTHREAD_MUTEX_INITIALIZER;
static bool may_stop, may_end;

static bool reads(const bool *of) {
    pthread_mutex_lock(&lock);
    bool found = *of;
    pthread_mutex_unlock(&lock);
    return found;
}

static void sets(bool *of) {
    pthread_mutex_lock(&lock);
    *of = true;
    pthread_mutex_unlock(&lock);
}

static void naps(long nanoseconds) {
    struct timespec time = {0, nanoseconds};
    nanosleep(&time, NULL);
}

static uint64_t picks_of(const fx_counts *of) {
    uint64_t sum = 0;
    for (uint32_t queue = 0; queue < of->core.queues; queue++) sum += of->queues[queue].picks;
    return sum;
}

static uint64_t done_of(const fx_counts *of) {
    uint64_t sum = 0;
    for (uint32_t queue = 0; queue < of->core.queues; queue++) sum += of->queues[queue].done;
    return sum;
}

/* Whether a board has what its seat tells. */
static bool is_of_seat(place *p) {
    static fx_counts found;
    fx_core_stats core = {.size = sizeof core};
    fx_queue_stats queue = {.size = sizeof queue};
    bool same = fx_board_read(&p->board, &found) == FX_OK && fx_seat_stats(&p->seat, &core) == FX_OK && memcmp(&core, &found.core, sizeof core) == 0;
    for (uint32_t each = 0; same && each < core.queues; each++)
        same = fx_seat_stats_of_queue(&p->seat, each, &queue) == FX_OK && memcmp(&queue, &found.queues[each], sizeof queue) == 0;
    return same;
}

/* Whether there was a turn. A job counts the runs that it still has. */
static bool turn(place *p) {
    static uint64_t left[CORES][PLACES + 1];
    fx_turn it = {.size = sizeof it};
    uint32_t code = fx_seat_next(&p->seat, &it);
    if (code == FX_IDLE) return false;
    p->wrong += code != FX_START && code != FX_RESUME;
    uint64_t *runs = &left[p->number][it.job];
    if (code == FX_START) *runs = yields;
    if (it.job == SPINS) naps(1000);
    bool goes_on = it.job == SPINS ? !reads(&may_stop) : *runs > 0;
    code = fx_seat_settle(&p->seat, goes_on ? FX_STEP_YIELD : FX_STEP_DONE, 7, 1000);
    p->wrong += code != (goes_on ? FX_OK : FX_DONE);
    *runs -= *runs > 0;
    return true;
}

static void *serve(void *given) {
    place *p = given;
    while (fx_seat_drained(&p->seat) != FX_OK) {
        uint32_t did = 0;
        for (uint32_t sender = 0; sender <= CORES; sender++) {
            did += fx_seat_shut(&p->seat, sender) == FX_OK;
            did += fx_seat_deliver(&p->seat, sender) == FX_OK;
        }
        if (turn(p)) did = A_ROUND;
        p->wrong += fx_board_count(&p->board, &p->seat, did) != FX_OK;
        if (did > 0) continue;
        p->wrong += fx_board_rest(&p->board, &p->seat) != FX_OK;
        naps(20000);
    }
    p->wrong += fx_board_tell(&p->board, &p->seat) != FX_OK;
    return NULL;
}

/* Counts belong together, and none falls. */
static void *read_all(void *given) {
    reader *r = given;
    fx_core_stats last[CORES] = {{0}};
    do {
        for (uint32_t core = 0; core < CORES; core++) {
            r->wrong += fx_board_read(&places[core].board, &r->found) != FX_OK;
            const fx_core_stats *it = &r->found.core;
            r->wrong += it->size != sizeof *it || it->turns != picks_of(&r->found) || it->held > it->room;
            r->wrong += it->turns < last[core].turns || it->queues < last[core].queues || it->closed < last[core].closed;
            last[core] = *it;
            r->reads++;
        }
    } while (!reads(&may_end));
    return NULL;
}

/* Reads until the core made more turns than so many, and so many of its jobs are done: how many turns. It takes a minute at most. */
static uint64_t comes_to(const fx_board *board, uint64_t more_than, uint64_t done) {
    static fx_counts found;
    for (unsigned each = 0; each < 60000; each++, naps(1000000)) {
        if (fx_board_read(board, &found) != FX_OK) exit(1);
        if (found.core.turns > more_than && done_of(&found) == done) return found.core.turns;
    }
    is("counts that come in a minute", (uint32_t)done_of(&found), (uint32_t)done);
    return found.core.turns;
}

/* The outcome of a submission. */
static fx_outcome waited(fx_seat *outside, const fx_name *name) {
    fx_outcome told = {.size = sizeof told};
    uint64_t count;
    while (fx_seat_redeem(outside, name, &told) == FX_PENDING) {
        if (fx_seat_collect(outside, name->to, &count) != FX_OK) exit(1);
        naps(20000);
    }
    return told;
}

static void make_queues(fx_seat *outside) {
    fx_name name;
    for (uint32_t each = 0; each < CORES * (QUEUES - 1); each++) {
        IS(fx_seat_create(outside, each % CORES, 300, &name), FX_OK);
        is("a queue is made", waited(outside, &name).why, FX_ANSWER_CREATED);
    }
}

/* A core never rests while a job spins. */
static void grows(fx_seat *outside) {
    fx_name names[CORES];
    for (uint32_t core = 0; core < CORES; core++) IS(fx_seat_submit(outside, core, 0, SPINS, &names[core]), FX_OK);
    for (uint32_t core = 0; core < CORES; core++)
        for (uint64_t turns = 0, each = 0; each < 5; each++) turns = comes_to(&places[core].board, turns, 0);
    sets(&may_stop);
    for (uint32_t core = 0; core < CORES; core++) is("it is done", waited(outside, &names[core]).kind, FX_KIND_DONE);
}

/* So many jobs to each core, to its queues by turns, as many at a time as the links take. */
static void submit(fx_seat *outside, uint64_t jobs) {
    fx_name names[CORES][PLACES];
    uint64_t right = 0;
    for (uint64_t first = 0; first < jobs; first += PLACES) {
        for (uint32_t each = 0; each < CORES * PLACES; each++) {
            uint32_t core = each / PLACES, job = each % PLACES;
            right += fx_seat_submit(outside, core, job % QUEUES, job, &names[core][job]) == FX_OK;
        }
        for (uint32_t each = 0; each < CORES * PLACES; each++) right += waited(outside, &names[each / PLACES][each % PLACES]).kind == FX_KIND_DONE;
    }
    is("each job is done", (uint32_t)right, (uint32_t)(2 * CORES * jobs));
}

/* When counts are told, on one thread. */
static void when(void) {
    static fx_board board;
    static fx_counts found;
    fx_house house = FX_NO_HOUSE;
    fx_seat outside = FX_NO_SEAT, seat = FX_NO_SEAT;
    fx_config config = {sizeof config, 1, 4, 1, 1 << 10};
    fx_turn it = {.size = sizeof it};
    fx_name name;
    uint32_t actor;
    IS(fx_house_open(&house, &config), FX_OK);
    IS(fx_house_take(&house, &outside, &actor), FX_OK);
    IS(fx_board_open(&board, &outside), FX_EMPTY);
    IS(fx_board_open(&board, &seat), FX_EMPTY);
    IS(fx_board_read(&board, &found), FX_OK);
    is("nothing was told", found.core.queues == 0 && found.core.room == 0, true);
    IS(fx_house_take(&house, &seat, &actor), FX_OK);
    IS(fx_board_open(&board, &seat), FX_OK);
    IS(fx_board_read(&board, &found), FX_OK);
    is("the first counts", found.core.queues == 1 && found.core.room == 8 && found.queues[0].shares == 1000, true);
    IS(fx_seat_submit(&outside, 0, 0, 1, &name), FX_OK);
    IS(fx_seat_deliver(&seat, 1), FX_OK);
    IS(fx_board_rest(&board, &seat), FX_OK);
    IS(fx_board_read(&board, &found), FX_OK);
    is("nothing was counted", (uint32_t)found.core.held, 0);
    IS(fx_board_count(&board, &seat, 1039), FX_OK);
    IS(fx_board_count(&board, &seat, 0), FX_OK);
    IS(fx_board_read(&board, &found), FX_OK);
    is("it isn't time", (uint32_t)found.core.held, 0);
    IS(fx_board_count(&board, &seat, 1), FX_OK);
    IS(fx_board_read(&board, &found), FX_OK);
    is("it is time", (uint32_t)found.core.held, 1);
    IS(fx_seat_next(&seat, &it), FX_START);
    IS(fx_board_count(&board, &seat, 1), FX_OK);
    IS(fx_board_rest(&board, &seat), FX_OK);
    is("a core that rests tells them", is_of_seat(&(place){seat, 0, 0, board}), true);
    IS(fx_seat_settle(&seat, FX_STEP_DONE, 0, 5), FX_DONE);
    IS(fx_board_count(&board, &seat, UINT32_MAX), FX_OK);
    IS(fx_board_read(&board, &found), FX_OK);
    is("many turns are time", (uint32_t)found.queues[0].done, 1);
    IS(fx_seat_free(&seat), FX_OK);
    IS(fx_board_tell(&board, &seat), FX_EMPTY);
    IS(fx_board_rest(&board, &seat), FX_OK);
    IS(fx_board_count(&board, &seat, 2000), FX_EMPTY);
    IS(fx_board_read(&board, &found), FX_OK);
    is("the last counts stay", (uint32_t)found.queues[0].done, 1);
    IS(fx_seat_free(&outside), FX_OK);
    IS(fx_house_free(&house), FX_OK);
}

/* To tell the counts of many queues takes long, so that isn't done as often. */
static void many_queues(void) {
    static fx_board board;
    static fx_counts found;
    fx_house house = FX_NO_HOUSE;
    fx_seat outside = FX_NO_SEAT, seat = FX_NO_SEAT;
    fx_config config = {sizeof config, 1, 32, 1, 1 << 10};
    fx_name name;
    uint32_t actor, queues[] = {16, 17}, every[] = {1024 + 16 * 16, 1024 * 17};
    IS(fx_house_open(&house, &config), FX_OK);
    IS(fx_house_take(&house, &outside, &actor), FX_OK);
    IS(fx_house_take(&house, &seat, &actor), FX_OK);
    IS(fx_board_open(&board, &seat), FX_OK);
    for (uint32_t each = 0, made = 1; each < 2; each++) {
        for (; made < queues[each]; made++) {
            IS(fx_seat_create(&outside, 0, 100 + made, &name), FX_OK);
            IS(fx_seat_deliver(&seat, 1), FX_OK);
        }
        IS(fx_board_tell(&board, &seat), FX_OK);
        IS(fx_seat_submit(&outside, 0, 0, 1, &name), FX_OK);
        IS(fx_seat_deliver(&seat, 1), FX_OK);
        IS(fx_board_count(&board, &seat, every[each] - 1), FX_OK);
        IS(fx_board_read(&board, &found), FX_OK);
        is("it isn't time", found.core.held == each && found.core.queues == made && found.queues[made - 1].shares == 99 + made, true);
        IS(fx_board_count(&board, &seat, 1), FX_OK);
        IS(fx_board_read(&board, &found), FX_OK);
        is("it is time", (uint32_t)found.core.held, each + 1);
    }
    IS(fx_seat_free(&seat), FX_OK);
    IS(fx_seat_free(&outside), FX_OK);
    IS(fx_house_free(&house), FX_OK);
}

static void nulls(void) {
    static fx_board board;
    static fx_counts unused;
    fx_seat seat = FX_NO_SEAT;
    IS(fx_board_open(NULL, &seat), FX_NULL);
    IS(fx_board_open(&board, NULL), FX_NULL);
    IS(fx_board_tell(NULL, &seat), FX_NULL);
    IS(fx_board_tell(&board, NULL), FX_NULL);
    IS(fx_board_count(NULL, &seat, 1), FX_NULL);
    IS(fx_board_count(&board, NULL, 1), FX_NULL);
    IS(fx_board_rest(NULL, &seat), FX_NULL);
    IS(fx_board_rest(&board, NULL), FX_NULL);
    IS(fx_board_read(NULL, &unused), FX_NULL);
    IS(fx_board_read(&board, NULL), FX_NULL);
}

/* The cores end, and so does the house, while others read. Each core made so many turns. */
static void ends(fx_house *house, fx_seat *outside, pthread_t *runs, const uint64_t *turns) {
    static fx_counts found;
    fx_name name;
    for (uint32_t each = 0; each < CORES; each++) IS(fx_seat_close_core(outside, each, FX_MODE_FINISH, &name), FX_OK);
    for (uint32_t each = 0; each < CORES; each++) {
        place *p = &places[each];
        pthread_join(runs[each], NULL);
        is("no call of a core was refused", (uint32_t)p->wrong, 0);
        is("the last counts are those of the seat", is_of_seat(p), true);
        IS(fx_house_end(house, &p->seat), FX_OK);
        IS(fx_board_tell(&p->board, &p->seat), FX_EMPTY);
    }
    IS(fx_house_end(house, outside), FX_OK);
    IS(fx_house_free(house), FX_OK);
    for (uint32_t each = 0; each < CORES; each++) {
        IS(fx_board_read(&places[each].board, &found), FX_OK);
        is("the last counts stay", found.core.turns == turns[each] && found.core.closed == 1 + FX_MODE_FINISH, true);
    }
}

int main(int count, char **words) {
    uint64_t jobs = (count > 1 ? strtoull(words[1], NULL, 10) : 160) / PLACES * PLACES, turns[CORES];
    yields = count > 2 ? strtoull(words[2], NULL, 10) : 100;
    fx_house house = FX_NO_HOUSE;
    fx_seat outside = FX_NO_SEAT;
    fx_config config = {sizeof config, CORES, PLACES, 1, 1 << 20};
    pthread_t runs[CORES];
    uint32_t actor;
    when();
    many_queues();
    nulls();
    IS(fx_house_open(&house, &config), FX_OK);
    IS(fx_house_take(&house, &outside, &actor), FX_OK);
    for (uint32_t each = CORES; each-- > 0;) {
        IS(fx_house_take(&house, &places[each].seat, &places[each].number), FX_OK);
        IS(fx_board_open(&places[each].board, &places[each].seat), FX_OK);
    }
    for (uint32_t each = 0; each < READERS; each++)
        if (pthread_create(&readers[each].thread, NULL, read_all, &readers[each]) != 0) return 1;
    for (uint32_t each = 0; each < CORES; each++)
        if (pthread_create(&runs[each], NULL, serve, &places[each]) != 0) return 1;
    make_queues(&outside);
    grows(&outside);
    for (uint32_t each = 0; each < CORES; each++) turns[each] = comes_to(&places[each].board, 0, 1) + jobs * (yields + 1);
    submit(&outside, jobs);
    for (uint32_t each = 0; each < CORES; each++) is("the counts of a core that rests", (uint32_t)comes_to(&places[each].board, 0, jobs + 1), (uint32_t)turns[each]);
    ends(&house, &outside, runs, turns);
    sets(&may_end);
    for (uint32_t each = 0; each < READERS; each++) {
        pthread_join(readers[each].thread, NULL);
        is("counts belong together, and none falls", (uint32_t)readers[each].wrong, 0);
        is("they were read", readers[each].reads > 0, true);
    }
    printf("%u passed, %u failed\n", passed, failed);
    return failed != 0;
}
