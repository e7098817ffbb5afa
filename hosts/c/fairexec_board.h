/*
 * fairexec_board.h: the counts of a core of a house, for any thread of a host in C. The thread of the core leaves them on a board, and others read them there.
 *
 *     static fx_board board;
 *     fx_board_open(&board, &seat);                           in any other thread:
 *     for (;;) {                                                fx_counts counts;
 *         ... a round ...                                       fx_board_read(&board, &counts);
 *         fx_board_count(&board, &seat, turns);                 ... counts.core.turns, counts.queues[0].done ...
 *         if (it sleeps) fx_board_rest(&board, &seat);
 *     }
 *     fx_board_tell(&board, &seat);
 *     ... fx_house_end ...
 *
 * Who may call: fx_board_open, fx_board_count, fx_board_rest and fx_board_tell are calls on the seat, by the rule of fairexec.h for its thread. Any thread calls
 * fx_board_read, once fx_board_open has answered FX_OK. No call takes a lock. The thread of the core waits for no reader; a reader waits while counts are
 * written, and reads again.
 *
 * How old the counts are: a core whose rounds are counted tells them behind each 1024 turns, and 16 more for each queue; with more than 16 queues behind
 * 1024 turns for each. One that sleeps told them before. To tell them takes 160 ns or more for the core, and as much for each queue, or 4 us with more than 16.
 *
 * Once the core has ended, its board keeps what was told last: all counts, if fx_board_tell was called before fx_house_end or fx_seat_free. On a seat that has
 * ended it answers FX_EMPTY and leaves them. The board is the host's, may outlive seat and house, and stays where it is as long as somebody reads.
 *
 * The calls answer codes of fairexec.h, FX_NULL for a null first. They are defined here, by the atomics of GCC and Clang, and sched_yield of POSIX.
 */
#ifndef FAIREXEC_BOARD_H
#define FAIREXEC_BOARD_H

#include "fairexec.h"
#include <sched.h>
#include <string.h>

#ifdef __cplusplus
extern "C" {
#endif

/* The counts of a core and of its queues by their numbers, as they were together at one time. */
typedef struct fx_counts {
    fx_core_stats core;
    fx_queue_stats queues[256]; /* as many as core.queues says are written */
} fx_counts;

/* Where a core leaves its counts: 37 kB. A host reads and writes nothing of it. */
typedef struct fx_board {
    /* The version is odd while words are written. */
    uint64_t version, words[sizeof(fx_counts) / sizeof(uint64_t)];
    /* The thread of the core alone uses these: what it writes; it tells behind so many more turns, and behind so many. */
    fx_counts own;
    uint32_t left, every;
} fx_board;

static inline size_t fx_board_words(const fx_core_stats *core) {
    return (sizeof *core + core->queues * sizeof(fx_queue_stats)) / sizeof(uint64_t);
}

/* Tells the counts now. The codes of fx_seat_stats: FX_EMPTY: no core, or it has ended; FX_OK. */
static inline uint32_t fx_board_tell(fx_board *board, fx_seat *seat) {
    uint64_t word;
    uint32_t code, queue;
    size_t each;
    if (!board || !seat) return FX_NULL;
    board->own.core.size = sizeof board->own.core;
    code = fx_seat_stats(seat, &board->own.core);
    for (queue = 0; code == FX_OK && queue < board->own.core.queues; queue++) {
        board->own.queues[queue].size = sizeof board->own.queues[queue];
        code = fx_seat_stats_of_queue(seat, queue, &board->own.queues[queue]);
    }
    if (code != FX_OK) return code;
    /* Who reads a word of this write finds the odd version behind it, or a later one. */
    __atomic_store_n(&board->version, board->version + 1, __ATOMIC_RELAXED);
    for (each = 0; each < fx_board_words(&board->own.core); each++) {
        memcpy(&word, (const char *)&board->own + each * sizeof word, sizeof word);
        __atomic_store_n(&board->words[each], word, __ATOMIC_RELEASE);
    }
    __atomic_store_n(&board->version, board->version + 1, __ATOMIC_RELEASE);
    /* To tell a queue's counts takes some turns' time, and some forty turns' beside more than 15 others. So a core with many queues does so less often. */
    queue = board->own.core.queues;
    board->left = board->every = queue > 16 ? 1024 * queue : 1024 + 16 * queue;
    return FX_OK;
}

/* Makes a board, and tells the counts for the first time. It asks for no memory. The codes of fx_board_tell. */
static inline uint32_t fx_board_open(fx_board *board, fx_seat *seat) {
    if (!board || !seat) return FX_NULL;
    memset(board, 0, sizeof *board);
    return fx_board_tell(board, seat);
}

/*
 * The core made so many turns. A delivery counts as one, since it changes counts. A round may count as the most turns that it may have: then a core whose jobs
 * take long tells more often. It tells the counts if it is time. The codes of fx_board_tell.
 */
static inline uint32_t fx_board_count(fx_board *board, fx_seat *seat, uint32_t turns) {
    if (!board || !seat) return FX_NULL;
    board->left = board->left > turns ? board->left - turns : 0;
    return board->left == 0 ? fx_board_tell(board, seat) : (uint32_t)FX_OK;
}

/* The core has nothing to do: it tells the counts, if turns were counted since it did. The codes of fx_board_tell. */
static inline uint32_t fx_board_rest(fx_board *board, fx_seat *seat) {
    if (!board || !seat) return FX_NULL;
    return board->left < board->every ? fx_board_tell(board, seat) : (uint32_t)FX_OK;
}

/* Writes what was told last, from any thread. FX_OK. */
static inline uint32_t fx_board_read(const fx_board *board, fx_counts *counts) {
    uint64_t version, word;
    size_t each;
    if (!board || !counts) return FX_NULL;
    for (;; sched_yield()) {
        version = __atomic_load_n(&board->version, __ATOMIC_ACQUIRE);
        /* The first word counts the queues. */
        counts->core.queues = 0;
        for (each = 0; version % 2 == 0 && each < fx_board_words(&counts->core); each++) {
            word = __atomic_load_n(&board->words[each], __ATOMIC_ACQUIRE);
            memcpy((char *)counts + each * sizeof word, &word, sizeof word);
        }
        if (version % 2 == 0 && __atomic_load_n(&board->version, __ATOMIC_RELAXED) == version) return FX_OK;
    }
}

#ifdef __cplusplus
}
#endif

#endif
