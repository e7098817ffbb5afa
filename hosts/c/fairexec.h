/*
 * fairexec.h: cores with fair task queues, whose jobs the host runs. A core may stand alone, or in a house with others.
 *
 * A host is a program that brings its own threads and its own jobs. A job is a number of 64 bits, and the host knows what the number
 * stands for. The library keeps jobs in the queues of a core, and tells which of them to run next: that of the queue of least virtual
 * runtime, then of the lowest number. The host runs it, tells how long that took, and whether the job is done, wants to run again, or
 * parks until the host wakes it.
 *
 *     fx_core core = FX_NO_CORE;
 *     fx_open(&core, 64);
 *     fx_submit(&core, 0, my_job);
 *     while ((code = fx_next(&core, &job)) != FX_IDLE)
 *         fx_settle(&core, run(job) ? FX_STEP_DONE : FX_STEP_YIELD, nanoseconds);
 *     fx_free(&core);
 *
 * A house has 1 to 16 cores with numbers from 0, and the outside actor, whose number is the count of the cores. Links without locks go from
 * each of these actors to each core. The calls of a house begin with fx_house_ and fx_seat_, and stand at the end.
 *
 * Each function but fx_version and fx_text answers an fx_code. Where more than one code could be answered, the one that its comment
 * names first is. A call that answers FX_IDLE or a code above it, except FX_PARKED, changes nothing but the count for FX_SPENT, and writes
 * nothing to what its pointers point to, except the wanted count behind FX_SHORT. fx_seat_step is two calls, and the first may be done then.
 * Behind FX_ABSENT of fx_wake_due and fx_seat_wake_due a timer is gone.
 *
 * Null: a call with a null among its pointers is answered FX_NULL before any other code, and the library isn't called. fairexec_null.h, which
 * stands beside this header, tests each pointer that the compiler doesn't know not to be null. A host that defines FX_NO_NULL_CHECKS before it
 * includes this header calls the library itself, which tests none. fx_house_text, fx_seat_pass_on and the two copies take no null for no room either.
 *
 * Threads: at most one call at a time runs on a handle. A handle may go to another thread between two calls. Between them stands a lock, the
 * start or the join of a thread, or a sequentially consistent atomic. Calls on different handles need no order, those on the seats of one
 * house neither. No call blocks, calls the host back, or knows a clock. No call may be made from a signal handler.
 *
 * Memory: of the calls on one core fx_open and fx_create alone ask for memory, by malloc, and fx_free gives it back, by free. Of those on
 * timers fx_timers_open does, and fx_timers_free gives it back. Of those on a house fx_house_open, fx_house_take, fx_house_audit and
 * fx_house_text do, fx_seat_deliver where an order makes a queue, and fx_seat_pass_on, fx_seat_copy and fx_seat_copy_bytes, which give it back
 * before they answer; fx_house_end, fx_house_free and fx_seat_free give back what the others took. The library is for x86-64-v2.
 *
 * What no call can test is the host's duty, beside the threads' order above:
 * - Each pointer points to a value of its type, or to as many bytes as `room` tells. Two pointers of one call don't overlap.
 * - With FX_NO_NULL_CHECKS no pointer is null.
 * - A handle is empty, by FX_NO_CORE or its like, before its first call. Only one copy of it is used.
 * - The forked child of a process with threads makes no call.
 * - The program's malloc, realloc and free are of one allocator, and malloc aligns blocks to 16 bytes.
 * - The seats that a house is ended with are its own.
 * - What a job's number stands for lives until the call that answers FX_DONE or FX_BACK of it; in a house until fx_seat_settle answers FX_DONE,
 *   or until the outcome by which the job comes back is redeemed.
 * - A run that an exception or a panic ends is settled all the same.
 *
 * C99 and C++11. docs/EMBEDDING.md tells how to build and link, and what is promised.
 */
#ifndef FAIREXEC_H
#define FAIREXEC_H

#include <stddef.h>
#include <stdint.h>

#ifdef __cplusplus
extern "C" {
#endif

/*
 * The version of this interface. A host compares it with fx_version() before its first other call. It rises whenever a host that was compiled
 * with the header before would go wrong: if a call, a struct, a number or what one means changes or goes. A call that is added leaves it as it is.
 * The host sets the size field of a struct to the struct's sizeof. Any other number is answered FX_BAD_NUMBER: so the struct of another header is
 * found. No struct grows within a version.
 */
#define FX_VERSION 1u

/* The library takes no null, and tests none. With FX_NO_NULL_CHECKS compilers that know how warn of a null that they see. */
#if defined(__GNUC__)
#define FX_NOT_NULL __attribute__((nonnull))
#else
#define FX_NOT_NULL
#endif

/* What a call came to. */
enum fx_code {
    FX_OK = 0,          /* it is done */
    FX_START = 1,       /* fx_next: run the job for the first time */
    FX_RESUME = 2,      /* fx_next: run the job again */
    FX_DONE = 3,        /* fx_settle: the job is done, and the library forgot it */
    FX_BACK = 4,        /* fx_next: the job goes back to the host, unrun or unfinished, since its queue or its core hands back */
    FX_IDLE = 5,        /* fx_next: no queue has work. fx_seat_deliver, fx_seat_shows: no link shows anything. Of timers: none is set, or due */
    FX_SPENT = 6,       /* the core made 2^64 - 1 turns, or was handed 2^64 - 1 jobs, new shares and wakes: it takes no more of that.
                           Of a link: 2^63 - 1 orders were accepted */
    FX_BUSY = 7,        /* the host runs a job of this core, and settles it first */
    FX_NO_JOB = 8,      /* the host runs no job of this core */
    FX_FULL = 9,        /* the core holds as many jobs as it has room for. Of a link: as many submissions are outstanding as it has places. Of timers:
                           each is set for another job */
    FX_NO_MEMORY = 10,  /* there is no memory */
    FX_BAD_SHARES = 11, /* shares are 1 to 10000 */
    FX_EMPTY = 12,      /* the handle has no core, or no timers. Of a house: it has not what the call is for */
    FX_NO_QUEUE = 13,   /* the core has no queue of that number */
    FX_CLOSED = 14,     /* the queue or the core is closed, or was closed before. Of a link: its gate is shut */
    FX_TOO_MANY = 15,   /* the core has 256 queues */
    FX_BAD_NUMBER = 16, /* jobs, a step, a mode, a number of a config or a size field is out of its range */
    FX_OCCUPIED = 17,   /* the handle has a core or timers already */
    FX_PARKED = 18,     /* fx_settle: the job is parked, and runs again after fx_wake alone */
    FX_ABSENT = 19,     /* fx_wake: no job of that number is inside. fx_wake_due: the job of the timer isn't parked any more. fx_house_take: all seats
                           were taken. fx_seat_came: nothing came there */
    FX_JOURNAL_FULL = 20, /* the journal has too few notes free for the call */
    FX_UNKNOWN_CORE = 21, /* the house has no core of that number */
    FX_NO_ACTOR = 22,     /* the house has no actor of that number, or the turn of another one has come */
    FX_UNKNOWN = 23,      /* the submission is another actor's, or its number was never given */
    FX_GONE = 24,         /* the submission was redeemed or detached before */
    FX_PENDING = 25,      /* the outcome wasn't collected yet. Of a house: a journal wasn't handed in yet */
    FX_OPEN = 26,         /* the core isn't closed */
    FX_SHUT = 27,         /* the gate was shut before */
    FX_NOT_DRAINED = 28,  /* the core isn't drained, or a job of it runs, or a turn of it is open */
    FX_MIXED = 29,        /* the journals can't be those of one house, and have no text */
    FX_SHORT = 30,        /* the text or the part has more bytes than there is room for */
    FX_PASSED_ON = 31,    /* notes were passed on or forgotten: the house can't judge journals that lack them */
    FX_NULL = 32          /* a pointer is null. The test of this header tells it, and no call of the library */
};

/* What the run of a job came to. */
enum fx_step {
    FX_STEP_YIELD = 0, /* it wants to run again: it goes to the tail of its queue */
    FX_STEP_DONE = 1,  /* it is done */
    FX_STEP_PARK = 2   /* it waits for something: it leaves its queue until it is woken. A library without fx_wake has no such step */
};

/* How a queue or a core closes. Either way it takes no new job. */
enum fx_mode {
    FX_MODE_FINISH = 0, /* the jobs inside run on */
    FX_MODE_RETURN = 1  /* each later fx_next of it hands a job back; the parked ones go to the tail of their queue first */
};

/*
 * A handle: it has a core, or is empty. The host never reads or writes what is inside, but by FX_NO_CORE before fx_open.
 * It may be moved to another place between two calls, as by memcpy. Of two copies one alone is used from then on.
 */
typedef struct fx_core {
    void *at;
} fx_core;

/* The empty handle: fx_core core = FX_NO_CORE; */
#ifdef __cplusplus
#define FX_NO_CORE {nullptr}
#else
#define FX_NO_CORE {0}
#endif

/* The counts of a core. A number of 128 bits is low + high * 2^64. */
typedef struct fx_core_stats {
    uint32_t size;       /* in: sizeof(fx_core_stats) */
    uint32_t queues;     /* queues, 1 to 256 */
    uint64_t room;       /* how many jobs the core has room for */
    uint64_t held;       /* jobs inside, parked ones and that which the host runs counted too */
    uint64_t turns;      /* calls of fx_next that answered FX_START, FX_RESUME or FX_BACK */
    uint64_t floor_low;  /* the greatest virtual runtime at which a queue was picked */
    uint64_t floor_high;
    uint32_t running;    /* 1 if the host runs a job of this core, else 0 */
    uint32_t closed;     /* 0 if the core is open, else 1 + its mode */
} fx_core_stats;

/* The counts of a queue. Times are nanoseconds. */
typedef struct fx_queue_stats {
    uint32_t size;     /* in: sizeof(fx_queue_stats) */
    uint32_t shares;   /* 1 to 10000 */
    uint64_t picks;    /* turns of this queue, those that answered FX_BACK counted too */
    uint64_t waiting;  /* jobs inside that the host doesn't run, parked ones counted too */
    uint64_t done;     /* jobs that are done */
    uint64_t back;     /* jobs that fx_next handed back */
    uint64_t time_low; /* the sum of the times of its runs, each as it counts */
    uint64_t time_high;
    uint64_t virtual_low; /* its virtual runtime */
    uint64_t virtual_high;
} fx_queue_stats;

/* The FX_VERSION of the library that was linked. */
uint32_t fx_version(void);

/*
 * Opens a core with queue 0, which has 1000 shares. It has room for `jobs` jobs, 1 to 131070; an odd number is rounded up.
 * The handle has to be empty, and has the core from then on. The host frees it by fx_free.
 * FX_OCCUPIED; FX_BAD_NUMBER: jobs; FX_NO_MEMORY; FX_OK.
 */
uint32_t fx_open(fx_core *core, uint32_t jobs) FX_NOT_NULL;

/*
 * Frees a core and forgets its jobs, also that which the host runs. The handle is empty from then on.
 * The host still owns what the jobs stand for. To be told them one by one it settles the job that runs, calls fx_close with
 * FX_MODE_RETURN, and then fx_next until FX_IDLE.
 * FX_EMPTY; FX_OK.
 */
uint32_t fx_free(fx_core *core) FX_NOT_NULL;

/*
 * Makes a queue with these shares, and writes its number to `queue`: the next one, 1 to 255. It asks for memory.
 * Under twice the shares a queue gets twice the time, while both have work.
 * FX_EMPTY; FX_BAD_SHARES; FX_CLOSED: the core; FX_TOO_MANY; FX_NO_MEMORY; FX_OK.
 */
uint32_t fx_create(fx_core *core, uint32_t shares, uint32_t *queue) FX_NOT_NULL;

/*
 * Gives a queue these shares, for the runs that are settled from then on. A core that is full takes them as little as a job.
 * FX_EMPTY; FX_BAD_SHARES; FX_FULL; FX_SPENT; FX_NO_QUEUE; FX_OK.
 */
uint32_t fx_set_shares(fx_core *core, uint32_t queue, uint32_t shares) FX_NOT_NULL;

/*
 * Hands a job to the tail of a queue. Any number is a job, and one number may be handed in more than once.
 * The host keeps what it stands for until fx_settle answers FX_DONE of it, or fx_next answers FX_BACK.
 * A running job may submit to its own core.
 * FX_EMPTY; FX_CLOSED: the core; FX_FULL; FX_SPENT; FX_NO_QUEUE; FX_CLOSED: the queue; FX_OK.
 */
uint32_t fx_submit(fx_core *core, uint32_t queue, uint64_t job) FX_NOT_NULL;

/*
 * The same, and writes to `order` the number of this job, by which fx_wake names it. It is written for FX_OK.
 * Numbers are 1 and up, and none is given twice by one core: jobs, new shares and wakes that are handed in are counted together.
 * FX_EMPTY; FX_CLOSED: the core; FX_FULL; FX_SPENT; FX_NO_QUEUE; FX_CLOSED: the queue; FX_OK.
 */
uint32_t fx_submit_numbered(fx_core *core, uint32_t queue, uint64_t job, uint64_t *order) FX_NOT_NULL;

/*
 * Wakes the job of this number. A parked job goes to the tail of its queue. For a job that waits in its queue or runs the wake is kept
 * until it parks next, and it then stays in its queue; several kept wakes are one.
 * A wake may come before what the job waits for, and another's: a job that was woken looks again.
 * A core that is full takes a wake as little as a job: a host whose jobs park leaves a place free.
 * FX_EMPTY; FX_FULL; FX_SPENT; FX_ABSENT: no job of this number is inside, it is done, went back, or was never handed in; FX_OK.
 */
uint32_t fx_wake(fx_core *core, uint64_t order) FX_NOT_NULL;

/*
 * Tells which job to run now, in `job`. It is written for FX_START, FX_RESUME and FX_BACK.
 * After FX_START and FX_RESUME the host runs the job, and then calls fx_settle.
 * FX_EMPTY; FX_BUSY; FX_IDLE; FX_SPENT; FX_BACK; FX_START or FX_RESUME.
 */
uint32_t fx_next(fx_core *core, uint64_t *job) FX_NOT_NULL;

/*
 * Settles the run of the job that fx_next told: it came to `step`, an fx_step, and took `spent` nanoseconds by the host's clock.
 * `spent` counts as at least 1 and at most 2^40 - 1. The queue is charged for it.
 * After FX_STEP_PARK the answer tells what became of the job: FX_PARKED, or FX_OK if it stays in its queue, since a wake was kept for it,
 * or since its queue or its core hands back.
 * FX_EMPTY; FX_BAD_NUMBER: step; FX_NO_JOB; FX_DONE after FX_STEP_DONE, FX_OK after FX_STEP_YIELD, FX_PARKED or FX_OK after FX_STEP_PARK.
 */
uint32_t fx_settle(fx_core *core, uint32_t step, uint64_t spent) FX_NOT_NULL;

/*
 * Closes a queue, by an fx_mode. A queue that finishes may be closed once more, with FX_MODE_RETURN.
 * FX_EMPTY; FX_BAD_NUMBER: mode; FX_NO_QUEUE; FX_CLOSED: so, or more strictly, before; FX_OK.
 */
uint32_t fx_close_queue(fx_core *core, uint32_t queue, uint32_t mode) FX_NOT_NULL;

/*
 * Closes the core with all its queues, by the same rule.
 * FX_EMPTY; FX_BAD_NUMBER: mode; FX_CLOSED: so, or more strictly, before; FX_OK.
 */
uint32_t fx_close(fx_core *core, uint32_t mode) FX_NOT_NULL;

/*
 * Writes the counts of a core to `stats`, whose size field is set before.
 * FX_EMPTY; FX_BAD_NUMBER: size; FX_OK.
 */
uint32_t fx_stats(fx_core *core, fx_core_stats *stats) FX_NOT_NULL;

/*
 * Writes the counts of a queue to `stats`, whose size field is set before.
 * FX_EMPTY; FX_BAD_NUMBER: size; FX_NO_QUEUE; FX_OK.
 */
uint32_t fx_stats_of_queue(fx_core *core, uint32_t queue, fx_queue_stats *stats) FX_NOT_NULL;

/* --- A house --- */

/*
 * A house, and an actor of it. Each is a handle as fx_core is: fx_house house = FX_NO_HOUSE; fx_seat seat = FX_NO_SEAT;
 * The house has the seats that nobody took yet, and later the journals. A seat is a core of the house, or the outside actor. Each seat goes
 * to a thread of the host. A call on a seat finds what the actor at the other end of a link did sooner or later, and not at once.
 */
typedef struct fx_house {
    void *at;
} fx_house;

typedef struct fx_seat {
    void *at;
} fx_seat;

#define FX_NO_HOUSE FX_NO_CORE
#define FX_NO_SEAT FX_NO_CORE

/* What a house is opened with. */
typedef struct fx_config {
    uint32_t size;   /* in: sizeof(fx_config) */
    uint32_t cores;  /* 1 to 16 */
    uint32_t places; /* submissions that may be outstanding from one actor to one core, 1 to 1024 */
    uint32_t burst;  /* runs that one turn of a queue may have, 1 to 64 */
    uint32_t notes;  /* notes that the journal of each actor has room for, at most 2^24 */
} fx_config;

/* The name of a submission: `number` is 1 and up, given by the link. It is the name of a job, and the ticket for its outcome. */
typedef struct fx_name {
    uint64_t number;
    uint32_t from; /* the actor that submitted */
    uint32_t to;   /* the core that it went to */
} fx_name;

/* What fx_seat_next tells. */
typedef struct fx_turn {
    uint32_t size;   /* in: sizeof(fx_turn) */
    uint32_t queue;  /* the queue of the job, after FX_START and FX_RESUME */
    fx_name name;    /* the job's name */
    uint64_t job;    /* the host's number of it, after FX_START and FX_RESUME */
    uint32_t reason; /* why the job went back to its sender, an fx_reason, after FX_BACK */
    uint32_t zero;
} fx_turn;

/* What became of a submission. */
enum fx_kind {
    FX_KIND_DONE = 0,  /* the job is done */
    FX_KIND_BACK = 1,  /* the job comes back, unrun or unfinished */
    FX_KIND_ANSWER = 2 /* the order that is no job was answered */
};

/* Why a job comes back. The first three: when it was delivered. The others: when it was picked. */
enum fx_reason {
    FX_REASON_NO_QUEUE = 0,       /* the core has no queue of that number */
    FX_REASON_QUEUE_CLOSED = 1,   /* the queue is closed */
    FX_REASON_CORE_CLOSING = 2,   /* the core is closed, by FX_MODE_RETURN */
    FX_REASON_QUEUE_RETURNED = 3, /* the queue is closed, by FX_MODE_RETURN */
    FX_REASON_CORE_RETURNED = 4   /* the core is closed, by FX_MODE_RETURN */
};

/* What an order that is no job was answered. */
enum fx_answer {
    FX_ANSWER_CREATED = 0,        /* the queue was made */
    FX_ANSWER_TOO_MANY = 1,       /* the core has 256 queues */
    FX_ANSWER_NO_MEMORY = 2,      /* there is no memory for the queue */
    FX_ANSWER_CORE_CLOSING = 3,   /* the core is closed, and makes no queue */
    FX_ANSWER_SHARES_SET = 4,     /* the queue has the shares from now on */
    FX_ANSWER_NO_QUEUE = 5,       /* the core has no queue of that number */
    FX_ANSWER_CLOSED = 6,         /* the queue or the core is closed, or more strictly than before */
    FX_ANSWER_ALREADY_CLOSED = 7, /* it was closed before */
    FX_ANSWER_WOKEN = 8,          /* the job is inside, and is woken */
    FX_ANSWER_NO_JOB = 9          /* no such job is inside */
};

/* What fx_seat_redeem tells. A field that its kind doesn't name is 0. */
typedef struct fx_outcome {
    uint32_t size;   /* in: sizeof(fx_outcome) */
    uint32_t kind;   /* an fx_kind */
    uint32_t why;    /* FX_KIND_BACK: an fx_reason. FX_KIND_ANSWER: an fx_answer */
    uint32_t queue;  /* FX_KIND_BACK: that of the job. FX_ANSWER_CREATED: that which was made */
    uint64_t answer; /* FX_KIND_DONE: what was handed to fx_seat_settle */
    uint64_t job;    /* FX_KIND_BACK: the host's number of the job */
} fx_outcome;

/* What an audit found: the journals are sound, or break a rule. The rules are 1 starts, 2 order, 3 closes, 4 outcomes and 5 picks. */
typedef struct fx_verdict {
    uint32_t size;  /* in: sizeof(fx_verdict) */
    uint32_t sound; /* 1 if they are sound, else 0 */
    uint32_t rule;  /* the first rule that is broken, 1 to 5, or 0 */
    uint32_t actor; /* in the journal of this actor */
    uint64_t line;  /* at this note of it, counted from 1, or 0 if no single note is at fault */
} fx_verdict;

/*
 * Opens a house. Its cores have queue 0 alone, with 1000 shares. The handle has to be empty, and has the house from then on.
 * FX_OCCUPIED; FX_BAD_NUMBER: a number of the config; FX_NO_MEMORY; FX_OK.
 */
uint32_t fx_house_open(fx_house *house, const fx_config *config) FX_NOT_NULL;

/*
 * Moves the next seat out of the house, into an empty handle, and writes the number of its actor: first that of the outside actor, which is
 * the count of the cores, then the cores from the greatest number to 0.
 * FX_EMPTY: house; FX_OCCUPIED: seat; FX_ABSENT; FX_NO_MEMORY; FX_OK.
 */
uint32_t fx_house_take(fx_house *house, fx_seat *seat, uint32_t *actor) FX_NOT_NULL;

/*
 * Ends a seat, and hands its journal to the house. The seat is empty from then on. All seats have to be taken, and they end in the order of
 * their numbers: core 0 first, the outside actor last. The host hands in the seats of this house: nothing tests that, but an audit.
 * FX_EMPTY: house; FX_EMPTY: seat; FX_NO_ACTOR: another number is next; FX_NOT_DRAINED: a core; FX_NO_MEMORY; FX_OK. Since fx_house_open made
 * room for all journals, it asks for no memory, and FX_NO_MEMORY isn't answered.
 */
uint32_t fx_house_end(fx_house *house, fx_seat *seat) FX_NOT_NULL;

/*
 * Audits the journals, once all are handed in. An audit needs all notes of all actors: if fx_seat_pass_on handed notes on, the house doesn't
 * have them, and nothing is judged. The command `fairexec audit` judges the joined text then. What fx_seat_forget forgot nobody judges.
 * FX_EMPTY; FX_BAD_NUMBER: size; FX_PENDING; FX_PASSED_ON; FX_NO_MEMORY; FX_OK.
 */
uint32_t fx_house_audit(fx_house *house, fx_verdict *verdict) FX_NOT_NULL;

/*
 * Writes the text of the journals to `bytes`, which has room for `room`, from the byte `from` on, and to `count` how many bytes were written:
 * fewer than `room` at the end of the text. It is of form 2 if the burst is above 1, else of form 1. The house makes the text at the first call.
 * It has the notes that the journals kept: two lines before the notes of core 0, those of each actor by its number, and the line `end`. If each
 * seat passed its notes on just before it ended, the text is those three lines alone.
 * FX_EMPTY; FX_PENDING; FX_MIXED; FX_NO_MEMORY; FX_OK.
 */
uint32_t fx_house_text(fx_house *house, uint64_t from, uint8_t *bytes, size_t room, uint64_t *count) FX_NOT_NULL;

/*
 * Frees a house, with the seats that nobody took and the journals that were handed in.
 * FX_EMPTY; FX_OK.
 */
uint32_t fx_house_free(fx_house *house) FX_NOT_NULL;

/*
 * Frees a seat, and forgets its jobs, its journal and its tickets. A core shuts its gates then: who submits to it is told
 * FX_CLOSED. What it was sent before stays outstanding.
 * FX_EMPTY; FX_OK.
 */
uint32_t fx_seat_free(fx_seat *seat) FX_NOT_NULL;

/*
 * Tells what to run now, in `turn`. After FX_START and FX_RESUME the host runs the job, and then calls fx_seat_settle. After FX_BACK a job
 * went back to its sender: there is nothing to run. Behind FX_SPENT an open turn may have ended.
 * FX_EMPTY: no core; FX_BAD_NUMBER: size; FX_BUSY; FX_JOURNAL_FULL: fewer than 4 notes are free; FX_IDLE, FX_SPENT, FX_BACK, FX_START or FX_RESUME.
 */
uint32_t fx_seat_next(fx_seat *seat, fx_turn *turn) FX_NOT_NULL;

/*
 * Settles the run of the job that fx_seat_next told, as fx_settle. A job that is done answers `answer` to who submitted it.
 * FX_EMPTY: no core; FX_BAD_NUMBER: step; FX_NO_JOB; FX_DONE, FX_OK or FX_PARKED, as fx_settle.
 */
uint32_t fx_seat_settle(fx_seat *seat, uint32_t step, uint64_t answer, uint64_t spent) FX_NOT_NULL;

/*
 * Settles the run of the job that was told, as fx_seat_settle, and then tells what to run now, as fx_seat_next. If the run isn't settled, that is
 * told, and nothing else happens. Behind FX_JOURNAL_FULL, FX_IDLE and FX_SPENT it is settled. Whether its job is parked isn't told.
 * FX_EMPTY: no core; FX_BAD_NUMBER: size or step; FX_NO_JOB; then as fx_seat_next from FX_JOURNAL_FULL on.
 */
uint32_t fx_seat_step(fx_seat *seat, uint32_t step, uint64_t answer, uint64_t spent, fx_turn *turn) FX_NOT_NULL;

/*
 * Delivers the next order of this actor to the core, if one shows. The host may run a job of the core meanwhile.
 * FX_EMPTY: no core; FX_NO_ACTOR; FX_JOURNAL_FULL: fewer than 2 notes are free; FX_IDLE: no order shows; FX_OK.
 */
uint32_t fx_seat_deliver(fx_seat *seat, uint32_t sender) FX_NOT_NULL;

/*
 * Collects all outcomes that the link to this core shows, and writes how many there were.
 * FX_EMPTY; FX_UNKNOWN_CORE; FX_JOURNAL_FULL: fewer notes are free than a link has places; FX_OK.
 */
uint32_t fx_seat_collect(fx_seat *seat, uint32_t core, uint64_t *count) FX_NOT_NULL;

/*
 * Writes the name of a submission whose outcome was collected, as the note at this place of the journal says. Places are as of fx_seat_copy: that of the
 * oldest note which is kept is 0. fx_seat_collect notes each outcome, in the order in which they came, so the names of the `count` that it wrote stand at
 * as many places from `kept` on, as fx_seat_notes wrote it before. The host redeems these, and has to try no other ticket.
 * FX_EMPTY; FX_ABSENT: no note is kept there, or it says something else; FX_OK.
 */
uint32_t fx_seat_came(fx_seat *seat, uint64_t place, fx_name *name) FX_NOT_NULL;

/*
 * Submits a job to a queue of a core, this one or another, and writes its name. The host may do so while it runs a job of its core.
 * What the core makes of it the outcome tells: also that it has no such queue. The submission has a place of the link until its outcome was
 * collected, and was redeemed or detached.
 * FX_EMPTY; FX_NO_QUEUE: above 255; FX_UNKNOWN_CORE; FX_JOURNAL_FULL; FX_CLOSED; FX_FULL; FX_SPENT; FX_OK.
 */
uint32_t fx_seat_submit(fx_seat *seat, uint32_t to, uint32_t queue, uint64_t job, fx_name *name) FX_NOT_NULL;

/*
 * Submits an order to a core: make a queue with these shares; give a queue these shares; close a queue, or all of the core.
 * Behind FX_EMPTY: FX_BAD_SHARES; FX_NO_QUEUE: above 255; FX_BAD_NUMBER: mode; then as fx_seat_submit from FX_UNKNOWN_CORE on.
 */
uint32_t fx_seat_create(fx_seat *seat, uint32_t to, uint32_t shares, fx_name *name) FX_NOT_NULL;
uint32_t fx_seat_set_shares(fx_seat *seat, uint32_t to, uint32_t queue, uint32_t shares, fx_name *name) FX_NOT_NULL;
uint32_t fx_seat_close_queue(fx_seat *seat, uint32_t to, uint32_t queue, uint32_t mode, fx_name *name) FX_NOT_NULL;
uint32_t fx_seat_close_core(fx_seat *seat, uint32_t to, uint32_t mode, fx_name *name) FX_NOT_NULL;

/*
 * Submits an order that wakes a job, to the core that the job's name says. Any actor may wake any job.
 * FX_EMPTY; FX_NO_ACTOR: job->from is above 255; then as fx_seat_submit from FX_UNKNOWN_CORE on.
 */
uint32_t fx_seat_wake(fx_seat *seat, const fx_name *job, fx_name *name) FX_NOT_NULL;

/*
 * Writes the outcome of a submission that was collected. It is gone from then on.
 * FX_EMPTY; FX_BAD_NUMBER: size; FX_UNKNOWN: a number of an actor or a core above 255; FX_JOURNAL_FULL; FX_UNKNOWN; FX_GONE; FX_PENDING; FX_OK.
 */
uint32_t fx_seat_redeem(fx_seat *seat, const fx_name *name, fx_outcome *outcome) FX_NOT_NULL;

/*
 * Nobody will ask for the outcome of a submission. The host still learns by fx_house_text alone what became of its job.
 * FX_EMPTY; FX_UNKNOWN: a number of an actor or a core above 255; FX_JOURNAL_FULL; FX_UNKNOWN; FX_GONE; FX_OK.
 */
uint32_t fx_seat_detach(fx_seat *seat, const fx_name *name) FX_NOT_NULL;

/*
 * Hands on the notes that the journal of the actor keeps: their text goes to `bytes`, which has room for `room`, and `count` tells how many bytes
 * it has. The journal keeps none of them from then on, and all its notes are free. The host may do so at any time, also while it runs a job of the
 * core; a host whose house runs on does so before a call is told FX_JOURNAL_FULL, or behind that. Each line has at most 128 bytes.
 * The text is the next part of this journal, as fx_house_text has it. All parts of an actor in their order are its notes. The first two lines of
 * fx_house_text, the parts of core 0, those of each further actor by its number, each with what fx_house_text has of that actor behind them, and
 * the line `end` are the text of the whole journals, which `fairexec audit` judges.
 * Behind FX_SHORT `count` tells how many bytes are wanted, and nothing else changed.
 * FX_EMPTY; FX_NO_MEMORY; FX_SHORT; FX_OK.
 */
uint32_t fx_seat_pass_on(fx_seat *seat, uint8_t *bytes, size_t room, uint64_t *count) FX_NOT_NULL;

/*
 * Writes how many notes the journal of the actor keeps, and how many more it has room for. One of these is for the settling of a job that runs.
 * FX_EMPTY; FX_OK.
 */
uint32_t fx_seat_notes(fx_seat *seat, uint64_t *kept, uint64_t *free_notes) FX_NOT_NULL;

/*
 * Copies the text of notes that the journal of the actor keeps to `bytes`, which has room for `room`: from the place `from` on, which is 0 for the
 * oldest note, and of `most` notes at most. `count` tells how many bytes it has, and `notes` of how many notes it is. The journal keeps them all.
 * The pieces from place 0 on, each from where the one before ended, until one has no notes, are together what fx_seat_pass_on would write. So a
 * journal of many notes goes on in short calls, of which fx_seat_forget is the last; behind that the places begin at 0 again. One for 128 notes takes
 * some 20 us.
 * Behind FX_SHORT `count` tells how many bytes are wanted, and nothing else changed.
 * FX_EMPTY; FX_NO_MEMORY; FX_SHORT; FX_OK.
 */
uint32_t fx_seat_copy(fx_seat *seat, uint64_t from, uint64_t most, uint8_t *bytes, size_t room, uint64_t *count, uint64_t *notes) FX_NOT_NULL;

/*
 * Copies the same notes as a part in bytes, in place of their text: its head, which says the actor, how many of its notes came before, how many are
 * in the part and how many bytes these have; the notes, each of 2 to 27 bytes; and two sums, by which damage is found. `before` is how many notes of
 * the actor came before the one at `from`: those that it forgot or passed on, and `from`. The host counts them, and who reads the parts finds
 * whether one is missing. Of `most` notes a part has at most 45 + 27 * most bytes, of none 45.
 * The bytes `fxh1`, the count of the cores, the burst and the places (1, 1 and 2 bytes, the low one first), and behind them all parts of core 0, those
 * of each further actor by its number, each actor's in their order, are the whole journals. `fairexec audit --bytes`, `fairexec journal --text` and fairview read them.
 * `fairexec audit --parts` judges a folder with the first bytes in the file `head` and the parts of actor N in `partN`.
 * FX_EMPTY; FX_NO_MEMORY; FX_SHORT, as fx_seat_copy; FX_OK.
 */
uint32_t fx_seat_copy_bytes(fx_seat *seat, uint64_t before, uint64_t from, uint64_t most, uint8_t *bytes, size_t room, uint64_t *count, uint64_t *notes) FX_NOT_NULL;

/*
 * Forgets the notes that the journal of the actor keeps, and writes how many they were. All its notes are free from then on, as behind
 * fx_seat_pass_on. The host may do so at any time. What it didn't copy is nowhere then.
 * FX_EMPTY; FX_OK.
 */
uint32_t fx_seat_forget(fx_seat *seat, uint64_t *count) FX_NOT_NULL;

/*
 * Closes the core by itself, by an fx_mode. A core that finishes may be closed once more, with FX_MODE_RETURN.
 * FX_EMPTY: no core; FX_BAD_NUMBER: mode; FX_JOURNAL_FULL; FX_CLOSED: so, or more strictly, before; FX_OK.
 */
uint32_t fx_seat_close(fx_seat *seat, uint32_t mode) FX_NOT_NULL;

/*
 * Shuts the gate of this actor, in a core that is closed: it can submit nothing more to this core. What it submitted is still delivered.
 * FX_EMPTY: no core; FX_NO_ACTOR; FX_OPEN; FX_SHUT; FX_JOURNAL_FULL; FX_OK.
 */
uint32_t fx_seat_shut(fx_seat *seat, uint32_t sender) FX_NOT_NULL;

/*
 * Whether the core has come to its end: no job of it runs, no turn is open, each gate is shut, all behind it was delivered, no queue has work,
 * and no job is parked.
 * FX_EMPTY: no core; FX_NOT_DRAINED; FX_OK.
 */
uint32_t fx_seat_drained(fx_seat *seat) FX_NOT_NULL;

/*
 * Whether a link shows an order or an outcome that wasn't seen yet: one load for each link. A host that waits asks it before it sleeps.
 * FX_EMPTY; FX_IDLE: no link shows anything; FX_OK.
 */
uint32_t fx_seat_shows(fx_seat *seat) FX_NOT_NULL;

/*
 * The counts of the core and of a queue, as fx_stats and fx_stats_of_queue, while it runs. `room` is the count of the actors times the places.
 * With a burst above 1 `turns` and `picks` count turns, each of several runs, and a time is that of a turn.
 * FX_EMPTY: no core; FX_BAD_NUMBER: size; FX_NO_QUEUE; FX_OK.
 */
uint32_t fx_seat_stats(fx_seat *seat, fx_core_stats *stats) FX_NOT_NULL;
uint32_t fx_seat_stats_of_queue(fx_seat *seat, uint32_t queue, fx_queue_stats *stats) FX_NOT_NULL;

/* --- Timers --- */

/*
 * The timers of the jobs of one core, alone or of a house: jobs that park until a time. They are a handle as fx_core is:
 * fx_timers timers = FX_NO_TIMERS; A host opens them for each core whose jobs sleep, and uses them with that core alone.
 *
 *     do code = fx_wake_due(&core, &timers, clock()); while (code == FX_OK || code == FX_ABSENT);
 *     if (fx_next(&core, &job) != FX_IDLE)
 *         fx_settle_until(&core, &timers, FX_STEP_PARK, nanoseconds, clock() + 1000000);
 *     else if (fx_next_time(&timers, &time) == FX_OK)
 *         sleep_until(time);
 *
 * Times are numbers of the host's clock, in any unit: no call knows a clock. A job has one timer at most. It goes when its time comes, or when a run
 * of its job is settled by fx_settle_until or fx_seat_settle_until. That of a job that goes back stays until its time.
 */
typedef struct fx_timers {
    void *at;
} fx_timers;

#define FX_NO_TIMERS FX_NO_CORE

/* The time that says no time: the job is parked until it is woken. */
#define FX_NEVER UINT64_MAX

/*
 * Opens timers for `jobs` jobs of a core, 1 to 131070: as many as it may hold, and more where queues close by FX_MODE_RETURN while others go on. The
 * core of a house holds at most as many as it has actors, times the places of a link. The handle has to be empty. This call alone asks for memory,
 * some 80 bytes a job.
 * FX_OCCUPIED; FX_BAD_NUMBER: jobs; FX_NO_MEMORY; FX_OK.
 */
uint32_t fx_timers_open(fx_timers *timers, uint32_t jobs) FX_NOT_NULL;

/*
 * Frees timers. The jobs stay parked until they are woken otherwise.
 * FX_EMPTY; FX_OK.
 */
uint32_t fx_timers_free(fx_timers *timers) FX_NOT_NULL;

/*
 * Writes when the next timer is due: until then a host that has nothing else to do may sleep.
 * FX_EMPTY; FX_IDLE: no timer is set; FX_OK.
 */
uint32_t fx_next_time(fx_timers *timers, uint64_t *time) FX_NOT_NULL;

/*
 * Settles the run of the job that was told, as fx_settle and fx_seat_settle. If it parks, fx_wake_due wakes it once this time has come, unless it
 * is woken before; FX_NEVER sets no timer. A host settles by this call each run of a job that may sleep, whatever the step: the timer of a job that
 * was woken before its time is gone then.
 * FX_EMPTY: the core, then the timers; FX_BAD_NUMBER: step; FX_NO_JOB; FX_FULL: each timer is set for another job, and the run isn't settled; then
 * as fx_settle.
 */
uint32_t fx_settle_until(fx_core *core, fx_timers *timers, uint32_t step, uint64_t spent, uint64_t time) FX_NOT_NULL;
uint32_t fx_seat_settle_until(fx_seat *seat, fx_timers *timers, uint32_t step, uint64_t answer, uint64_t spent, uint64_t time) FX_NOT_NULL;

/*
 * Looks at the timer that is due next. If its time has come by `now`, its job is woken, and the timer is gone. The host calls it as long as it
 * answers FX_OK or FX_ABSENT. No job is woken before its time, and none twice for one timer. A core that is full takes no wake: a host whose jobs
 * sleep leaves a place free.
 * FX_EMPTY: the core, then the timers; FX_IDLE: no timer is due; FX_ABSENT: the job isn't parked any more, and its timer is gone; FX_FULL and
 * FX_SPENT, as fx_wake, and the timer stays; FX_OK.
 */
uint32_t fx_wake_due(fx_core *core, fx_timers *timers, uint64_t now) FX_NOT_NULL;

/*
 * The same of a seat: the core submits the wake to itself, by two notes, and lets go of its outcome. The wake is delivered as any order, by
 * fx_seat_deliver, and has a place of the link until its outcome was collected. A job that is woken otherwise meanwhile, and sleeps anew, gets it
 * early: it looks again. A closed core shuts its own gate only once no job of it sleeps.
 * FX_EMPTY: no core, then the timers; FX_IDLE; FX_ABSENT; FX_JOURNAL_FULL: fewer than 2 notes are free; FX_CLOSED: the core shut its own gate;
 * FX_FULL: its link to itself takes nothing more; FX_OK.
 */
uint32_t fx_seat_wake_due(fx_seat *seat, fx_timers *timers, uint64_t now) FX_NOT_NULL;

/* A code in words. */
static inline const char *fx_text(uint32_t code) {
    switch (code) {
#ifdef FAIREXEC_UNPROVED /* The library is libfairexec_unproved.a, which tools/host-library --unproved makes. */
    case FX_OK: return "ok, by a library that isn't proved";
#else
    case FX_OK: return "ok";
#endif
    case FX_START: return "run the job for the first time";
    case FX_RESUME: return "run the job again";
    case FX_DONE: return "the job is done";
    case FX_BACK: return "the job goes back to the host";
    case FX_IDLE: return "there is nothing to do";
    case FX_SPENT: return "the core did as much as it may";
    case FX_BUSY: return "the host runs a job of this core";
    case FX_NO_JOB: return "the host runs no job of this core";
    case FX_FULL: return "no place is free in the core or on the link";
    case FX_NO_MEMORY: return "there is no memory";
    case FX_BAD_SHARES: return "shares are 1 to 10000";
    case FX_EMPTY: return "the handle is empty, or is no core";
    case FX_NO_QUEUE: return "the core has no queue of that number";
    case FX_CLOSED: return "the queue or the core is closed";
    case FX_TOO_MANY: return "the core has 256 queues";
    case FX_BAD_NUMBER: return "a number or a size field is out of its range";
    case FX_OCCUPIED: return "the handle has a core already";
    case FX_PARKED: return "the job is parked";
    case FX_ABSENT: return "no such job is inside, no seat is left, or nothing came";
    case FX_JOURNAL_FULL: return "the journal has too few notes free";
    case FX_UNKNOWN_CORE: return "the house has no core of that number";
    case FX_NO_ACTOR: return "the house has no actor of that number, or another one is next";
    case FX_UNKNOWN: return "no such submission";
    case FX_GONE: return "redeemed or detached before";
    case FX_PENDING: return "an outcome or a journal isn't there yet";
    case FX_OPEN: return "the core isn't closed";
    case FX_SHUT: return "the gate was shut before";
    case FX_NOT_DRAINED: return "the core isn't drained";
    case FX_MIXED: return "the journals can't be those of one house";
    case FX_SHORT: return "there is too little room";
    case FX_PASSED_ON: return "notes were passed on";
    case FX_NULL: return "a pointer is null";
    default: return "no code of this library";
    }
}

#ifdef __cplusplus
}
#endif

#ifndef FX_NO_NULL_CHECKS
#include "fairexec_null.h"
#endif

#endif
