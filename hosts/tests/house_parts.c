/*
 * A house that runs on: house_parts FOLDER TURNS BURST [bytes]. Its journals have room for few notes, and it makes many more turns than that. A call
 * that finds a journal full is made again once the notes were passed on, whole or in pieces, to the file FOLDER/partN of actor N: as text, or with
 * the word `bytes` in bytes, and then FOLDER/head has what stands before the parts. Jobs come from the outside actor
 * and from the other core; some yield, some park and are woken, some come back, and queues are made. At the end each seat passes on what is
 * left, and FOLDER/rest has the text of the house, which is its first two lines and its last one.
 * The last line is 'N passed, M failed', and the status is 0 if nothing failed.
 */
#include "checks.h"
#include <stdlib.h>
#include <string.h>

enum { CORES = 2, OUTSIDE = CORES, PLACES = 4, NOTES = 24, KEPT = 8 };

static fx_house house = FX_NO_HOUSE;
static fx_seat seats[CORES + 1];
static FILE *parts[CORES + 1];
static unsigned long turns, times, written;
static uint64_t state = 88172645463325252u;
/* Of each core the job that it parked last, and whether it is still to be woken. */
static fx_name parked[CORES];
static bool waits[CORES];
/* Whether the house runs on: jobs are submitted, and park. */
static bool goes_on = true;
static bool in_bytes;

static uint32_t below(uint32_t limit) {
    state ^= state << 13;
    state ^= state >> 7;
    state ^= state << 17;
    return (uint32_t)((state >> 32) % limit);
}

/* In pieces of so many notes, which are forgotten behind the last. In bytes a piece says how many notes of its actor came before. */
static bool pass_pieces(uint32_t actor, uint64_t most) {
    static uint64_t gone[CORES + 1];
    uint8_t bytes[NOTES * 128];
    uint64_t from = 0, count, notes = 1, forgotten = 0;
    while (notes > 0) {
        uint32_t code = in_bytes ? fx_seat_copy_bytes(&seats[actor], gone[actor] + from, from, most, bytes, sizeof bytes, &count, &notes)
                                 : fx_seat_copy(&seats[actor], from, most, bytes, sizeof bytes, &count, &notes);
        if (code != FX_OK || fwrite(bytes, 1, (size_t)count, parts[actor]) != count) return false;
        from += notes;
        written += (unsigned long)count;
    }
    times++;
    gone[actor] += from;
    return fx_seat_forget(&seats[actor], &forgotten) == FX_OK && forgotten == from;
}

/* Half of the times in one call: the buffer grows to what is wanted. */
static bool pass_on(uint32_t actor) {
    static uint8_t *bytes;
    static size_t room;
    uint64_t count = 0;
    uint32_t code;
    if (in_bytes || below(2) == 0) return pass_pieces(actor, in_bytes ? 1 + below(NOTES) : 3);
    while ((code = fx_seat_pass_on(&seats[actor], bytes ? bytes : (uint8_t *)&count, room, &count)) == FX_SHORT) {
        room = (size_t)count;
        bytes = realloc(bytes, room);
        if (bytes == NULL) exit(1);
    }
    times++;
    written += (unsigned long)count;
    return code == FX_OK && fwrite(count > 0 ? bytes : (uint8_t *)"", 1, (size_t)count, parts[actor]) == count;
}

/* Makes a call again once the notes of its actor were passed on. */
#define ON(actor, code, call) \
    do { \
        (code) = (call); \
        if ((code) == FX_JOURNAL_FULL && pass_on(actor)) (code) = (call); \
    } while (0)

/* An actor submits a job, and asks for the outcomes of others. */
static unsigned long submit(uint32_t actor) {
    static fx_name names[CORES + 1][KEPT];
    static uint32_t given[CORES + 1];
    fx_outcome outcome = {.size = sizeof outcome};
    uint32_t code, to = below(CORES);
    uint64_t count;
    for (uint32_t core = 0; core < CORES; core++) {
        ON(actor, code, fx_seat_collect(&seats[actor], core, &count));
        if (code != FX_OK) return 1;
    }
    if (goes_on && given[actor] < KEPT) {
        ON(actor, code, fx_seat_submit(&seats[actor], to, below(20) == 0 ? 9 : below(2), below(1000), &names[actor][given[actor]]));
        if (code == FX_OK) given[actor]++;
        else if (code != FX_FULL && code != FX_CLOSED) return 1;
    }
    for (uint32_t each = 0; each < given[actor]; each++) {
        ON(actor, code, fx_seat_redeem(&seats[actor], &names[actor][each], &outcome));
        if (code == FX_OK) names[actor][each--] = names[actor][--given[actor]];
        else if (code != FX_PENDING) return 1;
    }
    return 0;
}

/* A turn of a core. One in eight jobs parks, and one in four yields. */
static unsigned long turn(uint32_t core) {
    fx_turn it = {.size = sizeof it};
    uint32_t code, step = below(8) == 0 && goes_on && !waits[core] ? FX_STEP_PARK : below(4) == 0 ? FX_STEP_YIELD : FX_STEP_DONE;
    ON(core, code, fx_seat_next(&seats[core], &it));
    if (code == FX_IDLE || code == FX_BACK) return 0;
    if (code != FX_START && code != FX_RESUME) return 1;
    turns++;
    /* The job that runs submits, and its core passes notes on meanwhile. */
    if (below(4) == 0 && submit(core) != 0) return 1;
    code = fx_seat_settle(&seats[core], step, it.job, 1 + below(3000));
    if (code == FX_PARKED) parked[core] = it.name, waits[core] = true;
    return code != FX_OK && code != FX_DONE && code != FX_PARKED;
}

static unsigned long wake(uint32_t core) {
    fx_name name;
    uint32_t code;
    if (!waits[core]) return 0;
    ON(OUTSIDE, code, fx_seat_wake(&seats[OUTSIDE], &parked[core], &name));
    if (code == FX_FULL) return 0;
    waits[core] = false;
    if (code != FX_OK) return 1;
    ON(OUTSIDE, code, fx_seat_detach(&seats[OUTSIDE], &name));
    return code != FX_OK;
}

static unsigned long make_round(void) {
    unsigned long wrong = 0;
    uint32_t code;
    for (uint32_t actor = 0; actor <= CORES; actor++) wrong += submit(actor);
    for (uint32_t core = 0; core < CORES; core++) {
        for (uint32_t sender = 0; sender <= CORES; sender++) {
            ON(core, code, fx_seat_deliver(&seats[core], sender));
            wrong += code != FX_OK && code != FX_IDLE;
        }
        wrong += turn(core) + (below(3) == 0 ? wake(core) : 0);
    }
    return wrong;
}

static void open(uint32_t burst, const char *folder) {
    fx_config config = {.size = sizeof config, .cores = CORES, .places = PLACES, .burst = burst, .notes = NOTES};
    char path[4096];
    uint32_t actor;
    IS(fx_house_open(&house, &config), FX_OK);
    for (uint32_t left = CORES + 1; left > 0; left--) IS(fx_house_take(&house, &seats[left - 1], &actor), FX_OK);
    for (actor = 0; actor <= CORES; actor++) {
        snprintf(path, sizeof path, "%s/part%u", folder, actor);
        parts[actor] = fopen(path, "w");
        if (parts[actor] == NULL) exit(1);
    }
}

static unsigned long shut(uint32_t core) {
    unsigned long wrong = 0;
    uint32_t code;
    for (uint32_t sender = 0; sender <= CORES; sender++) {
        ON(core, code, fx_seat_shut(&seats[core], sender));
        wrong += code != FX_OK && code != FX_SHUT;
    }
    return wrong;
}

/* The cores close, wake what is parked, shut their gates, and come to their ends. One of them hands back what is inside. */
static unsigned long drain(void) {
    unsigned long wrong = 0;
    uint32_t code, drained = 0;
    for (uint32_t core = 0; core < CORES; core++) {
        ON(core, code, fx_seat_close(&seats[core], core == 0 ? FX_MODE_FINISH : FX_MODE_RETURN));
        wrong += code != FX_OK;
    }
    goes_on = false;
    for (uint32_t round = 0; round < 10000 && drained < CORES; round++) {
        drained = 0;
        wrong += make_round();
        for (uint32_t core = 0; core < CORES; core++) {
            if (!waits[0] && !waits[1] && round > 100) wrong += shut(core);
            drained += fx_seat_drained(&seats[core]) == FX_OK;
        }
    }
    return wrong + (drained != CORES);
}

static void end(const char *folder, uint32_t burst) {
    static uint8_t bytes[1000];
    fx_verdict verdict = {.size = sizeof verdict};
    char path[4096];
    uint64_t count = 0;
    for (uint32_t actor = 0; actor <= CORES; actor++) {
        is("the last part goes on", pass_on(actor), true);
        is("a part is written", fclose(parts[actor]), 0);
        IS(fx_house_end(&house, &seats[actor]), FX_OK);
    }
    IS(fx_house_audit(&house, &verdict), FX_PASSED_ON);
    IS(fx_house_text(&house, 0, bytes, sizeof bytes, &count), FX_OK);
    if (in_bytes) {
        is("all notes went on", count, burst > 1 ? 36 : 28);
        memcpy(bytes, (const uint8_t[]){'f', 'x', 'h', '1', CORES, (uint8_t)burst, PLACES, 0}, count = 8);
    }
    snprintf(path, sizeof path, in_bytes ? "%s/head" : "%s/rest", folder);
    FILE *rest = fopen(path, "w");
    is("the rest is written", rest != NULL && fwrite(bytes, 1, (size_t)count, rest) == count && fclose(rest) == 0, 1);
    IS(fx_house_free(&house), FX_OK);
}

int main(int count, char **words) {
    unsigned long wrong = 0, all;
    fx_name name;
    uint32_t code = FX_OK, burst;
    if (count < 4) return 1;
    all = strtoul(words[2], NULL, 10);
    in_bytes = count > 4;
    burst = (uint32_t)strtoul(words[3], NULL, 10);
    open(burst, words[1]);
    for (uint32_t core = 0; core < CORES && code == FX_OK; core++) {
        ON(OUTSIDE, code, fx_seat_create(&seats[OUTSIDE], core, 100, &name));
        if (code == FX_OK) ON(OUTSIDE, code, fx_seat_detach(&seats[OUTSIDE], &name));
    }
    is("queues are made", code, FX_OK);
    while (turns < all && wrong == 0) wrong += make_round();
    is("all calls of the rounds succeed", wrong, 0);
    is("and those until the end", drain(), 0);
    end(words[1], burst);
    printf("%lu turns, and %lu bytes of notes went on in %lu parts\n", turns, written, times);
    printf("%u passed, %u failed\n", passed, failed);
    return failed != 0;
}
