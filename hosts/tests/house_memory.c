/*
 * Calls on a house for memory that fail: linked with --wrap for malloc, realloc and free. An opening, a taking, an audit, a text, a piece or a passing
 * on that finds no memory answers FX_NO_MEMORY, changes nothing and keeps nothing, and an order that makes a queue is answered so. No other call asks for
 * memory, and the ends of all handles give all of it back.
 * The last line is 'N passed, M failed', and the status is 0 if nothing failed.
 */
#include "wraps.h"

enum { CORES = 2, OUTSIDE = CORES, MOST_CALLS = 10000000, ROUNDS = 5000 };

static fx_house house = FX_NO_HOUSE;
static fx_seat seats[CORES + 1];
static unsigned long refused;

/* Makes a call with memory for ever more calls, at first one more each time, until it isn't refused for want of it. */
#define WITH_LITTLE(call, wanted) \
    do { \
        uint32_t code_ = FX_NO_MEMORY; \
        for (unsigned long calls_ = 0; calls_ < MOST_CALLS; calls_ += 1 + calls_ / 20) { \
            long before_ = used; \
            left = calls_; \
            code_ = call; \
            if (code_ != FX_NO_MEMORY) break; \
            refused++; \
            is(#call " keeps nothing where there is no memory", (unsigned long)used, (unsigned long)before_); \
        } \
        is(#call, code_, wanted); \
    } while (0)

static void opening(void) {
    fx_config config = {sizeof config, CORES, 8, 2, 12 * ROUNDS};
    uint32_t actor;
    WITH_LITTLE(fx_house_open(&house, &config), FX_OK);
    is("some openings found none", refused > 0, 1);
    for (int seat = CORES; seat >= 0; seat--) WITH_LITTLE(fx_house_take(&house, &seats[seat], &actor), FX_OK);
}

/* An order that makes a queue asks as it is delivered, and its answer tells whether there was memory. */
static void creations(void) {
    unsigned long without = 0;
    for (uint32_t next = 1; next < 256; next++) {
        fx_outcome outcome = {0};
        outcome.size = sizeof outcome;
        outcome.why = FX_ANSWER_NO_MEMORY;
        for (unsigned long calls = 0; calls < MOST_CALLS && outcome.why == FX_ANSWER_NO_MEMORY; calls++) {
            fx_name name;
            uint64_t count;
            long before = used;
            left = 0;
            is("an order needs no memory on its way", fx_seat_create(&seats[OUTSIDE], 0, 100, &name), FX_OK);
            left = calls;
            is("its delivery", fx_seat_deliver(&seats[0], OUTSIDE), FX_OK);
            left = 0;
            is("nor on its way back", fx_seat_collect(&seats[OUTSIDE], 0, &count) == FX_OK && fx_seat_redeem(&seats[OUTSIDE], &name, &outcome) == FX_OK, 1);
            if (outcome.why != FX_ANSWER_NO_MEMORY) break;
            without++;
            is("a creation without memory keeps none", (unsigned long)used, (unsigned long)before);
        }
        is("a creation with memory has the next number", outcome.why == FX_ANSWER_CREATED && outcome.queue == next, 1);
    }
    is("some creations found none", without > 0, 1);
}

/* A job of core 0 submits to core 1, which runs it; both are woken, charged and told. */
static unsigned long round_of(uint32_t each) {
    static const uint32_t steps[] = {FX_STEP_DONE, FX_STEP_YIELD, FX_STEP_PARK};
    fx_turn turn = {.size = sizeof turn};
    fx_outcome outcome = {.size = sizeof outcome};
    fx_name job, other;
    uint64_t count;
    unsigned long wrong = 0;
    wrong += fx_seat_submit(&seats[OUTSIDE], 0, 0, each, &job) != FX_OK;
    wrong += fx_seat_deliver(&seats[0], OUTSIDE) != FX_OK;
    wrong += fx_seat_next(&seats[0], &turn) != FX_START || turn.job != each;
    wrong += fx_seat_submit(&seats[0], 1, 0, each, &other) != FX_OK;
    if (fx_seat_settle(&seats[0], steps[each % 3], 1, 500) != FX_DONE) {
        if (each % 3 == 2) {
            fx_name wake;
            wrong += fx_seat_wake(&seats[1], &job, &wake) != FX_OK || fx_seat_deliver(&seats[0], 1) != FX_OK;
            wrong += fx_seat_detach(&seats[1], &wake) != FX_OK || fx_seat_collect(&seats[1], 0, &count) != FX_OK;
        }
        wrong += fx_seat_next(&seats[0], &turn) != FX_RESUME || fx_seat_settle(&seats[0], FX_STEP_DONE, 1, 500) != FX_DONE;
    }
    wrong += fx_seat_deliver(&seats[1], 0) != FX_OK || fx_seat_next(&seats[1], &turn) != FX_START || fx_seat_settle(&seats[1], FX_STEP_DONE, 2, 500) != FX_DONE;
    wrong += fx_seat_collect(&seats[0], 1, &count) != FX_OK || fx_seat_redeem(&seats[0], &other, &outcome) != FX_OK || outcome.answer != 2;
    wrong += fx_seat_collect(&seats[OUTSIDE], 0, &count) != FX_OK || fx_seat_redeem(&seats[OUTSIDE], &job, &outcome) != FX_OK || outcome.answer != 1;
    return wrong;
}

static void others(void) {
    fx_core_stats stats = {.size = sizeof stats};
    fx_queue_stats of_queue = {.size = sizeof of_queue};
    fx_turn turn = {.size = sizeof turn};
    unsigned long before = asked, wrong = 0;
    left = 0;
    for (uint32_t each = 0; each < ROUNDS; each++) wrong += round_of(each);
    for (int core = 0; core < CORES; core++) {
        wrong += fx_seat_close(&seats[core], FX_MODE_FINISH) != FX_OK || fx_seat_next(&seats[core], &turn) != FX_IDLE;
        for (uint32_t sender = 0; sender <= CORES; sender++) wrong += fx_seat_shut(&seats[core], sender) != FX_OK;
        wrong += fx_seat_stats(&seats[core], &stats) != FX_OK || stats.held != 0 || fx_seat_stats_of_queue(&seats[core], 0, &of_queue) != FX_OK;
        wrong += fx_seat_drained(&seats[core]) != FX_OK || fx_seat_shows(&seats[core]) != FX_IDLE;
    }
    /* The room of the journals was made at the opening: no end is answered FX_NO_MEMORY. */
    for (int seat = 0; seat <= CORES; seat++) wrong += fx_house_end(&house, &seats[seat]) != FX_OK;
    is("the other calls succeed without memory", wrong, 0);
    is("and ask for none", asked - before, 0);
}

static void judging(void) {
    fx_verdict verdict = {0};
    static uint8_t bytes[100];
    uint64_t count;
    verdict.size = sizeof verdict;
    WITH_LITTLE(fx_house_audit(&house, &verdict), FX_OK);
    is("the journals are sound", verdict.sound, 1);
    left = 0;
    uint32_t code = fx_house_text(&house, 0, bytes, sizeof bytes, &count);
    if (code == FX_NO_MEMORY) refused++;
    left = 100000;
    is("the text", fx_house_text(&house, 0, bytes, sizeof bytes, &count) == FX_OK && count == sizeof bytes, 1);
}

/* What is passed on is kept where there is no memory for its text, and the text is kept nowhere. */
static void passing(void) {
    static uint8_t bytes[100000];
    uint64_t count = 0, whole = 0, notes = 0;
    long before = 0;
    left = 0;
    for (uint32_t each = 0; each < 100; each++) is("a round", round_of(each), 0);
    is("without memory nothing is told", fx_seat_pass_on(&seats[0], bytes, 0, &whole), FX_NO_MEMORY);
    is("and no piece", fx_seat_copy(&seats[0], 0, 9, bytes, sizeof bytes, &count, &notes), FX_NO_MEMORY);
    is("nor a part", fx_seat_copy_bytes(&seats[0], 0, 0, 9, bytes, sizeof bytes, &count, &notes), FX_NO_MEMORY);
    for (int seat = 0; seat <= CORES; seat++) {
        before = used;
        left = 100000;
        is("with memory", fx_seat_pass_on(&seats[seat], bytes, 0, &whole), FX_SHORT);
        WITH_LITTLE(fx_seat_copy(&seats[seat], 9, 50, bytes, sizeof bytes, &count, &notes), FX_OK);
        is("a piece is copied", notes, 50);
        WITH_LITTLE(fx_seat_copy_bytes(&seats[seat], 0, 9, 60, bytes, sizeof bytes, &count, &notes), FX_OK);
        is("and a part", notes, 60);
        left = 100000;
        WITH_LITTLE(fx_seat_pass_on(&seats[seat], bytes, sizeof bytes, &count), FX_OK);
        is("all of it went on", count == whole && whole > 100, 1);
        is("and its text is kept nowhere", (unsigned long)used, (unsigned long)before);
        left = 0;
        is("nothing is left to forget", fx_seat_forget(&seats[seat], &count) == FX_OK && count == 0, 1);
        is("that asks for no memory, nor do counts", fx_seat_notes(&seats[seat], &count, &notes) == FX_OK && count == 0 && notes == 12 * ROUNDS, 1);
        is("a seat is freed", fx_seat_free(&seats[seat]), FX_OK);
    }
}

int main(void) {
    opening();
    creations();
    others();
    judging();
    is("the house is freed", fx_house_free(&house), FX_OK);
    opening();
    passing();
    is("the second house is freed", fx_house_free(&house), FX_OK);
    is("with all of its memory", (unsigned long)used, 0);
    printf("%lu calls found no memory\n%u passed, %u failed\n", refused, passed, failed);
    return failed != 0;
}
