/*
 * Calls for memory that fail: linked with --wrap for malloc, realloc and free. An opening or a creation that finds no memory answers
 * FX_NO_MEMORY, changes nothing and keeps nothing; no other call asks for memory; and fx_free gives all of it back.
 * The last line is 'N passed, M failed', and the status is 0 if nothing failed.
 */
#include "wraps.h"

static unsigned long opening(fx_core *core) {
    uint32_t code = FX_NO_MEMORY;
    unsigned long calls;
    for (calls = 0; code == FX_NO_MEMORY && calls < 100; calls++) {
        left = calls;
        code = fx_open(core, 64);
        if (code != FX_NO_MEMORY) break;
        is("an opening without memory keeps none", (unsigned long)used, 0);
        is("and leaves the handle empty", fx_free(core), FX_EMPTY);
    }
    is("an opening with memory succeeds", code, FX_OK);
    is("some openings found none", calls > 0, 1);
    return calls;
}

static unsigned long creations(fx_core *core) {
    unsigned long refused = 0;
    for (uint32_t next = 1; next < 256; next++) {
        uint32_t queue = 0, code;
        unsigned long calls = 0;
        for (;;) {
            long before = used;
            left = calls;
            code = fx_create(core, 100, &queue);
            if (code != FX_NO_MEMORY || calls == 100) break;
            fx_core_stats stats = {sizeof stats, 0, 0, 0, 0, 0, 0, 0, 0};
            is("a creation without memory changes no count", fx_stats(core, &stats) == FX_OK && stats.queues == next, 1);
            is("and keeps none", (unsigned long)used, (unsigned long)before);
            refused++;
            calls++;
        }
        is("a creation with memory succeeds", code, FX_OK);
        is("and has the next number", queue, next);
    }
    return refused;
}

static void others(fx_core *core) {
    fx_core_stats stats = {sizeof stats, 0, 0, 0, 0, 0, 0, 0, 0};
    static uint64_t orders[100000];
    uint64_t job, held = 0;
    unsigned long before = asked, wrong = 0;
    left = 0;
    for (uint32_t each = 0; each < 100000; each++) {
        static const uint32_t steps[] = {FX_STEP_DONE, FX_STEP_YIELD, FX_STEP_PARK}, codes[] = {FX_DONE, FX_OK, FX_PARKED};
        /* One place stays vacant: a full core takes no shares and no wake. */
        if (held < 63) {
            wrong += fx_submit_numbered(core, each % 256, each, &orders[each]) != FX_OK;
            held++;
        }
        wrong += fx_next(core, &job) > FX_RESUME;
        wrong += fx_settle(core, steps[each % 3], 500 + each % 1000) != codes[each % 3];
        held -= each % 3 == 0;
        if (each % 3 == 2) wrong += fx_wake(core, orders[job]) != FX_OK;
        wrong += fx_set_shares(core, each % 256, 1 + each % 10000) != FX_OK;
    }
    wrong += fx_close_queue(core, 0, FX_MODE_FINISH) != FX_OK;
    wrong += fx_close(core, FX_MODE_RETURN) != FX_OK;
    wrong += fx_stats(core, &stats) != FX_OK || stats.held != held;
    for (uint64_t each = 0; each < held; each++) wrong += fx_next(core, &job) != FX_BACK;
    wrong += fx_next(core, &job) != FX_IDLE;
    is("the other calls succeed without memory", wrong, 0);
    is("and ask for none", asked - before, 0);
}

int main(void) {
    fx_core core = FX_NO_CORE;
    unsigned long opened = opening(&core);
    unsigned long refused = creations(&core);
    others(&core);
    is("the core is freed", fx_free(&core), FX_OK);
    is("with all of its memory", (unsigned long)used, 0);
    printf("an opening asks for memory %lu times; %lu creations found none\n%u passed, %u failed\n", opened, refused, passed, failed);
    return failed != 0;
}
