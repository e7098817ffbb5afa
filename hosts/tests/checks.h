/* What the callers of misuse.c and house_misuse.c check: codes, each with what was called. */
#ifndef CHECKS_H
#define CHECKS_H

#include "fairexec.h"
#include <stdbool.h>
#include <stdio.h>

static unsigned passed, failed;

static void is(const char *what, uint32_t code, uint32_t wanted) {
    if (code == wanted) {
        passed++;
        return;
    }
    failed++;
    printf("FAILED: %s: %u (%s), and not %u (%s)\n", what, (unsigned)code, fx_text(code), (unsigned)wanted, fx_text(wanted));
}

#define IS(call, wanted) is(#call, call, wanted)

#endif
