/* Counts calls for memory, and lets them fail: for programs that are linked with --wrap for malloc, realloc and free. */
#ifndef WRAPS_H
#define WRAPS_H

#include "fairexec.h"
#include <stddef.h>
#include <stdio.h>

void *__real_malloc(size_t size);
void *__real_realloc(void *at, size_t size);
void __real_free(void *at);
void *__wrap_malloc(size_t size);
void *__wrap_realloc(void *at, size_t size);
void __wrap_free(void *at);

/* How many more calls for memory succeed, how many were made, and how many blocks are in use. */
static unsigned long left, asked;
static long used;

void *__wrap_malloc(size_t size) {
    asked++;
    if (left == 0) return NULL;
    left--;
    used++;
    return __real_malloc(size);
}

void *__wrap_realloc(void *at, size_t size) {
    asked++;
    if (left == 0) return NULL;
    left--;
    used += at == NULL;
    return __real_realloc(at, size);
}

void __wrap_free(void *at) {
    used -= at != NULL;
    __real_free(at);
}

static unsigned passed, failed;

static void is(const char *what, unsigned long found, unsigned long wanted) {
    if (found == wanted) {
        passed++;
        return;
    }
    failed++;
    printf("FAILED: %s: %lu, and not %lu\n", what, found, wanted);
}

#endif
