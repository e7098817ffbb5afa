/* How house_random.c prints its calls: each is counted, stands behind `null` if a pointer of it was null, and tells what it wrote though it was refused. */
#ifndef PRINTED_H
#define PRINTED_H

#include "dice.h"
#include <stddef.h>
#include <stdio.h>
#include <string.h>

static uint64_t calls;
/* How rarely a pointer is null, and whether one of the call that is printed next was. */
static uint32_t few = 150;
static bool had_null;

/* What a call is handed for this place. */
static void *at(void *place) {
    bool is_null = rarely(few);
    had_null = had_null || is_null;
    return is_null ? NULL : place;
}

#define TELL(...) (printf("%s", had_null ? "null " : ""), had_null = false, printf(__VA_ARGS__))
#define PRINT(...) (TELL(__VA_ARGS__), calls++)

/* Fills what a refused call has to leave. */
static void poison(void *place, size_t size) { memset(place, 0x5a, size); }

static const char *wrote(const void *place, size_t size, bool may) {
    const unsigned char *bytes = place;
    for (size_t each = 0; !may && each < size; each++)
        if (bytes[each] != 0x5a) return " wrote";
    return "";
}

#endif
