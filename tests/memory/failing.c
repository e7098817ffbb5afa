// Lets one call for memory fail. Preloaded into a program, it counts the program's calls of malloc and realloc, and answers that there is
// no memory at the call whose number stands in FAILING_CALL. At the end it writes how many calls there were into the file FAILING_COUNT,
// behind it how many failed, for how many bytes was asked, how many kibibytes the program had in memory at most, and how many blocks it
// never gave back. A program with threads ends by `_exit`, and any other by its return.
#define _GNU_SOURCE
#include <dlfcn.h>
#include <fcntl.h>
#include <stdatomic.h>
#include <stddef.h>
#include <stdio.h>
#include <stdlib.h>
#include <string.h>
#include <sys/syscall.h>
#include <unistd.h>

static void *(*next_malloc)(size_t);
static void *(*next_realloc)(void *, size_t);
static void (*next_free)(void *);
static atomic_ulong calls, failed, asked;
static atomic_long blocks;
static unsigned long failing;

__attribute__((constructor)) static void begin(void) {
    next_malloc = dlsym(RTLD_NEXT, "malloc");
    next_realloc = dlsym(RTLD_NEXT, "realloc");
    next_free = dlsym(RTLD_NEXT, "free");
    const char *number = getenv("FAILING_CALL");
    failing = number ? strtoul(number, NULL, 10) : 0;
    atomic_store(&calls, 0);
    atomic_store(&failed, 0);
    atomic_store(&asked, 0);
}

static int fails(size_t size) {
    atomic_fetch_add(&asked, size);
    if (atomic_fetch_add(&calls, 1) + 1 != failing) return 0;
    atomic_fetch_add(&failed, 1);
    return 1;
}

// A block more, if it is one.
static void *block(void *place) {
    if (place) atomic_fetch_add(&blocks, 1);
    return place;
}

void *malloc(size_t size) {
    if (!next_malloc) begin();
    return fails(size) ? NULL : block(next_malloc(size));
}

void *realloc(void *place, size_t size) {
    if (!next_realloc) begin();
    if (fails(size)) return NULL;
    return place ? next_realloc(place, size) : block(next_realloc(place, size));
}

// The C library's own: it isn't counted as a call of the program.
void *calloc(size_t count, size_t size) {
    if (!next_malloc) begin();
    size_t whole;
    if (__builtin_mul_overflow(count, size, &whole)) return NULL;
    void *place = block(next_malloc(whole));
    return place ? memset(place, 0, whole) : NULL;
}

void free(void *place) {
    if (!next_free) begin();
    if (place) atomic_fetch_sub(&blocks, 1);
    next_free(place);
}

__attribute__((noreturn)) static void leave(int status) {
    syscall(SYS_exit_group, status);
    __builtin_unreachable();
}

// The kibibytes that the system counted at most, or 0 if it doesn't tell.
static unsigned long most_in_memory(void) {
    static char text[8192];
    int file = open("/proc/self/status", O_RDONLY);
    if (file < 0) return 0;
    ssize_t length = read(file, text, sizeof text - 1);
    close(file);
    if (length < 0) return 0;
    text[length] = 0;
    const char *line = strstr(text, "VmHWM:");
    return line ? strtoul(line + 6, NULL, 10) : 0;
}

__attribute__((destructor)) static void end(void) {
    const char *name = getenv("FAILING_COUNT");
    int file = name ? open(name, O_WRONLY | O_CREAT | O_TRUNC, 0666) : -1;
    if (file < 0) return;
    char text[128];
    int length = snprintf(text, sizeof text, "%lu %lu %lu %lu %ld\n", atomic_load(&calls), atomic_load(&failed), atomic_load(&asked), most_in_memory(), atomic_load(&blocks));
    if (write(file, text, (size_t)length) != length) leave(9);
    close(file);
}

void _exit(int status) {
    end();
    leave(status);
}
