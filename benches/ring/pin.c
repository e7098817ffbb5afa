// Keeps the thread that begins on one processor and each thread that it starts on another: the first two numbers of PROCESSORS, as
// "0 1". Without it both may share a processor for some milliseconds, and then a trip takes microseconds. To be preloaded.
#define _GNU_SOURCE
#include <dlfcn.h>
#include <pthread.h>
#include <sched.h>
#include <stdio.h>
#include <stdlib.h>

struct start {
    void *(*run)(void *);
    void *argument;
};

static void keep_on(int which) {
    int processors[2] = {0, 1};
    const char *words = getenv("PROCESSORS");
    if (words != NULL) {
        sscanf(words, "%d %d", &processors[0], &processors[1]);
    }
    cpu_set_t set;
    CPU_ZERO(&set);
    CPU_SET(processors[which], &set);
    sched_setaffinity(0, sizeof set, &set);
}

__attribute__((constructor)) static void begin(void) {
    keep_on(0);
}

static void *run_there(void *given) {
    struct start start = *(struct start *)given;
    free(given);
    keep_on(1);
    return start.run(start.argument);
}

int pthread_create(pthread_t *thread, const pthread_attr_t *attributes, void *(*run)(void *), void *argument) {
    int (*create)(pthread_t *, const pthread_attr_t *, void *(*)(void *), void *) = dlsym(RTLD_NEXT, "pthread_create");
    struct start *start = malloc(sizeof *start);
    if (start == NULL) {
        return 11;
    }
    start->run = run;
    start->argument = argument;
    return create(thread, attributes, run_there, start);
}
