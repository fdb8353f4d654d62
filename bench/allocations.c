/* Counts the calls for memory between two looks at the clock, for a program that looks at the clock before and after each timed round. Loaded
   before the C library (LD_PRELOAD), it prints at the end, on standard error, the most calls in one timed round, and the most between two. */
#define _GNU_SOURCE
#include <dlfcn.h>
#include <stdio.h>
#include <stdlib.h>
#include <time.h>

static unsigned long calls, timed, between, looks;

void *malloc(size_t size) {
    static void *(*next)(size_t);
    if (!next) next = (void *(*)(size_t))dlsym(RTLD_NEXT, "malloc");
    calls++;
    return next(size);
}

void *realloc(void *old, size_t size) {
    static void *(*next)(void *, size_t);
    if (!next) next = (void *(*)(void *, size_t))dlsym(RTLD_NEXT, "realloc");
    calls++;
    return next(old, size);
}

int clock_gettime(clockid_t clock, struct timespec *time) {
    static int (*next)(clockid_t, struct timespec *);
    if (!next) next = (int (*)(clockid_t, struct timespec *))dlsym(RTLD_NEXT, "clock_gettime");
    unsigned long *most = looks++ % 2 ? &timed : &between;
    if (looks > 1 && calls > *most) *most = calls;
    calls = 0;
    return next(clock, time);
}

__attribute__((destructor)) static void report(void) {
    fprintf(stderr, "rounds %lu timed %lu between %lu\n", looks / 2, timed, between);
}
