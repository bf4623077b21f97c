/* What both programs in C share: a file read whole, and a call that is counted or timed. `measured` is the function at which callgrind begins and stops to count. */
#ifndef METER_H
#define METER_H

#include <stdio.h>
#include <stdlib.h>
#include <string.h>
#include <time.h>

static inline void die(const char *why) {
    fprintf(stderr, "bench: %s\n", why);
    exit(1);
}

static inline void *room(size_t n) {
    void *p = calloc(n ? n : 1, 1);
    if (!p) die("no memory");
    return p;
}

static inline char *read_whole(const char *path, size_t *length) {
    FILE *f = fopen(path, "rb");
    if (!f || fseek(f, 0, SEEK_END)) die("cannot read the file");
    *length = (size_t)ftell(f);
    rewind(f);
    char *bytes = room(*length + 1);
    if (fread(bytes, 1, *length, f) != *length) die("cannot read the file");
    fclose(f);
    return bytes;
}

__attribute__((noinline)) void measured(void (*call)(void)) {
    call();
    __asm__ volatile("");
}

static inline long long now_ns(clockid_t clock) {
    struct timespec t;
    clock_gettime(clock, &t);
    return (long long)t.tv_sec * 1000000000 + t.tv_nsec;
}

/* `count N`: one call that is not counted, then N that are. `time MS`: calls for so many milliseconds, at least three; writes the least time in nanoseconds. A call that takes over 0.1 ms is timed by the thread's
   own clock, which stops while other work has the processor; for shorter ones that clock is too slow. */
static inline void meter(const char *how, long n, void (*prepare)(void), void (*call)(void)) {
    long long first = now_ns(CLOCK_MONOTONIC), end = first + n * 1000000, least = -1;
    prepare();
    call();
    clockid_t clock = now_ns(CLOCK_MONOTONIC) - first > 100000 ? CLOCK_THREAD_CPUTIME_ID : CLOCK_MONOTONIC;
    if (!strcmp(how, "count")) {
        for (long i = 0; i < n; i++) {
            prepare();
            measured(call);
        }
        return;
    }
    for (int i = 0; i < 3 || now_ns(CLOCK_MONOTONIC) < end; i++) {
        prepare();
        long long t = now_ns(clock);
        call();
        t = now_ns(clock) - t;
        if (least < 0 || t < least) least = t;
    }
    printf("%lld\n", least);
}

#endif
