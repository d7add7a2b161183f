/* Times of the clock by which this library waits. No header of users. It wants _POSIX_C_SOURCE or _GNU_SOURCE. */
#ifndef FKV_TIME_H
#define FKV_TIME_H

#include <stdbool.h>
#include <stdint.h>
#include <time.h>

static inline struct timespec fkv_now(void) {
    struct timespec time;
    clock_gettime(CLOCK_MONOTONIC, &time);
    return time;
}

/* The time so many microseconds later. */
static inline struct timespec fkv_later(struct timespec from, uint64_t microseconds) {
    uint64_t nanoseconds = (uint64_t)from.tv_nsec + microseconds % 1000000 * 1000;
    from.tv_sec += (time_t)(microseconds / 1000000 + nanoseconds / 1000000000);
    from.tv_nsec = (long)(nanoseconds % 1000000000);
    return from;
}

static inline bool fkv_is_before(struct timespec one, struct timespec other) {
    return one.tv_sec < other.tv_sec || (one.tv_sec == other.tv_sec && one.tv_nsec < other.tv_nsec);
}

/* Microseconds from a time until now. */
static inline uint64_t fkv_since(struct timespec begun) {
    struct timespec time = fkv_now();
    return (uint64_t)(time.tv_sec - begun.tv_sec) * 1000000 + (uint64_t)(time.tv_nsec / 1000) - (uint64_t)(begun.tv_nsec / 1000);
}

#endif
