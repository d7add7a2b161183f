/*
 * What held long calls up: the machine, or the library itself.
 *
 * A thread that never sleeps waits for nobody. So if a call of it takes long, the host took its processor away. One that sleeps may have to wait for
 * a processor behind that too: the system says for how long. For both times the machine held the call up.
 *
 * A session waits for others: for a page, for a commit's next phase, or until a record is surely read-only. Each wants that all sessions look, the
 * library's own too. A session that the machine holds up doesn't. So a call is long by itself if it is so without both: the time for which the
 * machine held it up, and the longest for which it held up one other session meanwhile. And the host took no processor away meanwhile, as far as
 * the system tells: it counts by hundredths of a second.
 */
#ifndef HELD_UP_H
#define HELD_UP_H
#include <fcntl.h>
#include <stdbool.h>
#include <stddef.h>
#include <stdint.h>
#include <stdio.h>
#include <unistd.h>

enum {
    /* A call is long from here on. */
    LONG_NS = 5000000,
    /* Shorter ones aren't looked at: who sleeps takes longer. */
    LOOKED_AT_NS = 20000,
    /* So long the machine has to hold a call up, that others could wait for it. */
    HELD_NS = 250000,
    MOST_CALLS = 1 << 17,
    /* The host's count is looked at so often, and may be late by so much. */
    LATE_NS = 15000000,
    MOST_THEFTS = 1 << 18
};

/* A call, and how long the machine held it up. `kept` is how long the keeper's thread ran meanwhile, by its own clock. */
struct call {
    uint64_t from, to, held, kept;
};

/* Those of one thread, in their order. One that has no place any more is missing. */
struct calls {
    size_t count;
    struct call its[MOST_CALLS];
};

static inline uint64_t fewer(uint64_t one, uint64_t other) { return one < other ? one : other; }

static inline bool keep_call(struct calls *calls, struct call call) {
    if (calls->count == MOST_CALLS) return false;
    calls->its[calls->count++] = call;
    return true;
}

/* How long the machine held up those of another thread while a call was made. */
static inline uint64_t held_meanwhile(const struct calls *others, const struct call *call) {
    size_t first = 0, behind = others->count;
    while (first < behind) {
        size_t middle = first + (behind - first) / 2;
        if (others->its[middle].to <= call->from) first = middle + 1;
        else behind = middle;
    }
    uint64_t held = 0;
    for (; first < others->count && others->its[first].from < call->to; first++) {
        const struct call *it = &others->its[first];
        uint64_t from = it->from > call->from ? it->from : call->from;
        held += fewer(it->held, fewer(it->to, call->to) - from);
    }
    return held;
}

/* When the host had taken more of the processors' time than before, in order. */
struct thefts {
    int stat;
    unsigned long stolen;
    size_t count;
    uint64_t at[MOST_THEFTS];
};

static inline void look_for_theft(struct thefts *thefts, uint64_t now) {
    char text[256];
    unsigned long stolen;
    if (thefts->stat == 0) thefts->stat = open("/proc/stat", O_RDONLY);
    ssize_t length = pread(thefts->stat, text, sizeof text - 1, 0);
    if (length <= 0) return;
    text[length] = 0;
    if (sscanf(text, "cpu %*u %*u %*u %*u %*u %*u %*u %lu", &stolen) != 1) return;
    if (stolen > thefts->stolen && thefts->stolen > 0 && thefts->count < MOST_THEFTS) thefts->at[thefts->count++] = now;
    thefts->stolen = stolen;
}

static inline bool was_stolen(const struct thefts *thefts, const struct call *call) {
    for (size_t i = 0; i < thefts->count; i++) {
        if (thefts->at[i] + LATE_NS > call->from && thefts->at[i] < call->to + LATE_NS) return true;
    }
    return false;
}
#endif
