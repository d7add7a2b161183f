/* What commits cost sessions, by phase: threads update keys in no order, with a log commit each 50 ms. For tools/bench/phases. */
#define _POSIX_C_SOURCE 200809L
#include "fkv_posix.h"

#include <pthread.h>
#include <stdatomic.h>
#include <stdbool.h>
#include <stdio.h>
#include <stdlib.h>
#include <time.h>

enum { MOST_THREADS = 8, PHASES = 5, REASONS = 7, BETWEEN_MS = 50 };

static const char *const PHASE_NAMES[PHASES] = {"rest", "prepare", "in-progress", "wait-pending", "wait-flush"};
static const char *const REASON_NAMES[REASONS] = {"", "fuzzy", "disk", "latch", "contended", "no room", "full"};

/* What one thread has met in a phase. */
struct met {
    double seconds;
    uint64_t calls, waited[REASONS];
};

struct worker {
    pthread_t thread;
    fkv_session *session;
    uint64_t drawn;
    struct met met[PHASES];
};

static fkv_file *file;
static uint64_t keys, block;
static bool adds;
static atomic_bool stops;

static uint64_t must(int32_t result, const char *what) {
    if (result >= 0) return (uint64_t)result;
    fprintf(stderr, "%s: %s\n", what, fkv_name_of(result));
    exit(1);
}

static double now(void) {
    struct timespec time;
    clock_gettime(CLOCK_MONOTONIC, &time);
    return (double)time.tv_sec + 1e-9 * (double)time.tv_nsec;
}

static uint64_t draw(struct worker *worker) {
    worker->drawn = worker->drawn * UINT64_C(6364136223846793005) + 1442695040888963407;
    return (worker->drawn >> 33) % keys;
}

/* One update, made again where too many are pending. One that another session was quicker than is polled at once. It tells why it waited, or 0. */
static uint64_t update(struct worker *worker) {
    fkv_finished finished[FKV_MOST_PENDING];
    fkv_update told;
    fkv_seen seen;
    uint64_t key = draw(worker), count;
    for (;;) {
        int32_t result = adds ? fkv_add(worker->session, key, 1, &told) : fkv_upsert(worker->session, key, key, &told);
        if (result == FKV_PENDING) {
            if (told.reason == FKV_CONTENDED) must(fkv_poll(worker->session, finished, FKV_MOST_PENDING, &count), "poll");
            return told.reason;
        }
        if (result != -FKV_PENDING_FULL) return must(result, "update"), 0;
        fkv_nudge(file);
        must(fkv_refresh(worker->session, &seen), "refresh");
        must(fkv_poll(worker->session, finished, FKV_MOST_PENDING, &count), "poll");
    }
}

static void *work(void *its) {
    struct worker *worker = its;
    fkv_finished finished[FKV_MOST_PENDING];
    fkv_seen seen = {0, 0};
    uint64_t count, pending = 0;
    double from = now();
    while (!stops) {
        struct met *met = &worker->met[seen.phase];
        bool goes_over = seen.phase != FKV_REST && seen.phase != FKV_WAIT_FLUSH;
        uint64_t calls = goes_over ? block : 64;
        for (uint64_t i = 0; i < calls; i++) {
            uint64_t reason = update(worker);
            met->waited[reason]++;
            pending += reason != 0;
        }
        met->calls += calls;
        /* A commit waits for what is pending of the version before. */
        if (pending) pending = must(fkv_poll(worker->session, finished, FKV_MOST_PENDING, &count), "poll");
        must(fkv_refresh(worker->session, &seen), "refresh");
        double to = now();
        met->seconds += to - from;
        from = to;
    }
    must(fkv_settle(file, worker->session, NULL, NULL), "settle");
    must(fkv_leave(file, worker->session), "leave");
    return NULL;
}

static void load(void) {
    fkv_session *session;
    fkv_update told;
    must(fkv_join(file, 0, &session), "join");
    for (uint64_t key = 0; key < keys; key++) {
        must(fkv_upsert(session, key, 0, &told), "load");
        if (key % 32 == 31) must(fkv_settle(file, session, NULL, NULL), "settle");
    }
    must(fkv_leave(file, session), "leave");
}

static void print(const struct worker *workers, double threads, double commits, double committing) {
    printf("a commit takes %.2f ms; of a session, for each commit:\n", 1e3 * committing / commits);
    for (int phase = 0; phase < PHASES; phase++) {
        struct met sum = {0};
        for (int i = 0; i < (int)threads; i++) {
            const struct met *met = &workers[i].met[phase];
            sum.seconds += met->seconds, sum.calls += met->calls;
            for (int reason = 1; reason < REASONS; reason++) sum.waited[reason] += met->waited[reason];
        }
        double share = 1 / (threads * commits);
        printf("%-12s %8.0f us, %8.0f calls, %6.0f ns each; waiting", PHASE_NAMES[phase], 1e6 * share * sum.seconds, share * (double)sum.calls, sum.calls ? 1e9 * sum.seconds / (double)sum.calls : 0);
        for (int reason = 1; reason < REASONS; reason++) {
            if (sum.waited[reason]) printf(" %s %.1f", REASON_NAMES[reason], share * (double)sum.waited[reason]);
        }
        puts("");
    }
}

int main(int count, char **words) {
    static struct worker workers[MOST_THREADS];
    if (count != 7) return 2;
    keys = strtoull(words[2], NULL, 10), adds = words[3][0] == 'a', block = strtoull(words[6], NULL, 10);
    uint64_t threads = strtoull(words[4], NULL, 10), commits = strtoull(words[5], NULL, 10), bits = 0;
    if (!keys || !threads || threads > MOST_THREADS || !commits || !block) return 2;
    while (UINT64_C(4) << bits < keys) bits++;
    fkv_shape shape = {bits, 32768, 128, 96, threads, UINT64_C(1) << bits, 1 << 20};
    fkv_keeping keeping = {.log_commits = UINT32_MAX};
    double committing = 0;
    must(fkv_make_file(words[1], &shape), "make");
    must(fkv_open_file(words[1], NULL, &file), "open");
    must(fkv_start(file, &keeping), "start");
    load();
    /* The first commit is a full one, whatever is asked for. */
    must(fkv_commit_and_wait(file, NULL), "commit");
    for (uint64_t i = 0; i < threads; i++) {
        workers[i].drawn = i;
        must(fkv_join(file, FKV_ANY_SESSION, &workers[i].session), "join");
        if (pthread_create(&workers[i].thread, NULL, work, &workers[i])) return 1;
    }
    for (uint64_t i = 0; i < commits; i++) {
        double from = now();
        must(fkv_commit_and_wait(file, NULL), "commit");
        double took = now() - from, rest = BETWEEN_MS * 1e-3 - took;
        committing += took;
        if (rest > 0) nanosleep(&(struct timespec){0, (long)(1e9 * rest)}, NULL);
    }
    stops = true;
    for (uint64_t i = 0; i < threads; i++) pthread_join(workers[i].thread, NULL);
    print(workers, (double)threads, (double)commits, committing);
    return 0;
}
