/*
 * Updates for `tools/trimming/run`, over a store whose log is given back at its front, or isn't.
 *
 *     trimming FILE SECONDS    makes the store, lets four threads add for so long with a commit each 50 milliseconds, and tells how it went.
 *                              With `keeps` behind it nothing of the log is given back
 *     trimming FILE lives      opens the store, or makes it, and adds until it is killed
 *     trimming FILE check      opens it and tells what it holds
 *     trimming FILE spoil      overwrites all that lies below the begin of the commit that the file would open with
 *
 * Each add is of 1, so in every opened store the values' sum is that of the points.
 */
#define _GNU_SOURCE
#include "fkv_posix.h"
#include "held_up.h"

#include <errno.h>
#include <fcntl.h>
#include <pthread.h>
#include <stdarg.h>
#include <stdatomic.h>
#include <stdbool.h>
#include <stdint.h>
#include <stdio.h>
#include <stdlib.h>
#include <string.h>
#include <sys/resource.h>
#include <time.h>
#include <unistd.h>

enum { WORKERS = 4, KEYS = 65536, COMMIT_MS = 50, LINE = 200, RECORD = 24, LOG_COMMITS = 1000000 };

enum { SAMPLE_NS = 500000, SAMPLES = 1 << 13, PIECE = 1 << 16 };

/* When, and how long the keeper's thread had run by its own clock. */
struct sample {
    uint64_t at, kept;
};

/*
 * `own` are those of the long calls that are long by themselves, and `by_keeper` those of them in which the keeper's thread ran so long. `left_out`
 * are those that slept and had a processor, in which another session was held up, or the host took a processor away.
 */
struct worker {
    uint64_t number, calls, longer, own, by_keeper, left_out, longest, told;
    int schedstat;
    uint64_t delayed; /* nanoseconds for which it couldn't run, as it was when last looked at */
    long slept;       /* how often it has slept by then */
    struct calls held, waited; /* calls that the machine held up, and long ones that it didn't hold up alone */
};

static fkv_file *file;
static atomic_bool ends, has_clock, is_told;
static clockid_t keeper_clock;
static struct sample samples[SAMPLES];
static _Atomic uint64_t sampled;
static struct thefts thefts;
static atomic_int why_untrimmed;
static uint64_t seed;

/* Writes a line at once: what is written out stays so when the process is killed. */
static void say(const char *format, ...) {
    char line[LINE];
    va_list words;
    va_start(words, format);
    int length = vsnprintf(line, sizeof line, format, words);
    va_end(words);
    if (length < 0 || write(STDOUT_FILENO, line, (size_t)length) != length) exit(1);
}

static int32_t must(int32_t result, const char *what) {
    if (result >= 0) return result;
    fprintf(stderr, "%s: %s %s\n", what, fkv_text_of(result), result == -FKV_DEVICE ? strerror(errno) : "");
    exit(1);
}

static uint64_t ns_of(clockid_t clock) {
    struct timespec now;
    clock_gettime(clock, &now);
    return (uint64_t)now.tv_sec * 1000000000u + (uint64_t)now.tv_nsec;
}

static void rest(long ns) { nanosleep(&(struct timespec){ns / 1000000000, ns % 1000000000}, NULL); }

/* ---- The keeper's own clock ------------------------------------------------------------------------------------------------------ */

static void say_points(const char *what, uint64_t number, const uint64_t *points) {
    say("%s %lu points %lu %lu %lu %lu\n", what, number, points[0], points[1], points[2], points[3]);
}

/* The keeper's thread calls it. */
static void note_commit(void *user, uint64_t number, const uint64_t *points, size_t sessions) {
    (void)user, (void)sessions;
    if (!atomic_load(&has_clock)) {
        if (pthread_getcpuclockid(pthread_self(), &keeper_clock)) exit(1);
        atomic_store(&has_clock, true);
    }
    if (atomic_load(&is_told)) say_points("finished", number, points);
}

static void note_progress(void *user, const fkv_progress *progress) {
    (void)user;
    if (progress->done == 0 && atomic_load(&is_told)) say("begins\n");
}

static void note_untrimmed(void *user, int why) {
    (void)user;
    atomic_store(&why_untrimmed, why ? why : -1);
}

static void take_sample(void) {
    uint64_t i = atomic_load(&sampled);
    samples[i % SAMPLES] = (struct sample){ns_of(CLOCK_MONOTONIC), ns_of(keeper_clock)};
    atomic_store(&sampled, i + 1);
}

/* At most so long the keeper has run since then: from the last sample before. */
static uint64_t kept_since(uint64_t at) {
    uint64_t count = atomic_load(&sampled), now = ns_of(keeper_clock);
    for (uint64_t i = count; i > 0 && i + SAMPLES / 2 > count; i--) {
        if (samples[(i - 1) % SAMPLES].at <= at) return now - samples[(i - 1) % SAMPLES].kept;
    }
    return now;
}

/* ---- Workers --------------------------------------------------------------------------------------------------------------------- */

static uint64_t draw(uint64_t *random) {
    *random ^= *random << 13, *random ^= *random >> 7, *random ^= *random << 17;
    return *random;
}

/* For how long the thread could run and hadn't a processor, since this was last asked. */
static uint64_t delay_of(struct worker *its) {
    char text[LINE];
    unsigned long ran, delayed;
    ssize_t length = pread(its->schedstat, text, sizeof text - 1, 0);
    if (length <= 0) return 0;
    text[length] = 0;
    if (sscanf(text, "%lu %lu", &ran, &delayed) != 2) return 0;
    uint64_t since = delayed - its->delayed;
    its->delayed = delayed;
    return since;
}

/* Whether the thread has slept since this was last asked. */
static bool has_slept(struct worker *its) {
    struct rusage usage;
    if (getrusage(RUSAGE_THREAD, &usage)) exit(1);
    bool slept = usage.ru_nvcsw != its->slept;
    its->slept = usage.ru_nvcsw;
    return slept;
}

static void look_at(struct worker *its, uint64_t from, uint64_t to) {
    uint64_t took = to - from, delayed = delay_of(its);
    struct call call = {from, to, has_slept(its) ? fewer(delayed, took) : took, 0};
    if (took > its->longest) its->longest = took;
    if (call.held >= HELD_NS) keep_call(&its->held, call);
    if (took < LONG_NS) return;
    its->longer++;
    if (took - call.held < LONG_NS) return;
    call.kept = atomic_load(&has_clock) ? kept_since(from) : 0;
    if (keep_call(&its->waited, call)) return;
    its->own++;
    its->by_keeper += call.kept >= LONG_NS;
}

/* Which of its long calls are so by themselves. */
static void judge(struct worker *workers, struct worker *its) {
    for (size_t i = 0; i < its->waited.count; i++) {
        const struct call *call = &its->waited.its[i];
        uint64_t most = 0;
        for (int j = 0; j < WORKERS; j++) {
            uint64_t held = &workers[j] == its ? 0 : held_meanwhile(&workers[j].held, call);
            if (held > most) most = held;
        }
        if (call->to - call->from < call->held + most + LONG_NS || was_stolen(&thefts, call)) {
            its->left_out++;
            continue;
        }
        its->own++;
        its->by_keeper += call->kept >= LONG_NS;
    }
}

static void tell_durable(struct worker *its, fkv_session *session, uint64_t serial) {
    uint64_t durable;
    must(fkv_durable(session, &durable), "durable");
    if (durable > its->told) say("told %lu durable %lu of %lu\n", its->number, its->told = durable, serial);
}

/* One thread, with one session. A call is an add with the tick behind it. */
static void *work(void *it) {
    struct worker *its = it;
    uint64_t random = (seed * WORKERS + its->number + 1) * 88172645463325252u;
    fkv_session *session;
    fkv_update update;
    its->schedstat = open("/proc/thread-self/schedstat", O_RDONLY);
    (void)delay_of(its), (void)has_slept(its);
    must(fkv_join(file, its->number, &session), "join");
    must(fkv_durable(session, &its->told), "durable");
    uint64_t from = ns_of(CLOCK_MONOTONIC);
    while (!atomic_load_explicit(&ends, memory_order_relaxed)) {
        must(fkv_increment(file, session, draw(&random) % KEYS, 1, &update), "increment");
        must(fkv_tick(file, session), "tick");
        uint64_t to = ns_of(CLOCK_MONOTONIC);
        its->calls++;
        if (to - from >= LOOKED_AT_NS) look_at(its, from, to);
        from = to;
        if (atomic_load_explicit(&is_told, memory_order_relaxed) && its->calls % 64 == 0) tell_durable(its, session, update.serial);
    }
    must(fkv_leave(file, session), "leave");
    return NULL;
}

/* ---- The store ------------------------------------------------------------------------------------------------------------------- */

static void open_store(const char *path) {
    fkv_shape shape;
    must(fkv_shape_for(&(fkv_wish){.keys = KEYS, .sessions = WORKERS}, &shape), "shape");
    must(access(path, F_OK) == 0 ? 0 : fkv_make_file(path, &shape), "make");
    must(fkv_open_file(path, NULL, &file), "open");
}

/* The sum of all values, beside that of the points, which were recovered. */
static void check(void) {
    static uint64_t keys[KEYS];
    static fkv_each_read reads[KEYS];
    uint64_t points[FKV_MOST_SESSIONS], sum = 0, wanted = 0;
    fkv_session *session;
    must(fkv_start(file, &(fkv_keeping){.log_bytes = FKV_LOG_KEEPS}), "start");
    uint64_t number = fkv_last_commit(file, points);
    for (uint64_t key = 0; key < KEYS; key++) keys[key] = key;
    must(fkv_join(file, 0, &session), "join");
    must(fkv_read_many(file, session, keys, KEYS, reads, KEYS), "read");
    must(fkv_leave(file, session), "leave");
    for (uint64_t key = 0; key < KEYS; key++) {
        if (must(reads[key].result, "read") == FKV_FOUND) sum += reads[key].value;
    }
    for (int i = 0; i < WORKERS; i++) wanted += points[i];
    say_points("opened", number, points);
    say("sum %lu %s\n", sum, sum == wanted ? "agrees" : "differs");
    must(fkv_stop(file, FKV_STOP_NOW), "stop");
}

/* Writes drawn bytes over the records below the begin, which are a hole of the file, or will be. Tells the begin. */
static void spoil(const char *path) {
    static uint8_t bytes[PIECE];
    fkv_stats stats;
    must(fkv_stats_of(file, &stats), "stats");
    fkv_shape shape = fkv_shape_of(file);
    fkv_size size;
    must(fkv_size_of(&shape, &size), "size");
    must(fkv_drop_file(file), "drop");
    int fd = open(path, O_WRONLY);
    /* (the log is the last part of a file that is as long as it may be) */
    uint64_t log = size.file_bytes - RECORD * shape.page * shape.disk_pages;
    uint64_t from = log + RECORD, to = log + RECORD * stats.begin, random = stats.begin * 2 + 1;
    for (uint64_t i = 0; i < PIECE; i++) bytes[i] = (uint8_t)(draw(&random) >> 24);
    for (; from < to; from += PIECE) {
        size_t count = to - from < PIECE ? to - from : PIECE;
        if (fd < 0 || pwrite(fd, bytes, count, (off_t)from) != (ssize_t)count) exit(1);
    }
    if (fd >= 0) close(fd);
    say("begin %lu\n", stats.begin);
}

static void start(bool keeps) {
    fkv_keeping keeping = {.commit_ms = COMMIT_MS, .log_commits = LOG_COMMITS, .committed = note_commit, .progress = note_progress, .untrimmed = note_untrimmed};
    if (keeps) keeping.log_bytes = FKV_LOG_KEEPS;
    must(fkv_start(file, &keeping), "start");
}

static void begin_workers(struct worker *workers, pthread_t *threads) {
    for (uint64_t i = 0; i < WORKERS; i++) {
        workers[i].number = i;
        if (pthread_create(&threads[i], NULL, work, &workers[i])) exit(1);
    }
}

/* Tells the rate, the long calls, and how the log and the file have grown. */
static void measure(long seconds) {
    static struct worker workers[WORKERS];
    static struct worker all;
    pthread_t threads[WORKERS];
    fkv_stats first, now;
    uint64_t most_disk = 0, begun = ns_of(CLOCK_MONOTONIC), until = begun + (uint64_t)seconds * 1000000000u;
    must(fkv_stats_of(file, &first), "stats");
    begin_workers(workers, threads);
    for (uint64_t i = 0; ns_of(CLOCK_MONOTONIC) < until; i++) {
        rest(SAMPLE_NS);
        if (atomic_load(&has_clock)) take_sample();
        if (i % 8 == 0) look_for_theft(&thefts, ns_of(CLOCK_MONOTONIC));
        if (i % 64) continue;
        must(fkv_stats_of(file, &now), "stats");
        if (now.disk_bytes > most_disk) most_disk = now.disk_bytes;
    }
    uint64_t took = ns_of(CLOCK_MONOTONIC) - begun, kept = ns_of(keeper_clock);
    atomic_store(&ends, true);
    for (int i = 0; i < WORKERS; i++) pthread_join(threads[i], NULL);
    for (int i = 0; i < WORKERS; i++) {
        judge(workers, &workers[i]);
        all.calls += workers[i].calls, all.longer += workers[i].longer, all.own += workers[i].own, all.by_keeper += workers[i].by_keeper;
        all.left_out += workers[i].left_out;
        if (workers[i].longest > all.longest) all.longest = workers[i].longest;
    }
    must(fkv_stats_of(file, &now), "stats");
    say("calls %lu ns %lu long %lu own %lu by-keeper %lu left-out %lu thefts %zu longest-us %lu\n", all.calls, took, all.longer, all.own, all.by_keeper, all.left_out,
        thefts.count, all.longest / 1000);
    say("commits %lu begin %lu tail %lu swept %lu kept %lu disk %lu keeper-ns %lu untrimmed %d\n", now.commits - first.commits, now.begin, now.tail - first.tail,
        now.swept, now.kept, most_disk, kept, atomic_load(&why_untrimmed));
}

static void live(void) {
    static struct worker workers[WORKERS];
    pthread_t threads[WORKERS];
    atomic_store(&is_told, true);
    begin_workers(workers, threads);
    for (int i = 0; i < WORKERS; i++) pthread_join(threads[i], NULL);
}

int main(int count, char **words) {
    if (count < 3) return 2;
    seed = (uint64_t)getpid();
    open_store(words[1]);
    if (strcmp(words[2], "spoil") == 0) return spoil(words[1]), 0;
    if (strcmp(words[2], "check") == 0) return check(), must(fkv_close_file(file), "close");
    if (strcmp(words[2], "lives") == 0) check();
    start(count > 3);
    if (strcmp(words[2], "lives") == 0) return live(), 0;
    measure(atol(words[2]));
    must(fkv_stop(file, FKV_STOP_KEEP), "stop");
    check();
    return must(fkv_close_file(file), "close");
}
