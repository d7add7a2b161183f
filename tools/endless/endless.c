/*
 * A counter for `tools/endless/run`: a commit each 5 milliseconds, of both kinds, in a store that outlives the marks of its versions.
 *
 *     endless FILE LOGS SEED    opens the store in FILE, or makes it, and adds until it is killed. LOGS log commits stand between two full ones
 *     endless FILE check        opens it and tells what it holds
 *
 * Each add is of 1, so in every opened store the values' sum is that of the points. Marks come again after AGE commits, so three things are
 * played that meet a mark again. An old key is updated once in AGE commits. The last worker sleeps now and then through more commits than two
 * cut words tell apart. And log commits may lie further from their full one than recovery could read.
 */
#define _POSIX_C_SOURCE 200809L
#include "fkv_posix.h"

#include <errno.h>
#include <pthread.h>
#include <stdarg.h>
#include <stdatomic.h>
#include <stdint.h>
#include <stdio.h>
#include <stdlib.h>
#include <string.h>
#include <time.h>
#include <unistd.h>

enum { WORKERS = 4, HOT = 64, AGE = 8191, OLD_EACH = 8, KEYS = HOT + AGE, COMMIT_MS = 5, REST_US = 1500, LINE = 200 };

/* The last worker is awake for so long, and then sleeps for a while, or through so many commits: after 2 * AGE both its cut words have their marks again. */
enum { AWAKE_US = 300000, NAP_US = 400000, SLEPT = 16400 };

/* Few buckets, so that a full commit is short, and memory for the records of more than AGE commits: an old key's record is still there. */
static const fkv_shape SHAPE = {.bucket_bits = 9, .page = 1024, .frames = 256, .mutable_pages = 192, .sessions = WORKERS, .overflow = 512, .disk_pages = 1 << 20};

static fkv_file *file;
static _Atomic uint64_t newest;
static uint64_t seed;

/* Writes a line at once: what is written out stays so when the process is killed. */
static void say(const char *format, ...) {
    char line[LINE];
    va_list words;
    va_start(words, format);
    int length = vsnprintf(line, sizeof line, format, words);
    va_end(words);
    if (length < 0 || write(STDOUT_FILENO, line, (size_t)length) != length) exit(1);
}

static int32_t must(int32_t result, const char *what) {
    if (result >= 0) return result;
    fprintf(stderr, "%s: %s %s\n", what, fkv_text_of(result), result == -FKV_DEVICE ? strerror(errno) : "");
    exit(1);
}

static void rest(long us) { nanosleep(&(struct timespec){us / 1000000, us % 1000000 * 1000}, NULL); }

static void say_points(const char *what, uint64_t number, const uint64_t *points) {
    say("%s %lu points %lu %lu %lu %lu\n", what, number, points[0], points[1], points[2], points[3]);
}

static void tell_commit(void *user, uint64_t number, const uint64_t *points, size_t sessions) {
    (void)user, (void)sessions;
    atomic_store(&newest, number);
    say_points("finished", number, points);
}

static void tell_progress(void *user, const fkv_progress *progress) {
    (void)user;
    if (progress->done == 0) say("begins\n");
}

/* The sum of all values, beside that of the points, which were recovered. */
static void check(void) {
    static uint64_t keys[KEYS];
    static fkv_each_read reads[KEYS];
    uint64_t points[FKV_MOST_SESSIONS], sum = 0, wanted = 0;
    fkv_session *session;
    uint64_t number = fkv_last_commit(file, points);
    atomic_store(&newest, number);
    for (uint64_t key = 0; key < KEYS; key++) keys[key] = key;
    must(fkv_join(file, 0, &session), "join");
    must(fkv_read_many(file, session, keys, KEYS, reads, KEYS), "read");
    must(fkv_leave(file, session), "leave");
    for (uint64_t key = 0; key < KEYS; key++) {
        if (must(reads[key].result, "read") == FKV_FOUND) sum += reads[key].value;
    }
    for (int i = 0; i < WORKERS; i++) wanted += points[i];
    say_points("opened", number, points);
    say("sum %lu %s\n", sum, sum == wanted ? "agrees" : "differs");
}

static uint64_t draw(uint64_t *random) {
    *random = *random * 6364136223846793005u + 1442695040888963407u;
    return *random >> 33;
}

static void add(fkv_session *session, uint64_t key, fkv_update *update) {
    must(fkv_increment(file, session, key, 1, update), "increment");
    must(fkv_tick(file, session), "tick");
}

/* Adds to hot keys, and to the old key whose turn it is, and tells what is durable. */
static void round_of(fkv_session *session, uint64_t number, uint64_t *random, uint64_t *told) {
    uint64_t durable, age = atomic_load(&newest) % AGE;
    fkv_update update;
    for (int i = 0; i < 2; i++) add(session, draw(random) % HOT, &update);
    if (age % OLD_EACH == 0) add(session, HOT + age, &update);
    for (int i = 0; i < 64; i++) must(fkv_tick(file, session), "tick");
    must(fkv_durable(session, &durable), "durable");
    if (durable > *told) say("told %lu durable %lu of %lu\n", number, *told = durable, update.serial);
}

static void sleeps(fkv_session *session, uint64_t *random) {
    fkv_seen seen;
    must(fkv_settle(file, session, NULL, NULL), "settle");
    must(fkv_sleep(session), "sleep");
    uint64_t until = atomic_load(&newest) + (draw(random) % 2 ? SLEPT : 0);
    do rest(NAP_US);
    while (atomic_load(&newest) < until);
    must(fkv_wake(session, &seen), "wake");
}

/* One thread, with one session. */
static void *work(void *its_number) {
    uint64_t number = (uint64_t)(uintptr_t)its_number, random = seed * WORKERS + number, told;
    fkv_session *session;
    must(fkv_join(file, number, &session), "join");
    must(fkv_durable(session, &told), "durable");
    for (uint64_t i = 1;; i++) {
        round_of(session, number, &random, &told);
        rest(REST_US);
        if (number == WORKERS - 1 && i % (AWAKE_US / REST_US) == 0) sleeps(session, &random);
    }
    return NULL;
}

static void open_store(const char *path) {
    int32_t made = access(path, F_OK) == 0 ? 0 : fkv_make_file(path, &SHAPE);
    must(made, "make");
    must(fkv_open_file(path, NULL, &file), "open");
    must(fkv_start(file, NULL), "start");
    check();
    must(fkv_stop(file, FKV_STOP_NOW), "stop");
}

int main(int count, char **words) {
    if (count < 3) return 2;
    open_store(words[1]);
    if (count == 3) return must(fkv_close_file(file), "close");
    fkv_keeping keeping = {.commit_ms = COMMIT_MS, .log_commits = (uint32_t)atol(words[2]), .committed = tell_commit, .progress = tell_progress};
    seed = (uint64_t)atol(words[3]);
    must(fkv_start(file, &keeping), "start");
    pthread_t workers[WORKERS];
    for (uintptr_t i = 0; i < WORKERS; i++) pthread_create(&workers[i], NULL, work, (void *)i);
    for (int i = 0; i < WORKERS; i++) pthread_join(workers[i], NULL);
    return 0;
}
