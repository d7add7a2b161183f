/*
 * A counter that survives kill -9. Four threads add 1 to keys, and a commit runs each 50 milliseconds.
 *
 *     counter FILE            opens the store in FILE, or makes it, and adds until it is killed
 *     counter FILE check      opens it and tells what it holds
 *
 * Each add is of 1, so in every opened store the values' sum is that of the points: the sum line says whether it is. Each thread
 * writes out which of its adds are durable: no crash after that line may lose one of them. It ends when the store takes no more.
 */
#include "fkv_posix.h"

#include <errno.h>
#include <pthread.h>
#include <stdarg.h>
#include <stdint.h>
#include <stdio.h>
#include <stdlib.h>
#include <string.h>
#include <unistd.h>

enum { WORKERS = 4, KEYS = 256, TOLD_EACH = 64, LINE = 200 };

static fkv_file *file;

/* Writes a line at once: what is written out stays so when the process is killed. */
static void say(const char *format, ...) {
    char line[LINE];
    va_list words;
    va_start(words, format);
    int length = vsnprintf(line, sizeof line, format, words);
    va_end(words);
    if (length < 0 || write(STDOUT_FILENO, line, (size_t)length) != length) exit(1);
}

static int32_t must(int32_t result, const char *what) {
    if (result >= 0) return result;
    fprintf(stderr, "%s: %s %s\n", what, fkv_text_of(result), result == -FKV_DEVICE ? strerror(errno) : "");
    exit(1);
}

static void say_points(const char *what, uint64_t number, const uint64_t *points) {
    say("%s %lu points %lu %lu %lu %lu\n", what, number, points[0], points[1], points[2], points[3]);
}

static void tell_commit(void *user, uint64_t number, const uint64_t *points, size_t sessions) {
    (void)user, (void)sessions;
    say_points("finished", number, points);
}

static void tell_progress(void *user, const fkv_progress *progress) {
    (void)user;
    if (progress->done == 0) say("begins\n");
}

/* The sum of all values, beside that of the points, which were recovered. */
static void check(void) {
    uint64_t points[FKV_MOST_SESSIONS], value, sum = 0, wanted = 0;
    fkv_session *session;
    uint64_t number = fkv_last_commit(file, points);
    must(fkv_join(file, 0, &session), "join");
    for (uint64_t key = 0; key < KEYS; key++) {
        if (must(fkv_read(file, session, key, &value), "read") == FKV_FOUND) sum += value;
    }
    must(fkv_leave(file, session), "leave");
    for (int i = 0; i < WORKERS; i++) wanted += points[i];
    say_points("opened", number, points);
    say("sum %lu %s\n", sum, sum == wanted ? "agrees" : "differs");
}

/* One thread, with one session. */
static void *work(void *its_number) {
    uint64_t number = (uint64_t)(uintptr_t)its_number, random = number, durable, told;
    fkv_session *session;
    fkv_update update;
    must(fkv_join(file, number, &session), "join");
    must(fkv_durable(session, &told), "durable");
    for (uint64_t i = 1;; i++) {
        random = random * 6364136223846793005u + 1442695040888963407u;
        must(fkv_increment(file, session, random >> 56, 1, &update), "increment");
        must(fkv_tick(file, session), "tick");
        if (i % TOLD_EACH) continue;
        must(fkv_durable(session, &durable), "durable");
        if (durable > told) say("told %lu durable %lu of %lu\n", number, told = durable, update.serial);
    }
    return NULL;
}

int main(int count, char **words) {
    if (count < 2) return 2;
    fkv_wish wish = {.keys = KEYS, .sessions = WORKERS};
    must(fkv_open_or_make(words[1], &wish, &file), "open");
    must(fkv_start(file, NULL), "start");
    check();
    must(fkv_stop(file, 0), "stop");
    if (count > 2) return must(fkv_close_file(file), "close");
    fkv_keeping keeping = {.commit_ms = 50, .committed = tell_commit, .progress = tell_progress};
    must(fkv_start(file, &keeping), "start");
    pthread_t workers[WORKERS];
    for (uintptr_t i = 0; i < WORKERS; i++) pthread_create(&workers[i], NULL, work, (void *)i);
    for (int i = 0; i < WORKERS; i++) pthread_join(workers[i], NULL);
    return 0;
}
