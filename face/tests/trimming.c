/*
 * The keeper's thread gives the log's front back: trimming FOLDER. Threads add to keys, half of them often and half of them seldom, while commits follow one
 * another. The begin moves, all below it is given back, and nothing is lost, also over a second opening. A store of one session says that it can't, and so
 * does one whose file system refuses.
 */
#define _GNU_SOURCE
#include "fkv_posix.h"
#include "tests.h"

#include <errno.h>
#include <pthread.h>
#include <stdatomic.h>
#include <fcntl.h>
#include <stdbool.h>
#include <string.h>
#include <sys/syscall.h>
#include <time.h>
#include <unistd.h>

enum { WORKERS = 3, KEYS = 3000, SELDOM = 64, MOVES = 2, HOLDS = 8, LATE = 500, LOG_BYTES = 1 << 19, MOST_SECONDS = 240, PATH_ROOM = 500, WAIT_NS = 2000000 };
enum { RECORD = 24, SLACK = 1 << 17, COLD_KEYS = 20000, REST_NS = 50000000 };

/* Memory has a part of the log, so sweeps read the file too. */
static const fkv_shape SHAPE = {10, 256, 8, 4, WORKERS + 1, 1024, 0};
static const char *folder;
static fkv_file *file;
static atomic_bool ends;
static uint64_t counts[WORKERS][KEYS];
static atomic_int untold, why_untrimmed;
/* How the file system is asked: how often, from which place on all up to another is given back, and whether it refuses. */
static atomic_int asked;
static atomic_bool refuses;
static _Atomic int64_t given_from, given_to;

static const char *path_of(const char *name) {
    static char path[PATH_ROOM];
    snprintf(path, sizeof path, "%s/%s", folder, name);
    return path;
}

/* (in place of the system's: the library calls it) */
int fallocate(int fd, int mode, off_t from, off_t length) {
    atomic_fetch_add(&asked, 1);
    if (atomic_load(&refuses)) return errno = EOPNOTSUPP, -1;
    WANTS("whether a hole follows the one before", atomic_load(&given_to) == 0 || from <= atomic_load(&given_to), true);
    if (atomic_load(&given_to) == 0) atomic_store(&given_from, from);
    if (from + length > atomic_load(&given_to)) atomic_store(&given_to, from + length);
    return (int)syscall(SYS_fallocate, fd, mode, from, length);
}

/* Where the record of an address lies in the store's file, whose log is its last part. */
static int64_t place_of(uint64_t address) {
    fkv_shape shape = fkv_shape_of(file);
    fkv_size size;
    WANTS("the store's size", fkv_size_of(&shape, &size), 0);
    return (int64_t)(size.file_bytes - RECORD * shape.page * shape.disk_pages + RECORD * address);
}

static void note_untrimmed(void *user, int why) {
    (void)user;
    atomic_store(&why_untrimmed, why);
    atomic_fetch_add(&untold, 1);
}

static fkv_stats stats_now(void) {
    fkv_stats stats;
    WANTS("how it fares", fkv_stats_of(file, &stats), 0);
    return stats;
}

/* Adds to keys: one in many to those of the second half. */
static void *add(void *its) {
    uint64_t *its_counts = its, state = (uint64_t)(its_counts - counts[0]) + 88172645463325252u;
    fkv_session *session;
    WANTS("joining", fkv_join(file, FKV_ANY_SESSION, &session), 0);
    while (!atomic_load(&ends)) {
        state ^= state << 13, state ^= state >> 7, state ^= state << 17;
        uint64_t key = state % (KEYS / 2) + (state >> 32) % SELDOM / (SELDOM - 1) * (KEYS / 2);
        WANTS("an add", fkv_increment(file, session, key, 1, NULL), FKV_DONE);
        WANTS("a tick", fkv_tick(file, session), 0);
        its_counts[key]++;
    }
    WANTS("leaving", fkv_leave(file, session), 0);
    return NULL;
}

static void wants_all(void) {
    fkv_session *session;
    WANTS("joining", fkv_join(file, FKV_ANY_SESSION, &session), 0);
    for (uint64_t key = 0; key < KEYS; key++) {
        uint64_t value = 0, sum = 0;
        for (int i = 0; i < WORKERS; i++) sum += counts[i][key];
        WANTS("a read", fkv_read(file, session, key, &value), sum ? FKV_FOUND : FKV_NONE);
        if (sum) WANTS("its value", value, sum);
        WANTS("a tick", fkv_tick(file, session), 0);
    }
    WANTS("leaving", fkv_leave(file, session), 0);
}

/* Waits until the log begins further on. */
static void wait_for_move(uint64_t begin) {
    while (stats_now().begin <= begin) nanosleep(&(struct timespec){0, WAIT_NS}, NULL);
}

/* What is given back lies below the begin of the newest finished commit, which is told shortly behind that. */
static void wants_finished(void) {
    int64_t given = atomic_load(&given_to);
    for (int i = 0; i < LATE && given > place_of(stats_now().begin); i++) nanosleep(&(struct timespec){0, WAIT_NS}, NULL);
    WANTS("whether a finished commit has let it go", given <= place_of(stats_now().begin), true);
}

/* A session that doesn't look holds the next commit up for a while, which may be the one that moves the begin. */
static void hold_up(void) {
    fkv_session *session;
    WANTS("joining", fkv_join(file, FKV_ANY_SESSION, &session), 0);
    nanosleep(&(struct timespec){0, REST_NS}, NULL);
    wants_finished();
    WANTS("leaving", fkv_leave(file, session), 0);
}

static void play(const char *name, uint32_t keys, uint32_t no_warmer) {
    fkv_keeping keeping = {.commit_ms = 5, .log_commits = 4, .log_bytes = LOG_BYTES, .untrimmed = note_untrimmed, .no_warmer = no_warmer};
    pthread_t threads[WORKERS];
    atomic_store(&ends, false);
    atomic_store(&given_to, 0);
    WANTS("opening", fkv_open_file(path_of(name), &(fkv_how){.keys = keys}, &file), 0);
    WANTS("starting the keeper", fkv_start(file, &keeping), 0);
    uint64_t first = stats_now().begin;
    for (int i = 0; i < WORKERS; i++) WANTS("starting a thread", pthread_create(&threads[i], NULL, add, counts[i]), 0);
    for (int i = 0; i < MOVES; i++) wait_for_move(stats_now().begin);
    for (int i = 0; i < HOLDS; i++) hold_up();
    atomic_store(&ends, true);
    for (int i = 0; i < WORKERS; i++) pthread_join(threads[i], NULL);
    fkv_stats stats = stats_now();
    WANTS("whether the log begins later", stats.begin > first && stats.begin <= stats.tail, true);
    WANTS("whether records were swept", stats.swept > 0, true);
    WANTS("stopping the keeper", fkv_stop(file, FKV_STOP_NOW), 0);
    stats = stats_now();
    WANTS("where holes begin", atomic_load(&given_from), place_of(1));
    WANTS("where they end", atomic_load(&given_to), place_of(stats.begin));
    uint64_t most = (uint64_t)place_of(stats.tail - stats.begin) + SLACK;
    WANTS("whether the file's blocks are few", atomic_load(&untold) > 0 || stats.disk_bytes <= most, true);
    WANTS("starting the keeper again", fkv_start(file, &keeping), 0);
    wants_all();
    WANTS("closing", fkv_close_file(file), 0);
}

/* A renewed store's log begins anew, and so does what is told of it. */
static void renew(void) {
    WANTS("opening", fkv_open_file(path_of("store"), NULL, &file), 0);
    WANTS("whether the begin is told before the keeper's thread runs", stats_now().begin > 1, true);
    WANTS("renewing", fkv_renew_here(file, NULL, NULL), 0);
    WANTS("the new begin", stats_now().begin, 1);
    WANTS("starting the keeper", fkv_start(file, NULL), 0);
    wants_all();
    WANTS("closing", fkv_close_file(file), 0);
    play("store", FKV_SPREAD, 0);
}

/* Nothing is given back unless it may be. */
static void keeps(void) {
    atomic_store(&asked, 0);
    WANTS("opening", fkv_open_file(path_of("store"), NULL, &file), 0);
    WANTS("whether the log begins later", stats_now().begin > 1, true);
    WANTS("starting the keeper", fkv_start(file, &(fkv_keeping){.log_bytes = FKV_LOG_KEEPS, .untrimmed = note_untrimmed}), 0);
    nanosleep(&(struct timespec){0, REST_NS}, NULL);
    WANTS("closing", fkv_close_file(file), 0);
    WANTS("how often the file system was asked", atomic_load(&asked), 0);
}

/* A file system that refuses is asked once, and the hook says so, also if it comes later. */
static void refused(void) {
    atomic_store(&asked, 0);
    atomic_store(&untold, 0);
    atomic_store(&refuses, true);
    WANTS("opening", fkv_open_file(path_of("store"), NULL, &file), 0);
    WANTS("starting the keeper", fkv_start(file, NULL), 0);
    while (atomic_load(&asked) == 0) nanosleep(&(struct timespec){0, WAIT_NS}, NULL);
    WANTS("stopping it", fkv_stop(file, FKV_STOP_NOW), 0);
    WANTS("starting it with a hook", fkv_start(file, &(fkv_keeping){.untrimmed = note_untrimmed}), 0);
    while (atomic_load(&untold) == 0) nanosleep(&(struct timespec){0, WAIT_NS}, NULL);
    WANTS("closing", fkv_close_file(file), 0);
    atomic_store(&refuses, false);
    WANTS("how often it was asked", atomic_load(&asked), 1);
    WANTS("how often it was told", atomic_load(&untold), 1);
    WANTS("why", atomic_load(&why_untrimmed), EOPNOTSUPP);
}

/* All keys of the front are wanted, and nobody calls meanwhile. */
static void all_wanted(void) {
    const fkv_shape shape = {12, 4096, 8, 4, 2, 2048, 0};
    fkv_session *session;
    atomic_store(&given_to, 0);
    WANTS("making", fkv_make_file(path_of("cold"), &shape), 0);
    WANTS("opening", fkv_open_file(path_of("cold"), NULL, &file), 0);
    WANTS("starting the keeper", fkv_start(file, &(fkv_keeping){.commit_ms = 20, .log_bytes = COLD_KEYS / 2 * RECORD}), 0);
    WANTS("joining", fkv_join(file, FKV_ANY_SESSION, &session), 0);
    for (uint64_t key = 0; key < COLD_KEYS; key++) WANTS("a put", fkv_put(file, session, key, key, NULL), FKV_DONE);
    /* (with a session that sleeps commits go on) */
    WANTS("settling", fkv_settle(file, session, NULL, NULL), 0);
    WANTS("sleeping", fkv_sleep(session), 0);
    wait_for_move(1);
    fkv_seen seen;
    WANTS("waking", fkv_wake(session, &seen), 0);
    for (uint64_t key = 0; key < COLD_KEYS; key++) {
        uint64_t value;
        WANTS("a read", fkv_read(file, session, key, &value), FKV_FOUND);
        WANTS("its value", value, key);
    }
    WANTS("leaving", fkv_leave(file, session), 0);
    WANTS("closing", fkv_close_file(file), 0);
}

/* A store of one session in its file, as of an older library, has none for the thread. */
static void alone(void) {
    uint8_t image[FKV_IMAGE_SIZE];
    fkv_shape one = SHAPE;
    one.sessions = 1, one.disk_pages = 4096;
    WANTS("an image", fkv_image(&one, image, sizeof image), 0);
    FILE *to = fopen(path_of("alone"), "wb");
    WANTS("writing it", to && fwrite(image, sizeof image, 1, to) == 1 && fclose(to) == 0, true);
    atomic_store(&untold, 0);
    WANTS("opening", fkv_open_file(path_of("alone"), NULL, &file), 0);
    WANTS("starting the keeper", fkv_start(file, &(fkv_keeping){.untrimmed = note_untrimmed}), 0);
    while (atomic_load(&untold) == 0) nanosleep(&(struct timespec){0, WAIT_NS}, NULL);
    WANTS("closing", fkv_close_file(file), 0);
    WANTS("how often it was told", atomic_load(&untold), 1);
    WANTS("why", atomic_load(&why_untrimmed), 0);
}

/* A log that may have no record is too long at once. What the keeper is told goes before what was wished for. */
static void too_long(uint64_t wished, uint64_t log_bytes, bool is_told) {
    fkv_session *session;
    atomic_store(&untold, 0);
    WANTS("opening", fkv_open_or_make(path_of("store"), &(fkv_wish){.log_bytes = wished}, &file), 0);
    WANTS("starting the keeper", fkv_start(file, &(fkv_keeping){.log_bytes = log_bytes, .untrimmed = note_untrimmed}), 0);
    WANTS("joining", fkv_join(file, FKV_ANY_SESSION, &session), 0);
    WANTS("a put", fkv_put(file, session, 1, 1, NULL), FKV_DONE);
    WANTS("a commit", fkv_commit_and_wait(file, session), 0);
    WANTS("another commit", fkv_commit_and_wait(file, session), 0);
    WANTS("leaving", fkv_leave(file, session), 0);
    WANTS("closing", fkv_close_file(file), 0);
    WANTS("whether it was told", atomic_load(&untold) > 0, is_told);
    if (is_told) WANTS("why", atomic_load(&why_untrimmed), EAGAIN);
}

int main(int count, char **words) {
    if (count != 2) return 2;
    folder = words[1];
    alarm(MOST_SECONDS);
    WANTS("making", fkv_make_file(path_of("store"), &SHAPE), 0);
    play("store", FKV_SPREAD, 0);
    play("store", FKV_SPREAD, 1);
    renew();
    keeps();
    too_long(0, 1, true);
    too_long(1, 0, true);
    too_long(1, FKV_LOG_KEEPS, false);
    refused();
    memset(counts, 0, sizeof counts);
    WANTS("making another", fkv_make_file(path_of("spread"), &SHAPE), 0);
    play("spread", FKV_SPREAD_ALREADY, 0);
    all_wanted();
    alone();
    return 0;
}
