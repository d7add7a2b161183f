/*
 * Threads that make the keeper's turns while they wait for reads of the file: helping FOLDER. Beside commits nothing is lost. A read of the
 * file that fails in such a turn is told to all. The keeper's thread may end and begin meanwhile.
 */
#define _GNU_SOURCE
#include "fkv_posix.h"
#include "tests.h"

#include <errno.h>
#include <pthread.h>
#include <stdatomic.h>
#include <stdbool.h>
#include <string.h>
#include <sys/syscall.h>
#include <sys/uio.h>
#include <time.h>
#include <unistd.h>

enum { WORKERS = 4, KEYS = 300, ROUNDS = 3000, MANY = 40, TRIES = 50, STOPS = 200, MOST_SECONDS = 120, PATH_ROOM = 500 };

/* Small pages and little memory, so that most records lie in the file alone. */
static const fkv_shape SHAPE = {10, 16, 8, 4, WORKERS + 1, 64, 16384};
static const char *folder;
static fkv_file *file;
static atomic_bool reads_fail, ends;
static atomic_int failed_in_workers, failed_elsewhere;
static pthread_barrier_t all_joined;
static _Thread_local bool is_worker;

/* No read says whether it waits for a disk: each is one of those below. */
ssize_t preadv2(int fd, const struct iovec *room, int rooms, off_t place, int flags) {
    (void)fd, (void)room, (void)rooms, (void)place, (void)flags;
    errno = EOPNOTSUPP;
    return -1;
}

/* The library's reads of the file come here, before those of the C library: from some time on they fail. */
ssize_t pread(int fd, void *into, size_t length, off_t place) {
    if (!atomic_load(&reads_fail)) return (ssize_t)syscall(SYS_pread64, fd, into, length, place);
    atomic_fetch_add(is_worker ? &failed_in_workers : &failed_elsewhere, 1);
    errno = ENXIO;
    return -1;
}

/* A thread: its number, and the values of its keys as it knows them. */
struct worker {
    pthread_t thread;
    uint64_t number;
    uint64_t random;
    uint64_t values[KEYS];
};

static struct worker workers[WORKERS];

static uint64_t drawn(struct worker *worker) {
    worker->random = worker->random * 6364136223846793005u + 1442695040888963407u;
    return worker->random >> 33;
}

static uint64_t key_of(const struct worker *worker, uint64_t i) { return worker->number * KEYS + i; }

static void wants_value(fkv_session *session, const struct worker *worker, uint64_t i) {
    uint64_t value = 0;
    WANTS("a read", fkv_read(file, session, key_of(worker, i), &value), FKV_FOUND);
    WANTS("its value", value, worker->values[i]);
}

static void wants_values(fkv_session *session, const struct worker *worker) {
    uint64_t keys[KEYS];
    fkv_each_read told[KEYS];
    for (uint64_t i = 0; i < KEYS; i++) keys[i] = key_of(worker, i);
    WANTS("reads", fkv_read_many(file, session, keys, KEYS, told, KEYS), 0);
    for (uint64_t i = 0; i < KEYS; i++) {
        WANTS("one of many", told[i].result, FKV_FOUND);
        WANTS("its value", told[i].value, worker->values[i]);
    }
}

static fkv_session *joined(uint64_t number) {
    fkv_session *session;
    WANTS("joining", fkv_join(file, number, &session), 0);
    return session;
}

static void *run_workers(void *(*work)(void *)) {
    for (uint64_t i = 0; i < WORKERS; i++) {
        workers[i].number = i, workers[i].random = i + 1;
        WANTS("a thread", pthread_create(&workers[i].thread, NULL, work, &workers[i]), 0);
    }
    for (int i = 0; i < WORKERS; i++) pthread_join(workers[i].thread, NULL);
    return NULL;
}

/* Reads and updates keys of its own, each of which is found as it was left. */
static void *update(void *its) {
    struct worker *worker = its;
    fkv_session *session = joined(worker->number);
    fkv_update told;
    is_worker = true;
    for (int round = 0; round < ROUNDS; round++) {
        uint64_t i = drawn(worker) % KEYS;
        if (drawn(worker) % 4 == 0) {
            WANTS("an add", fkv_increment(file, session, key_of(worker, i), 3, &told), FKV_DONE);
            worker->values[i] += 3;
            WANTS("what it has left", told.value, worker->values[i]);
        } else {
            wants_value(session, worker, i);
        }
        WANTS("a tick", fkv_tick(file, session), 0);
    }
    wants_values(session, worker);
    WANTS("leaving", fkv_leave(file, session), 0);
    return NULL;
}

static void *load(void *its) {
    struct worker *worker = its;
    fkv_session *session = joined(worker->number);
    for (uint64_t i = 0; i < KEYS; i++) {
        worker->values[i] = i + 1;
        WANTS("a put", fkv_put(file, session, key_of(worker, i), i + 1, NULL), FKV_DONE);
        WANTS("a tick", fkv_tick(file, session), 0);
    }
    WANTS("leaving", fkv_leave(file, session), 0);
    return NULL;
}

static void *check(void *its) {
    struct worker *worker = its;
    fkv_session *session = joined(worker->number);
    for (uint64_t i = 0; i < KEYS; i++) wants_value(session, worker, i);
    wants_values(session, worker);
    WANTS("leaving", fkv_leave(file, session), 0);
    return NULL;
}

/* The keeper's thread rests so long that sessions make the turns. */
static void open_and_start(const char *path, uint32_t commit_ms) {
    fkv_keeping keeping = {.commit_ms = commit_ms, .log_commits = 5, .turn_us = commit_ms ? 0 : 60000000};
    WANTS("opening", fkv_open_file(path, &(fkv_how){.warm = FKV_COLD}, &file), 0);
    WANTS("starting the keeper", fkv_start(file, &keeping), 0);
}

static void lose_nothing(const char *path) {
    fkv_stats stats;
    WANTS("making a file", fkv_make_file(path, &SHAPE), 0);
    open_and_start(path, 1);
    run_workers(load);
    run_workers(update);
    WANTS("how it fares", fkv_stats_of(file, &stats), 0);
    WANTS("whether commits ran", stats.commits > 1, true);
    WANTS("whether records were read back", stats.cold_reads > 0, true);
    WANTS("whether threads helped", stats.helped > 0, true);
    WANTS("closing", fkv_close_file(file), 0);
    open_and_start(path, 0);
    run_workers(check);
    WANTS("how it fares", fkv_stats_of(file, &stats), 0);
    WANTS("whether threads helped", stats.helped > 0 && stats.helped <= stats.turns, true);
    WANTS("closing", fkv_close_file(file), 0);
}

/* Reads until that is refused. */
static void *read_on(void *its) {
    struct worker *worker = its;
    fkv_session *session = joined(worker->number);
    uint64_t value;
    is_worker = true;
    pthread_barrier_wait(&all_joined);
    for (uint64_t reads = 0;; reads++) {
        if (worker->number == 0 && reads == MANY) atomic_store(&reads_fail, true);
        errno = 0;
        int32_t result = fkv_read(file, session, key_of(worker, drawn(worker) % KEYS), &value);
        int why = errno;
        if (result == FKV_FOUND) continue;
        WANTS("a read that fails", result, -FKV_DEVICE);
        WANTS("why", why, ENXIO);
        break;
    }
    errno = 0;
    WANTS("a tick", fkv_tick(file, session), -FKV_DEVICE);
    WANTS("why", errno, ENXIO);
    fkv_abandon(file, session);
    return NULL;
}

static void note_stopped(void *its, int32_t fault) {
    atomic_int *told = its;
    WANTS("the fault that a hook is told", fault, -FKV_DEVICE);
    WANTS("why", errno, ENXIO);
    atomic_fetch_add(told, 1);
}

/* The read that fails is made by a thread that helps, or by the keeper's thread, if that was just asked for a turn. True where it was the first. */
static bool tell_a_failure(const char *path) {
    atomic_int told = 0;
    fkv_keeping keeping = {.turn_us = 60000000, .stopped = note_stopped, .user = &told};
    failed_in_workers = failed_elsewhere = 0;
    WANTS("opening", fkv_open_file(path, &(fkv_how){.warm = FKV_COLD}, &file), 0);
    WANTS("starting the keeper", fkv_start(file, &keeping), 0);
    run_workers(read_on);
    WANTS("how many reads failed", failed_in_workers + failed_elsewhere, 1);
    errno = 0;
    WANTS("the keeper's fault", fkv_keeper_fault(file), -FKV_DEVICE);
    WANTS("why", errno, ENXIO);
    for (int i = 0; i < 1000 && !told; i++) nanosleep(&(struct timespec){0, 10000000}, NULL);
    WANTS("how often the hook was called", told, 1);
    WANTS("dropping", fkv_drop_file(file), 0);
    atomic_store(&reads_fail, false);
    return failed_in_workers == 1;
}

static void tell_failures(const char *path) {
    int tries = 1;
    pthread_barrier_init(&all_joined, NULL, WORKERS);
    while (!tell_a_failure(path)) WANTS("whether a thread that helps fails in time", tries++ < TRIES, true);
    pthread_barrier_destroy(&all_joined);
}

/* Reads on, while the keeper's thread is ended and started. A read that is refused meanwhile stays pending. */
static void *read_between(void *its) {
    struct worker *worker = its;
    fkv_session *session = joined(worker->number);
    uint64_t value;
    while (!atomic_load(&ends)) {
        uint64_t i = drawn(worker) % KEYS;
        int32_t result = fkv_read(file, session, key_of(worker, i), &value);
        if (result == -FKV_NO_KEEPER) continue;
        WANTS("a read", result, FKV_FOUND);
        WANTS("its value", value, worker->values[i]);
    }
    WANTS("settling", fkv_settle(file, session, NULL, NULL), 0);
    wants_values(session, worker);
    WANTS("leaving", fkv_leave(file, session), 0);
    return NULL;
}

static void *stop_and_start(void *none) {
    for (int i = 0; i < STOPS; i++) {
        WANTS("stopping", fkv_stop(file, FKV_STOP_NOW), 0);
        WANTS("starting", fkv_start(file, NULL), 0);
        nanosleep(&(struct timespec){0, 100000}, NULL);
    }
    atomic_store(&ends, true);
    return none;
}

static void stop_beside(const char *path) {
    pthread_t other;
    open_and_start(path, 0);
    WANTS("a thread", pthread_create(&other, NULL, stop_and_start, NULL), 0);
    run_workers(read_between);
    pthread_join(other, NULL);
    WANTS("closing", fkv_close_file(file), 0);
}

int main(int count, char **words) {
    char path[PATH_ROOM];
    if (count != 2) return 2;
    folder = words[1];
    alarm(MOST_SECONDS);
    snprintf(path, sizeof path, "%s/helping", folder);
    lose_nothing(path);
    tell_failures(path);
    stop_beside(path);
    return 0;
}
