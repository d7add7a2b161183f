/*
 * The calls that just work: a session's own order beside commits, merges of many threads, a tick that says why commits end, sizes for a
 * wish, a close that keeps what was done. easy FOLDER [SECONDS] plays the first one for so long, and measures adds.
 */
#define _GNU_SOURCE
#include "fkv_posix.h"
#include "tests.h"

#include <errno.h>
#include <pthread.h>
#include <stdatomic.h>
#include <stdbool.h>
#include <string.h>
#include <sys/resource.h>
#include <sys/syscall.h>
#include <time.h>
#include <unistd.h>

/* The log of a specified store has so many pages at most. */
enum { OWN_KEYS = 8, WORKERS = 3, MOST_SECONDS = 240, PATH_ROOM = 500, SPECIFIED_PAGES = 65536 };

static const char *folder;
static atomic_bool syncs_fail, syncs_are_left_out;
static fkv_file *file;

/* The library's syncs of a file come here. A test of thousands of commits leaves them out. */
int fdatasync(int fd) {
    if (syncs_fail) return errno = EIO, -1;
    return syncs_are_left_out ? 0 : (int)syscall(SYS_fdatasync, fd);
}

static const char *path_of(const char *name) {
    static char path[PATH_ROOM];
    snprintf(path, sizeof path, "%s/%s", folder, name);
    return path;
}

static double seconds(clockid_t clock) {
    struct timespec time;
    clock_gettime(clock, &time);
    return (double)time.tv_sec + 1e-9 * (double)time.tv_nsec;
}

static fkv_session *joined(uint64_t number) {
    fkv_session *session;
    WANTS("joining", fkv_join(file, number, &session), 0);
    return session;
}

static void open_at(const char *name, const fkv_wish *wish, const fkv_keeping *keeping) {
    WANTS("opening or making a file", fkv_open_or_make(path_of(name), wish, &file), 0);
    if (keeping) WANTS("starting the keeper", fkv_start(file, keeping), 0);
}

/* Makes the store of a file that nobody has open a specified one: the text by which it begins says so. */
static void specify(const char *name) {
    FILE *its = fopen(path_of(name), "r+b");
    WANTS("opening a store's bytes", its != NULL, true);
    WANTS("writing its text", fwrite(fkv_formats(), 8, 1, its), 1);
    WANTS("closing its bytes", fclose(its), 0);
}

/* ---- Order ---------------------------------------------------------------------------------------------------------------------- */

struct worker {
    pthread_t thread;
    uint64_t number;
    double until;
};

static bool commits_ran(void) {
    uint64_t points[FKV_MOST_SESSIONS];
    return fkv_last_commit(file, points) > 1;
}

/* Each call sees what the one before it has done, though commits run. */
static void *keep_order(void *its) {
    struct worker *worker = its;
    fkv_session *session = joined(worker->number);
    uint64_t values[OWN_KEYS] = {0}, value, last = 0;
    bool is_there[OWN_KEYS] = {false};
    fkv_update told;
    for (uint64_t i = 0; seconds(CLOCK_MONOTONIC) < worker->until || !commits_ran(); i++) {
        uint64_t at = i * 5 % OWN_KEYS, key = worker->number * OWN_KEYS + at;
        int32_t result = FKV_DONE;
        switch (i / OWN_KEYS % 10) {
        case 0: case 1: case 2:
            result = fkv_put(file, session, key, values[at] = i, &told);
            break;
        case 3: case 4:
            result = fkv_increment(file, session, key, 7, &told);
            WANTS("what an increment has left", told.value, values[at] += 7);
            break;
        case 5:
            values[at] = values[at] > i ? values[at] : i;
            result = fkv_raise(file, session, key, i, &told);
            WANTS("what a raise has left", told.value, values[at]);
            break;
        case 6:
            result = fkv_remove(file, session, key, &told);
            values[at] = 0;
            break;
        case 8:
            values[at] = values[at] > 3 ? values[at] - 3 : 0;
            result = fkv_merge_now(file, session, key, FKV_SUB, 3, &told);
            WANTS("what a merge has left", told.value, values[at]);
            break;
        case 9:
            result = fkv_merge_now(file, session, key, FKV_KEEP, 0, &told);
            WANTS("what a keep has told", told.value, values[at]);
            break;
        default:
            result = fkv_increment(file, session, key, 1, NULL);
            told.serial = last + 1;
            values[at] += 1;
            break;
        }
        WANTS("an update", result, FKV_DONE);
        WANTS("its serial", told.serial, last + 1);
        last = told.serial;
        is_there[at] = i / OWN_KEYS % 10 != 6;
        WANTS("a read", fkv_read(file, session, key, &value), is_there[at] ? FKV_FOUND : FKV_NONE);
        if (is_there[at]) WANTS("its value", value, values[at]);
        WANTS("a tick", fkv_tick(file, session), 0);
    }
    WANTS("leaving", fkv_leave(file, session), 0);
    return NULL;
}

static void order(double time) {
    static struct worker workers[WORKERS];
    fkv_keeping keeping = {.commit_ms = 5, .log_commits = 20};
    open_at("order", &(fkv_wish){.keys = 64, .sessions = WORKERS}, &keeping);
    for (uint64_t i = 0; i < WORKERS; i++) {
        workers[i] = (struct worker){.number = i, .until = seconds(CLOCK_MONOTONIC) + time};
        WANTS("a thread", pthread_create(&workers[i].thread, NULL, keep_order, &workers[i]), 0);
    }
    for (int i = 0; i < WORKERS; i++) pthread_join(workers[i].thread, NULL);
    WANTS("whether commits ran", commits_ran(), true);
    WANTS("closing", fkv_close_file(file), 0);
}

/* ---- Merges of many threads ----------------------------------------------------------------------------------------------------- */

enum { MERGES = 10000, BITS = 16, LOWERED = 1, FLAGS = 2, LEAST = 3, FIRST = 4 };

/* Merges the keys of all threads, and gives the value that came first. */
static void *merge_shared(void *its) {
    struct worker *worker = its;
    fkv_session *session = joined(worker->number);
    fkv_update told;
    uint64_t first = 0;
    for (uint64_t i = 0; i < MERGES; i++) {
        uint64_t flag = UINT64_C(1) << (worker->number * BITS + i % BITS), least = 7 + (MERGES - 1 - i) * WORKERS + worker->number;
        WANTS("a sub", fkv_merge_now(file, session, LOWERED, FKV_SUB, 3, &told), FKV_DONE);
        WANTS("an or", fkv_merge_now(file, session, FLAGS, FKV_OR, flag, &told), FKV_DONE);
        WANTS("its flag", told.value & flag, flag);
        WANTS("a min", fkv_merge_now(file, session, LEAST, FKV_MIN, least, &told), FKV_DONE);
        WANTS("whether it is no more", told.value <= least, true);
        WANTS("a first", fkv_merge_now(file, session, FIRST, FKV_FIRST, 100 + worker->number, &told), FKV_DONE);
        if (i > 0) WANTS("what came first", told.value, first);
        first = told.value;
        WANTS("a keep", fkv_merge_now(file, session, FIRST, FKV_KEEP, 0, &told), FKV_DONE);
        WANTS("what it tells", told.value, first);
        WANTS("a tick", fkv_tick(file, session), 0);
    }
    WANTS("leaving", fkv_leave(file, session), 0);
    return (void *)(uintptr_t)first;
}

/* No merge is lost where threads merge the same keys beside commits, and each is told the same first value. */
static void merges_together(void) {
    static struct worker workers[WORKERS];
    static const uint64_t start = UINT64_C(1) << 40;
    uint64_t value = 0;
    void *firsts[WORKERS];
    open_at("merges", &(fkv_wish){.keys = 64, .sessions = WORKERS}, &(fkv_keeping){.commit_ms = 10});
    fkv_session *session = joined(0);
    WANTS("a put", fkv_put(file, session, LOWERED, start, NULL), FKV_DONE);
    WANTS("leaving", fkv_leave(file, session), 0);
    for (uint64_t i = 0; i < WORKERS; i++) {
        workers[i].number = i;
        WANTS("a thread", pthread_create(&workers[i].thread, NULL, merge_shared, &workers[i]), 0);
    }
    for (int i = 0; i < WORKERS; i++) pthread_join(workers[i].thread, &firsts[i]);
    session = joined(0);
    WANTS("a read", fkv_read(file, session, FIRST, &value), FKV_FOUND);
    for (int i = 0; i < WORKERS; i++) WANTS("what came first", (uintptr_t)firsts[i], value);
    WANTS("a read", fkv_read(file, session, LOWERED, &value), FKV_FOUND);
    WANTS("what all have left", value, start - 3 * MERGES * WORKERS);
    WANTS("a read", fkv_read(file, session, FLAGS, &value), FKV_FOUND);
    WANTS("the flags of all", value, (UINT64_C(1) << (WORKERS * BITS)) - 1);
    WANTS("a read", fkv_read(file, session, LEAST, &value), FKV_FOUND);
    WANTS("the least of all", value, 7);
    WANTS("leaving", fkv_leave(file, session), 0);
    WANTS("closing", fkv_close_file(file), 0);
}

/* ---- What ends ------------------------------------------------------------------------------------------------------------------ */

static void note_stopped(void *its, int32_t fault) { atomic_store((atomic_int *)its, fault); }

/* The last commit of a specified store is told at once, by a tick, by a hook and by what is refused. What it keeps is there, and what came later isn't. */
static void spent(void) {
    atomic_int stopped = 0;
    fkv_keeping keeping = {.log_commits = 100, .stopped = note_stopped, .user = &stopped};
    fkv_shape shape;
    fkv_stats stats;
    uint64_t value, ticket;
    syncs_are_left_out = true;
    WANTS("a shape", fkv_shape_for(&(fkv_wish){.keys = 10, .sessions = 1}, &shape), 0);
    shape.disk_pages = SPECIFIED_PAGES;
    WANTS("making a file", fkv_make_file(path_of("spent"), &shape), 0);
    specify("spent");
    open_at("spent", NULL, &keeping);
    fkv_session *session = joined(0);
    for (int commit = 1; commit <= FKV_MOST_COMMITS; commit++) {
        WANTS("an increment", fkv_increment(file, session, 7, 1, NULL), FKV_DONE);
        WANTS("a tick", fkv_tick(file, session), 0);
        WANTS("a commit", fkv_commit_and_wait(file, session), 0);
    }
    WANTS("a tick behind the last commit", fkv_tick(file, session), -FKV_VERSIONS_SPENT);
    WANTS("an increment", fkv_increment(file, session, 7, 1, NULL), FKV_DONE);
    WANTS("a read", fkv_read(file, session, 7, &value), FKV_FOUND);
    WANTS("one more commit", fkv_ask_commit(file, &ticket), -FKV_VERSIONS_SPENT);
    WANTS("the keeper's fault", fkv_keeper_fault(file), -FKV_VERSIONS_SPENT);
    WANTS("how it fares", fkv_stats_of(file, &stats), 0);
    WANTS("its commits", stats.commits, FKV_MOST_COMMITS);
    WANTS("those that are left", stats.commits_left, 0);
    WANTS("why it has stopped", stats.stopped, -FKV_VERSIONS_SPENT);
    for (int i = 0; i < 1000 && !stopped; i++) nanosleep(&(struct timespec){0, 1000000}, NULL);
    WANTS("what the hook was told", stopped, -FKV_VERSIONS_SPENT);
    WANTS("leaving", fkv_leave(file, session), 0);
    WANTS("closing with an update that no commit keeps", fkv_close_file(file), -FKV_VERSIONS_SPENT);
    syncs_are_left_out = false;
    open_at("spent", NULL, &(fkv_keeping){0});
    session = joined(0);
    WANTS("a read in the next life", fkv_read(file, session, 7, &value), FKV_FOUND);
    WANTS("its value", value, FKV_MOST_COMMITS);
    WANTS("leaving", fkv_leave(file, session), 0);
    WANTS("closing with nothing to keep", fkv_close_file(file), 0);
}

/*
 * A living store goes on where a specified one ends, though marks of versions come again. Its keeper makes a full commit where the last one is
 * too old for another log commit.
 */
static void goes_on(void) {
    enum { COMMITS = FKV_MOST_COMMITS + 200 };
    fkv_keeping keeping = {.log_commits = 2 * FKV_MOST_COMMITS};
    fkv_stats stats;
    uint64_t value;
    syncs_are_left_out = true;
    open_at("living", &(fkv_wish){.keys = 10, .sessions = 1}, &keeping);
    fkv_session *session = joined(0);
    for (int commit = 1; commit <= COMMITS; commit++) {
        WANTS("an increment", fkv_increment(file, session, 7, 1, NULL), FKV_DONE);
        WANTS("a tick", fkv_tick(file, session), 0);
        WANTS("a commit", fkv_commit_and_wait(file, session), 0);
    }
    WANTS("how it fares", fkv_stats_of(file, &stats), 0);
    WANTS("its commits", stats.commits, COMMITS);
    WANTS("those that are left", stats.commits_left, FKV_MOST_LIVING_COMMITS - COMMITS);
    WANTS("whether it has stopped", stats.stopped, 0);
    WANTS("leaving", fkv_leave(file, session), 0);
    WANTS("closing", fkv_close_file(file), 0);
    syncs_are_left_out = false;
    open_at("living", NULL, &(fkv_keeping){0});
    session = joined(0);
    WANTS("a read in the next life", fkv_read(file, session, 7, &value), FKV_FOUND);
    WANTS("its value", value, COMMITS);
    WANTS("leaving", fkv_leave(file, session), 0);
    WANTS("closing", fkv_close_file(file), 0);
}

/* Sessions want the log's last records. Each update is done or refused, and none waits for ever. */
static void *fill(void *its) {
    struct worker *worker = its;
    fkv_session *session = joined(worker->number);
    fkv_update told;
    uint64_t key = 0;
    int32_t result = FKV_DONE;
    for (; result == FKV_DONE; key++) result = fkv_put(file, session, worker->number << 32 | key, key, &told);
    WANTS("why no more is put", result, -FKV_LOG_FULL);
    WANTS("a tick", fkv_tick(file, session), -FKV_LOG_FULL);
    WANTS("its serial", told.serial, 0);
    WANTS("leaving", fkv_leave(file, session), 0);
    return NULL;
}

static void full(void) {
    static const fkv_shape small = {8, 4, 4, 1, WORKERS, 64, 276};
    static struct worker workers[WORKERS];
    atomic_int stopped = 0;
    fkv_keeping keeping = {.stopped = note_stopped, .user = &stopped};
    WANTS("making a file", fkv_make_file(path_of("full"), &small), 0);
    open_at("full", NULL, &keeping);
    for (uint64_t i = 0; i < WORKERS; i++) {
        workers[i] = (struct worker){.number = i};
        WANTS("a thread", pthread_create(&workers[i].thread, NULL, fill, &workers[i]), 0);
    }
    for (int i = 0; i < WORKERS; i++) pthread_join(workers[i].thread, NULL);
    for (int i = 0; i < 1000 && !stopped; i++) nanosleep(&(struct timespec){0, 1000000}, NULL);
    WANTS("what the hook was told", stopped, -FKV_LOG_FULL);
    WANTS("closing, with a last commit", fkv_close_file(file), 0);
}

static void no_keeper(void) {
    uint64_t ticket;
    open_at("none", &(fkv_wish){.keys = 10}, NULL);
    fkv_session *session = joined(0);
    WANTS("an update without a keeper", fkv_put(file, session, 7, 1, NULL), FKV_DONE);
    WANTS("a tick", fkv_tick(file, session), -FKV_NO_KEEPER);
    WANTS("a commit", fkv_commit_and_wait(file, session), -FKV_NO_KEEPER);
    WANTS("asking for one", fkv_ask_commit(file, &ticket), -FKV_NO_KEEPER);
    WANTS("stopping with one", fkv_stop(file, FKV_STOP_COMMIT), -FKV_NO_KEEPER);
    WANTS("starting", fkv_start(file, NULL), 0);
    WANTS("a tick", fkv_tick(file, session), 0);
    WANTS("sleeping", fkv_sleep(session), 0);
    int32_t result = 0;
    for (int i = 0; i < 64 && result == 0; i++) result = fkv_tick(file, session);
    WANTS("a tick of a session that sleeps", result, -FKV_ASLEEP);
    WANTS("leaving", fkv_leave(file, session), 0);
    WANTS("closing", fkv_close_file(file), 0);
}

/* ---- Closing -------------------------------------------------------------------------------------------------------------------- */

static uint64_t value_of_next_life(const char *name) {
    uint64_t value = 0, points[FKV_MOST_SESSIONS];
    open_at(name, NULL, &(fkv_keeping){0});
    uint64_t number = fkv_last_commit(file, points);
    fkv_session *session = joined(0);
    if (fkv_read(file, session, 7, &value) != FKV_FOUND) value = 0;
    WANTS("leaving", fkv_leave(file, session), 0);
    WANTS("closing", fkv_close_file(file), 0);
    open_at(name, NULL, NULL);
    WANTS("whether a close of a store that was only read makes no commit", fkv_last_commit(file, points), number);
    WANTS("closing", fkv_close_file(file), 0);
    return value;
}

static void closing(void) {
    fkv_session *session;
    open_at("closing", &(fkv_wish){.keys = 100}, &(fkv_keeping){0});
    session = joined(0);
    WANTS("a put", fkv_put(file, session, 7, 1, NULL), FKV_DONE);
    WANTS("closing while it is joined", fkv_close_file(file), -FKV_HANDLE_OUT);
    WANTS("dropping while it is joined", fkv_drop_file(file), -FKV_HANDLE_OUT);
    WANTS("leaving", fkv_leave(file, session), 0);
    WANTS("closing", fkv_close_file(file), 0);
    WANTS("what a close has kept", value_of_next_life("closing"), 1);
    open_at("closing", NULL, &(fkv_keeping){0});
    session = joined(0);
    WANTS("a put", fkv_put(file, session, 7, 2, NULL), FKV_DONE);
    WANTS("leaving", fkv_leave(file, session), 0);
    WANTS("dropping", fkv_drop_file(file), 0);
    WANTS("what a drop has left", value_of_next_life("closing"), 1);
    open_at("closing", NULL, &(fkv_keeping){0});
    session = joined(0);
    WANTS("a put", fkv_put(file, session, 7, 3, NULL), FKV_DONE);
    WANTS("leaving", fkv_leave(file, session), 0);
    syncs_fail = true;
    errno = 0;
    WANTS("closing where a sync fails", fkv_close_file(file), -FKV_DEVICE);
    WANTS("why", errno, EIO);
    syncs_fail = false;
}

/* While a session that is joined does nothing the keeper makes few turns: before it made one each 500 microseconds. */
static void idle(void) {
    fkv_stats before, after;
    open_at("idle", &(fkv_wish){.keys = 100}, &(fkv_keeping){0});
    fkv_session *session = joined(0);
    WANTS("a put", fkv_put(file, session, 7, 1, NULL), FKV_DONE);
    nanosleep(&(struct timespec){0, 300000000}, NULL);
    WANTS("how it fares", fkv_stats_of(file, &before), 0);
    nanosleep(&(struct timespec){0, 300000000}, NULL);
    WANTS("how it fares", fkv_stats_of(file, &after), 0);
    WANTS("whether few turns were made", after.turns - before.turns <= 100, true);
    WANTS("leaving", fkv_leave(file, session), 0);
    WANTS("closing", fkv_close_file(file), 0);
}

/* ---- Sizes ---------------------------------------------------------------------------------------------------------------------- */

/* As many keys as a size says fit, though other sessions have spare buckets. */
static void wants_room(const fkv_shape *shape, const char *name) {
    fkv_size size;
    WANTS("a size", fkv_size_of(shape, &size), 0);
    WANTS("making a file", fkv_make_file(path_of(name), shape), 0);
    open_at(name, NULL, &(fkv_keeping){0});
    fkv_session *session = joined(0);
    for (uint64_t key = 0; key < size.keys; key++) {
        WANTS("a put", fkv_put(file, session, key, key, NULL), FKV_DONE);
        WANTS("a tick", fkv_tick(file, session), 0);
    }
    WANTS("leaving", fkv_leave(file, session), 0);
    WANTS("dropping", fkv_drop_file(file), 0);
}

static void sizes(void) {
    static const uint64_t counts[] = {1, 10, 100, 1000, 65536, 1000000, 50000000};
    fkv_shape shape;
    fkv_size size;
    for (size_t i = 0; i < sizeof counts / sizeof *counts; i++) {
        WANTS("a shape", fkv_shape_for(&(fkv_wish){.keys = counts[i]}, &shape), 0);
        WANTS("its size", fkv_size_of(&shape, &size), 0);
        WANTS("whether all keys fit", size.keys >= counts[i], true);
        WANTS("whether memory holds four records of each", shape.page * shape.frames >= 4 * counts[i] || counts[i] > 10000000, true);
        WANTS("whether it takes all its commits", size.records >= counts[i] * 100, true);
    }
    WANTS("a shape of nothing", fkv_shape_for(NULL, &shape), 0);
    WANTS("its sessions", shape.sessions, 8);
    WANTS("its pages on the disk", shape.disk_pages, UINT64_C(1) << 30);
    WANTS("its size", fkv_size_of(&shape, &size), 0);
    WANTS("its keys", size.keys >= 65536, true);
    WANTS("a shape of little memory", fkv_shape_for(&(fkv_wish){.keys = 100000, .memory_bytes = 16 << 20}, &shape), 0);
    WANTS("its size", fkv_size_of(&shape, &size), 0);
    WANTS("whether it takes no more", size.memory_bytes <= 16 << 20, true);
    WANTS("too little memory", fkv_shape_for(&(fkv_wish){.keys = 100000, .memory_bytes = 1000}, &shape), -FKV_BAD_SHAPE);
    WANTS("too many sessions", fkv_shape_for(&(fkv_wish){.sessions = FKV_MOST_JOINED + 1}, &shape), -FKV_BAD_SHAPE);
    WANTS("too many keys", fkv_shape_for(&(fkv_wish){.keys = UINT64_C(1) << 40}, &shape), -FKV_BAD_SHAPE);
    WANTS("the size of no shape", fkv_size_of(&(fkv_shape){0}, &size), -FKV_BAD_SHAPE);
    WANTS("a shape of 1,000 keys", fkv_shape_for(&(fkv_wish){.keys = 1000, .sessions = FKV_MOST_JOINED}, &shape), 0);
    wants_room(&shape, "thousand");
    wants_room(&(fkv_shape){6, 64, 16, 8, FKV_MOST_JOINED, 64, 65536}, "crowded");
    wants_room(&(fkv_shape){8, 64, 16, 8, 1, 16, 65536}, "few");
    WANTS("a shape without a bound of its log", fkv_size_of(&(fkv_shape){8, 64, 16, 8, 1, 16, 0}, &size), 0);
    WANTS("its records", size.records, (UINT64_C(1) << 36) - 65 * 4 - 1);
    WANTS("a shape without overflow", fkv_size_of(&(fkv_shape){8, 64, 16, 8, 1, 0, 65536}, &size), 0);
    WANTS("its keys", size.keys, 0);
}

/* ---- Other calls ---------------------------------------------------------------------------------------------------------------- */

/* What a sentence is: it ends with a point. */
static void texts(void) {
    for (int32_t fault = 0; fault <= FKV_NO_MERGE; fault++) {
        const char *text = fkv_text_of(-fault);
        WANTS("whether a text ends with a point", text[strlen(text) - 1], '.');
        WANTS("whether it is known", strcmp(text, "Unknown fault.") != 0, true);
        WANTS("whether it is that of the number", fkv_text_of(fault) == text, true);
    }
    WANTS("an unknown one", strcmp(fkv_text_of(-99), "Unknown fault."), 0);
}

static void many(void) {
    enum { COUNT = 300 };
    uint64_t keys[COUNT];
    fkv_each_read told[COUNT];
    fkv_stats stats;
    fkv_update update;
    open_at("many", &(fkv_wish){.keys = 1000, .sessions = 2}, &(fkv_keeping){0});
    fkv_session *session = joined(0);
    for (uint64_t i = 0; i < COUNT; i++) {
        keys[i] = i;
        if (i % 3) WANTS("a put", fkv_put(file, session, i, i + 1, NULL), FKV_DONE);
    }
    WANTS("leaving", fkv_leave(file, session), 0);
    WANTS("closing", fkv_close_file(file), 0);
    WANTS("opening", fkv_open_file(path_of("many"), &(fkv_how){.warm = FKV_COLD}, &file), 0);
    WANTS("starting the keeper", fkv_start(file, &(fkv_keeping){.no_warmer = 1}), 0);
    session = joined(1);
    WANTS("reads with too little room", fkv_read_many(file, session, keys, COUNT, told, COUNT - 1), -FKV_ROOM_SMALL);
    /* Other requests have taken all places but a few. */
    uint64_t value;
    for (uint64_t i = 0; i < 60; i++) WANTS("a read that waits", fkv_get(session, i * 3 + 1, &value), FKV_PENDING);
    WANTS("reads", fkv_read_many(file, session, keys, COUNT, told, COUNT), 0);
    for (uint64_t i = 0; i < COUNT; i++) {
        WANTS("one of them", told[i].result, i % 3 ? FKV_FOUND : FKV_NONE);
        if (i % 3) WANTS("its value", told[i].value, i + 1);
    }
    /* And all of them: calls that wait make room. */
    for (uint64_t i = 0; i < FKV_MOST_PENDING; i++) WANTS("a read that waits", fkv_get(session, i * 3 + 1, &value), FKV_PENDING);
    WANTS("one too many", fkv_get(session, 1, &value), -FKV_PENDING_FULL);
    WANTS("a put", fkv_put(file, session, 7, 9, &update), FKV_DONE);
    WANTS("no reads", fkv_read_many(file, session, keys, 0, told, 0), 0);
    WANTS("how it fares", fkv_stats_of(file, &stats), 0);
    WANTS("sessions that are joined", stats.joined, 2);
    WANTS("the commits", stats.commits, 1);
    /* A turn's reads are counted when it ends, behind its answers: so the last turn's may still lack. */
    WANTS("whether reads were counted", stats.cold_reads >= COUNT / 2, true);
    WANTS("the bytes of the file", stats.file_bytes > FKV_IMAGE_SIZE, true);
    WANTS("why it has stopped", stats.stopped, 0);
    WANTS("a commit", fkv_commit_and_wait(file, session), 0);
    WANTS("how it fares", fkv_stats_of(file, &stats), 0);
    WANTS("the bytes of the commit", stats.commit_bytes > 0, true);
    WANTS("whether it took time", stats.commit_us > 0, true);
    WANTS("leaving", fkv_leave(file, session), 0);
    WANTS("closing", fkv_close_file(file), 0);
}

/* A session that doesn't refresh holds a commit up, and is told. */
static void late(void) {
    fkv_stats stats;
    uint64_t ticket;
    open_at("late", &(fkv_wish){.keys = 10, .sessions = 3}, &(fkv_keeping){0});
    fkv_session *session = joined(0), *other = joined(2);
    WANTS("asking for a commit", fkv_ask_commit(file, &ticket), 0);
    WANTS("waiting for it", fkv_wait_commit_for(file, ticket, NULL, 20), FKV_PENDING);
    do {
        nanosleep(&(struct timespec){0, 1000000}, NULL);
        WANTS("how it fares", fkv_stats_of(file, &stats), 0);
    } while (stats.in_hand_us < 1000);
    WANTS("who is late", stats.late, 5);
    for (int i = 0; i < 100; i++) WANTS("a tick", fkv_tick(file, session), 0);
    WANTS("how it fares", fkv_stats_of(file, &stats), 0);
    WANTS("who is late then", stats.late, 4);
    WANTS("whether the commit goes on", stats.in_hand_us > 1000, true);
    WANTS("leaving", fkv_leave(file, other), 0);
    WANTS("waiting for it", fkv_wait_commit(file, ticket, session), 0);
    WANTS("how it fares", fkv_stats_of(file, &stats), 0);
    WANTS("who is late", stats.late, 0);
    WANTS("whether a commit goes on", stats.in_hand_us, 0);
    WANTS("leaving", fkv_leave(file, session), 0);
    WANTS("closing", fkv_close_file(file), 0);
}

/*
 * Adds to 1,000 keys of a store of default sizes. They take a microsecond of their thread at most. A busy machine leaves it less time, so
 * what they take by the clock is bounded where seconds are given.
 */
static void speed(double time, double least) {
    fkv_keeping keeping = {.commit_ms = 50, .log_commits = 10};
    uint64_t random = 1, count = 0;
    open_at("speed", NULL, &keeping);
    fkv_session *session = joined(0);
    double begun = seconds(CLOCK_MONOTONIC), cpu = seconds(CLOCK_THREAD_CPUTIME_ID);
    while (seconds(CLOCK_MONOTONIC) < begun + time) {
        for (int i = 0; i < 1000; i++, count++) {
            random = random * 6364136223846793005u + 1442695040888963407u;
            WANTS("an increment", fkv_increment(file, session, (random >> 33) % 1000, 1, NULL), FKV_DONE);
            WANTS("a tick", fkv_tick(file, session), 0);
        }
    }
    double rate = (double)count / (seconds(CLOCK_MONOTONIC) - begun);
    cpu = (double)count / (seconds(CLOCK_THREAD_CPUTIME_ID) - cpu);
    if (rate < least || cpu < 1e6) fprintf(stderr, "%.0f adds a second, and %.0f for a second of its processor\n", rate, cpu);
    WANTS("whether adds go fast", rate >= least, true);
    WANTS("whether they take their thread little time", cpu >= 1e6, true);
    printf("1,000 keys on default sizes, with commits: %.0f adds a second, %.0f for a second of its processor\n", rate, cpu);
    WANTS("leaving", fkv_leave(file, session), 0);
    WANTS("closing", fkv_close_file(file), 0);
}

int main(int count, char **words) {
    if (count < 2 || count > 3) return 2;
    double time = count > 2 ? strtod(words[2], NULL) : 1;
    folder = words[1];
    alarm(MOST_SECONDS);
    texts();
    order(time);
    merges_together();
    no_keeper();
    spent();
    goes_on();
    full();
    closing();
    idle();
    sizes();
    many();
    late();
    speed(time, count > 2 ? 1e6 : 1e4);
    return 0;
}
