/*
 * Room that runs out while commits run: room FOLDER. Threads add to ascending keys, as fast as they can, until the index or the log has no
 * room left for calls. Each add is done or refused then, and none waits for ever. What was told as done is in a commit, in this life and in the
 * next one.
 */
#define _POSIX_C_SOURCE 200809L
#include "fkv_posix.h"
#include "tests.h"

#include <fcntl.h>
#include <pthread.h>
#include <stdatomic.h>
#include <stdbool.h>
#include <string.h>
#include <time.h>
#include <unistd.h>

enum { WORKERS = 4, KEYS = 1 << 13, REFUSED = 512, OVERFLOW_PLACE = 48, MOST_SECONDS = 240, PATH_ROOM = 500 };

/* The index is full first; and the log is, whose calls leave 65 * 5 * 5 records, as the file has five sessions. */
static const fkv_shape FEW_BUCKETS = {8, 64, 16, 8, 4, 64, 4096}, SHORT_LOG = {10, 64, 16, 8, 4, 1024, 48};
static const fkv_keeping KEEPING = {.commit_ms = 10, .log_commits = 3};
static const char *folder;
static fkv_file *file;
/* So many adds of each key were done, in all the store's life. */
static atomic_uint done[KEYS];

/* How threads add. */
enum way {
    WAITS,    /* for each add, by the calls that do */
    SETTLES,  /* in the end, what has waited */
    GIVES_UP  /* and leaves what waits to the keeper */
};

struct worker {
    pthread_t thread;
    int32_t full;      /* the refusal that is to come */
    uint64_t keys;     /* after so many it begins with the first key again, if it isn't 0 */
    enum way way;
    uint64_t refused;  /* adds */
    uint64_t accepted; /* the last serial */
    uint64_t pending[FKV_MOST_PENDING]; /* keys of adds that wait, and their serials: 0 where there is none */
    uint64_t serials[FKV_MOST_PENDING];
};

static const char *path_of(const char *name) {
    static char path[PATH_ROOM];
    snprintf(path, sizeof path, "%s/%s", folder, name);
    return path;
}

static fkv_stats stats_now(void) {
    fkv_stats stats;
    WANTS("how it fares", fkv_stats_of(file, &stats), 0);
    return stats;
}

static fkv_session *joined(void) {
    fkv_session *session;
    WANTS("joining", fkv_join(file, FKV_ANY_SESSION, &session), 0);
    return session;
}

/* ---- Adds ----------------------------------------------------------------------------------------------------------------------- */

static void note_pending(struct worker *worker, uint64_t key, uint64_t serial) {
    int at = 0;
    while (worker->serials[at]) at++;
    worker->pending[at] = key;
    worker->serials[at] = serial;
}

static void note_finished(void *its, const fkv_finished *finished) {
    struct worker *worker = its;
    WANTS("what is finished", finished->kind, FKV_UPDATED);
    int at = 0;
    while (worker->serials[at] != finished->name) at++;
    worker->serials[at] = 0;
    atomic_fetch_add(&done[worker->pending[at]], 1);
}

/* Adds without waiting, but where 64 adds wait already. A settling that ends at once may come to no refresh. */
static int32_t add(struct worker *worker, fkv_session *session, uint64_t key, fkv_update *told) {
    int32_t result;
    fkv_seen seen;
    while ((result = fkv_add(session, key, 1, told)) == -FKV_PENDING_FULL) {
        WANTS("settling for a moment", fkv_settle_for(file, session, 1, note_finished, worker) >= 0, true);
        WANTS("a refresh", fkv_refresh(session, &seen), 0);
    }
    return result;
}

static void add_once(struct worker *worker, fkv_session *session, uint64_t key) {
    fkv_update told;
    int32_t result = worker->way == WAITS ? fkv_increment(file, session, key, 1, &told) : add(worker, session, key, &told);
    if (result == FKV_PENDING) note_pending(worker, key, told.serial);
    else if (result == FKV_DONE) atomic_fetch_add(&done[key], 1);
    else WANTS("why an add is refused", result, worker->full);
    if (result >= 0) worker->accepted = told.serial;
    worker->refused += result < 0;
}

/* Refreshes the session, and polls it now and then. */
static void go_on(struct worker *worker, fkv_session *session, uint64_t adds) {
    fkv_seen seen;
    if (adds % 8) return;
    WANTS("a refresh", fkv_refresh(session, &seen), 0);
    if (adds % 64 == 0) WANTS("polling once", fkv_settle_for(file, session, 0, note_finished, worker) >= 0, true);
}

/* What waits is done by the keeper. */
static void give_up(struct worker *worker, fkv_session *session) {
    for (int i = 0; i < FKV_MOST_PENDING; i++) {
        if (worker->serials[i]) atomic_fetch_add(&done[worker->pending[i]], 1);
    }
    fkv_abandon(file, session);
}

/* All that was told as done is in a commit, and nothing is left. */
static void settle(struct worker *worker, fkv_session *session) {
    uint64_t serial, durable;
    WANTS("settling", fkv_settle(file, session, note_finished, worker), 0);
    for (int i = 0; i < FKV_MOST_PENDING; i++) WANTS("whether an add is left", worker->serials[i], 0);
    WANTS("a commit", fkv_commit_and_wait(file, session), 0);
    WANTS("the last serial", fkv_serial(session, &serial), 0);
    WANTS("whether that is the last one that was told", serial, worker->accepted);
    WANTS("what is durable", fkv_durable(session, &durable), 0);
    WANTS("that serial", durable, serial);
    WANTS("leaving", fkv_leave(file, session), 0);
}

/* Adds to ascending keys, and goes on for a while where some were refused: others find room in their own buckets. */
static void *fill(void *its) {
    struct worker *worker = its;
    fkv_session *session = joined();
    for (uint64_t i = 0; worker->refused < REFUSED; i++) {
        uint64_t key = worker->keys ? i % worker->keys : i;
        WANTS("whether it is full in time", key < KEYS, true);
        add_once(worker, session, key);
        go_on(worker, session, i);
    }
    if (worker->way == GIVES_UP) give_up(worker, session);
    else settle(worker, session);
    return NULL;
}

/* ---- Lives ---------------------------------------------------------------------------------------------------------------------- */

static void wants_values(void) {
    fkv_session *session = joined();
    for (uint64_t key = 0; key < KEYS; key++) {
        uint64_t value = 0;
        WANTS("a read", fkv_read(file, session, key, &value), done[key] ? FKV_FOUND : FKV_NONE);
        WANTS("a value", value, done[key]);
        WANTS("a refresh", fkv_refresh(session, &(fkv_seen){0}), 0);
    }
    WANTS("leaving", fkv_leave(file, session), 0);
}

static void open_at(const char *name, const fkv_keeping *keeping) {
    WANTS("opening", fkv_open_file(path_of(name), NULL, &file), 0);
    WANTS("starting the keeper", fkv_start(file, keeping), 0);
}

/* Nothing waits any more, and commits go on. The next life has all that was told as done. */
static void ends_well(const char *name) {
    uint64_t points[FKV_MOST_SESSIONS], sum = 0, all = 0;
    fkv_stats stats = stats_now();
    for (int i = 0; i < FKV_REASONS; i++) WANTS("what is pending", stats.pending[i], 0);
    WANTS("a commit", fkv_commit_and_wait(file, NULL), 0);
    WANTS("another one", fkv_commit_and_wait(file, NULL), 0);
    wants_values();
    WANTS("closing", fkv_close_file(file), 0);
    open_at(name, NULL);
    fkv_last_commit(file, points);
    for (int i = 0; i < FKV_MOST_SESSIONS; i++) sum += points[i];
    for (uint64_t key = 0; key < KEYS; key++) all += done[key];
    WANTS("the points' sum", sum, all);
    wants_values();
    WANTS("closing", fkv_close_file(file), 0);
}

/* So many threads fill the open store. */
static void fill_by(int threads, enum way way, int32_t full, uint64_t keys) {
    static struct worker workers[WORKERS];
    for (int i = 0; i < KEYS; i++) atomic_store(&done[i], 0);
    for (int i = 0; i < threads; i++) {
        workers[i] = (struct worker){.full = full, .keys = keys, .way = way};
        WANTS("a thread", pthread_create(&workers[i].thread, NULL, fill, &workers[i]), 0);
    }
    for (int i = 0; i < threads; i++) pthread_join(workers[i].thread, NULL);
}

/* A store of this shape is filled. What its calls leave is there for its polls, and nothing else. */
static void fills(const char *name, const fkv_shape *shape, int32_t full, uint64_t keys, int threads, enum way way) {
    unlink(path_of(name));
    WANTS("making a file", fkv_make_file(path_of(name), shape), 0);
    open_at(name, &KEEPING);
    fkv_shape its = fkv_shape_of(file);
    WANTS("whether its shape is as it was asked for", memcmp(&its, shape, sizeof its), 0);
    fill_by(threads, way, full, keys);
    fkv_stats stats = stats_now();
    uint64_t sessions = shape->sessions + 1;
    WANTS("whether polls have overflow buckets left", stats.overflow < shape->overflow + 65 * sessions, true);
    WANTS("whether they have records left", stats.tail < shape->page * shape->disk_pages, true);
    if (full == -FKV_INDEX_FULL) WANTS("whether calls have taken theirs", stats.overflow >= shape->overflow, true);
    else WANTS("whether calls have taken theirs", stats.tail >= shape->page * shape->disk_pages - 65 * sessions * sessions, true);
    ends_well(name);
}

/* A file of an older library has no more overflow buckets than it was asked for, and these are fewer than calls leave. */
static void older(int threads) {
    unlink(path_of("older"));
    WANTS("making a file", fkv_make_file(path_of("older"), &FEW_BUCKETS), 0);
    int fd = open(path_of("older"), O_WRONLY);
    WANTS("taking buckets away", pwrite(fd, &FEW_BUCKETS.overflow, sizeof FEW_BUCKETS.overflow, OVERFLOW_PLACE), sizeof FEW_BUCKETS.overflow);
    close(fd);
    open_at("older", &KEEPING);
    WANTS("the overflow buckets of calls", fkv_shape_of(file).overflow, 0);
    fill_by(threads, SETTLES, -FKV_INDEX_FULL, 0);
    ends_well("older");
}

int main(int count, char **words) {
    if (count != 2) return 2;
    folder = words[1];
    alarm(MOST_SECONDS);
    for (int threads = 1; threads <= WORKERS; threads *= 2) {
        for (enum way way = WAITS; way <= GIVES_UP; way++) {
            fills("index", &FEW_BUCKETS, -FKV_INDEX_FULL, 0, threads, way);
            fills("log", &SHORT_LOG, -FKV_LOG_FULL, way == SETTLES ? 0 : 300, threads, way);
        }
        older(threads);
    }
    return 0;
}
