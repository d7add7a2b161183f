/*
 * Reads beside the syncs of commits and flushes: serving FOLDER. While a sync is under way that a commit or a flush rests before, records are read of
 * the file for who waits.
 * If such a read fails, all are told with its errno: who reads, who waits for the commit, and who asks later. If such a sync fails, that is told with
 * its errno, it isn't made again, and the commit isn't finished.
 */
#define _GNU_SOURCE
#include "fkv_posix.h"
#include "tests.h"

#include <errno.h>
#include <pthread.h>
#include <stdatomic.h>
#include <stdbool.h>
#include <sys/syscall.h>
#include <sys/uio.h>
#include <time.h>
#include <unistd.h>

enum { KEYS = 1200, OTHERS = 800, SYNC_NS = 20000000, SERVED = 50, COMMITS = 6, MOST_READS = 1000000, MOST_SYNCS = 16, MOST_SECONDS = 120, PATH_ROOM = 500 };

/* Small pages and little memory, so that most records lie in the file alone. */
static const fkv_shape SHAPE = {10, 16, 8, 4, 3, 64, 16384};
static fkv_file *file;
static atomic_bool syncs_are_slow, reads_fail;
static atomic_int syncing, served, syncs_left = -1, failed, failed_reads;

/* The library's syncs come here, before those of the C library: they take long, or fail from some of them on. */
int fdatasync(int fd) {
    if (atomic_load(&syncs_left) == 0) {
        atomic_fetch_add(&failed, 1);
        errno = ENXIO;
        return -1;
    }
    if (atomic_load(&syncs_left) > 0) atomic_fetch_sub(&syncs_left, 1);
    atomic_fetch_add(&syncing, 1);
    if (atomic_load(&syncs_are_slow)) nanosleep(&(struct timespec){0, SYNC_NS}, NULL);
    int result = (int)syscall(SYS_fdatasync, fd);
    atomic_fetch_sub(&syncing, 1);
    return result;
}

/* No read says whether it waits for a disk: each is one of those below. */
ssize_t preadv2(int fd, const struct iovec *room, int rooms, off_t place, int flags) {
    (void)fd, (void)room, (void)rooms, (void)place, (void)flags;
    errno = EOPNOTSUPP;
    return -1;
}

/* So do its reads of the file. Those beside a sync may fail: turns that only serve make them. */
ssize_t pread(int fd, void *into, size_t length, off_t place) {
    bool is_served = atomic_load(&syncing) > 0;
    if (is_served) atomic_fetch_add(&served, 1);
    if (!is_served || !atomic_load(&reads_fail)) return (ssize_t)syscall(SYS_pread64, fd, into, length, place);
    atomic_fetch_add(&failed_reads, 1);
    errno = ENXIO;
    return -1;
}

static uint64_t random_state = 1;

static uint64_t drawn(void) {
    random_state = random_state * 6364136223846793005u + 1442695040888963407u;
    return random_state >> 33;
}

static fkv_session *joined_as(uint64_t number) {
    fkv_session *session;
    WANTS("joining", fkv_join(file, number, &session), 0);
    return session;
}

static fkv_session *joined(void) { return joined_as(0); }

static void open_and_start(const char *path, uint32_t commit_ms) {
    fkv_keeping keeping = {.commit_ms = commit_ms, .log_commits = 1};
    WANTS("opening", fkv_open_file(path, &(fkv_how){.warm = FKV_COLD}, &file), 0);
    WANTS("starting the keeper", fkv_start(file, &keeping), 0);
}

static void load(const char *path) {
    WANTS("making a file", fkv_make_file(path, &SHAPE), 0);
    open_and_start(path, 1);
    fkv_session *session = joined();
    for (uint64_t key = 0; key < KEYS; key++) {
        WANTS("a put", fkv_put(file, session, key, key + 1, NULL), FKV_DONE);
        WANTS("a tick", fkv_tick(file, session), 0);
    }
    WANTS("leaving", fkv_leave(file, session), 0);
    WANTS("closing", fkv_close_file(file), 0);
}

static void wants_value(fkv_session *session, uint64_t key) {
    uint64_t value = 0;
    WANTS("a read", fkv_read(file, session, key, &value), FKV_FOUND);
    WANTS("its value", value, key + 1);
}

/* Commits follow one another, with slow syncs. Their writes are made in turns of the keeper's thread, which counts the entries that they copy. */
static void serve_beside_syncs(const char *path) {
    fkv_stats first, stats;
    open_and_start(path, 1);
    fkv_session *session = joined();
    WANTS("how it fares", fkv_stats_of(file, &first), 0);
    stats = first;
    atomic_store(&syncs_are_slow, true);
    atomic_store(&served, 0);
    for (int reads = 0; atomic_load(&served) < SERVED || stats.commits < first.commits + COMMITS; reads++) {
        WANTS("whether reads are served beside syncs", reads < MOST_READS, true);
        wants_value(session, drawn() % KEYS);
        WANTS("a tick", fkv_tick(file, session), 0);
        WANTS("how it fares", fkv_stats_of(file, &stats), 0);
        WANTS("the entries that a full commit has copied", stats.entries, first.entries);
    }
    atomic_store(&syncs_are_slow, false);
    WANTS("whether threads helped", stats.helped > 0, true);
    WANTS("leaving", fkv_leave(file, session), 0);
    WANTS("closing", fkv_close_file(file), 0);
}

static atomic_bool ends_puts;

/* Puts until it is told to end, so that pages are flushed one after the other. */
static void *put_on(void *none) {
    fkv_session *session = joined_as(1);
    for (uint64_t i = 0; !atomic_load(&ends_puts); i++) {
        WANTS("a put", fkv_put(file, session, KEYS + i % OTHERS, i, NULL), FKV_DONE);
        WANTS("a tick", fkv_tick(file, session), 0);
    }
    WANTS("leaving", fkv_leave(file, session), 0);
    return none;
}

/* No commit is made: all syncs are those of flushes, and slow. */
static void serve_beside_flushes(const char *path) {
    pthread_t other;
    fkv_stats first, stats;
    open_and_start(path, 0);
    fkv_session *session = joined();
    WANTS("how it fares", fkv_stats_of(file, &first), 0);
    atomic_store(&syncs_are_slow, true);
    atomic_store(&served, 0);
    WANTS("a thread", pthread_create(&other, NULL, put_on, NULL), 0);
    for (int reads = 0; atomic_load(&served) < SERVED; reads++) {
        WANTS("whether reads are served beside flushes", reads < MOST_READS, true);
        wants_value(session, drawn() % KEYS);
        WANTS("a tick", fkv_tick(file, session), 0);
    }
    atomic_store(&syncs_are_slow, false);
    /* (else it would hold up who puts) */
    WANTS("leaving", fkv_leave(file, session), 0);
    atomic_store(&ends_puts, true);
    pthread_join(other, NULL);
    WANTS("how it fares", fkv_stats_of(file, &stats), 0);
    WANTS("how many commits were made", stats.commits, first.commits);
    WANTS("closing", fkv_close_file(file), 0);
}

/* Asks for commits, one after the other, until one is refused. */
static void *commit_on(void *none) {
    int32_t result = 0;
    while (result == 0) {
        errno = 0;
        result = fkv_commit_and_wait(file, NULL);
    }
    int why = errno;
    WANTS("what who waits for the commit is told", result, -FKV_DEVICE);
    WANTS("why", why, ENXIO);
    return none;
}

/* Reads until that is refused, which is told with its errno. */
static void read_on(fkv_session *session) {
    for (int reads = 0;; reads++) {
        uint64_t value = 0;
        WANTS("whether a read beside a sync fails in time", reads < MOST_READS, true);
        errno = 0;
        int32_t result = fkv_read(file, session, drawn() % KEYS, &value);
        int why = errno;
        if (result != FKV_FOUND) {
            WANTS("the read that fails", result, -FKV_DEVICE);
            WANTS("why", why, ENXIO);
            return;
        }
        WANTS("a tick", fkv_tick(file, session), 0);
    }
}

/* A read that fails in a turn that only serves. */
static void tell_a_failed_read(const char *path) {
    pthread_t other;
    open_and_start(path, 0);
    fkv_session *session = joined();
    atomic_store(&syncs_are_slow, true);
    atomic_store(&reads_fail, true);
    WANTS("a thread", pthread_create(&other, NULL, commit_on, NULL), 0);
    read_on(session);
    pthread_join(other, NULL);
    atomic_store(&syncs_are_slow, false);
    atomic_store(&reads_fail, false);
    WANTS("how many reads have failed", atomic_load(&failed_reads), 1);
    errno = 0;
    WANTS("a tick", fkv_tick(file, session), -FKV_DEVICE);
    WANTS("why", errno, ENXIO);
    errno = 0;
    WANTS("the keeper's fault", fkv_keeper_fault(file), -FKV_DEVICE);
    WANTS("why", errno, ENXIO);
    fkv_abandon(file, session);
    WANTS("dropping", fkv_drop_file(file), 0);
}

/* A commit of which this sync fails, and each one behind it would. True where it has as many syncs. */
static bool fails_at(const char *path, int sync) {
    open_and_start(path, 0);
    fkv_session *session = joined();
    WANTS("a put", fkv_put(file, session, 0, 1, NULL), FKV_DONE);
    atomic_store(&failed, 0);
    atomic_store(&syncs_left, sync);
    errno = 0;
    int32_t result = fkv_commit_and_wait(file, session);
    int why = errno;
    bool has_failed = atomic_load(&failed) > 0;
    WANTS("what the commit is told", result, has_failed ? -FKV_DEVICE : 0);
    if (has_failed) WANTS("why", why, ENXIO);
    WANTS("how many syncs have failed", atomic_load(&failed), has_failed ? 1 : 0);
    atomic_store(&syncs_left, -1);
    if (has_failed) {
        fkv_abandon(file, session);
        WANTS("dropping", fkv_drop_file(file), 0);
    } else {
        WANTS("leaving", fkv_leave(file, session), 0);
        WANTS("closing", fkv_close_file(file), 0);
    }
    return has_failed;
}

static void tell_failures(const char *path) {
    int sync = 0;
    while (fails_at(path, sync)) WANTS("whether a commit has so many syncs", sync++ < MOST_SYNCS, true);
    /* the flush's, and those of the slot and of its gate at least */
    WANTS("whether it has some", sync >= 3, true);
    open_and_start(path, 0);
    fkv_session *session = joined();
    for (uint64_t key = 0; key < KEYS; key++) wants_value(session, key);
    WANTS("leaving", fkv_leave(file, session), 0);
    WANTS("closing", fkv_close_file(file), 0);
}

int main(int count, char **words) {
    char path[PATH_ROOM];
    if (count != 2) return 2;
    alarm(MOST_SECONDS);
    snprintf(path, sizeof path, "%s/serving", words[1]);
    load(path);
    serve_beside_syncs(path);
    serve_beside_flushes(path);
    tell_a_failed_read(path);
    tell_failures(path);
    return 0;
}
