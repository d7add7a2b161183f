/*
 * Reads of what only the file has: cold FOLDER. A store that is mapped reads them by the mapping, also where the file has grown, and where
 * the store was renewed. Of a slow disk, who reads many keys asks for them ahead, and who finds another thread in a turn asks for his one.
 */
#define _GNU_SOURCE
#include "fkv_posix.h"
#include "tests.h"

#include <errno.h>
#include <fcntl.h>
#include <pthread.h>
#include <stdatomic.h>
#include <stdbool.h>
#include <sys/syscall.h>
#include <sys/uio.h>
#include <time.h>
#include <unistd.h>

enum { KEYS = 600, ROUND = 50000, ROUNDS = 18, LATE = 50, MOST_SECONDS = 240, PATH_ROOM = 500, SLOW_NS = 50000, MOST_ASKED = 10000, PAGE = 4096 };

/* Memory has fewer records than a round of keys, so each put of a round appends one. */
static const fkv_shape SHAPE = {13, 8192, 4, 2, 2, 8192, 4096};
static const char *folder;
static fkv_file *file;
static fkv_session *session;
static long records_read;
/*
 * Whether the disk is slow; the places that it was asked for, of which memory has the last ones, from one on; and records that were read there
 * and not asked for before.
 */
static atomic_bool is_slow;
static pthread_mutex_t lock = PTHREAD_MUTEX_INITIALIZER;
static off_t asked[MOST_ASKED];
static int asked_count, kept_from, unasked;

/* The library's calls come here, before those of the C library. */
int posix_fadvise(int fd, off_t place, off_t length, int advice) {
    WANTS("the advice", advice, POSIX_FADV_WILLNEED);
    WANTS("the length", length, FKV_READ_SIZE);
    pthread_mutex_lock(&lock);
    WANTS("whether there is room", asked_count < MOST_ASKED, true);
    asked[asked_count++] = place;
    pthread_mutex_unlock(&lock);
    return (int)syscall(SYS_fadvise64, fd, place, length, advice);
}

/* Whether memory has what lies there. */
static bool is_kept(off_t place) {
    pthread_mutex_lock(&lock);
    int i = kept_from;
    while (i < asked_count && asked[i] != place) i++;
    bool is_there = !is_slow || i < asked_count;
    pthread_mutex_unlock(&lock);
    return is_there;
}

static void read_slowly(void) {
    pthread_mutex_lock(&lock);
    unasked++;
    pthread_mutex_unlock(&lock);
    nanosleep(&(struct timespec){0, SLOW_NS}, NULL);
}

/* Memory forgets what it was asked for. */
static void forget(void) {
    kept_from = asked_count;
    unasked = 0;
    is_slow = true;
}

/* A read that doesn't wait for the disk. Of a record on two pages it gives the first one's part alone. */
ssize_t preadv2(int fd, const struct iovec *room, int rooms, off_t place, int flags) {
    WANTS("how it reads", flags, RWF_NOWAIT);
    if (is_kept(place)) {
        struct iovec part = {room->iov_base, (size_t)(PAGE - place % PAGE)};
        if (part.iov_len < FKV_READ_SIZE) return (ssize_t)syscall(SYS_preadv2, fd, &part, rooms, place, 0, flags);
        ssize_t got = (ssize_t)syscall(SYS_preadv2, fd, room, rooms, place, 0, flags);
        records_read += got > 0;
        return got;
    }
    errno = EAGAIN;
    return -1;
}

ssize_t pread(int fd, void *into, size_t length, off_t place) {
    records_read += length == FKV_READ_SIZE;
    if (length == FKV_READ_SIZE && !is_kept(place)) read_slowly();
    return (ssize_t)syscall(SYS_pread64, fd, into, length, place);
}

static const char *path_of(const char *name) {
    static char path[PATH_ROOM];
    snprintf(path, sizeof path, "%s/%s", folder, name);
    return path;
}

static void open_store(const char *name, bool is_mapped) {
    fkv_how how = {.mapped = is_mapped, .warm = FKV_COLD};
    WANTS("opening", fkv_open_file(path_of(name), &how, &file), 0);
    WANTS("starting the keeper", fkv_start(file, &(fkv_keeping){.no_warmer = 1}), 0);
    WANTS("joining", fkv_join(file, 0, &session), 0);
}

static void close_store(void) {
    WANTS("leaving", fkv_leave(file, session), 0);
    WANTS("closing", fkv_close_file(file), 0);
}

static void put(uint64_t key, uint64_t value) {
    WANTS("a put", fkv_put(file, session, key, value, NULL), FKV_DONE);
    WANTS("a tick", fkv_tick(file, session), 0);
}

static void make(const char *name) {
    WANTS("making", fkv_make_file(path_of(name), &SHAPE), 0);
    asked_count = kept_from = 0;
    open_store(name, false);
    for (uint64_t key = 0; key < KEYS; key++) put(key, key + 1);
}

static void wants_all_of(fkv_session *its) {
    uint64_t keys[KEYS + 1];
    fkv_each_read told[KEYS + 1];
    for (uint64_t i = 0; i <= KEYS; i++) keys[i] = i;
    WANTS("reads", fkv_read_many(file, its, keys, KEYS + 1, told, KEYS + 1), 0);
    for (uint64_t i = 0; i < KEYS; i++) {
        WANTS("one of many", told[i].result, FKV_FOUND);
        WANTS("its value", told[i].value, i + 1);
    }
    WANTS("a key that was never put", told[KEYS].result, FKV_NONE);
}

static void wants_all(void) { wants_all_of(session); }

static void wants_value(uint64_t key, uint64_t wanted) {
    uint64_t value = 0;
    WANTS("a read", fkv_read(file, session, key, &value), FKV_FOUND);
    WANTS("its value", value, wanted);
}

static void put_rounds(int rounds) {
    for (int i = 0; i < rounds; i++) {
        for (uint64_t key = 0; key < ROUND; key++) put(2 * KEYS + key, key);
    }
}

/* By the mapping: no record is read otherwise, also where the file has grown past what was mapped first. */
static void mapped(void) {
    fkv_stats stats;
    make("mapped");
    close_store();
    open_store("mapped", true);
    records_read = 0;
    wants_all();
    put_rounds(ROUNDS);
    for (uint64_t i = 0; i < LATE; i++) put(KEYS + 1 + i, i);
    put_rounds(1);
    for (uint64_t i = 0; i < LATE; i++) wants_value(KEYS + 1 + i, i);
    for (uint64_t key = 0; key < KEYS; key++) wants_value(key, key + 1);
    WANTS("how it fares", fkv_stats_of(file, &stats), 0);
    /* A turn's reads are counted when it ends, behind its answers: so the last turn's may still lack. */
    WANTS("whether records were read back", stats.cold_reads >= 2 * KEYS, true);
    WANTS("whether the file is larger than what was mapped first", stats.file_bytes > 1 << 24, true);
    WANTS("what was read without the mapping", records_read, 0);
    WANTS("leaving", fkv_leave(file, session), 0);
    WANTS("renewing it", fkv_renew_here(file, NULL, NULL), 0);
    WANTS("joining", fkv_join(file, 0, &session), 0);
    wants_all();
    WANTS("what was read without the mapping", records_read, 0);
    close_store();
}

/* What memory has isn't asked for, however slow the disk is. */
static void asks_for_nothing_late(void) {
    uint64_t keys[LATE];
    fkv_each_read told[LATE];
    int before = asked_count;
    for (uint64_t i = 0; i < LATE; i++) keys[i] = 2 * KEYS + ROUND - LATE + i;
    WANTS("reads", fkv_read_many(file, session, keys, LATE, told, LATE), 0);
    for (uint64_t i = 0; i < LATE; i++) WANTS("its value", told[i].value, ROUND - LATE + i);
    WANTS("what was asked for of these", asked_count - before, 0);
}

/* Two reads have to wait for the disk. All later ones are of what was asked for. */
static void ahead(void) {
    fkv_stats stats;
    make("ahead");
    put_rounds(1);
    forget();
    wants_all();
    is_slow = false;
    WANTS("how it fares", fkv_stats_of(file, &stats), 0);
    WANTS("whether what memory has let go was asked for", asked_count >= KEYS - 2, true);
    WANTS("what was asked for", stats.fetched, asked_count);
    WANTS("whether two alone were read unasked", unasked <= 2, true);
    asks_for_nothing_late();
    WANTS("where the log begins", stats.begin, 1);
    WANTS("where it ends", stats.tail, 1 + KEYS + ROUND);
    WANTS("whether records have left memory", stats.head > KEYS && stats.head <= stats.flushed, true);
    WANTS("whether the others lie in their order", stats.flushed <= stats.read_only && stats.read_only <= stats.tail, true);
    WANTS("overflow buckets", stats.overflow <= SHAPE.overflow, true);
}

static void *reads_all(void *its) {
    wants_all_of(its);
    return NULL;
}

/* Two threads read many, and ask for what they read. */
static void ahead_by_two(void) {
    fkv_session *other;
    fkv_stats stats;
    pthread_t thread;
    int before = asked_count;
    WANTS("joining", fkv_join(file, 1, &other), 0);
    forget();
    WANTS("starting a thread", pthread_create(&thread, NULL, reads_all, other), 0);
    wants_all();
    pthread_join(thread, NULL);
    is_slow = false;
    WANTS("how it fares", fkv_stats_of(file, &stats), 0);
    WANTS("whether more was asked for than one reads", asked_count - before > KEYS, true);
    WANTS("what was asked for", stats.fetched, asked_count);
    WANTS("leaving", fkv_leave(file, other), 0);
}

static void *reads_each(void *its) {
    for (uint64_t key = 0; key < KEYS; key++) {
        uint64_t value = 0;
        WANTS("a read", fkv_read(file, its, key, &value), FKV_FOUND);
        WANTS("its value", value, key + 1);
    }
    return NULL;
}

/* Two threads read keys one by one. While one of them is in a turn, the other asks for its own. */
static void alone_by_two(void) {
    fkv_session *other;
    fkv_stats stats;
    pthread_t thread;
    int before = asked_count;
    WANTS("joining", fkv_join(file, 1, &other), 0);
    forget();
    WANTS("starting a thread", pthread_create(&thread, NULL, reads_each, other), 0);
    reads_each(session);
    pthread_join(thread, NULL);
    is_slow = false;
    WANTS("how it fares", fkv_stats_of(file, &stats), 0);
    WANTS("whether one has asked beside the other's turn", asked_count > before, true);
    WANTS("what was asked for", stats.fetched, asked_count);
    WANTS("leaving", fkv_leave(file, other), 0);
    close_store();
}

int main(int count, char **words) {
    if (count != 2) return 2;
    folder = words[1];
    alarm(MOST_SECONDS);
    mapped();
    ahead();
    ahead_by_two();
    alone_by_two();
    return 0;
}
