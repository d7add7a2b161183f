/*
 * Backups of an open store, its pairs, and renewals: saving FOLDER. Threads add 1 to keys, and commits run. Each backup is a store whose
 * values are those of its points, and it has the last commit that was finished before. So are the pairs. A renewal has both.
 */
#define _POSIX_C_SOURCE 200809L
#include "fkv_posix.h"
#include "tests.h"

#include <errno.h>
#include <pthread.h>
#include <stdatomic.h>
#include <stdbool.h>
#include <unistd.h>

enum { WORKERS = 3, KEYS = 2000, BACKUPS = 30, MOST_SECONDS = 120, PATH_ROOM = 500 };

/* Little memory, so that records are written and read back meanwhile. */
static const fkv_shape SHAPE = {10, 64, 8, 4, WORKERS, 256, 65536};
static fkv_file *file;
static atomic_bool ends;
static uint64_t told_progress;

/* The library's syncs come here: no power is cut, and disks take long. */
int fsync(int fd) { return fd < 0; }

int fdatasync(int fd) { return fd < 0; }

static void *add(void *its_number) {
    uint64_t random = (uint64_t)(uintptr_t)its_number + 1;
    fkv_session *session;
    WANTS("joining", fkv_join(file, random - 1, &session), 0);
    while (!atomic_load(&ends)) {
        random = random * 6364136223846793005u + 1442695040888963407u;
        WANTS("an add", fkv_increment(file, session, (random >> 33) % KEYS, 1, NULL), FKV_DONE);
        WANTS("a tick", fkv_tick(file, session), 0);
    }
    WANTS("leaving", fkv_leave(file, session), 0);
    return NULL;
}

static void note_progress(void *user, const fkv_progress *progress) {
    (void)user;
    WANTS("what goes on", progress->work, FKV_SAVING);
    WANTS("whether that is within the whole", progress->done >= told_progress && progress->done <= progress->total, true);
    told_progress = progress->done;
}

/* The sum of a store's values is that of its points. Gives its commit. */
static uint64_t checked(const char *path) {
    uint64_t points[FKV_MOST_SESSIONS], value, sum = 0, wanted = 0;
    fkv_session *session;
    fkv_file *backup;
    WANTS("opening a backup", fkv_open_file(path, NULL, &backup), 0);
    WANTS("starting its keeper", fkv_start(backup, NULL), 0);
    WANTS("joining it", fkv_join(backup, 0, &session), 0);
    uint64_t number = fkv_last_commit(backup, points);
    for (int i = 0; i < WORKERS; i++) wanted += points[i];
    for (uint64_t key = 0; key < KEYS; key++) sum += fkv_read(backup, session, key, &value) == FKV_FOUND ? value : 0;
    WANTS("the sum of a backup", sum, wanted);
    WANTS("leaving it", fkv_leave(backup, session), 0);
    WANTS("closing it", fkv_close_file(backup), 0);
    return number;
}

/* ---- Pairs and renewals --------------------------------------------------------------------------------------------------------- */

struct pairs {
    uint64_t count;
    uint64_t sum;
    uint64_t most; /* so many, and then it ends */
    bool seen[KEYS];
};

static int32_t note_pair(void *its, uint64_t key, uint64_t value) {
    struct pairs *pairs = its;
    WANTS("whether a key is one of those", key < KEYS, true);
    WANTS("whether it comes again", pairs->seen[key], false);
    pairs->seen[key] = true;
    pairs->sum += value;
    return ++pairs->count == pairs->most ? 7 : 0;
}

static uint64_t sum_of_points(uint64_t *number) {
    uint64_t points[FKV_MOST_SESSIONS], sum = 0;
    *number = fkv_last_commit(file, points);
    for (int i = 0; i < WORKERS; i++) sum += points[i];
    return sum;
}

/* The pairs that are told while others add are those of some commit in between. */
static void pairs_meanwhile(void) {
    static struct pairs pairs;
    uint64_t number;
    pairs = (struct pairs){0};
    uint64_t before = sum_of_points(&number);
    WANTS("pairs", fkv_each(file, note_pair, &pairs), 0);
    WANTS("whether they have the last commit", pairs.sum >= before, true);
}

static void pairs_at_rest(void) {
    static struct pairs pairs;
    uint64_t number, all = sum_of_points(&number);
    pairs = (struct pairs){0};
    WANTS("pairs", fkv_each(file, note_pair, &pairs), 0);
    WANTS("their sum", pairs.sum, all);
    WANTS("whether there are so many", pairs.count > 5 && pairs.count <= KEYS, true);
    pairs = (struct pairs){.most = 5};
    WANTS("some pairs", fkv_each(file, note_pair, &pairs), 7);
    WANTS("how many they are", pairs.count, 5);
}

static void renewals(const char *path, const char *copy) {
    static const fkv_shape large = {12, 64, 8, 4, WORKERS, 1024, 65536}, small = {2, 4, 8, 4, WORKERS, 0, 1};
    fkv_renewed told;
    unlink(copy);
    WANTS("renewing a store", fkv_renew_file(path, copy, NULL, FKV_AS_THEY_LIE, NULL), 0);
    WANTS("the commit of a renewed store", checked(copy), 1);
    WANTS("renewing it again", fkv_renew_file(path, copy, NULL, FKV_AS_THEY_LIE, NULL), -FKV_DEVICE);
    WANTS("why", errno, EEXIST);
    unlink(copy);
    WANTS("renewing it larger", fkv_renew_file(path, copy, &large, FKV_AS_THEY_LIE, &told), 0);
    WANTS("whether a size was told", told.size > 0, true);
    WANTS("the commit of a renewed store", checked(copy), 1);
    unlink(copy);
    WANTS("renewing it too small", fkv_renew_file(path, copy, &small, FKV_AS_THEY_LIE, &told), -FKV_LOG_FULL);
    WANTS("whether a file is left", access(copy, F_OK), -1);
    WANTS("opening a store", fkv_open_file(path, NULL, &file), 0);
    WANTS("renewing it while it is open", fkv_renew_file(path, copy, NULL, FKV_AS_THEY_LIE, &told), -FKV_DEVICE);
    WANTS("why", errno, EWOULDBLOCK);
    WANTS("closing it", fkv_close_file(file), 0);
}

int main(int count, char **words) {
    char path[PATH_ROOM], copy[PATH_ROOM];
    uint64_t points[FKV_MOST_SESSIONS];
    pthread_t workers[WORKERS];
    fkv_keeping keeping = {.commit_ms = 5, .log_commits = 3};
    if (count != 2) return 2;
    alarm(MOST_SECONDS);
    snprintf(path, sizeof path, "%s/saving", words[1]);
    snprintf(copy, sizeof copy, "%s/copy", words[1]);
    WANTS("making a file", fkv_make_file(path, &SHAPE), 0);
    WANTS("opening it", fkv_open_file(path, NULL, &file), 0);
    WANTS("saving a new store", fkv_save(file, copy, NULL, NULL), 0);
    WANTS("the commit of a new store", checked(copy), 0);
    errno = 0;
    WANTS("saving over a file", fkv_save(file, copy, NULL, NULL), -FKV_DEVICE);
    WANTS("why", errno, EEXIST);
    WANTS("saving in no folder", fkv_save(file, "/nowhere/copy", NULL, NULL), -FKV_DEVICE);
    WANTS("why", errno, ENOENT);
    WANTS("starting the keeper", fkv_start(file, &keeping), 0);
    for (uintptr_t i = 0; i < WORKERS; i++) WANTS("a thread", pthread_create(&workers[i], NULL, add, (void *)i), 0);
    for (int i = 0; i < BACKUPS; i++) {
        unlink(copy);
        told_progress = 0;
        uint64_t before = fkv_last_commit(file, points);
        WANTS("saving", fkv_save(file, copy, note_progress, NULL), 0);
        uint64_t after = fkv_last_commit(file, points);
        WANTS("whether progress was told", told_progress > 0, true);
        uint64_t number = checked(copy);
        WANTS("whether the last commit is there", number >= before && number <= after + 1, true);
        if (i % 5 == 0) pairs_meanwhile();
    }
    atomic_store(&ends, true);
    for (int i = 0; i < WORKERS; i++) pthread_join(workers[i], NULL);
    WANTS("a last commit", fkv_commit_and_wait(file, NULL), 0);
    pairs_at_rest();
    WANTS("closing", fkv_close_file(file), 0);
    WANTS("whether commits went on", checked(path) > 1, true);
    renewals(path, copy);
    return 0;
}
