/*
 * What Linux shows after a failed sync needn't be on the disk, and no later sync writes it: lost FOLDER.
 *
 * A file is what readers see, and another one what the disk has. A sync that succeeds brings what was written since the last one, of
 * whichever end, to the disk. One that fails brings nothing there, and forgets it.
 */
#define _GNU_SOURCE
#include "fkv_posix.h"
#include "tests.h"

#include <errno.h>
#include <fcntl.h>
#include <pthread.h>
#include <stdbool.h>
#include <string.h>
#include <sys/stat.h>
#include <sys/syscall.h>
#include <unistd.h>

enum { MOST_WRITES = 1000, MOST_SYNCS = 20, KEYS = 10, PATH_ROOM = 500, SLOTS = 512, SLOTS_SIZE = 1024 };

static const fkv_shape SHAPE = {3, 16, 8, 4, 2, 4, 64};
static char path[PATH_ROOM], disk_path[PATH_ROOM];

/* The device. The keeper's thread calls it too. */
static pthread_mutex_t lock = PTHREAD_MUTEX_INITIALIZER;
static bool is_watched;
static int disk = -1;
static uint64_t syncs, fails_at, writes;
static int refusal; /* of the next write */
static struct {
    off_t place;
    size_t length;
} unsynced[MOST_WRITES];

static bool is_store(int fd) {
    struct stat known;
    return is_watched && fstat(fd, &known) == 0 && S_ISREG(known.st_mode) && fd != disk;
}

/* The library's calls come here, before those of the C library. */
ssize_t pwrite(int fd, const void *bytes, size_t length, off_t place) {
    pthread_mutex_lock(&lock);
    int refused = is_store(fd) ? refusal : 0;
    if (is_store(fd) && !refused) {
        WANTS("whether writes fit", writes < MOST_WRITES, true);
        unsynced[writes].place = place;
        unsynced[writes++].length = length;
    }
    pthread_mutex_unlock(&lock);
    errno = refused;
    return refused ? -1 : (ssize_t)syscall(SYS_pwrite64, fd, bytes, length, place);
}

/* Brings what was written to the disk, or forgets it. */
static int sync_file(int fd) {
    static uint8_t bytes[1 << 20];
    pthread_mutex_lock(&lock);
    bool fails = ++syncs == fails_at;
    for (uint64_t i = 0; i < writes && !fails; i++) {
        ssize_t length = pread(fd, bytes, unsynced[i].length, unsynced[i].place);
        WANTS("reading what was written", length, unsynced[i].length);
        WANTS("bringing it to the disk", syscall(SYS_pwrite64, disk, bytes, length, unsynced[i].place), length);
    }
    writes = 0;
    pthread_mutex_unlock(&lock);
    errno = EIO;
    return fails ? -1 : 0;
}

int fsync(int fd) { return is_store(fd) ? sync_file(fd) : (int)syscall(SYS_fsync, fd); }

int fdatasync(int fd) { return is_store(fd) ? sync_file(fd) : (int)syscall(SYS_fdatasync, fd); }

/* A new store, and a disk that has all of it. */
static void begin(void) {
    uint8_t image[FKV_IMAGE_SIZE];
    is_watched = false;
    unlink(path);
    unlink(disk_path);
    if (disk >= 0) close(disk);
    WANTS("making a file", fkv_make_file(path, &SHAPE), 0);
    int fd = open(path, O_RDONLY);
    WANTS("reading it", read(fd, image, sizeof image), sizeof image);
    close(fd);
    disk = open(disk_path, O_RDWR | O_CREAT | O_TRUNC, 0666);
    WANTS("making the disk's file", write(disk, image, sizeof image), sizeof image);
    writes = syncs = fails_at = 0;
    is_watched = true;
}

/* Opens the store, adds to some keys, and asks for a commit: its result. */
static int32_t live(void) {
    fkv_file *file;
    fkv_session *session;
    fkv_update told;
    WANTS("opening", fkv_open_file(path, NULL, &file), 0);
    WANTS("starting the keeper", fkv_start(file, NULL), 0);
    WANTS("joining", fkv_join(file, 0, &session), 0);
    for (uint64_t key = 0; key < KEYS; key++) WANTS("an add", fkv_add(session, key, 1, &told) >= 0, true);
    int32_t result = fkv_commit_and_wait(file, session);
    fkv_abandon(file, session);
    WANTS("dropping", fkv_drop_file(file), 0);
    return result;
}

/* What the opening of a file tells: the number and the first point of its last commit. */
static uint64_t opened(const char *name, uint64_t *point) {
    uint64_t points[FKV_MOST_SESSIONS];
    fkv_file *file;
    WANTS("opening", fkv_open_file(name, NULL, &file), 0);
    uint64_t number = fkv_last_commit(file, points);
    *point = points[0];
    WANTS("closing", fkv_close_file(file), 0);
    return number;
}

/* What an opening tells, a power cut leaves. */
static void agrees(void) {
    uint64_t point, left;
    uint64_t number = opened(path, &point);
    is_watched = false;
    WANTS("the commit that the disk has", opened(disk_path, &left), number);
    WANTS("its point", left, point);
    is_watched = true;
}

/* A commit fails at each of its syncs in turn, and the store is opened anew. A later life's commits are whole. */
static void failing(void) {
    bool ends = false;
    for (uint64_t at = 1; !ends; at++) {
        WANTS("whether a commit's syncs end", at < MOST_SYNCS, true);
        begin();
        WANTS("a commit", live(), 0);
        /* (the opening's own sync isn't one of them) */
        fails_at = syncs + 1 + at;
        ends = live() == 0;
        fails_at = 0;
        agrees();
        WANTS("a later commit", live(), 0);
        agrees();
    }
}

/* An opening's own sync fails, and the next one writes the slots anew. */
static void opening(void) {
    fkv_file *file;
    begin();
    WANTS("a commit", live(), 0);
    fails_at = syncs + 1;
    WANTS("opening", fkv_open_file(path, NULL, &file), -FKV_DEVICE);
    agrees();
    refusal = ENOSPC;
    errno = 0;
    WANTS("opening where no write is taken", fkv_open_file(path, NULL, &file), -FKV_DEVICE);
    WANTS("its errno", errno, ENOSPC);
    refusal = 0;
    agrees();
}

/* An opening writes both slots as they are, and nothing to a file that is no store. */
static void foreign(void) {
    fkv_file *file;
    begin();
    fails_at = 1;
    WANTS("opening", fkv_open_file(path, NULL, &file), -FKV_DEVICE);
    fails_at = 0;
    int fd = open(path, O_WRONLY);
    for (size_t i = 0; i < 2; i++) {
        writes = 0;
        refusal = EIO;
        int32_t wanted = i ? -FKV_NOT_A_STORE : -FKV_DEVICE;
        WANTS("opening", fkv_open_file(path, NULL, &file), wanted);
        refusal = 0;
        WANTS("making it foreign", syscall(SYS_pwrite64, fd, "fkvstor", 7, 0), 7);
    }
    WANTS("making it short", ftruncate(fd, 0), 0);
    refusal = EIO;
    WANTS("opening an empty file", fkv_open_file(path, NULL, &file), -FKV_NOT_A_STORE);
    refusal = 0;
    close(fd);
    begin();
    WANTS("opening", fkv_open_file(path, NULL, &file), 0);
    WANTS("closing", fkv_close_file(file), 0);
    WANTS("where an opening writes", unsynced[0].place, SLOTS);
    WANTS("how much", unsynced[0].length, SLOTS_SIZE);
}

int main(int count, char **words) {
    if (count != 2) return 2;
    snprintf(path, sizeof path, "%s/lost", words[1]);
    snprintf(disk_path, sizeof disk_path, "%s/disk", words[1]);
    failing();
    opening();
    foreign();
    return 0;
}
