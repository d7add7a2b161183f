/* A backup of an open store. */
#define _GNU_SOURCE
#include "fkv_file.h"

#include <errno.h>
#include <linux/fs.h>
#include <stdlib.h>
#include <sys/ioctl.h>
#include <sys/stat.h>
#include <unistd.h>

/* So many bytes are copied at once, each of which is told as progress. */
enum { PIECE = 1 << 20 };

/* A backup that is made. */
struct saving {
    fkv_file *file;
    fkv_progress_fn *progress;
    void *user;
    uint64_t total;
    uint8_t *room; /* of PIECE bytes, for a system that doesn't copy by itself */
};

static int tell_progress(const struct saving *its, off_t done) {
    fkv_progress progress = {FKV_SAVING, (uint64_t)done, its->total};
    if (its->progress) its->progress(its->user, &progress);
    return 0;
}

/* Copies some bytes through memory. How many, or -1. */
static ssize_t copy_by_hand(const struct saving *its, int to, off_t at, size_t length) {
    ssize_t got = pread(its->file->fd, its->room, length, at);
    for (ssize_t done = 0; done < got;) {
        ssize_t put = pwrite(to, its->room + done, (size_t)(got - done), at + done);
        if (put < 0 && errno != EINTR) return -1;
        if (put > 0) done += put;
    }
    return got;
}

/* Copies some bytes. How many, 0 at the end of the file, or -1. */
static ssize_t copy_some(const struct saving *its, int to, off_t at, size_t length) {
    off_t from = at, into = at;
    ssize_t done = copy_file_range(its->file->fd, &from, to, &into, length, 0);
    if (done > 0) return done;
    return copy_by_hand(its, to, at, length);
}

/* Copies all bytes. Holes are passed over. */
static int copy_whole(const struct saving *its, int to) {
    off_t size = (off_t)its->total, end;
    if (ioctl(to, FICLONE, its->file->fd) == 0) return tell_progress(its, size);
    for (off_t at = 0; at < size; at = end) {
        at = lseek(its->file->fd, at, SEEK_DATA);
        if (at < 0 && errno == ENXIO) break;
        end = at < 0 ? at : lseek(its->file->fd, at, SEEK_HOLE);
        if (end < 0) return -1;
        while (at < end) {
            ssize_t done = copy_some(its, to, at, end - at < PIECE ? (size_t)(end - at) : PIECE);
            if (done < 0 && errno == EINTR) continue;
            if (done < 0) return -1;
            if (done == 0) break;
            at += done;
            tell_progress(its, at);
        }
    }
    tell_progress(its, size);
    return ftruncate(to, size);
}

/* Copies the file while nobody makes a turn. */
static int copy_between_turns(void *its_saving, int to) {
    struct saving *its = its_saving;
    struct stat known;
    pthread_mutex_lock(&its->file->lock);
    fkv_take_turn(its->file);
    pthread_mutex_unlock(&its->file->lock);
    int failed = fstat(its->file->fd, &known);
    its->total = failed ? 0 : (uint64_t)known.st_size;
    if (!failed) failed = copy_whole(its, to);
    int why = errno;
    pthread_mutex_lock(&its->file->lock);
    fkv_give_turn(its->file);
    pthread_cond_signal(&its->file->work);
    pthread_mutex_unlock(&its->file->lock);
    errno = why;
    return failed;
}

int32_t fkv_save(fkv_file *file, const char *path, fkv_progress_fn *progress, void *user) {
    struct saving its = {file, progress, user, 0, malloc(PIECE)};
    if (!its.room) return -FKV_MEMORY;
    int failed = fkv_make_beside(path, copy_between_turns, &its);
    int why = errno;
    free(its.room);
    errno = why;
    return failed ? -FKV_DEVICE : 0;
}
