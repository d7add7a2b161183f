/* A store in a file: making, opening, closing, and handing out its sessions. */
#define _GNU_SOURCE
#include "fkv_file.h"

#include <errno.h>
#include <fcntl.h>
#include <inttypes.h>
#include <limits.h>
#include <stdio.h>
#include <stdlib.h>
#include <string.h>
#include <sys/file.h>
#include <sys/mman.h>
#include <sys/stat.h>
#include <time.h>
#include <unistd.h>

/* A file is read in pieces of so many bytes, each of which is told as progress. */
enum { PIECE = 1 << 20 };

/* A name that is free is sought so many times. It goes by the time, so nearly always the first is. */
enum { MOST_NAMES = 100 };

/* Bytes of the file before the index, and of a slot of the index: it has two places, of 16 bytes each. */
enum { INDEX_PLACE = 1536, SLOT_SIZE = 32, BUCKET_SLOTS = 7 };

/* ---- Calls of the file ---------------------------------------------------------------------------------------------------- */

static bool fits_file(uint64_t place, uint64_t length) {
    return place <= INT64_MAX && length <= INT64_MAX - place;
}

/* Reads bytes from a place on, with zeros past the end. */
static int read_at(int fd, uint64_t place, uint8_t *into, size_t length) {
    size_t done = 0;
    while (done < length) {
        ssize_t got = pread(fd, into + done, length - done, (off_t)(place + done));
        if (got == 0) break;
        if (got > 0) {
            done += (size_t)got;
        } else if (errno != EINTR) {
            return -1;
        }
    }
    memset(into + done, 0, length - done);
    return 0;
}

/* Writes all of the bytes, or fails. A file that ends below them grows. */
static int write_at(int fd, uint64_t place, const uint8_t *bytes, size_t length) {
    size_t done = 0;
    while (done < length) {
        ssize_t put = pwrite(fd, bytes + done, length - done, (off_t)(place + done));
        if (put > 0) {
            done += (size_t)put;
        } else if (put == 0) {
            errno = ENOSPC;
            return -1;
        } else if (errno != EINTR) {
            return -1;
        }
    }
    return 0;
}

int fkv_call_file(int fd, int32_t call, const fkv_turned *turned, uint8_t into[FKV_MOST_READ]) {
    if (call == FKV_SYNC) return fdatasync(fd);
    if (!fits_file(turned->place, turned->length)) {
        errno = EFBIG;
        return -1;
    }
    if (call == FKV_WRITE) return write_at(fd, turned->place, turned->bytes, (size_t)turned->length);
    if (call == FKV_READ && turned->length <= FKV_MOST_READ) return read_at(fd, turned->place, into, (size_t)turned->length);
    errno = EINVAL;
    return -1;
}

int32_t fkv_turn_file(int fd, fkv_keeper *keeper, fkv_turned *turned, uint64_t *points, size_t room, uint64_t *written) {
    uint8_t into[FKV_MOST_READ] = {0};
    int32_t call = fkv_turn(keeper, turned, points, room);
    while (call > FKV_OVER) {
        int failed = fkv_call_file(fd, call, turned, into);
        if (!failed && call == FKV_WRITE && written) *written += turned->length;
        call = fkv_io_done(keeper, failed != 0, into, call == FKV_READ ? (size_t)turned->length : 0, turned, points, room);
    }
    return call;
}

/* Makes a name in a folder durable. A folder that can't be read can't be synced. */
int fkv_sync_folder_of(const char *path) {
    const char *slash = strrchr(path, '/');
    char *folder = slash ? strndup(path, slash == path ? 1 : (size_t)(slash - path)) : strdup(".");
    if (!folder) return -1;
    int fd = open(folder, O_RDONLY | O_DIRECTORY | O_CLOEXEC);
    free(folder);
    if (fd < 0) return -1;
    int failed = fsync(fd);
    int why = errno;
    close(fd);
    errno = why;
    return failed;
}

/* ---- Making --------------------------------------------------------------------------------------------------------------- */

/* Gives a file its name, if no file has it. */
static int put_in_place(const char *from, const char *to) {
    if (renameat2(AT_FDCWD, from, AT_FDCWD, to, RENAME_NOREPLACE) == 0) return 0;
    if (errno != EINVAL && errno != ENOSYS) return -1;
    /* A file system without such a rename: a link doesn't replace either. The first name may stay, since the file is in place. */
    if (link(from, to)) return -1;
    unlink(from);
    return 0;
}

/* A number that goes by the time and the process: another making, also one that was cut short, hardly has the same. */
static uint32_t number_of_making(void) {
    struct timespec time;
    clock_gettime(CLOCK_REALTIME, &time);
    uint64_t nanoseconds = (uint64_t)time.tv_sec * 1000000000 + (uint64_t)time.tv_nsec;
    return (uint32_t)((nanoseconds ^ (uint64_t)getpid() << 32) * UINT64_C(0x9e3779b97f4a7c15) >> 32);
}

/* A new file beside the path, open for writing. Its name is put into `name`. */
static int open_beside(const char *path, char *name, size_t room) {
    for (int i = 0; i < MOST_NAMES; i++) {
        int length = snprintf(name, room, "%s.new%08" PRIx32, path, number_of_making());
        if (length < 0 || (size_t)length >= room) {
            errno = ENAMETOOLONG;
            return -1;
        }
        int fd = open(name, O_WRONLY | O_CREAT | O_EXCL | O_CLOEXEC, 0666);
        if (fd >= 0 || errno != EEXIST) return fd;
    }
    return -1;
}

/* (There it stays if the folder's sync fails: another process may have opened it already.) */
int fkv_make_beside(const char *path, fill_fn *fill, void *its) {
    char name[PATH_MAX];
    int fd = open_beside(path, name, sizeof name);
    if (fd < 0) return -1;
    int failed = fill(its, fd) || fsync(fd);
    int why = errno;
    if (close(fd) && !failed) failed = 1, why = errno;
    if (!failed && put_in_place(name, path)) failed = 1, why = errno;
    if (failed) {
        unlink(name);
        errno = why;
        return -1;
    }
    return fkv_sync_folder_of(path);
}

/* (Of a rename that replaces a file a crash leaves the one or the other. The new one is locked before it has the name.) */
int fkv_make_over(const char *path, fill_fn *fill, void *its) {
    char name[PATH_MAX];
    int fd = open_beside(path, name, sizeof name);
    if (fd < 0) return -1;
    int failed = fill(its, fd) || fsync(fd);
    int why = errno;
    if (close(fd) && !failed) failed = 1, why = errno;
    int locked = failed ? -1 : fkv_open_locked(name);
    if (locked < 0 && !failed) failed = 1, why = errno;
    if (!failed && rename(name, path)) failed = 1, why = errno;
    if (!failed) return locked;
    if (locked >= 0) close(locked);
    unlink(name);
    errno = why;
    return -1;
}

static int write_image(void *image, int fd) { return write_at(fd, 0, image, FKV_IMAGE_SIZE); }

int32_t fkv_make_file(const char *path, const fkv_shape *asked) {
    uint8_t image[FKV_IMAGE_SIZE];
    fkv_shape shape;
    int32_t result = fkv_with_own(asked, &shape);
    if (result == 0) result = fkv_image(&shape, image, sizeof image);
    if (result < 0) return result;
    /* (the rename would tell it too, but after a sync) */
    if (access(path, F_OK) == 0) {
        errno = EEXIST;
        return -FKV_DEVICE;
    }
    return fkv_make_beside(path, write_image, image) ? -FKV_DEVICE : 0;
}

/* ---- Opening -------------------------------------------------------------------------------------------------------------- */

static void tell_progress(const fkv_how *how, uint64_t done, uint64_t total) {
    fkv_progress progress = {FKV_OPENING, done, total};
    if (how->progress) how->progress(how->user, &progress);
}

/* Reads a file's bytes into memory that holds zeros. Its holes are passed over. */
static int read_whole(int fd, const fkv_how *how, struct bytes to) {
    size_t at = 0;
    while (at < to.size) {
        off_t data = lseek(fd, (off_t)at, SEEK_DATA);
        if (data < 0 && errno == ENXIO) break;
        if (data > 0 && (size_t)data > at) at = (size_t)data;
        if (at >= to.size) break;
        size_t length = to.size - at < PIECE ? to.size - at : PIECE;
        if (read_at(fd, at, to.at + at, length)) return -1;
        at += length;
        tell_progress(how, at, to.size);
    }
    tell_progress(how, to.size, to.size);
    return 0;
}

int32_t fkv_show_bytes(int fd, const fkv_how *how, struct bytes *shown) {
    struct stat known;
    if (fstat(fd, &known)) return -FKV_DEVICE;
    if (!S_ISREG(known.st_mode)) {
        errno = EINVAL;
        return -FKV_DEVICE;
    }
    shown->size = (size_t)known.st_size;
    /* A map of no bytes is refused. */
    if (shown->size == 0) return -FKV_NOT_A_STORE;
    int where = how->mapped ? MAP_PRIVATE : MAP_PRIVATE | MAP_ANONYMOUS | MAP_NORESERVE;
    int may = how->mapped ? PROT_READ : PROT_READ | PROT_WRITE;
    void *at = mmap(NULL, shown->size, may, where, how->mapped ? fd : -1, 0);
    if (at == MAP_FAILED) return errno == ENOMEM ? -FKV_MEMORY : -FKV_DEVICE;
    shown->at = at;
    return how->mapped || !read_whole(fd, how, *shown) ? 0 : -FKV_DEVICE;
}

/* Opens a file. Its number isn't that of a standard stream, though one may be closed. */
static int open_high(const char *path) {
    int fd = open(path, O_RDWR | O_CLOEXEC | O_NOCTTY);
    if (fd < 0 || fd > STDERR_FILENO) return fd;
    int low = fd;
    fd = fcntl(low, F_DUPFD_CLOEXEC, STDERR_FILENO + 1);
    int why = errno;
    close(low);
    errno = why;
    return fd;
}

/* Whether the file of this descriptor still has this name: a renewal may have put another one there before the lock was given. */
static bool has_name(int fd, const char *path) {
    struct stat open_one, named;
    if (fstat(fd, &open_one) || stat(path, &named)) return false;
    return open_one.st_dev == named.st_dev && open_one.st_ino == named.st_ino;
}

int fkv_open_locked(const char *path) {
    for (;;) {
        int fd = open_high(path);
        if (fd < 0) return -1;
        bool is_locked = flock(fd, LOCK_EX | LOCK_NB) == 0;
        if (is_locked && has_name(fd, path)) return fd;
        int why = errno;
        close(fd);
        errno = why;
        if (!is_locked) return -1;
    }
}

/* Bytes of a format's name, and both slots in which a store's file tells of its commits. */
enum { FORMAT_SIZE = 8, SLOTS_PLACE = 512, SLOTS_SIZE = 1024 };

/* Whether a file begins with a format that fkv_open takes: the last byte of its name says which. */
static bool begins_as_store(const uint8_t *bytes) {
    const char *formats = fkv_formats();
    for (const char *at = formats; *at; at += at[FORMAT_SIZE] ? FORMAT_SIZE + 1 : FORMAT_SIZE) {
        if (memcmp(bytes, at, FORMAT_SIZE) == 0) return true;
    }
    return false;
}

/* How many commits the store of these bytes takes in all its life: the first format is that of specified stores. */
static uint64_t most_commits_of(const uint8_t *bytes) {
    return fkv_is_living(bytes) ? FKV_MOST_LIVING_COMMITS : FKV_MOST_COMMITS;
}

/*
 * Writes the slots of a store's file anew, as they read, so that the next sync brings them to the disk. After a sync that has failed,
 * Linux may go on showing what the disk hasn't, and takes it for written. A commit that was told by such a slot would be lost later.
 * All else that a slot names was synced before the slot was written. A file of anything else stays as it is.
 */
static int write_slots_anew(int fd) {
    uint8_t front[FKV_IMAGE_SIZE];
    struct stat known;
    if (fstat(fd, &known)) return -1;
    if (!S_ISREG(known.st_mode) || known.st_size < FKV_IMAGE_SIZE) return 0;
    if (read_at(fd, 0, front, sizeof front)) return -1;
    return begins_as_store(front) ? write_at(fd, SLOTS_PLACE, front + SLOTS_PLACE, SLOTS_SIZE) : 0;
}

/* Opens the store of a file's bytes. */
static int32_t open_store(fkv_file *file, const char *path, const fkv_how *how) {
    fkv_opened opened = {.entries = 0};
    struct bytes shown = {NULL, 0};
    /* A process that was killed may have written what no sync has kept, or made the file and not synced its name. */
    if (write_slots_anew(file->fd) || fsync(file->fd) || fkv_sync_folder_of(path)) return -FKV_DEVICE;
    int32_t result = fkv_show_bytes(file->fd, how, &shown);
    if (result == 0) {
        result = fkv_open(shown.at, shown.size, how->keys, how->warm, &file->store.at, &file->shape, &opened, file->points, FKV_MOST_SESSIONS);
    }
    int why = errno;
    if (result == 0) {
        file->most_commits = most_commits_of(shown.at);
        fkv_take_own(file, fkv_is_living(shown.at));
    }
    if (shown.at) munmap(shown.at, shown.size);
    errno = why;
    file->number = opened.number;
    file->entries = opened.entries;
    file->keys = how->keys;
    file->is_mapped = how->mapped != 0;
    file->warm = how->warm;
    if (how->opened) *how->opened = opened;
    return result;
}

uint64_t fkv_log_place(const fkv_shape *shape) {
    return INDEX_PLACE + SLOT_SIZE * BUCKET_SLOTS * ((UINT64_C(1) << shape->bucket_bits) + shape->overflow);
}

/* Takes all handles of an open store, and puts its sessions to sleep. */
static int32_t take_handles(fkv_file *file) {
    int32_t result = fkv_take_keeper(&file->store, &file->keeper.at);
    for (uint64_t i = 0; i < file->shape.sessions + file->has_own && result == 0; i++) {
        result = fkv_take_session(&file->store, i, &file->sessions[i].at);
        /* One that sleeps already stays so. */
        if (result == 0) fkv_sleep(&file->sessions[i]);
    }
    if (result == 0) file->begin = file->trimmer.begin = fkv_begin(&file->keeper);
    return result;
}

enum { CONDITIONS = 4 };

static void conditions_of(fkv_file *file, pthread_cond_t *all[CONDITIONS]) {
    all[0] = &file->work, all[1] = &file->over, all[2] = &file->served, all[3] = &file->news;
}

/*
 * Gives back what was taken and opened. A session with requests that can't be finished isn't ended, and holds the store's table: both
 * stay until the process ends.
 */
void fkv_give_up(fkv_file *file) {
    for (int i = 0; i < FKV_MOST_SESSIONS; i++) {
        if (file->sessions[i].at && fkv_end_session(&file->sessions[i]) == 0) fkv_free_session(file->sessions[i]);
    }
    if (file->keeper.at) {
        fkv_end_keeper(&file->keeper);
        fkv_free_keeper(file->keeper);
    }
    if (file->store.at && fkv_close(&file->store) == 0) fkv_free_store(file->store);
    int why = errno;
    fkv_drop_map(file);
    if (file->fd >= 0) {
        /* A child that was forked may have the descriptor too, and would hold the lock. */
        flock(file->fd, LOCK_UN);
        close(file->fd);
    }
    pthread_cond_t *all[CONDITIONS];
    conditions_of(file, all);
    for (int i = 0; i < CONDITIONS; i++) pthread_cond_destroy(all[i]);
    pthread_mutex_destroy(&file->lock);
    free(file->path);
    free(file);
    errno = why;
}

/* A file that isn't open yet. NULL where memory was refused. */
static fkv_file *new_file(void) {
    fkv_file *file = calloc(1, sizeof *file);
    pthread_condattr_t by_clock;
    pthread_cond_t *all[CONDITIONS];
    int made = 0;
    if (!file) return NULL;
    file->fd = -1;
    atomic_store(&file->ends, -FKV_NO_KEEPER);
    atomic_store(&file->warmed, UINT64_MAX);
    conditions_of(file, all);
    if (pthread_condattr_init(&by_clock)) goto no_clock;
    pthread_condattr_setclock(&by_clock, CLOCK_MONOTONIC);
    if (pthread_mutex_init(&file->lock, NULL)) goto no_lock;
    while (made < CONDITIONS && pthread_cond_init(all[made], &by_clock) == 0) made++;
    if (made < CONDITIONS) goto no_condition;
    pthread_condattr_destroy(&by_clock);
    return file;
no_condition:
    while (made > 0) pthread_cond_destroy(all[--made]);
    pthread_mutex_destroy(&file->lock);
no_lock:
    pthread_condattr_destroy(&by_clock);
no_clock:
    free(file);
    return NULL;
}

int32_t fkv_open_bytes(const struct bytes *bytes, uint32_t keys, uint64_t warm, fkv_file **out) {
    fkv_file *file = new_file();
    fkv_opened opened;
    if (!file) return -FKV_MEMORY;
    file->keys = keys;
    file->warm = warm;
    int32_t result = fkv_open(bytes->at, bytes->size, keys, warm, &file->store.at, &file->shape, &opened, file->points, FKV_MOST_SESSIONS);
    if (result == 0) fkv_take_own(file, fkv_is_living(bytes->at));
    if (result == 0) result = take_handles(file);
    if (result < 0) {
        fkv_give_up(file);
        return result;
    }
    file->most_commits = most_commits_of(bytes->at);
    file->number = opened.number;
    file->entries = opened.entries;
    file->log_end = bytes->size;
    *out = file;
    return 0;
}

int32_t fkv_open_file(const char *path, const fkv_how *how, fkv_file **out) {
    static const fkv_how usual;
    fkv_file *file = new_file();
    if (!file) return -FKV_MEMORY;
    file->fd = fkv_open_locked(path);
    if (file->fd >= 0) file->path = realpath(path, NULL);
    int32_t result = file->fd < 0 ? -FKV_DEVICE : open_store(file, path, how ? how : &usual);
    if (result == 0) result = take_handles(file);
    if (result < 0) {
        fkv_give_up(file);
        return result;
    }
    off_t end = lseek(file->fd, 0, SEEK_END);
    file->log_end = end > 0 ? (uint64_t)end : 0;
    *out = file;
    return 0;
}

/* Ends the keeper's thread, and closes the file behind that. The answer is that of the end, but for one that leaves the file open. */
static int32_t close_behind(fkv_file *file, uint32_t how) {
    pthread_mutex_lock(&file->lock);
    bool is_out = file->joined != 0;
    pthread_mutex_unlock(&file->lock);
    if (is_out) return -FKV_HANDLE_OUT;
    int32_t result = fkv_stop(file, how);
    if (result == -FKV_HANDLE_OUT) return result;
    int why = errno;
    fkv_end_abandoned(file);
    fkv_give_up(file);
    errno = why;
    return result;
}

int32_t fkv_close_file(fkv_file *file) { return close_behind(file, FKV_STOP_KEEP); }

int32_t fkv_drop_file(fkv_file *file) { return close_behind(file, FKV_STOP_NOW); }

fkv_shape fkv_shape_of(const fkv_file *its) {
    fkv_file *file = (fkv_file *)its;
    /* (a renewal may give it another one) */
    pthread_mutex_lock(&file->lock);
    fkv_shape shape = fkv_asked_of(file);
    pthread_mutex_unlock(&file->lock);
    return shape;
}

uint64_t fkv_last_commit(fkv_file *file, uint64_t points[FKV_MOST_SESSIONS]) {
    pthread_mutex_lock(&file->lock);
    uint64_t number = file->number;
    memcpy(points, file->points, sizeof file->points);
    pthread_mutex_unlock(&file->lock);
    return number;
}

/* ---- Sessions ------------------------------------------------------------------------------------------------------------- */

static uint32_t bit_of(const fkv_file *file, const fkv_session *session) {
    return UINT32_C(1) << (session - file->sessions);
}

/* The number of a session that is free, of this one or of any. */
static int32_t free_session(const fkv_file *file, uint64_t number, uint64_t *found) {
    uint32_t taken = file->joined | file->abandoned;
    if (number != FKV_ANY_SESSION) {
        if (number >= file->shape.sessions) return -FKV_NO_SESSION;
        *found = number;
        return taken >> number & 1 ? -FKV_HANDLE_TAKEN : 0;
    }
    for (uint64_t i = 0; i < file->shape.sessions; i++) {
        if (taken >> i & 1) continue;
        *found = i;
        return 0;
    }
    return -FKV_NO_SESSION;
}

int32_t fkv_join(fkv_file *file, uint64_t number, fkv_session **out) {
    uint64_t found = 0;
    fkv_seen seen;
    pthread_mutex_lock(&file->lock);
    while (file->is_renewed) pthread_cond_wait(&file->news, &file->lock);
    int32_t result = free_session(file, number, &found);
    if (result == 0) result = fkv_wake(&file->sessions[found], &seen);
    if (result == 0) {
        file->joined |= UINT32_C(1) << found;
        file->was_joined = file->nudged = true;
        file->seats[found].ticks = 0;
        file->seats[found].phase = (uint32_t)seen.phase;
        atomic_store(&file->seats[found].begun, atomic_load(&file->begun));
        atomic_store(&file->seats[found].thread, (uintptr_t)pthread_self());
        *out = &file->sessions[found];
        pthread_cond_signal(&file->work);
    }
    pthread_mutex_unlock(&file->lock);
    return result;
}

int32_t fkv_leave(fkv_file *file, fkv_session *session) {
    pthread_mutex_lock(&file->lock);
    int32_t result = fkv_sleep(session);
    if (result == -FKV_ASLEEP) result = 0;
    if (result == 0) file->joined &= ~bit_of(file, session);
    pthread_mutex_unlock(&file->lock);
    return result;
}

void fkv_abandon(fkv_file *file, fkv_session *session) {
    pthread_mutex_lock(&file->lock);
    file->joined &= ~bit_of(file, session);
    if (fkv_sleep(session) == -FKV_PENDING_LEFT) {
        file->abandoned |= bit_of(file, session);
        file->nudged = true;
        pthread_cond_signal(&file->work);
    }
    pthread_mutex_unlock(&file->lock);
}
