/* Records that only the file has are asked for before they are read, where the system has to fetch them from a disk. */
#define _GNU_SOURCE
#include "fkv_file.h"

#include <errno.h>
#include <fcntl.h>
#include <sys/uio.h>

enum {
    /* Where the system doesn't tell, a read that takes so long has waited for a disk: its memory gives one in a microsecond or two. */
    SLOW_US = 15,
    /* Two of so many in a row have: one alone may have lost its processor. */
    NEAR = 16,
    /* Behind them so many reads are asked for ahead. What was asked for comes quickly, so that says nothing of the disk. */
    SLOW_READS = 1024,
    /* Keys are asked for up to so many ahead of the one that is read, and again where half of them are left. */
    AHEAD = 64
};

/* Notes whether a read has waited for a disk. */
static void note_read(fkv_file *file, bool has_waited) {
    unsigned left = atomic_load_explicit(&file->slow, memory_order_relaxed);
    if (left == 0 && file->near == 0 && !has_waited) return;
    if (left > 0) left--;
    if (has_waited && file->near > 0) left = SLOW_READS;
    if (has_waited) file->near = NEAR;
    else if (file->near > 0) file->near--;
    atomic_store_explicit(&file->slow, left, memory_order_relaxed);
}

/*
 * Reads a record if the system has it in memory, and else notes that a disk is waited for. False where it is still to be read. A file system that
 * doesn't tell isn't asked again: then the time tells, which a thread that lost its processor may spoil.
 */
static bool read_kept(fkv_file *file, uint64_t place, uint8_t into[FKV_READ_SIZE]) {
    struct iovec room = {into, FKV_READ_SIZE};
    /* A place below 0 would be the file's own position. What reads otherwise says what is wrong with it. */
    if (file->hides_waits || (off_t)place < 0) return false;
    ssize_t got = preadv2(file->fd, &room, 1, (off_t)place, RWF_NOWAIT);
    if (got == FKV_READ_SIZE) {
        note_read(file, false);
        return true;
    }
    /* It gives less than a record if that lies on two pages, and memory has the first one alone. */
    if (got > 0 || (got < 0 && errno == EAGAIN)) note_read(file, true);
    else if (got < 0) file->hides_waits = errno != EINTR && errno != EIO;
    return false;
}

int fkv_read_record(fkv_file *file, const fkv_turned *turned, uint8_t into[FKV_MOST_READ]) {
    if (!file->is_mapped && read_kept(file, turned->place, into)) return 0;
    if (!file->is_mapped && !file->hides_waits) return fkv_call_file(file->fd, FKV_READ, turned, into);
    struct timespec begun = fkv_now();
    int failed = fkv_read_mapped(file, turned->place, into) ? 0 : fkv_call_file(file->fd, FKV_READ, turned, into);
    note_read(file, fkv_since(begun) >= SLOW_US);
    return failed;
}

/*
 * Asks for the newest records of these keys' homes, as far as they have left memory. What a chain has behind them isn't known yet. The
 * mapping is who has the turn's, and madvise does the same as this: both fill the system's memory.
 */
static void fetch(fkv_file *file, fkv_session *session, const uint64_t *keys, size_t count) {
    fkv_offsets offsets;
    uint64_t base = fkv_log_place(&file->shape), asked = 0;
    if (fkv_hint_offsets(session, &offsets) < 0) return;
    for (size_t i = 0; i < count; i++) {
        uint64_t address = fkv_hint_where(session, keys[i]);
        if (address == 0 || address >= offsets.head) continue;
        /* It only begins to read. If the system refuses, the read itself tells what is wrong. */
        (void)posix_fadvise(file->fd, (off_t)(base + address * FKV_READ_SIZE), FKV_READ_SIZE, POSIX_FADV_WILLNEED);
        asked++;
    }
    atomic_fetch_add_explicit(&file->fetched, asked, memory_order_relaxed);
}

void fkv_fetch_alone(fkv_file *file, fkv_session *session, uint64_t key) {
    bool is_slow = atomic_load_explicit(&file->slow, memory_order_relaxed) > 0;
    if (is_slow && atomic_load_explicit(&file->turning, memory_order_relaxed)) fetch(file, session, &key, 1);
}

size_t fkv_fetch_ahead(fkv_file *file, fkv_session *session, const uint64_t *keys, size_t count, size_t at, size_t fetched) {
    if (atomic_load_explicit(&file->slow, memory_order_relaxed) == 0 || fetched > at + AHEAD / 2 || fetched == count) return fetched;
    size_t from = fetched > at ? fetched : at;
    size_t to = count - at < AHEAD ? count : at + AHEAD;
    fetch(file, session, keys + from, to - from);
    return to;
}
