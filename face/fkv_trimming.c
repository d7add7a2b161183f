/*
 * The log's front, given back. If the log is longer than it may be, the keeper's thread asks for a commit behind which the engine sweeps the records of
 * the front. It makes turns that sweep, and has the library's session keep each key that they find wanted. Once a commit is finished whose log begins
 * further on, what lies below is given back to the file system.
 */
#define _GNU_SOURCE
#include "fkv_file.h"

#include <errno.h>
#include <fcntl.h>

enum {
    RECORD_SIZE = 24,
    /* Unless the caller says how long the log may be: so many times the records of all keys, and so many bytes at least. */
    FACTOR = 2,
    LEAST_BYTES = 1 << 20,
    /* So many bytes are given back at once: others wait for the turn meanwhile. */
    PIECE = 1 << 22,
    /* So long a commit by the clock waits for turns that sweep, at most. */
    MOST_SWEEPS_US = 1000000,
    /* Most file systems give back blocks of so many bytes, or of fewer. */
    MOST_BLOCK = 65536,
    /* The log's first record. */
    FIRST = 1
};

static uint64_t most(uint64_t one, uint64_t other) { return one > other ? one : other; }

static uint64_t least(uint64_t one, uint64_t other) { return one < other ? one : other; }

bool fkv_can_trim(const fkv_file *file) { return file->has_own; }

void fkv_begin_trimming(fkv_file *file) {
    struct trimmer *its = &file->trimmer;
    its->begin = file->begin;
    its->is_on = its->is_next = its->is_done = its->has_more = its->is_keeping = its->is_spent = false;
    its->wanted = 0;
}

/* ---- How long the log is, and may be -------------------------------------------------------------------------------------------- */

/* How many bytes the log may have. */
static uint64_t limit_of(const fkv_file *file) {
    uint64_t asked = file->keeping.log_bytes ? file->keeping.log_bytes : file->log_bytes;
    return asked ? asked : most(FACTOR * RECORD_SIZE * file->entries, LEAST_BYTES);
}

bool fkv_limits_log(const fkv_file *file) { return limit_of(file) != FKV_LOG_KEEPS; }

/* How many bytes it has from an address on. */
static uint64_t length_from(fkv_file *file, uint64_t begin) {
    fkv_offsets at;
    if (fkv_hint_store(&file->store, &at) < 0) return 0;
    return (at.tail - least(at.tail, begin)) * RECORD_SIZE;
}

bool fkv_is_too_long(fkv_file *file) {
    return fkv_can_trim(file) && fkv_limits_log(file) && length_from(file, file->trimmer.begin) / 4 > limit_of(file);
}

uint64_t fkv_sweeps_us(fkv_file *file) {
    uint64_t limit = limit_of(file), length = length_from(file, file->trimmer.begin), commit_us = (uint64_t)file->keeping.commit_ms * 1000;
    if (!file->trimmer.is_on || length / 3 <= limit / 2) return 0;
    /* The longer the log, the more time has its sweep. */
    uint64_t times = length / 5 > limit / 2 ? 16 : length / 2 > limit ? 4 : 1;
    return least(times * commit_us, MOST_SWEEPS_US);
}

/* ---- Commits, and turns that sweep ---------------------------------------------------------------------------------------------- */

bool fkv_wants_trim(fkv_file *file) {
    struct trimmer *its = &file->trimmer;
    if (!fkv_can_trim(file) || !fkv_limits_log(file) || !fkv_has_share(file) || its->is_spent || (its->is_on && !its->is_done)) return false;
    /* A sweep that is done moves the begin by this commit. */
    return length_from(file, its->is_on ? its->end : its->begin) > limit_of(file);
}

void fkv_note_trim(fkv_file *file, bool trims) {
    struct trimmer *its = &file->trimmer;
    fkv_offsets at;
    its->is_next = trims;
    if (trims && fkv_hint_store(&file->store, &at) == 0) its->end = at.tail;
}

bool fkv_has_sweep(const fkv_file *file) { return file->trimmer.is_on && !file->in_hand && !file->rests; }

bool fkv_may_sweep(const fkv_file *file) {
    const struct trimmer *its = &file->trimmer;
    return its->wanted == 0 && !(its->is_keeping && file->warmer.is_awake);
}

void fkv_note_swept(fkv_file *file, const struct turn *turn) {
    struct trimmer *its = &file->trimmer;
    uint64_t words[FKV_MOST_WANTED];
    /* It has come to a flush that rests, and looked at nothing. */
    if (turn->rests) return;
    its->is_keeping = false;
    its->wanted = fkv_wanted(&file->keeper, words, FKV_MOST_WANTED);
    for (size_t i = 0; i < its->wanted; i++) its->keys[i] = file->keys == FKV_SPREAD ? fkv_spread_back(words[i]) : words[i];
    /* The records that are probed again were read already. But if nothing is kept, no turn behind this one finds more. */
    its->has_more = turn->swept > 0 || (its->wanted > 0 && its->has_read);
    its->has_read = turn->swept > 0;
    its->is_done = !its->has_read && its->wanted == 0;
}

void fkv_keep_wanted(fkv_file *file) {
    struct trimmer *its = &file->trimmer;
    if (its->wanted == 0 || file->warmer.is_awake) return;
    uint64_t before = file->warmer.serial;
    if (fkv_has_share(file)) fkv_keep_own(file, its->keys, its->wanted);
    file->warmer.trimmed += file->warmer.serial - before;
    its->wanted = 0;
    its->is_keeping = true;
    if (file->warmer.serial > before) return;
    /* The library has had its share, or the log is full: no sweep gets on any more. */
    its->is_spent = true;
    its->is_on = its->has_more = false;
}

void fkv_note_kept(fkv_file *file) {
    if (!file->warmer.is_awake) file->trimmer.is_keeping = false;
}

void fkv_note_begin(fkv_file *file) {
    struct trimmer *its = &file->trimmer;
    uint64_t begin = fkv_begin(&file->keeper);
    if (begin > its->begin) its->is_on = false;
    its->begin = begin;
    its->is_on |= its->is_next;
    its->is_next = its->is_done = its->waits = false;
    its->has_more = its->is_on;
}

void fkv_note_entries(fkv_file *file) {
    /* (the engine's sweep waits until one is asked for again) */
    if (length_from(file, file->trimmer.begin) <= limit_of(file)) file->trimmer.is_on = false;
}

/* ---- The bytes ------------------------------------------------------------------------------------------------------------------ */

/*
 * Gives bytes of the file back. A file system does so by whole blocks, so it begins a little before: in the one that the last call has left in part. 0, or -1
 * with errno.
 */
static int punch(const fkv_file *file, uint64_t from, uint64_t to) {
    uint64_t base = fkv_log_place(&file->shape), first = most(from - least(from, MOST_BLOCK / RECORD_SIZE + 1), FIRST);
    int failed;
    do failed = fallocate(file->fd, FALLOC_FL_PUNCH_HOLE | FALLOC_FL_KEEP_SIZE, (off_t)(base + first * RECORD_SIZE), (off_t)((to - first) * RECORD_SIZE));
    while (failed && errno == EINTR);
    return failed;
}

static bool is_for_good(int why) { return why == EOPNOTSUPP || why == ENOSYS || why == EPERM; }

bool fkv_gives_back(const fkv_file *file) {
    const struct trimmer *its = &file->trimmer;
    return !its->why && !its->waits && most(its->punched, FIRST) < its->begin && fkv_limits_log(file);
}

int fkv_give_back(fkv_file *file) {
    struct trimmer *its = &file->trimmer;
    uint64_t from = most(its->punched, FIRST), to = least(its->begin, from + PIECE / RECORD_SIZE);
    if (!fkv_gives_back(file)) return 0;
    if (punch(file, from, to) == 0) its->punched = to;
    else if (is_for_good(errno)) return its->why = errno;
    /* (a full disk, say: once more behind the next commit) */
    else its->waits = true;
    return 0;
}
