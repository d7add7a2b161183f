/* How a store fares. */
#define _POSIX_C_SOURCE 200809L
#include "fkv_file.h"

#include <errno.h>
#include <sys/stat.h>

/* The joined sessions that haven't been refreshed since the commit in hand began, as far as this library has done so. */
static uint64_t late_sessions(const fkv_file *file) {
    uint64_t late = 0;
    unsigned long long begun = atomic_load(&file->begun);
    for (int i = 0; i < FKV_MOST_SESSIONS; i++) {
        bool is_late = file->joined >> i & 1 && atomic_load(&file->seats[i].begun) < begun;
        late |= (uint64_t)is_late << i;
    }
    return late;
}

/* How many calls have waited for this reason, of all sessions. */
static uint64_t waited_for(const fkv_file *file, int reason) {
    uint64_t sum = 0;
    for (int i = 0; i < FKV_MOST_SESSIONS; i++) sum += atomic_load_explicit(&file->seats[i].waited[reason], memory_order_relaxed);
    return sum;
}

/* How many requests are pending for this reason, of all sessions, as far as this library knows. */
static uint64_t pending_for(const fkv_file *file, int reason) {
    uint64_t sum = 0;
    for (int i = 0; i < FKV_MOST_SESSIONS; i++) sum += atomic_load_explicit(&file->seats[i].pending[reason], memory_order_relaxed);
    return sum;
}

int32_t fkv_stats_of(fkv_file *file, fkv_stats *stats) {
    struct stat known;
    fkv_offsets offsets = {.head = 0};
    pthread_mutex_lock(&file->lock);
    bool is_known = fstat(file->fd, &known) == 0;
    bool is_in_hand = atomic_load(&file->in_hand);
    /* (it tells them as long as the store is open) */
    (void)fkv_hint_store(&file->store, &offsets);
    *stats = (fkv_stats){
        .commits = file->number,
        .commits_left = file->number < file->most_commits ? file->most_commits - file->number : 0,
        .commit_us = file->commit_us,
        .commit_bytes = file->commit_bytes,
        .in_hand_us = is_in_hand ? fkv_since(file->commit_begun) + 1 : 0,
        .late = is_in_hand ? late_sessions(file) : 0,
        .joined = file->joined,
        .abandoned = file->abandoned,
        .turns = file->turns,
        .helped = file->helped,
        .cold_reads = file->cold_reads,
        .fetched = atomic_load_explicit(&file->fetched, memory_order_relaxed),
        .kept = atomic_load_explicit(&file->kept, memory_order_relaxed),
        .file_bytes = is_known ? (uint64_t)known.st_size : 0,
        .begin = file->begin,
        .disk_bytes = is_known ? (uint64_t)known.st_blocks * 512 : 0,
        .swept = file->swept,
        .head = offsets.head,
        .flushed = offsets.flushed,
        .read_only = offsets.read_only,
        .tail = offsets.tail,
        .overflow = offsets.overflow,
        .entries = file->entries,
        .stopped = atomic_load(&file->ends),
    };
    pthread_mutex_unlock(&file->lock);
    for (int i = 0; i < FKV_REASONS; i++) {
        stats->waited[i] = waited_for(file, i);
        stats->pending[i] = pending_for(file, i);
    }
    return is_known ? 0 : -FKV_DEVICE;
}
