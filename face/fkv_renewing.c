/* A renewal of an open store in place. */
#define _GNU_SOURCE
#include "fkv_file.h"

#include <errno.h>
#include <string.h>
#include <unistd.h>

/* Nobody joins from now on. Why that can't be, or 0. What the keeper's thread was started with is kept in `keeping`. */
static int32_t begin(fkv_file *file, fkv_keeping *keeping, bool *runs) {
    pthread_mutex_lock(&file->lock);
    int32_t why = fkv_has_turns(file) ? 0 : file->fault;
    bool is_out = (file->joined | file->abandoned) != 0 || file->is_renewed;
    if (is_out || fkv_is_own_thread(file)) why = -FKV_HANDLE_OUT;
    else if (why == 0 && !file->runs && fkv_has_unkept(file)) why = -FKV_NO_KEEPER;
    *keeping = file->keeping;
    *runs = file->runs;
    if (why == 0) file->is_renewed = true;
    pthread_mutex_unlock(&file->lock);
    return fkv_with_errno(file, why);
}

/* The keeper's thread goes on if it ran, and others join. Who would end that thread has waited for this. */
static int32_t end(fkv_file *file, const fkv_keeping *keeping, bool runs) {
    int why = errno;
    pthread_mutex_lock(&file->lock);
    int failed = runs ? fkv_begin_run(file, keeping) : 0;
    file->is_renewed = false;
    pthread_cond_broadcast(&file->news);
    pthread_mutex_unlock(&file->lock);
    errno = failed ? failed : why;
    return failed ? -FKV_DEVICE : 0;
}

/* The file has the new store from now on, and `fresh` the old one. Nobody has a session, or makes a turn. */
static void swap(fkv_file *file, fkv_file *fresh) {
    fkv_file old;
    pthread_mutex_lock(&file->lock);
    fkv_take_turn(file);
    fkv_drop_map(file);
    old.fd = file->fd, old.store = file->store, old.keeper = file->keeper;
    memcpy(old.sessions, file->sessions, sizeof old.sessions);
    file->fd = fresh->fd, file->store = fresh->store, file->keeper = fresh->keeper, file->shape = fresh->shape;
    file->is_living = fresh->is_living, file->has_own = fresh->has_own, file->warmer = fresh->warmer;
    memcpy(file->sessions, fresh->sessions, sizeof old.sessions);
    memcpy(file->points, fresh->points, sizeof file->points);
    file->most_commits = fresh->most_commits, file->number = fresh->number, file->log_end = fresh->log_end;
    file->entries = fresh->entries;
    /* What was given back was the old file's. */
    file->trimmer = fresh->trimmer;
    file->begin = fresh->begin;
    file->fault = file->full = file->stuck = 0;
    file->index_full = file->in_hand = false;
    file->commit_us = file->commit_bytes = 0;
    /* What the old file was, a sync that failed among it, is no more. The new one is synced. */
    file->writes = file->synced = 0;
    file->sync_why = 0;
    file->rests = false;
    fresh->fd = old.fd, fresh->store = old.store, fresh->keeper = old.keeper;
    memcpy(fresh->sessions, old.sessions, sizeof old.sessions);
    fkv_find_end(file);
    fkv_give_turn(file);
    pthread_mutex_unlock(&file->lock);
}

/* Puts the new store's file in place of the old one's, and syncs the folder. Where that alone fails, the store commits no more. */
static int32_t replace(fkv_file *file, struct bytes *new) {
    fkv_file *fresh;
    int32_t result = fkv_open_bytes(new, file->keys, file->warm, &fresh);
    if (result < 0) return result;
    fresh->fd = fkv_make_over(file->path, fkv_write_bytes, new);
    if (fresh->fd < 0) {
        fkv_give_up(fresh);
        return -FKV_DEVICE;
    }
    swap(file, fresh);
    int failed = fkv_sync_folder_of(file->path);
    int why = errno;
    fkv_give_up(fresh);
    if (!failed) return 0;
    pthread_mutex_lock(&file->lock);
    fkv_note_fault(file, -FKV_DEVICE, why);
    pthread_mutex_unlock(&file->lock);
    errno = why;
    return -FKV_DEVICE;
}

/* Finishes what is pending of the library's session, which else would hold the old store's memory. A backup may be made meanwhile. */
static void end_own(fkv_file *file) {
    pthread_mutex_lock(&file->lock);
    fkv_take_turn(file);
    pthread_mutex_unlock(&file->lock);
    fkv_end_abandoned(file);
    pthread_mutex_lock(&file->lock);
    fkv_give_turn(file);
    pthread_mutex_unlock(&file->lock);
}

/* The keeper's thread has ended, and all is kept. */
static int32_t renew(fkv_file *file, const fkv_shape *shape, fkv_renewed *told) {
    static const fkv_how read_all;
    struct bytes old = {NULL, 0}, new = {NULL, 0};
    if (!file->path) return errno = ENOENT, -FKV_DEVICE;
    end_own(file);
    int32_t result = fsync(file->fd) ? -FKV_DEVICE : fkv_show_bytes(file->fd, &read_all, &old);
    if (result == 0) result = fkv_renew_bytes(old, shape, FKV_AS_THEY_LIE, told, &new);
    fkv_give_bytes(&old);
    if (result == 0) result = replace(file, &(struct bytes){new.at, (size_t)told->size});
    fkv_give_bytes(&new);
    return result;
}

int32_t fkv_renew_here(fkv_file *file, const fkv_shape *shape, fkv_renewed *told) {
    fkv_keeping keeping;
    fkv_renewed own;
    bool runs;
    if (!told) told = &own;
    *told = (fkv_renewed){0, 0, 0};
    int32_t result = begin(file, &keeping, &runs);
    if (result < 0) return result;
    if (runs) result = fkv_stop_thread(file, FKV_STOP_KEEP);
    if (result == 0) result = renew(file, shape, told);
    int32_t ended = end(file, &keeping, runs);
    return result < 0 ? result : ended;
}
