/* Turns of the keeper, by its own thread or by that of a session that waits; and what a store has come to. */
#define _POSIX_C_SOURCE 200809L
#include "fkv_file.h"

#include <errno.h>
#include <string.h>
#include <unistd.h>

enum {
    /* What has waited so long and for so many turns waits for ever: where the log is known to be full, and where it isn't. */
    KNOWN_FULL_US = 50000,
    FULL_US = 1000000,
    FULL_TURNS = 200,
    /* Bytes that a full commit writes of an entry, between the slots and the log. */
    TRIPLE_SIZE = 16
};

/* ---- What a store has come to. The lock is held. -------------------------------------------------------------------------------- */

bool fkv_has_turns(const fkv_file *file) {
    return !file->fault || file->fault == -FKV_VERSIONS_SPENT;
}

int32_t fkv_refusal(const fkv_file *file) {
    if (file->fault) return file->fault;
    return file->runs && !file->stops ? 0 : -FKV_NO_KEEPER;
}

int32_t fkv_unserved(const fkv_file *file) {
    if (!fkv_has_turns(file)) return file->fault;
    return file->runs && !file->stops ? 0 : -FKV_NO_KEEPER;
}

void fkv_find_end(fkv_file *file) {
    int32_t end = fkv_refusal(file);
    if (!end) end = file->full ? file->full : file->stuck;
    atomic_store(&file->ends, end);
}

void fkv_note_fault(fkv_file *file, int32_t fault, int why) {
    if (fkv_has_turns(file)) {
        file->fault = fault;
        atomic_store(&file->why, why);
    }
    atomic_store(&file->in_hand, false);
    fkv_find_end(file);
    pthread_cond_broadcast(&file->news);
    pthread_cond_broadcast(&file->served);
    pthread_cond_signal(&file->work);
}

void fkv_note_full(fkv_file *file, int32_t fault) {
    if (fault == -FKV_INDEX_FULL) file->index_full = true;
    if (fault != -FKV_LOG_FULL || file->full) return;
    file->full = fault;
    fkv_find_end(file);
    pthread_cond_signal(&file->work);
}

/* Whether the log's last page may be in use, as far as the file's writes say so. */
static bool is_near_end(const fkv_file *file) {
    const fkv_shape *shape = &file->shape;
    uint64_t base = fkv_log_place(shape);
    uint64_t records = file->log_end > base ? (file->log_end - base) / FKV_READ_SIZE : 0;
    /* The mutable pages aren't written yet, nor is the one in which updates become read-only, nor the one that is opened ahead. */
    return records / shape->page + shape->mutable_pages + 2 >= shape->disk_pages;
}

void fkv_begin_patience(const fkv_file *file, struct patience *its, uint32_t of) {
    *its = (struct patience){fkv_now(), file->turns, of};
}

/*
 * In a living store calls leave room to polls, so what waits comes to it. In a specified one a poll gives no reason, so this goes by what else
 * is known. After so many turns each read is served. A session that is awake alone waits for nobody's refresh. So what is left then waits for
 * room. If others are joined, then one of them may hold it up: so the log has to be known as full, or to be near its end.
 */
int32_t fkv_never_room(const fkv_file *file, const struct patience *its) {
    if (file->is_living || file->turns - its->turns < FULL_TURNS || fkv_unserved(file)) return 0;
    uint64_t waited = fkv_since(its->begun);
    if (waited >= KNOWN_FULL_US && file->full) return file->full;
    if (waited < FULL_US) return 0;
    if (is_near_end(file)) return -FKV_LOG_FULL;
    bool is_alone = !((file->joined | file->abandoned) & ~its->of);
    return is_alone || file->index_full ? -FKV_INDEX_FULL : 0;
}

void fkv_note_stuck(fkv_file *file, int32_t fault) {
    if (!fault || file->stuck) return;
    file->stuck = fault;
    fkv_find_end(file);
    pthread_cond_broadcast(&file->news);
    pthread_cond_signal(&file->work);
}

int32_t fkv_with_errno(const fkv_file *file, int32_t result) {
    if (result == -FKV_DEVICE) errno = atomic_load(&file->why);
    return result;
}

/* ---- Turns ---------------------------------------------------------------------------------------------------------------------- */

static void note_call(const fkv_file *file, struct turn *turn, int32_t call) {
    uint64_t place = turn->turned.place, end = place + turn->turned.length;
    if (call == FKV_READ && turn->turned.length == FKV_READ_SIZE) turn->reads++;
    else if (call == FKV_READ) turn->swept += turn->turned.length / FKV_READ_SIZE;
    if (call != FKV_WRITE) return;
    turn->written += turn->turned.length;
    if (place >= FKV_IMAGE_SIZE && place < fkv_log_place(&file->shape)) turn->copied += turn->turned.length / TRIPLE_SIZE;
    if (end > turn->end) turn->end = end;
}

/*
 * Makes a sync that a turn has posted, unless all that was written is durable already, or a sync of it has failed: it isn't made again then,
 * since a system may forget what it couldn't write.
 */
static int make_sync(fkv_file *file) {
    if (file->sync_why) {
        errno = file->sync_why;
        file->sync_why = 0;
        return -1;
    }
    if (file->synced == file->writes) return 0;
    int failed = fdatasync(file->fd);
    if (!failed) file->synced = file->writes;
    return failed;
}

/* No record's header is 0. By one that is a session would take the record for one that the log has given back. */
static int check_header(const uint8_t record[FKV_READ_SIZE]) {
    static const uint8_t none[sizeof(uint64_t)];
    if (memcmp(record, none, sizeof none)) return 0;
    errno = EIO;
    return -1;
}

/* Makes a call that a turn has posted. 0, or -1 where it has failed, with errno. */
static int make_call(fkv_file *file, int32_t call, const fkv_turned *turned, uint8_t into[FKV_MOST_READ]) {
    if (call == FKV_SYNC) return make_sync(file);
    if (call == FKV_WRITE) file->writes++;
    /* A sweep reads many records in a row. */
    if (call != FKV_READ || turned->length > FKV_READ_SIZE) return fkv_call_file(file->fd, call, turned, into);
    int failed = fkv_read_record(file, turned, into);
    return failed ? failed : check_header(into);
}

/* Makes the calls of a turn that has begun, up to its end. `call` is what it has posted. */
static int32_t end_calls(fkv_file *file, struct turn *turn, int32_t call, tell_turn_fn *tell, void *user) {
    uint8_t into[FKV_MOST_READ] = {0};
    bool has_called = call > FKV_OVER;
    while (call > FKV_OVER) {
        /* (that may take long) */
        if (atomic_load_explicit(&file->is_behind, memory_order_relaxed)) atomic_store(&file->is_behind, false);
        int failed = make_call(file, call, &turn->turned, into);
        if (failed) turn->why = errno;
        else note_call(file, turn, call);
        if (tell) tell(user, turn);
        size_t size = call == FKV_READ ? (size_t)turn->turned.length : 0;
        call = fkv_io_done(&file->keeper, failed != 0, into, size, &turn->turned, turn->points, FKV_MOST_SESSIONS);
    }
    /* Where memory was refused, the next turn would at once be refused it again. */
    turn->has_called = has_called && call == FKV_OVER;
    turn->rests = call == FKV_OVER && fkv_rests(&file->keeper);
    fkv_hide_own(file, turn->points);
    return call;
}

int32_t fkv_make_turn(fkv_file *file, struct turn *turn, tell_turn_fn *tell, void *user) {
    int32_t call = fkv_turn(&file->keeper, &turn->turned, turn->points, FKV_MOST_SESSIONS);
    return end_calls(file, turn, call, tell, user);
}

int32_t fkv_serve_turn(fkv_file *file, struct turn *turn, tell_turn_fn *tell, void *user) {
    int32_t call = fkv_serve(&file->keeper, &turn->turned, turn->points, FKV_MOST_SESSIONS);
    return end_calls(file, turn, call, tell, user);
}

int32_t fkv_sweep_turn(fkv_file *file, struct turn *turn, tell_turn_fn *tell, void *user) {
    int32_t call = fkv_sweep(&file->keeper, &turn->turned, turn->points, FKV_MOST_SESSIONS);
    return end_calls(file, turn, call, tell, user);
}

void fkv_sync_ahead(fkv_file *file) {
    if (!file->rests || file->stops || !fkv_has_turns(file)) return;
    /* Nobody writes from here on: whoever has the turn, or takes it, only serves. */
    uint64_t writes = file->writes;
    if (file->synced == writes || file->sync_why) return;
    file->is_syncing = true;
    /* (that may take long) */
    atomic_store(&file->is_behind, false);
    if (file->waiting) pthread_cond_broadcast(&file->served);
    pthread_mutex_unlock(&file->lock);
    int why = fdatasync(file->fd) ? errno : 0;
    pthread_mutex_lock(&file->lock);
    file->is_syncing = false;
    /* The fields of the sync are of who has the turn. */
    fkv_take_turn(file);
    if (why) file->sync_why = why;
    else file->synced = writes;
    fkv_give_turn(file);
}

void fkv_take_turn(fkv_file *file) {
    while (atomic_load(&file->turning)) {
        atomic_store(&file->is_behind, false);
        file->is_wanted = true;
        pthread_cond_wait(&file->over, &file->lock);
    }
    file->is_wanted = false;
    atomic_store(&file->turning, true);
}

void fkv_give_turn(fkv_file *file) {
    atomic_store(&file->turning, false);
    if (file->is_wanted) pthread_cond_broadcast(&file->over);
}

void fkv_end_turn(fkv_file *file, const struct turn *turn, int32_t result) {
    file->turns += result == FKV_OVER;
    file->called += turn->has_called;
    file->cold_reads += turn->reads;
    file->swept += turn->swept;
    file->rests = turn->rests;
    if (turn->end > file->log_end) file->log_end = turn->end;
    if (turn->has_called) file->is_stirred = true;
    /* Memory that was refused may come; the other refusals stay. */
    if (result < 0 && result != -FKV_MEMORY) fkv_note_fault(file, result, turn->why);
    if (file->waiting && turn->has_called) pthread_cond_broadcast(&file->served);
    fkv_give_turn(file);
}

int32_t fkv_help(fkv_file *file) {
    struct turn turn;
    if (atomic_load_explicit(&file->turning, memory_order_relaxed)) return 0;
    pthread_mutex_lock(&file->lock);
    int32_t why = fkv_unserved(file);
    bool is_free = why == 0 && !atomic_load(&file->turning) && !file->is_wanted;
    /*
     * A commit's turns sync: these are the keeper's thread's. It makes them one after the other as long as somebody waits. But while it is in
     * a sync, turns only serve, and so they do where a flush rests. No record leaves memory by these, so they needn't be left to it.
     */
    bool commits = atomic_load(&file->in_hand);
    bool is_own = is_free && (file->rests ? !commits || file->is_syncing : !commits && !fkv_awaits_warmer(file));
    if (is_own) atomic_store(&file->turning, true);
    else if (is_free && !file->nudged) {
        file->nudged = true;
        pthread_cond_signal(&file->work);
    }
    pthread_mutex_unlock(&file->lock);
    if (!is_own) return fkv_with_errno(file, why);
    turn.written = turn.end = turn.reads = turn.swept = turn.copied = 0;
    turn.why = 0;
    /* What comes to rest in it is left to the keeper's thread. */
    int32_t result = fkv_serve_turn(file, &turn, NULL, NULL);
    pthread_mutex_lock(&file->lock);
    file->helped++;
    fkv_end_turn(file, &turn, result);
    /* A sync is due, or a page was written, so that others will soon leave memory. */
    bool is_warmed = turn.written && atomic_load_explicit(&file->warmed, memory_order_relaxed) != UINT64_MAX;
    if (turn.rests || is_warmed) pthread_cond_signal(&file->work);
    pthread_mutex_unlock(&file->lock);
    return 1;
}
