/* Calls that wait where a request would be pending, so that a session reads what it wrote; and the tick between calls. */
#define _POSIX_C_SOURCE 200809L
#include "fkv_file.h"

enum {
    /* A session refreshes at each of so many ticks, and of so many while a commit waits for it. */
    TICKS = 64,
    COMMIT_TICKS = 8,
    /* So many keys fkv_read_many asks for at once, at most. */
    MANY = 64
};

/* ---- Updates -------------------------------------------------------------------------------------------------------------------- */

/* A call that updates a key, as fkv_merge does. All such calls wait in one way. */
typedef int32_t update_fn(fkv_session *session, uint64_t key, uint32_t which, uint64_t number, fkv_update *told);

static int32_t upsert_key(fkv_session *session, uint64_t key, uint32_t which, uint64_t value, fkv_update *told) {
    (void)which;
    return fkv_upsert(session, key, value, told);
}

static int32_t add_to_key(fkv_session *session, uint64_t key, uint32_t which, uint64_t number, fkv_update *told) {
    (void)which;
    return fkv_add(session, key, number, told);
}

static int32_t raise_key(fkv_session *session, uint64_t key, uint32_t which, uint64_t number, fkv_update *told) {
    (void)which;
    return fkv_max(session, key, number, told);
}

static int32_t delete_key(fkv_session *session, uint64_t key, uint32_t which, uint64_t number, fkv_update *told) {
    (void)which, (void)number;
    return fkv_delete(session, key, told);
}

static void take_update(void *its, const fkv_finished *finished) {
    fkv_update *told = its;
    if (finished->kind == FKV_UPDATED && finished->name == told->serial) told->value = finished->value;
}

/* Notes that a call waits for so many requests: reads (0), or an update, for this reason. Nobody else writes the session's counts. */
static void note_waiting(fkv_file *file, const fkv_session *session, uint64_t reason, unsigned count) {
    struct seat *seat = &file->seats[session - file->sessions];
    uint64_t its = reason < FKV_REASONS ? reason : 0;
    uint64_t waited = atomic_load_explicit(&seat->waited[its], memory_order_relaxed);
    unsigned pending = atomic_load_explicit(&seat->pending[its], memory_order_relaxed);
    atomic_store_explicit(&seat->waited[its], waited + count, memory_order_relaxed);
    atomic_store_explicit(&seat->pending[its], pending + count, memory_order_relaxed);
}

static void note_full(fkv_file *file, int32_t result) {
    if (result != -FKV_LOG_FULL && result != -FKV_INDEX_FULL) return;
    pthread_mutex_lock(&file->lock);
    fkv_note_full(file, result);
    pthread_mutex_unlock(&file->lock);
}

static int32_t update_now(fkv_file *file, fkv_session *session, update_fn *update, uint64_t key, uint32_t which, uint64_t number,
                          fkv_update *told) {
    fkv_update own;
    if (!told) told = &own;
    told->serial = 0;
    int32_t result = atomic_load_explicit(&file->is_behind, memory_order_relaxed) ? fkv_give_way(file, session) : 0;
    if (result < 0) return result;
    result = update(session, key, which, number, told);
    if (result == FKV_DONE) return result;
    if (result == -FKV_PENDING_FULL) {
        /* Other calls have left so many. */
        result = fkv_settle(file, session, NULL, NULL);
        if (result == 0) result = update(session, key, which, number, told);
    }
    note_full(file, result);
    if (result != FKV_PENDING) return result;
    note_waiting(file, session, told->reason, 1);
    return fkv_settle(file, session, take_update, told);
}

int32_t fkv_put(fkv_file *file, fkv_session *session, uint64_t key, uint64_t value, fkv_update *told) {
    return update_now(file, session, upsert_key, key, 0, value, told);
}

int32_t fkv_increment(fkv_file *file, fkv_session *session, uint64_t key, uint64_t number, fkv_update *told) {
    return update_now(file, session, add_to_key, key, 0, number, told);
}

int32_t fkv_raise(fkv_file *file, fkv_session *session, uint64_t key, uint64_t number, fkv_update *told) {
    return update_now(file, session, raise_key, key, 0, number, told);
}

int32_t fkv_remove(fkv_file *file, fkv_session *session, uint64_t key, fkv_update *told) {
    return update_now(file, session, delete_key, key, 0, 0, told);
}

int32_t fkv_merge_now(fkv_file *file, fkv_session *session, uint64_t key, uint32_t which, uint64_t number, fkv_update *told) {
    return update_now(file, session, fkv_merge, key, which, number, told);
}

/* ---- Reads ---------------------------------------------------------------------------------------------------------------------- */

/* Reads that are waited for, of these keys. */
struct awaited {
    fkv_file *file;
    const fkv_session *session;
    const uint64_t *keys;
    fkv_each_read *told;
    size_t count;
    size_t left; /* of them, so many are pending */
};

static void take_read(void *its, const fkv_finished *finished) {
    struct awaited *awaited = its;
    if (finished->kind == FKV_UPDATED) return;
    for (size_t i = 0; i < awaited->count; i++) {
        fkv_each_read *told = &awaited->told[i];
        if (told->result != FKV_PENDING || told->value != finished->name) continue;
        told->result = finished->kind == FKV_READ_FOUND ? FKV_FOUND : FKV_NONE;
        told->value = finished->value;
        awaited->left--;
        if (told->result == FKV_FOUND) fkv_note_found(awaited->file, awaited->session, awaited->keys[i]);
        return;
    }
}

/* Waits for a read that is pending: FKV_FOUND (`*value`) or FKV_NONE, or a refusal, and then it stays pending. `*value` was its ticket. */
static int32_t await_read(fkv_file *file, fkv_session *session, uint64_t key, uint64_t *value) {
    fkv_each_read told = {.value = *value, .result = FKV_PENDING};
    struct awaited awaited = {file, session, &key, &told, 1, 1};
    note_waiting(file, session, 0, 1);
    /* It has asked already, so a turn comes before the first poll. */
    fkv_help(file);
    int32_t result = fkv_settle(file, session, take_read, &awaited);
    if (result < 0) return result;
    *value = told.value;
    return told.result;
}

int32_t fkv_read(fkv_file *file, fkv_session *session, uint64_t key, uint64_t *value) {
    int32_t result = fkv_get(session, key, value);
    if (result == -FKV_PENDING_FULL) {
        result = fkv_settle(file, session, NULL, NULL);
        if (result == 0) result = fkv_get(session, key, value);
    }
    if (result != FKV_PENDING) return result;
    fkv_fetch_alone(file, session, key);
    return await_read(file, session, key, value);
}

/* One of many: fkv_get_many and its results would take longer for it. Whether it had to wait. */
static int32_t read_alone(fkv_file *file, fkv_session *session, uint64_t key, fkv_each_read *told, size_t *waited) {
    told->value = 0;
    told->result = fkv_get(session, key, &told->value);
    if (told->result == -FKV_PENDING_FULL) told->result = fkv_read(file, session, key, &told->value);
    *waited = told->result == FKV_PENDING;
    if (*waited == 0) return 0;
    int32_t result = await_read(file, session, key, &told->value);
    if (result < 0) return result;
    told->result = result;
    return 0;
}

/*
 * Reads so many keys at once, at most MANY, and says how many had to wait. What other requests of the session leave no room for is read
 * one by one.
 */
static int32_t read_batch(fkv_file *file, fkv_session *session, const uint64_t *keys, size_t count, fkv_each_read *told, size_t *waited) {
    struct awaited awaited = {file, session, keys, told, count, 0};
    if (count == 1) return read_alone(file, session, *keys, told, waited);
    int32_t result = fkv_get_many(session, keys, count, told, count);
    for (size_t i = 0; i < count && result == 0; i++) awaited.left += told[i].result == FKV_PENDING;
    *waited = awaited.left;
    if (awaited.left) {
        note_waiting(file, session, 0, (unsigned)*waited);
        fkv_help(file);
        result = fkv_settle(file, session, take_read, &awaited);
    }
    for (size_t i = 0; i < count && result == 0; i++) {
        if (told[i].result == -FKV_PENDING_FULL) told[i].result = fkv_read(file, session, keys[i], &told[i].value);
    }
    return result;
}

/*
 * Records in memory are read faster by many, whose cache lines are fetched ahead. Reads that wait go better one by one: the file is read
 * for one of a session at a time, and each poll tries all that are pending. So a batch is halved where some of it had to wait. If the system
 * has to wait for a disk, it is asked ahead, and waits for many at once.
 */
int32_t fkv_read_many(fkv_file *file, fkv_session *session, const uint64_t *keys, size_t count, fkv_each_read *told, size_t room) {
    size_t size = 1, since_refresh = 0, fetched = 0, waited;
    if (room < count) return -FKV_ROOM_SMALL;
    for (size_t at = 0; at < count;) {
        size_t batch = count - at < size ? count - at : size;
        fetched = fkv_fetch_ahead(file, session, keys, count, at, fetched);
        int32_t result = read_batch(file, session, keys + at, batch, told + at, &waited);
        at += batch, since_refresh += batch;
        if (result == 0 && since_refresh >= TICKS) {
            since_refresh = 0;
            result = fkv_refresh_seat(file, session);
        }
        if (result < 0) return result;
        if (waited == 0 && size < MANY) size *= 2;
        else if (waited * 4 > batch && size > 1) size /= 2;
    }
    return 0;
}

/* ---- Between calls -------------------------------------------------------------------------------------------------------------- */

int32_t fkv_tick(fkv_file *file, fkv_session *session) {
    struct seat *seat = &file->seats[session - file->sessions];
    bool is_awaited = atomic_load_explicit(&file->in_hand, memory_order_relaxed) && seat->phase != FKV_WAIT_FLUSH;
    if (++seat->ticks >= (is_awaited ? COMMIT_TICKS : TICKS)) {
        fkv_finished finished[FKV_MOST_PENDING];
        uint64_t count;
        int32_t result = fkv_poll(session, finished, FKV_MOST_PENDING, &count);
        if (result == 0) fkv_note_settled(file, session);
        if (result >= 0) result = fkv_refresh_seat(file, session);
        if (result < 0) return result;
    }
    return fkv_with_errno(file, atomic_load(&file->ends));
}
