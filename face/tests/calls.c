/* The calls of fkv.h over a device in memory: each once, many keys, hints, what they refuse, crashes and rests of commits, and renewals. */
#include "device.h"

enum { SESSIONS = 2, KEYS = 100, MOST_TURNS = 1000 };

static const fkv_shape SHAPE = {4, 16, 4, 2, SESSIONS, 16, 64};
static struct device device;

/* An open store with all its handles. */
struct opened {
    fkv_store store;
    fkv_session sessions[SESSIONS];
    fkv_keeper keeper;
    fkv_shape shape;
    fkv_opened told;
    uint64_t points[FKV_MOST_SESSIONS];
};

static struct opened open_bytes(const uint8_t *bytes, size_t size, uint32_t keys) {
    struct opened it = {0};
    WANTS("opening", fkv_open(bytes, size, keys, FKV_COLD, &it.store.at, &it.shape, &it.told, it.points, FKV_MOST_SESSIONS), 0);
    for (uint64_t i = 0; i < SESSIONS; i++) WANTS("taking a session", fkv_take_session(&it.store, i, &it.sessions[i].at), 0);
    WANTS("taking the keeper", fkv_take_keeper(&it.store, &it.keeper.at), 0);
    return it;
}

static void close_all(struct opened *it) {
    for (int i = 0; i < SESSIONS; i++) {
        WANTS("ending a session", fkv_end_session(&it->sessions[i]), 0);
        fkv_free_session(it->sessions[i]);
    }
    fkv_end_keeper(&it->keeper);
    fkv_free_keeper(it->keeper);
    WANTS("closing", fkv_close(&it->store), 0);
    fkv_free_store(it->store);
}

/* Each session refreshes and polls. How many requests are left. */
static int64_t poll_all(struct opened *it) {
    fkv_finished finished[FKV_MOST_PENDING];
    fkv_seen seen;
    uint64_t count;
    int64_t left = 0;
    for (int i = 0; i < SESSIONS; i++) {
        WANTS("a refresh", fkv_refresh(&it->sessions[i], &seen), 0);
        left += fkv_poll(&it->sessions[i], finished, FKV_MOST_PENDING, &count);
    }
    return left;
}

/* A round: each session refreshes and polls, and the keeper makes a turn. The keeper's answer. */
static int32_t go_round(struct opened *it, fkv_turned *turned, uint64_t *points) {
    poll_all(it);
    return turn_device(&device, &it->keeper, turned, points, FKV_MOST_SESSIONS);
}

/* Goes on until nothing is pending. */
static void settle(struct opened *it) {
    fkv_turned turned;
    uint64_t points[FKV_MOST_SESSIONS];
    for (int i = 0; poll_all(it) > 0; i++) {
        WANTS("whether requests are finished", i < MOST_TURNS, true);
        WANTS("a turn", turn_device(&device, &it->keeper, &turned, points, FKV_MOST_SESSIONS), FKV_OVER);
    }
}

/* Carries a commit through. The refusal that it has met, or 0. */
static int32_t commit(struct opened *it, uint32_t log_only, uint64_t *points) {
    fkv_turned turned = {0};
    uint64_t number = 0;
    WANTS("asking for a commit", fkv_commit(&it->keeper, log_only, &number), 0);
    for (int i = 0; i < MOST_TURNS; i++) {
        int32_t result = go_round(it, &turned, points);
        if (result < 0) return result;
        if (!turned.finished) continue;
        WANTS("the finished commit", turned.number, number);
        return 0;
    }
    WANTS("whether the commit was finished", false, true);
    return 0;
}

/* The value of a key, which may have to be read back; FKV_ABSENT where it has none. */
static uint64_t value_of(struct opened *it, uint64_t key) {
    fkv_finished finished[FKV_MOST_PENDING];
    fkv_turned turned;
    fkv_seen seen;
    uint64_t value = 0, count = 0, points[FKV_MOST_SESSIONS];
    int32_t result = fkv_get(&it->sessions[0], key, &value);
    if (result == FKV_FOUND) return value;
    if (result == FKV_NONE) return FKV_ABSENT;
    WANTS("the answer of a read", result, FKV_PENDING);
    for (int i = 0; i < MOST_TURNS; i++) {
        turn_device(&device, &it->keeper, &turned, points, FKV_MOST_SESSIONS);
        fkv_refresh(&it->sessions[0], &seen);
        fkv_refresh(&it->sessions[1], &seen);
        fkv_poll(&it->sessions[0], finished, FKV_MOST_PENDING, &count);
        if (count == 0) continue;
        WANTS("the ticket of a read", finished[0].name, value);
        return finished[0].kind == FKV_READ_FOUND ? finished[0].value : FKV_ABSENT;
    }
    WANTS("whether a read was finished", false, true);
    return 0;
}

/* An update that is made again until it is accepted. Its serial. */
static uint64_t add(struct opened *it, int session, uint64_t key, uint64_t number) {
    fkv_update told;
    fkv_turned turned;
    uint64_t points[FKV_MOST_SESSIONS];
    int32_t result = fkv_add(&it->sessions[session], key, number, &told);
    for (int i = 0; i < MOST_TURNS && result == -FKV_PENDING_FULL; i++) {
        go_round(it, &turned, points);
        result = fkv_add(&it->sessions[session], key, number, &told);
    }
    WANTS("whether an add is accepted", result == FKV_DONE || result == FKV_PENDING, true);
    return told.serial;
}

/* Updates of each kind on one key, and their refusals. */
static void updates(void) {
    fkv_update told;
    fkv_seen seen;
    uint64_t value, serial;
    begin_device(&device, &SHAPE);
    struct opened it = open_bytes(device.now, device.size, FKV_SPREAD);
    fkv_session *session = &it.sessions[0];
    WANTS("the number of a new store", it.told.number, 0);
    WANTS("its sessions", it.shape.sessions, SESSIONS);
    WANTS("a meeting", fkv_meet(session, &it.sessions[1]), 0);
    WANTS("the last serial", fkv_serial(session, &serial), 0);
    WANTS("that serial", serial, 0);
    WANTS("a read of no value", fkv_get(session, 7, &value), FKV_NONE);
    WANTS("an upsert", fkv_upsert(session, 7, 10, &told), FKV_DONE);
    WANTS("its serial", told.serial, it.points[0] + 1);
    WANTS("an add", fkv_add(session, 7, 5, &told), FKV_DONE);
    WANTS("what it leaves", told.value, 15);
    WANTS("a max", fkv_max(session, 7, 40, &told), FKV_DONE);
    WANTS("what it leaves", told.value, 40);
    WANTS("a read", fkv_get(session, 7, &value), FKV_FOUND);
    WANTS("its value", value, 40);
    WANTS("a delete", fkv_delete(session, 7, &told), FKV_DONE);
    WANTS("its serial", told.serial, 4);
    WANTS("a read behind it", fkv_get(session, 7, &value), FKV_NONE);
    WANTS("an upsert of no value", fkv_upsert(session, 7, FKV_ABSENT, &told), -FKV_VALUE_RESERVED);
    WANTS("what is durable", fkv_durable(session, &serial), 0);
    WANTS("that serial", serial, 0);
    WANTS("waking", fkv_wake(session, &seen), -FKV_AWAKE);
    WANTS("sleeping", fkv_sleep(session), 0);
    WANTS("the last serial", fkv_serial(session, &serial), 0);
    WANTS("that serial", serial, 4);
    WANTS("a read asleep", fkv_get(session, 7, &value), -FKV_ASLEEP);
    WANTS("sleeping again", fkv_sleep(session), -FKV_ASLEEP);
    WANTS("waking", fkv_wake(session, &seen), 0);
    WANTS("the phase", seen.phase, FKV_REST);
    close_all(&it);
}

/* What a merge has to leave. */
struct merged {
    uint32_t which;
    uint64_t before; /* FKV_ABSENT for no value */
    uint64_t number;
    uint64_t after;
};

static const struct merged MERGED[] = {
    {FKV_KEEP, FKV_ABSENT, 7, FKV_ABSENT}, {FKV_KEEP, 12, FKV_ABSENT, 12}, {FKV_KEEP, 0, 7, 0},
    {FKV_MIN, FKV_ABSENT, 7, 7}, {FKV_MIN, 12, 7, 7}, {FKV_MIN, 7, 12, 7},
    {FKV_SUB, FKV_ABSENT, 7, 0}, {FKV_SUB, 12, 7, 5}, {FKV_SUB, 7, 12, 0}, {FKV_SUB, UINT64_MAX - 1, 1, UINT64_MAX - 2},
    {FKV_AND, FKV_ABSENT, 7, 0}, {FKV_AND, 12, 10, 8}, {FKV_AND, UINT64_MAX - 1, UINT64_MAX - 1, UINT64_MAX - 1},
    {FKV_OR, FKV_ABSENT, 7, 7}, {FKV_OR, 12, 10, 14}, {FKV_OR, UINT64_MAX - 1, 1, UINT64_MAX - 1},
    {FKV_OR, UINT64_C(1) << 63, UINT64_MAX >> 1, UINT64_MAX - 1},
    {FKV_FIRST, FKV_ABSENT, 7, 7}, {FKV_FIRST, 12, 7, 12}, {FKV_FIRST, 0, 7, 0},
};

enum { MERGES = sizeof MERGED / sizeof MERGED[0], MOST_MERGE = FKV_FIRST };

/* One merge alone, by its call or as one of many. */
static void merge_one(fkv_session *session, uint64_t key, const struct merged *it, bool is_of_many) {
    fkv_each_update each = {0};
    fkv_update told = {0};
    uint64_t value;
    if (it->before != FKV_ABSENT) WANTS("an upsert", fkv_upsert(session, key, it->before, &told), FKV_DONE);
    if (is_of_many) {
        WANTS("a merge of many", fkv_merge_many(session, it->which, &key, 1, &it->number, 1, &each, 1), 0);
        WANTS("its answer", each.result, FKV_DONE);
        WANTS("what it leaves", each.value, it->after);
    } else {
        WANTS("a merge", fkv_merge(session, key, it->which, it->number, &told), FKV_DONE);
        WANTS("what it leaves", told.value, it->after);
    }
    WANTS("a read behind it", fkv_get(session, key, &value), it->after == FKV_ABSENT ? FKV_NONE : FKV_FOUND);
    if (it->after != FKV_ABSENT) WANTS("its value", value, it->after);
    WANTS("a keep behind it", fkv_keep(session, key, &told), FKV_DONE);
    WANTS("what it tells", told.value, it->after);
}

/* What merges refuse: nothing is done then, and nothing told of one that there isn't. */
static void merges_refused(fkv_session *session, uint64_t serial) {
    fkv_each_update each = {7, 7, 7, 7};
    fkv_update told = {7, 7, 7};
    const uint64_t key = 1000, number = 7, reserved = FKV_ABSENT;
    uint64_t last;
    for (uint32_t which = FKV_KEEP + 1; which <= MOST_MERGE; which++) {
        WANTS("a merge of no value", fkv_merge(session, key, which, FKV_ABSENT, &told), -FKV_VALUE_RESERVED);
        WANTS("it as one of many", fkv_merge_many(session, which, &key, 1, &reserved, 1, &each, 1), 0);
        WANTS("its answer", each.result, -FKV_VALUE_RESERVED);
    }
    told = (fkv_update){7, 7, 7}, each = (fkv_each_update){7, 7, 7, 7};
    WANTS("a merge that there isn't", fkv_merge(session, key, MOST_MERGE + 1, number, &told), -FKV_NO_MERGE);
    WANTS("the last number", fkv_merge(session, key, UINT32_MAX, number, &told), -FKV_NO_MERGE);
    WANTS("what is told of it", told.serial + told.value + told.reason, 21);
    WANTS("it as one of many", fkv_merge_many(session, MOST_MERGE + 1, &key, 1, &number, 1, &each, 1), -FKV_NO_MERGE);
    WANTS("merges without room", fkv_merge_many(session, FKV_OR, &key, 1, &number, 1, &each, 0), -FKV_ROOM_SMALL);
    WANTS("merges of fewer numbers", fkv_merge_many(session, FKV_OR, &key, 1, &number, 0, &each, 1), -FKV_ROOM_SMALL);
    WANTS("what is told of it", each.result, 7);
    WANTS("the last serial", fkv_serial(session, &last), 0);
    WANTS("that serial", last, serial);
    WANTS("sleeping", fkv_sleep(session), 0);
    WANTS("a keep asleep", fkv_keep(session, key, &told), -FKV_ASLEEP);
}

/* Each merge, with and without a value. */
static void merges(void) {
    fkv_seen seen;
    fkv_turned turned;
    uint64_t serial, number = 0, points[FKV_MOST_SESSIONS];
    begin_device(&device, &SHAPE);
    struct opened it = open_bytes(device.now, device.size, FKV_SPREAD);
    for (int i = 0; i < 2 * MERGES; i++) {
        const struct merged *merged = &MERGED[i % MERGES];
        merge_one(&it.sessions[0], 100 + (uint64_t)i, merged, i >= MERGES);
        number += merged->before == FKV_ABSENT ? 2 : 3;
        /* so that the next page is open when it is wanted */
        go_round(&it, &turned, points);
    }
    WANTS("the last serial", fkv_serial(&it.sessions[0], &serial), 0);
    WANTS("that serial", serial, number);
    merges_refused(&it.sessions[0], number);
    WANTS("waking", fkv_wake(&it.sessions[0], &seen), 0);
    close_all(&it);
}

/* A merge whose record the file alone has: what the poll tells that finishes it. */
static void merge_waits(struct opened *it, uint64_t key, const struct merged *merged) {
    fkv_finished finished[FKV_MOST_PENDING];
    fkv_seen seen;
    fkv_turned turned;
    fkv_update told;
    uint64_t count = 0, points[FKV_MOST_SESSIONS];
    WANTS("a merge", fkv_merge(&it->sessions[0], key, merged->which, merged->number, &told), FKV_PENDING);
    WANTS("why it waits", told.reason, FKV_DISK);
    for (int i = 0; i < MOST_TURNS && count == 0; i++) {
        turn_device(&device, &it->keeper, &turned, points, FKV_MOST_SESSIONS);
        for (int of = 0; of < SESSIONS; of++) WANTS("a refresh", fkv_refresh(&it->sessions[of], &seen), 0);
        fkv_poll(&it->sessions[0], finished, FKV_MOST_PENDING, &count);
    }
    WANTS("how many are finished", count, 1);
    WANTS("of what kind", finished[0].kind, FKV_UPDATED);
    WANTS("its serial", finished[0].name, told.serial);
    WANTS("what it leaves", finished[0].value, merged->after);
    WANTS("a keep behind it", fkv_keep(&it->sessions[0], key, &told), FKV_DONE);
    WANTS("what that tells", told.value, merged->after);
}

/* Each merge of keys whose records the file alone has, those of deleted keys too. */
static void merges_waiting(void) {
    fkv_turned turned;
    fkv_update told;
    uint64_t points[FKV_MOST_SESSIONS];
    begin_device(&device, &SHAPE);
    struct opened it = open_bytes(device.now, device.size, FKV_SPREAD);
    for (uint64_t i = 0; i < MERGES; i++) {
        bool is_there = MERGED[i].before != FKV_ABSENT;
        WANTS("an upsert", fkv_upsert(&it.sessions[0], i, is_there ? MERGED[i].before : 9, &told), FKV_DONE);
        if (!is_there) WANTS("a delete", fkv_delete(&it.sessions[0], i, &told), FKV_DONE);
        go_round(&it, &turned, points);
    }
    WANTS("a commit", commit(&it, 0, points), 0);
    close_all(&it);
    it = open_bytes(device.synced, device.synced_size, FKV_SPREAD);
    for (uint64_t i = 0; i < MERGES; i++) merge_waits(&it, i, &MERGED[i]);
    close_all(&it);
}

/* Keys that differ in high bits alone; or such keys as a hash makes of them. */
static uint64_t key_of(uint32_t keys, uint64_t number) {
    return keys == FKV_SPREAD ? number << 20 : fkv_spread(number << 20);
}

enum { MANY = 150, REFUSED_AT = 20 };

/* An answer of many is that of the single call, unless that was refused: then nothing else is told. */
static void is_update(const fkv_each_update *its, int32_t result, const fkv_update *single) {
    WANTS("an update's answer", its->result, result);
    if (result < 0) return;
    WANTS("its serial", its->serial, single->serial);
    WANTS("its value", its->value, single->value);
    WANTS("its reason", its->reason, single->reason);
}

/* Updates of many keys, and the single ones at a twin of the store. How many were done. */
static int update_both(fkv_session *session, fkv_session *twin, bool is_add, const uint64_t *keys, const uint64_t *numbers) {
    fkv_each_update told[MANY + 1];
    fkv_update single;
    int count = 0;
    told[MANY].serial = 77;
    if (is_add) WANTS("adds to many keys", fkv_add_many(session, keys, MANY, numbers, MANY, told, MANY + 1), 0);
    else WANTS("upserts of many keys", fkv_upsert_many(session, keys, MANY, numbers, MANY, told, MANY + 1), 0);
    for (int i = 0; i < MANY; i++) {
        int32_t result = (is_add ? fkv_add : fkv_upsert)(twin, keys[i], numbers[i], &single);
        is_update(&told[i], result, &single);
        count += result == FKV_DONE;
    }
    WANTS("the place behind the last one", told[MANY].serial, 77);
    return count;
}

/* Reads of many keys, and the single ones at a twin of the store. How many were found. */
static int read_both(fkv_session *session, fkv_session *twin, const uint64_t *keys) {
    fkv_each_read told[MANY + 1];
    uint64_t value;
    int count = 0;
    told[MANY].value = 77;
    WANTS("reads of many keys", fkv_get_many(session, keys, MANY, told, MANY + 1), 0);
    for (int i = 0; i < MANY; i++) {
        int32_t result = fkv_get(twin, keys[i], &value);
        WANTS("a read's answer", told[i].result, result);
        if (result == FKV_FOUND || result == FKV_PENDING) WANTS("its value", told[i].value, value);
        count += result == FKV_FOUND;
    }
    WANTS("the place behind the last one", told[MANY].value, 77);
    return count;
}

/* What calls of many keys refuse as a whole: nothing is done, and nothing told. */
static void many_refused(fkv_session *session, const uint64_t *keys) {
    fkv_each_update told[2] = {{7, 7, 7, 7}, {7, 7, 7, 7}};
    fkv_each_read read = {7, 7};
    WANTS("reads without room", fkv_get_many(session, keys, 2, &read, 1), -FKV_ROOM_SMALL);
    WANTS("upserts without room", fkv_upsert_many(session, keys, 2, keys, 2, told, 1), -FKV_ROOM_SMALL);
    WANTS("adds without room", fkv_add_many(session, keys, 2, keys, 2, told, 0), -FKV_ROOM_SMALL);
    WANTS("upserts of fewer values", fkv_upsert_many(session, keys, 2, keys, 1, told, 2), -FKV_ROOM_SMALL);
    WANTS("adds of more numbers", fkv_add_many(session, keys, 1, keys, 2, told, 2), -FKV_ROOM_SMALL);
    WANTS("what is told of it", told[0].result, 7);
    WANTS("what is told of a read", read.result, 7);
    WANTS("reads of no key", fkv_get_many(session, keys, 0, &read, 0), 0);
    WANTS("upserts of no key", fkv_upsert_many(session, keys, 0, keys, 0, told, 0), 0);
}

/* The twin's file while the store's own is in hand, and the other way round. */
static struct device other;

static void change_device(void) {
    static struct device left;
    left = device;
    device = other;
    other = left;
}

static void settle_both(struct opened *it, struct opened *twin) {
    settle(it);
    change_device();
    settle(twin);
    change_device();
}

/* So many keys, some of them twice. */
static void draw_keys(uint32_t keys_lie, uint64_t count, uint64_t *keys) {
    for (uint64_t i = 0; i < MANY; i++) keys[i] = key_of(keys_lie, i % count);
}

/*
 * Calls of many keys answer as the single ones do, one behind the other, and one value is refused. Then the keeper is behind, so the
 * last updates wait, and in the end too many do.
 */
static void many(uint32_t keys_lie) {
    uint64_t keys[MANY], numbers[MANY];
    fkv_each_read read;
    begin_device(&device, &SHAPE);
    other = device;
    struct opened it = open_bytes(device.now, device.size, keys_lie), twin = open_bytes(device.now, device.size, keys_lie);
    fkv_session *session = &it.sessions[0], *single = &twin.sessions[0];
    for (uint64_t i = 0; i < MANY; i++) numbers[i] = i == REFUSED_AT ? FKV_ABSENT : i;
    draw_keys(keys_lie, 30, keys);
    many_refused(session, keys);
    WANTS("how many upserts are done", update_both(session, single, false, keys, numbers), MANY - 1);
    WANTS("how many adds are done", update_both(session, single, true, keys, numbers), MANY - 1);
    WANTS("how many values are found", read_both(session, single, keys), MANY);
    draw_keys(keys_lie, 140, keys);
    WANTS("whether some upserts are too many", update_both(session, single, false, keys, numbers) < MANY - 64, true);
    settle_both(&it, &twin);
    WANTS("whether some values are found", read_both(session, single, keys) > 0, true);
    settle_both(&it, &twin);
    WANTS("sleeping", fkv_sleep(session), 0);
    WANTS("reads asleep", fkv_get_many(session, keys, 1, &read, 1), 0);
    WANTS("the answer of one", read.result, -FKV_ASLEEP);
    close_all(&it);
    close_all(&twin);
}

/* What openings and handles refuse. */
static void wants_offsets(const fkv_offsets *its, uint64_t tail) {
    WANTS("the tail", its->tail, tail);
    WANTS("whether the first offsets are in order", its->closed <= its->head && its->head <= its->flushed, true);
    WANTS("whether the next are", its->flushed <= its->safe_read_only && its->safe_read_only <= its->read_only, true);
    WANTS("whether the tail is the last", its->read_only <= its->tail, true);
}

/* Hints of a session that has made no call, that sleeps, and that is ended. The key of each record is told as the caller knows it. */
static void hints(uint32_t keys_lie) {
    enum { RECORDS = 20 };
    fkv_offsets its;
    fkv_update told;
    fkv_seen seen;
    uint64_t keys[RECORDS + 2] = {0};
    begin_device(&device, &SHAPE);
    struct opened it = open_bytes(device.now, device.size, keys_lie);
    fkv_session *session = &it.sessions[0], *other = &it.sessions[1];
    WANTS("offsets of a new store", fkv_hint_store(&it.store, &its), 0);
    wants_offsets(&its, 1);
    WANTS("its overflow buckets", its.overflow, 0);
    WANTS("where no key leads", fkv_hint_where(session, 5), 0);
    WANTS("keys of no records", fkv_hint_keys(session, 1, keys, RECORDS), 0);
    for (uint64_t key = 0; key < RECORDS; key++) {
        WANTS("an upsert", fkv_upsert(session, key * 1000, key, &told), FKV_DONE);
        WANTS("where its key leads", fkv_hint_where(other, key * 1000), key + 1);
    }
    WANTS("an upsert in place", fkv_upsert(session, 3000, 9, &told), FKV_DONE);
    WANTS("where its key leads", fkv_hint_where(session, 3000), 4);
    WANTS("offsets", fkv_hint_offsets(session, &its), 0);
    wants_offsets(&its, RECORDS + 1);
    WANTS("keys from the third record on", fkv_hint_keys(session, 3, keys, RECORDS + 2), RECORDS - 2);
    for (uint64_t i = 0; i < RECORDS - 2; i++) WANTS("one of them", keys[i], (i + 2) * 1000);
    WANTS("what lies behind them", keys[RECORDS - 2], 0);
    WANTS("keys in less room", fkv_hint_keys(session, 1, keys, 2), 2);
    WANTS("no room", fkv_hint_keys(session, 1, keys, 0), 0);
    WANTS("keys before the first record", fkv_hint_keys(session, 0, keys, RECORDS), 0);
    WANTS("keys behind the last one", fkv_hint_keys(session, RECORDS + 1, keys, RECORDS), 0);
    WANTS("keys far behind it", fkv_hint_keys(session, UINT64_MAX, keys, RECORDS), 0);
    WANTS("sleeping", fkv_sleep(other), 0);
    WANTS("where a key leads", fkv_hint_where(other, 3000), 4);
    WANTS("waking", fkv_wake(other, &seen), 0);
    settle(&it);
    for (int i = 0; i < SESSIONS; i++) WANTS("ending a session", fkv_end_session(&it.sessions[i]), 0);
    WANTS("offsets of an ended session", fkv_hint_offsets(session, &its), -FKV_NO_SESSION);
    WANTS("a meeting of ended sessions", fkv_meet(session, &it.sessions[SESSIONS - 1]), -FKV_NO_SESSION);
    WANTS("where it says that a key leads", fkv_hint_where(session, 3000), 0);
    WANTS("the keys that it tells", fkv_hint_keys(session, 1, keys, RECORDS), 0);
    fkv_end_keeper(&it.keeper);
    WANTS("closing", fkv_close(&it.store), 0);
    WANTS("offsets of a closed store", fkv_hint_store(&it.store, &its), -FKV_BROKEN);
    for (int i = 0; i < SESSIONS; i++) fkv_free_session(it.sessions[i]);
    fkv_free_keeper(it.keeper);
    fkv_free_store(it.store);
}

static void refusals(void) {
    fkv_shape bad = SHAPE, shape;
    fkv_opened told;
    fkv_store store = {0};
    fkv_finished finished[1];
    uint64_t points[1], count;
    void *handle;
    bad.page = 5;
    WANTS("an image of a bad shape", fkv_image(&bad, device.now, FKV_IMAGE_SIZE), -FKV_BAD_SHAPE);
    WANTS("an image in a small room", fkv_image(&SHAPE, device.now, FKV_IMAGE_SIZE - 1), -FKV_ROOM_SMALL);
    WANTS("no store", fkv_open((const uint8_t *)"no store", 8, FKV_SPREAD, FKV_COLD, &store.at, &shape, &told, points, 1), -FKV_NOT_A_STORE);
    begin_device(&device, &SHAPE);
    struct opened it = open_bytes(device.now, device.size, FKV_SPREAD);
    WANTS("a session that is out", fkv_take_session(&it.store, 0, &handle), -FKV_HANDLE_TAKEN);
    WANTS("a session that isn't there", fkv_take_session(&it.store, SESSIONS, &handle), -FKV_NO_SESSION);
    WANTS("a keeper that is out", fkv_take_keeper(&it.store, &handle), -FKV_HANDLE_TAKEN);
    WANTS("a poll into a small room", fkv_poll(&it.sessions[0], finished, 1, &count), -FKV_ROOM_SMALL);
    WANTS("closing while handles are out", fkv_close(&it.store), -FKV_HANDLE_OUT);
    close_all(&it);
}

/* A commit keeps what was done, and an opening finds it, if it places keys in the same way. */
static void reopening(uint32_t keys) {
    uint64_t points[FKV_MOST_SESSIONS], serial = 0;
    begin_device(&device, &SHAPE);
    struct opened it = open_bytes(device.now, device.size, keys);
    for (uint64_t key = 0; key < KEYS; key++) add(&it, (int)(key % SESSIONS), key_of(keys, key), key);
    WANTS("a commit", commit(&it, 0, points), 0);
    WANTS("its points", points[0] + points[1], KEYS);
    WANTS("what is durable", fkv_durable(&it.sessions[0], &serial), 0);
    WANTS("that serial", serial, points[0]);
    WANTS("a log commit", commit(&it, 1, points), 0);
    for (uint64_t key = 0; key < KEYS; key++) WANTS("a value", value_of(&it, key_of(keys, key)), key);
    close_all(&it);
    it = open_bytes(device.synced, device.synced_size, keys);
    WANTS("the number of the commit", it.told.number, 2);
    WANTS("its points", it.points[0] + it.points[1], KEYS);
    WANTS("the last serial", fkv_serial(&it.sessions[1], &serial), 0);
    WANTS("that serial", serial, it.points[1]);
    for (uint64_t key = 0; key < KEYS; key++) WANTS("a value", value_of(&it, key_of(keys, key)), key);
    close_all(&it);
    it = open_bytes(device.synced, device.synced_size, keys == FKV_SPREAD ? FKV_SPREAD_ALREADY : FKV_SPREAD);
    WANTS("a value, opened the other way", value_of(&it, key_of(keys, 77)), FKV_ABSENT);
    close_all(&it);
}

/* These bytes are a store as a renewal leaves it: with the points, and the value of each key. */
static void is_renewed(const uint8_t *bytes, size_t size, uint32_t keys, const uint64_t *points) {
    memset(&device, 0, sizeof device);
    memcpy(device.now, bytes, size);
    memcpy(device.synced, bytes, size);
    device.size = device.synced_size = size;
    struct opened it = open_bytes(device.now, size, keys);
    WANTS("the number of a renewed store", it.told.number, 1);
    for (int i = 0; i < SESSIONS; i++) WANTS("a point of it", it.points[i], points[i]);
    for (uint64_t key = 0; key < KEYS; key++) WANTS("a value of it", value_of(&it, key), key);
    WANTS("the serial of an add", add(&it, 0, 7, 1), points[0] + 1);
    settle(&it);
    close_all(&it);
}

/* A store whose keys lie as they are is renewed with them, and with spread ones. */
static void renewing(void) {
    /* (with the overflow buckets that the first image has got) */
    enum { OVERFLOW = 16 + 65 * SESSIONS, SIZE = FKV_IMAGE_SIZE + 224 * (16 + OVERFLOW) + 24 * (KEYS + 1) };
    static uint8_t old[DEVICE_SIZE], image[SIZE];
    const fkv_shape own = {0}, other = {6, 4, 8, 2, 3, 16, 64};
    uint64_t points[FKV_MOST_SESSIONS];
    fkv_renewed told = {0};
    begin_device(&device, &SHAPE);
    struct opened it = open_bytes(device.now, device.size, FKV_SPREAD_ALREADY);
    for (uint64_t key = 0; key < KEYS; key++) add(&it, (int)(key % SESSIONS), key, key);
    WANTS("a commit", commit(&it, 0, points), 0);
    WANTS("a second commit", commit(&it, 0, points), 0);
    close_all(&it);
    size_t size = device.synced_size;
    memcpy(old, device.synced, size);
    WANTS("a renewal without room", fkv_renew(old, size, &own, FKV_AS_THEY_LIE, &told, image, 0), -FKV_ROOM_SMALL);
    WANTS("the room that it wants", told.size, SIZE);
    WANTS("one with too little", fkv_renew(old, size, &own, FKV_AS_THEY_LIE, &told, image, SIZE - 1), -FKV_ROOM_SMALL);
    for (size_t i = 0; i < SIZE; i++) WANTS("a byte of its room", image[i], 0);
    WANTS("a renewal", fkv_renew(old, size, &own, FKV_AS_THEY_LIE, &told, image, SIZE), 0);
    WANTS("its bytes", told.size, SIZE);
    is_renewed(image, SIZE, FKV_SPREAD_ALREADY, points);
    WANTS("a renewal that spreads keys", fkv_renew(old, size, &SHAPE, FKV_SPREAD_NOW, &told, image, SIZE), 0);
    is_renewed(image, SIZE, FKV_SPREAD, points);
    static uint8_t wide[2 * DEVICE_SIZE];
    WANTS("one to other sizes", fkv_renew(old, size, &other, FKV_SPREAD_NOW, &told, wide, sizeof wide), 0);
    WANTS("its bytes", told.size, FKV_IMAGE_SIZE + 224 * (64 + 16) + 24 * (KEYS + 1));
}

/* Why a store isn't renewed. */
static void renewing_refused(void) {
    const struct { fkv_shape shape; int32_t result; } shapes[] = {
        {{4, 5, 4, 2, SESSIONS, 16, 64}, -FKV_BAD_SHAPE}, {{0, 0, 0, 0, 0, 0, 64}, -FKV_BAD_SHAPE}, {{4, 16, 4, 2, 1, 16, 64}, -FKV_NO_SESSION},
        {{4, 4, 4, 2, SESSIONS, 16, 1}, -FKV_LOG_FULL}, {{0, 16, 4, 2, SESSIONS, 0, 64}, -FKV_INDEX_FULL},
    };
    static uint8_t old[DEVICE_SIZE], image[DEVICE_SIZE];
    const fkv_shape own = {0};
    uint64_t points[FKV_MOST_SESSIONS];
    fkv_renewed told = {0};
    begin_device(&device, &SHAPE);
    struct opened it = open_bytes(device.now, device.size, FKV_SPREAD);
    for (uint64_t key = 0; key < KEYS; key++) add(&it, (int)(key % SESSIONS), key, key);
    WANTS("a commit", commit(&it, 0, points), 0);
    close_all(&it);
    size_t size = device.synced_size;
    memcpy(old, device.synced, size);
    for (size_t i = 0; i < sizeof shapes / sizeof *shapes; i++) {
        WANTS("a renewal to such sizes", fkv_renew(old, size, &shapes[i].shape, FKV_AS_THEY_LIE, &told, image, sizeof image), shapes[i].result);
    }
    WANTS("one of no store", fkv_renew((const uint8_t *)"no store", 8, &own, FKV_AS_THEY_LIE, &told, image, sizeof image), -FKV_NOT_A_STORE);
    for (size_t i = 0; i < 2; i++) old[512 * (i + 1) + 1] ^= 1;
    WANTS("one of a damaged store", fkv_renew(old, size, &own, FKV_AS_THEY_LIE, &told, image, sizeof image), -FKV_DAMAGED);
    WANTS("the part that is damaged", told.damage, 1);
    for (size_t i = 0; i < sizeof image; i++) WANTS("a byte of the room", image[i], 0);
}

/* The sum of all values is that of the points, in what a crash leaves. The number of the commit. */
static uint64_t sum_agrees(const uint8_t *bytes, size_t size) {
    static uint8_t image[DEVICE_SIZE];
    uint64_t sum = 0;
    memcpy(image, bytes, DEVICE_SIZE);
    memcpy(device.now, image, DEVICE_SIZE);
    memcpy(device.synced, image, DEVICE_SIZE);
    device.size = device.synced_size = size;
    device.fails_at = 0;
    struct opened it = open_bytes(image, size, FKV_SPREAD);
    for (uint64_t key = 0; key < KEYS; key++) {
        uint64_t value = value_of(&it, key);
        sum += value == FKV_ABSENT ? 0 : value;
    }
    WANTS("the sum of the values", sum, it.points[0] + it.points[1]);
    uint64_t number = it.told.number;
    close_all(&it);
    return number;
}

/* A store with one commit behind it, and adds that it doesn't keep. */
static struct opened second_commit_ahead(void) {
    uint64_t points[FKV_MOST_SESSIONS];
    begin_device(&device, &SHAPE);
    struct opened it = open_bytes(device.now, device.size, FKV_SPREAD);
    for (uint64_t i = 0; i < 3 * KEYS; i++) add(&it, (int)(i % SESSIONS), i * 7 % KEYS, 1);
    WANTS("a first commit", commit(&it, 0, points), 0);
    for (uint64_t i = 0; i < KEYS; i++) add(&it, (int)(i % SESSIONS), i, 1);
    settle(&it);
    return it;
}

/* The second commit meets a call that fails, each in turn. Then the keeper is dead, and what a crash leaves is one of both commits. */
static void crashes(void) {
    uint64_t points[FKV_MOST_SESSIONS], number;
    fkv_turned turned;
    bool went = false;
    for (uint64_t at = 1; !went; at++) {
        struct opened it = second_commit_ahead();
        device.calls = 0;
        device.fails_at = at;
        int32_t result = commit(&it, 0, points);
        went = result == 0;
        if (!went) {
            WANTS("a turn whose call fails", result, -FKV_DEVICE);
            WANTS("the next turn", turn_device(&device, &it.keeper, &turned, points, FKV_MOST_SESSIONS), -FKV_BROKEN);
            WANTS("the next commit", fkv_commit(&it.keeper, 0, &number), -FKV_BROKEN);
        }
        close_all(&it);
        static struct device left;
        left = device;
        uint64_t from_synced = sum_agrees(left.synced, left.synced_size), from_now = sum_agrees(left.now, left.size);
        WANTS("the commit of what was synced", from_synced, went ? 2 : 1);
        WANTS("whether the commit of what was written is one of both", from_now == 1 || from_now == 2, true);
    }
}

/* A key is read from the file by a turn that only serves. It makes one call, and the writes rest still. */
static void served_at_rest(struct opened *it, uint64_t key) {
    fkv_finished finished[FKV_MOST_PENDING];
    fkv_turned turned = {0};
    uint64_t value = 0, count = 0, calls = device.calls, points[FKV_MOST_SESSIONS];
    WANTS("a read at rest", fkv_get(&it->sessions[0], key, &value), FKV_PENDING);
    int32_t call = fkv_serve(&it->keeper, &turned, points, FKV_MOST_SESSIONS);
    WANTS("what it needs", call, FKV_READ);
    WANTS("such a turn", end_turn(&device, &it->keeper, call, &turned, points, FKV_MOST_SESSIONS), FKV_OVER);
    WANTS("its calls", device.calls, calls + 1);
    WANTS("whether the writes rest still", fkv_rests(&it->keeper), 1);
    fkv_poll(&it->sessions[0], finished, FKV_MOST_PENDING, &count);
    WANTS("how many are finished", count, 1);
    WANTS("the ticket of a read", finished[0].name, value);
    WANTS("of what kind", finished[0].kind, FKV_READ_FOUND);
}

/* A commit rests before each sync of what it writes. Reads are served there, no other commit begins, and the next turn posts that sync. */
static void resting(void) {
    fkv_turned turned = {0};
    uint64_t number, other, points[FKV_MOST_SESSIONS], rests = 0;
    struct opened it = second_commit_ahead();
    close_all(&it);
    it = open_bytes(device.synced, device.synced_size, FKV_SPREAD);
    WANTS("whether a store that is opened rests", fkv_rests(&it.keeper), 0);
    add(&it, 0, KEYS, 1);
    WANTS("asking for a commit", fkv_commit(&it.keeper, 0, &number), 0);
    for (int i = 0; !turned.finished; i++) {
        WANTS("whether the commit is finished", i < MOST_TURNS, true);
        WANTS("a turn", go_round(&it, &turned, points), FKV_OVER);
        if (!fkv_rests(&it.keeper)) continue;
        served_at_rest(&it, rests++);
        WANTS("a turn that only serves", fkv_serve(&it.keeper, &turned, points, FKV_MOST_SESSIONS), FKV_OVER);
        WANTS("whether the writes rest behind it", fkv_rests(&it.keeper), 1);
        WANTS("a commit at rest", fkv_commit(&it.keeper, 0, &other), -FKV_COMMIT_RUNNING);
        WANTS("what the next turn posts", fkv_turn(&it.keeper, &turned, points, FKV_MOST_SESSIONS), FKV_SYNC);
    }
    WANTS("the finished commit", turned.number, number);
    /* of the triples, of the gate that is closed, of the slot, and of the gate that is opened */
    WANTS("how often it has rested", rests, 4);
    WANTS("whether anything rests then", fkv_rests(&it.keeper), 0);
    close_all(&it);
}

static void spreading(void) {
    uint64_t key = 1;
    for (int i = 0; i < 1000; i++) {
        WANTS("a key that is spread and back", fkv_spread_back(fkv_spread(key)), key);
        WANTS("a word that is spread back and forth", fkv_spread(fkv_spread_back(key)), key);
        key = key * 6364136223846793005u + 1442695040888963407u;
    }
}

int main(void) {
    updates();
    merges();
    merges_waiting();
    refusals();
    many(FKV_SPREAD);
    many(FKV_SPREAD_ALREADY);
    hints(FKV_SPREAD);
    hints(FKV_SPREAD_ALREADY);
    reopening(FKV_SPREAD);
    reopening(FKV_SPREAD_ALREADY);
    renewing();
    renewing_refused();
    crashes();
    resting();
    spreading();
    return 0;
}
