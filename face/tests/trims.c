/*
 * The log's front, given back, over a device in memory: trims SEED [LIVES]. In each life one session updates few keys in a drawn order, commits of all kinds
 * are made, turns sweep, and what they want is kept, or not. Then a crash leaves what was synced, or all that was written, and what lies below the begin is
 * overwritten. The next life opens as the commit that the image holds says: with each update up to its point, and none later.
 */
#include "device.h"

enum { KEYS = 40, OPS = 6000, MOST_UPDATES = OPS * 64, BUCKETS = 8, BUCKET_BYTES = 2 * 16 * 7, RECORD = 24, MOST_POLLS = 2000 };

static const fkv_shape SHAPE = {3, 16, 4, 2, 1, 16, 4096};
static struct device device;
static uint64_t state;

static uint64_t drawn(uint64_t below) {
    state = state * 6364136223846793005u + 1442695040888963407u;
    return (state >> 33) % below;
}

/* The updates of all lives that count, by their serials: the key, and the value that it had then. */
static uint64_t keys_of[MOST_UPDATES], values_of[MOST_UPDATES];
static uint64_t updates, begins_moved, begin_last, keeps, opened_later;

struct opened {
    fkv_store store;
    fkv_session session;
    fkv_keeper keeper;
    fkv_shape shape;
    fkv_opened told;
    uint64_t points[FKV_MOST_SESSIONS];
};

static uint64_t value_at(uint64_t serial, uint64_t key) {
    for (uint64_t i = serial; i > 0; i--) {
        if (keys_of[i] == key) return values_of[i];
    }
    return FKV_ABSENT;
}

static int32_t turn(struct opened *it, fkv_turned *turned) {
    uint64_t points[FKV_MOST_SESSIONS];
    int32_t call = drawn(3) ? fkv_sweep(&it->keeper, turned, points, FKV_MOST_SESSIONS) : fkv_turn(&it->keeper, turned, points, FKV_MOST_SESSIONS);
    return end_turn(&device, &it->keeper, call, turned, points, FKV_MOST_SESSIONS);
}

static void poll(struct opened *it) {
    fkv_finished finished[FKV_MOST_PENDING];
    fkv_seen seen;
    uint64_t count;
    WANTS("a poll", fkv_poll(&it->session, finished, FKV_MOST_PENDING, &count) >= 0, true);
    WANTS("a refresh", fkv_refresh(&it->session, &seen), 0);
}

/* Makes turns until the session waits for nothing. */
static void settle(struct opened *it) {
    fkv_finished finished[FKV_MOST_PENDING];
    fkv_turned turned;
    fkv_seen seen;
    uint64_t count;
    for (int i = 0; i < MOST_POLLS; i++) {
        if (fkv_poll(&it->session, finished, FKV_MOST_PENDING, &count) == 0) return;
        WANTS("a refresh", fkv_refresh(&it->session, &seen), 0);
        WANTS("a turn", turn(it, &turned), FKV_OVER);
    }
    WANTS("what is left pending", 1, 0);
}

static void note(uint64_t serial, uint64_t key, uint64_t value) {
    WANTS("the serial", serial, updates + 1);
    WANTS("whether there is room", serial < MOST_UPDATES, true);
    updates = serial;
    keys_of[serial] = key;
    values_of[serial] = value;
}

static void update(struct opened *it, uint64_t key, int how) {
    fkv_update told = {0};
    uint64_t value = how == 1 ? FKV_ABSENT : how == 2 ? value_at(updates, key) : drawn(1000);
    int32_t result = how == 1 ? fkv_delete(&it->session, key, &told) : how == 2 ? fkv_merge(&it->session, key, FKV_KEEP, 0, &told) : fkv_upsert(&it->session, key, value, &told);
    if (result == -FKV_LOG_FULL || result == -FKV_INDEX_FULL || result == -FKV_PENDING_FULL) return;
    WANTS("an update", result == FKV_DONE || result == FKV_PENDING, true);
    note(told.serial, key, value);
    if (result == FKV_PENDING) settle(it);
}

static void read_all(struct opened *it) {
    for (uint64_t key = 0; key < KEYS; key++) {
        uint64_t value = 0, wanted = value_at(updates, key);
        int32_t result = fkv_get(&it->session, key, &value);
        for (int i = 0; result == FKV_PENDING && i < MOST_POLLS; i++) {
            fkv_finished finished[FKV_MOST_PENDING];
            fkv_turned turned;
            fkv_seen seen;
            uint64_t count = 0, ticket = value;
            WANTS("a turn", turn(it, &turned), FKV_OVER);
            WANTS("a poll", fkv_poll(&it->session, finished, FKV_MOST_PENDING, &count) >= 0, true);
            WANTS("a refresh", fkv_refresh(&it->session, &seen), 0);
            for (uint64_t j = 0; j < count; j++) {
                if (finished[j].kind == FKV_UPDATED || finished[j].name != ticket) continue;
                result = finished[j].kind == FKV_READ_FOUND ? FKV_FOUND : FKV_NONE;
                value = finished[j].value;
            }
        }
        WANTS("a read", result, wanted == FKV_ABSENT ? FKV_NONE : FKV_FOUND);
        if (result == FKV_FOUND) WANTS("its value", value, wanted);
    }
}

/* Somebody keeps what is wanted, mostly. */
static void keep_wanted(struct opened *it) {
    uint64_t words[FKV_MOST_WANTED];
    size_t count = fkv_wanted(&it->keeper, words, FKV_MOST_WANTED);
    for (size_t i = 0; i < count; i++) {
        if (drawn(8)) update(it, fkv_spread_back(words[i]), 2), keeps++;
    }
}

static void live(struct opened *it) {
    fkv_turned turned;
    uint64_t number, ops = drawn(OPS), quiet = drawn(4), begin;
    for (uint64_t i = 0; i < ops; i++) {
        uint64_t what = drawn(100);
        if (what < 50) update(it, drawn(quiet ? KEYS / 4 : KEYS), drawn(6) == 0);
        else if (what < 60) poll(it);
        else if (what < 97) WANTS("a turn", turn(it, &turned), FKV_OVER);
        else if (what < 99) (void)fkv_commit(&it->keeper, drawn(4) ? FKV_TRIM : (uint32_t)drawn(2), &number);
        else if (drawn(8) == 0) read_all(it);
        keep_wanted(it);
        begin = fkv_begin(&it->keeper);
        WANTS("whether the begin rises", begin >= begin_last, true);
        begins_moved += begin > begin_last;
        begin_last = begin;
    }
}

static void end(struct opened *it) {
    (void)fkv_end_session(&it->session);
    fkv_free_session(it->session);
    fkv_end_keeper(&it->keeper);
    fkv_free_keeper(it->keeper);
    (void)fkv_close(&it->store);
    fkv_free_store(it->store);
}

/* Takes what a crash leaves, with the front overwritten. `log` is the place of the record of address 0. */
static void crash(uint64_t log, uint64_t begin) {
    if (drawn(2)) {
        memcpy(device.now, device.synced, DEVICE_SIZE);
        device.size = device.synced_size;
    }
    for (uint64_t at = log + RECORD; at < log + RECORD * begin; at++) device.now[at] = (uint8_t)drawn(256);
    memcpy(device.synced, device.now, DEVICE_SIZE);
    device.synced_size = device.size;
}

static void open_it(struct opened *it) {
    WANTS("opening", fkv_open(device.now, device.size, FKV_SPREAD, FKV_COLD, &it->store.at, &it->shape, &it->told, it->points, FKV_MOST_SESSIONS), 0);
    WANTS("taking a session", fkv_take_session(&it->store, 0, &it->session.at), 0);
    WANTS("taking the keeper", fkv_take_keeper(&it->store, &it->keeper.at), 0);
}

int main(int count, char **words) {
    if (count < 2) return 2;
    state = strtoull(words[1], NULL, 10) * 2 + 1;
    int lives = count > 2 ? atoi(words[2]) : 20;
    begin_device(&device, &SHAPE);
    uint64_t log = 0;
    updates = 0, begin_last = 1;
    for (int life = 0; life < lives; life++) {
        struct opened it = {0};
        open_it(&it);
        /* (the log lies behind both areas for the index) */
        log = FKV_IMAGE_SIZE + BUCKET_BYTES * (BUCKETS + it.shape.overflow);
        WANTS("whether no point is later than what was done", it.points[0] <= updates, true);
        updates = it.points[0];
        uint64_t begin = fkv_begin(&it.keeper);
        opened_later += begin > 1;
        WANTS("whether the begin rises over a crash", begin >= begin_last, true);
        begin_last = begin;
        read_all(&it);
        live(&it);
        begin = fkv_begin(&it.keeper);
        end(&it);
        crash(log, begin);
        if (updates > MOST_UPDATES - OPS * 3 || device.size > DEVICE_SIZE - 200000) break;
    }
    printf("begin moved %d times, to %d; %d keys were kept, and %d lives opened with a later begin\n", (int)begins_moved, (int)begin_last, (int)keeps, (int)opened_later);
    return 0;
}
