/*
 * Memory that is kept warm. Before a page's frame is used again, the library's session keeps each record of the page that is the newest of
 * its home: that makes a new one at the log's end. So does it of keys that reads have found in the file alone. It goes by hints, and what it
 * does are updates that change no value. The keeper's thread does it between two turns.
 */
#define _POSIX_C_SOURCE 200809L
#include "fkv_file.h"

enum {
    /* Of fewer pages none could be kept before it is let go. */
    LEAST_FRAMES = 4,
    /* It works so far ahead of what leaves memory: one page of so many in memory, as far as these are read-only by then. */
    AHEAD = 4,
    /* Users give way to it no later than so many records before what it hasn't come to leaves memory, as far as it works ahead at all. */
    LEAST_MARGIN = 32768,
    /* It looks at so many records in a row, and keeps what it wants of them at once. */
    SLICE = FKV_MOST_PENDING,
    /* A record that it keeps takes it as long as so many more that it looks at. */
    KEEPS = 3,
    /* So many it looks at in a step. */
    STEP = 1024,
    /* If it is behind, it hurries so long before a turn, by the time that its thread takes. The clock is asked behind so many looks. */
    HURRY_US = 2000,
    HURRY = 256,
    /* Behind a step it rests as long as that took, and so long at least. */
    LEAST_REST_US = 20,
    /* While requests of its session are pending, it polls at this pace; and if nothing of them is finished for so long, more seldom. */
    POLL_US = 20,
    LONG_US = 5000,
    LONG_POLL_US = 500,
    /* Then nobody waits for it. A session that is awake and idle may hold it up for ever. */
    STUCK_US = 200000,
    STUCK_POLL_US = 20000,
    /* Of the records that the log takes its updates are one of so many at most. */
    SHARE = 8,
    /* It ends where of the log's records one of so many is left, or so many. */
    LAST = 16,
    LEAST_LEFT = 65536
};

static fkv_session *own(fkv_file *file) { return &file->sessions[file->shape.sessions]; }

static uint64_t least(uint64_t one, uint64_t other) { return one < other ? one : other; }

static uint64_t most(uint64_t one, uint64_t other) { return one > other ? one : other; }

static uint64_t ring_of(const fkv_shape *shape) { return shape->page * shape->frames; }

/* So many records ahead of what leaves memory it works. */
static uint64_t records_ahead(const fkv_shape *shape) { return ring_of(shape) / AHEAD; }

bool fkv_can_warm(const fkv_file *file) {
    return file->has_own && file->shape.frames >= LEAST_FRAMES && fkv_records_of(&file->shape) > LEAST_LEFT;
}

/* ---- Which records leave memory ------------------------------------------------------------------------------------------------- */

/*
 * Those below it do so once so many records more were appended. As the tail comes to a page, the one behind that is opened, and takes the frame of
 * another. While frames are free sessions open pages by themselves, and fast: so few of them count as if they were full. What leaves is told
 * as far as it is read-only: a keep of any other record may leave it where it is.
 */
static uint64_t leaving(const fkv_shape *shape, const fkv_offsets *at, uint64_t more) {
    uint64_t opened = at->tail / shape->page + 2, all = at->closed / shape->page + shape->frames;
    uint64_t open_later = all > opened && all - opened <= shape->frames / 2 ? all - opened : 0;
    opened = (at->tail + more) / shape->page + 2 + open_later;
    return opened > shape->frames ? least((opened - shape->frames) * shape->page, at->safe_read_only) : 0;
}

/* So far it goes without rests, while no commit waits for sessions. */
static uint64_t wanted(const fkv_shape *shape, const fkv_offsets *at) { return leaving(shape, at, records_ahead(shape) / 4 * 3); }

/*
 * So far it has to have come, so that turns go on in other threads too, and users take what room there is. A record is read-only for so many
 * appended ones before it leaves memory as there are read-only pages but one, or for more where a commit has made it so. It may use half of
 * them. But of few it uses none: nobody gives way while the thread is in a call of the file, and users fill a page or two meanwhile.
 */
static uint64_t needed(const fkv_shape *shape, const fkv_offsets *at) {
    uint64_t read_only = shape->frames - least(shape->frames, shape->mutable_pages + 1);
    uint64_t margin = most(read_only * shape->page / 2, LEAST_MARGIN);
    return leaving(shape, at, least(records_ahead(shape) / 4 * 3, margin));
}

bool fkv_awaits_warmer(fkv_file *file) {
    uint64_t warmed = atomic_load_explicit(&file->warmed, memory_order_relaxed);
    fkv_offsets at;
    if (warmed == UINT64_MAX || fkv_hint_store(&file->store, &at) < 0) return false;
    return most(warmed, at.head) < needed(&file->shape, &at);
}

/* ---- Its session ---------------------------------------------------------------------------------------------------------------- */

/* Puts it to sleep. If requests of it are pending, it polls and refreshes instead, and that later again. */
void fkv_rest_own(fkv_file *file) {
    struct warmer *its = &file->warmer;
    fkv_finished finished[FKV_MOST_PENDING];
    fkv_seen seen;
    uint64_t count = 0;
    if (fkv_sleep(own(file)) == -FKV_PENDING_LEFT) {
        fkv_poll(own(file), finished, FKV_MOST_PENDING, &count);
        fkv_refresh(own(file), &seen);
        its->is_awake = fkv_sleep(own(file)) == -FKV_PENDING_LEFT;
    } else {
        its->is_awake = false;
    }
    if (!its->is_awake) return;
    if (count > 0) its->waits = fkv_now();
    uint64_t waited = fkv_since(its->waits);
    its->rests_until = fkv_later(fkv_now(), waited < LONG_US ? POLL_US : waited < STUCK_US ? LONG_POLL_US : STUCK_POLL_US);
}

/* Keeps the records of these keys, SLICE of them at most. Whether all are done. */
static bool keep_some(fkv_file *file, const uint64_t *keys, size_t count) {
    static const uint64_t nothing[SLICE];
    struct warmer *its = &file->warmer;
    fkv_each_update told[SLICE];
    uint64_t before = its->serial;
    bool are_done = true;
    if (fkv_merge_many(own(file), FKV_KEEP, keys, count, nothing, count, told, SLICE) < 0) count = 0;
    for (size_t i = 0; i < count; i++) {
        are_done = are_done && told[i].result == FKV_DONE;
        if (told[i].result == FKV_DONE || told[i].result == FKV_PENDING) its->serial = told[i].serial;
        /* The log is full, or the session has no serials left. */
        else its->is_on = false;
    }
    atomic_fetch_add_explicit(&file->kept, its->serial - before, memory_order_relaxed);
    return are_done;
}

/*
 * Keeps the records of these keys, SLICE of them at most, up to those that wait. Gives how many were taken. Nothing of the session is pending.
 * If the page of the log's end is full, the next one may not be open yet. So one key goes first: 64 that wait would take long.
 */
size_t fkv_keep_own(fkv_file *file, const uint64_t *keys, size_t count) {
    const uint64_t page = file->shape.page;
    size_t taken = 0;
    bool are_done = true;
    fkv_offsets at;
    fkv_seen seen;
    if (fkv_wake(own(file), &seen) < 0) return count;
    while (taken < count && are_done && fkv_hint_offsets(own(file), &at) == 0) {
        size_t room = (size_t)(at.tail % page ? page - at.tail % page : 1);
        size_t some = count - taken < room ? count - taken : room;
        are_done = keep_some(file, keys + taken, some);
        taken += some;
    }
    file->warmer.waits = fkv_now();
    fkv_rest_own(file);
    return taken;
}

/* ---- Pages ---------------------------------------------------------------------------------------------------------------------- */

/*
 * Notes what it has found of some records. Where more than three of four are the newest of their homes, for as many records as memory has,
 * it can't hold them all: then none is kept, until they are no more than half.
 */
static void note_looked(struct warmer *its, const fkv_shape *shape, size_t looked, size_t newest) {
    its->looked += looked;
    its->newest += newest;
    if (its->next - its->since < ring_of(shape)) return;
    its->is_crowded = its->is_crowded ? its->newest * 2 > its->looked : its->newest * 4 > its->looked * 3;
    its->since = its->next;
    its->looked = its->newest = 0;
}

/* Looks at the next records, below this one and SLICE at most, and keeps those that are the newest of their homes. What that took, in looks. */
static size_t look(fkv_file *file, uint64_t to) {
    struct warmer *its = &file->warmer;
    uint64_t keys[SLICE], addresses[SLICE], page = file->shape.page, from = its->next;
    size_t newest = 0, count = fkv_hint_keys(own(file), from, keys, (size_t)least(SLICE, to - from));
    for (size_t i = 0; i < count; i++) {
        if (fkv_hint_where(own(file), keys[i]) != from + i) continue;
        keys[newest] = keys[i];
        addresses[newest++] = from + i;
    }
    /* (they have left memory meanwhile) */
    if (count == 0) its->next = to;
    /* If memory is crowded, some of each page are enough to find out when it is no more. */
    else its->next = its->is_crowded ? least(to, (from / page + 1) * page) : from + count;
    size_t kept = its->is_crowded || newest == 0 ? newest : fkv_keep_own(file, keys, newest);
    if (kept < newest) its->next = addresses[kept];
    note_looked(its, &file->shape, kept < newest ? (size_t)(its->next - from) : count, kept);
    return count + KEEPS * newest;
}

bool fkv_has_share(const fkv_file *file) { return file->warmer.serial + SLICE <= fkv_records_of(&file->shape) / SHARE; }

/* Whether it may keep SLICE records more: nothing of its session waits, and it has its share of the log. */
static bool may_keep(const fkv_file *file) {
    const struct warmer *its = &file->warmer;
    return its->is_on && !its->is_awake && fkv_has_share(file);
}

/* Goes over the records below this one, as far as that takes no more than so many looks. */
static void go_over(fkv_file *file, uint64_t to, size_t looks) {
    for (size_t done = 0; may_keep(file) && file->warmer.next < to && done < looks;) done += look(file, to);
}

static uint64_t thread_us(void) {
    struct timespec time;
    clock_gettime(CLOCK_THREAD_CPUTIME_ID, &time);
    return (uint64_t)time.tv_sec * 1000000 + (uint64_t)time.tv_nsec / 1000;
}

/* Has users let it go first, or no more. */
static void tell_behind(fkv_file *file, bool is_behind) {
    if (is_behind != atomic_load_explicit(&file->is_behind, memory_order_relaxed)) atomic_store(&file->is_behind, is_behind);
}

/* The same, without a rest. Users let it go first meanwhile, until it has come so far as it has to. */
static void hurry(fkv_file *file, uint64_t to, uint64_t least_far) {
    const struct warmer *its = &file->warmer;
    uint64_t begun = thread_us();
    file->warmer.rests_until = (struct timespec){0, 0};
    do {
        tell_behind(file, its->next < least_far && !its->is_crowded);
        go_over(file, to, HURRY);
    } while (may_keep(file) && its->next < to && thread_us() - begun < HURRY_US);
}

/* ---- Keys that reads have found ------------------------------------------------------------------------------------------------- */

void fkv_note_found(fkv_file *file, const fkv_session *session, uint64_t key) {
    struct found *found = &file->found[session - file->sessions];
    unsigned put = atomic_load_explicit(&found->put, memory_order_relaxed);
    if (!file->has_own || put - atomic_load_explicit(&found->taken, memory_order_acquire) == FOUND_KEYS) return;
    found->keys[put % FOUND_KEYS] = key;
    atomic_store_explicit(&found->put, put + 1, memory_order_release);
    atomic_store(&file->has_found, true);
}

/* The next key that some session has found. False where there is none. */
static bool take_found(fkv_file *file, uint64_t *key) {
    if (!atomic_exchange(&file->has_found, false)) return false;
    for (uint64_t i = 0; i < file->shape.sessions; i++) {
        struct found *found = &file->found[file->warmer.turn++ % file->shape.sessions];
        unsigned taken = atomic_load_explicit(&found->taken, memory_order_relaxed);
        if (taken == atomic_load_explicit(&found->put, memory_order_acquire)) continue;
        *key = found->keys[taken % FOUND_KEYS];
        atomic_store_explicit(&found->taken, taken + 1, memory_order_release);
        atomic_store(&file->has_found, true);
        return true;
    }
    return false;
}

/* Reads alone shall not fill a file: since the opening no more than half of the log's records may be its own, but for those that a sweep wanted. */
static bool has_found(fkv_file *file, const fkv_offsets *at) {
    const struct warmer *its = &file->warmer;
    return its->serial - its->first - its->trimmed < at->tail / 2 && atomic_load(&file->has_found);
}

/* Keeps such keys, up to the first that waits for the file: turns read for a session one by one. */
static void keep_found(fkv_file *file, const fkv_offsets *at) {
    uint64_t key;
    for (int i = 0; i < SLICE && may_keep(file) && has_found(file, at); i++) {
        if (take_found(file, &key) && fkv_hint_where(own(file), key) > 0) fkv_keep_own(file, &key, 1);
    }
}

/* ---- Steps ---------------------------------------------------------------------------------------------------------------------- */

void fkv_begin_warming(fkv_file *file) {
    struct warmer *its = &file->warmer;
    fkv_offsets at = {.tail = 0};
    bool has_serial = file->has_own && fkv_serial(own(file), &its->serial) == 0;
    if (!its->was_begun) its->first = its->serial;
    its->was_begun = true;
    its->is_on = !file->keeping.no_warmer && fkv_can_warm(file) && has_serial;
    its->has_more = false;
    if (its->is_on && fkv_hint_offsets(own(file), &at) < 0) its->is_on = false;
    its->begun = at.tail;
    /* What it has looked at before a stop it doesn't look at again: a record that isn't its home's newest never becomes it. */
    its->next = its->since = most(its->next, at.head);
    its->looked = its->newest = 0;
    its->is_crowded = file->entries > ring_of(&file->shape) / 4 * 3;
    atomic_store(&file->warmed, UINT64_MAX);
}

/* Whether it may go on: it stops where no commit follows, where it has had its share of the log, and where that is nearly full. */
static bool may_go_on(fkv_file *file, fkv_offsets *at) {
    const struct warmer *its = &file->warmer;
    uint64_t records = fkv_records_of(&file->shape), left = most(records / LAST, LEAST_LEFT);
    if (!its->is_on || atomic_load(&file->ends) || fkv_hint_offsets(own(file), at) < 0) return false;
    return fkv_has_share(file) && at->tail < records - left;
}

/* The usual work, and as long a rest behind it. */
static void work(fkv_file *file, const fkv_offsets *at, uint64_t ahead) {
    struct warmer *its = &file->warmer;
    struct timespec begun = fkv_now();
    if (fkv_is_before(begun, its->rests_until) || (its->next >= ahead && !has_found(file, at))) return;
    go_over(file, ahead, STEP);
    keep_found(file, at);
    if (!its->is_awake) its->rests_until = fkv_later(fkv_now(), most(fkv_since(begun), LEAST_REST_US));
}

/* A step before a turn. */
static void step(fkv_file *file, const fkv_offsets *at, bool has_time) {
    struct warmer *its = &file->warmer;
    const fkv_shape *shape = &file->shape;
    uint64_t least_far = needed(shape, at), ahead = leaving(shape, at, records_ahead(shape));
    uint64_t late = has_time ? wanted(shape, at) : least_far;
    its->next = most(its->next, at->head);
    /* (before something is appended nothing leaves memory) */
    if (at->tail == its->begun) ahead = late = 0;
    if (its->next < late) hurry(file, late, least_far);
    else if (has_time) work(file, at, ahead);
    its->has_more = its->next < late || (has_time && (its->next < ahead || has_found(file, at)));
}

void fkv_warm(fkv_file *file, bool has_time) {
    struct warmer *its = &file->warmer;
    fkv_offsets at;
    its->has_more = false;
    if (its->is_awake) fkv_rest_own(file);
    /* What a sweep wants comes first, so that pages never keep it from getting on. */
    fkv_note_kept(file);
    fkv_keep_wanted(file);
    bool goes_on = may_go_on(file, &at);
    if (goes_on && !its->is_awake) step(file, &at, has_time);
    its->has_more |= its->is_awake;
    bool is_stuck = its->is_awake && fkv_since(its->waits) >= STUCK_US;
    bool is_awaited = goes_on && its->is_on && at.tail != its->begun && !its->is_crowded && !is_stuck;
    atomic_store_explicit(&file->warmed, is_awaited ? its->next : UINT64_MAX, memory_order_relaxed);
    tell_behind(file, is_awaited && its->next < needed(&file->shape, &at));
}
