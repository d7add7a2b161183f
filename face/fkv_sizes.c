/* The shape of a store for what a program wishes, and what a store of a shape takes and holds. */
#define _POSIX_C_SOURCE 200809L
#include "fkv_file.h"

#include <errno.h>

enum {
    /* Where a wish says nothing. */
    USUAL_KEYS = 65536,
    USUAL_SESSIONS = 8,
    /* Memory holds so many records for each key: with fewer, keys leave it before they are touched again. */
    RECORDS_A_KEY = 8,
    /* Buckets are so many that each has so many keys at most, of seven. */
    KEYS_A_BUCKET = 4,
    BUCKET_SLOTS = 7,
    /* One page of so many is read-only, so that updates find their records in place. */
    FRAMES = 32,
    LEAST_FRAMES = 8,
    LEAST_PAGE = 64,
    MOST_PAGE = 65536,
    MOST_FRAMES = 4096,
    MOST_BUCKET_BITS = 24,
    RECORD_SIZE = 24,
    /* Words of a store: of its own, of a session, of a bucket, of a record. */
    STORE_WORDS = 24,
    SESSION_WORDS = 16,
    BUCKET_WORDS = 8,
    RECORD_WORDS = 3,
    /* Bytes that the copy of a full commit takes for each bucket. */
    COPY_SIZE = 112,
    /* An opening has the store's words twice for a moment, and so many bytes for each key. (measured: 170 to 230) */
    OPENED_SIZE = 200,
    /* Before it has them, recovery sorts the records behind the checkpoint, so many at once: `PART` of crates/fkv_scan/src/parts.rt. */
    SORTED_SIZE = 64,
    MOST_SORTED = 1 << 18
};

static const uint64_t MOST_DISK_PAGES = UINT64_C(1) << 30;

static uint64_t least(uint64_t one, uint64_t other) { return one < other ? one : other; }

static uint64_t most(uint64_t one, uint64_t other) { return one > other ? one : other; }

/* The least power of two that isn't below it. */
static uint64_t power_for(uint64_t number) {
    uint64_t power = 1;
    while (power < number) power *= 2;
    return power;
}

/* (of the file that is made for it, and so are the words) */
static uint64_t buckets_of(const fkv_shape *shape) { return (UINT64_C(1) << shape->bucket_bits) + fkv_made_of(shape).overflow; }

static uint64_t words_of(const fkv_shape *shape) {
    return STORE_WORDS + SESSION_WORDS * (shape->sessions + 1) + BUCKET_WORDS * buckets_of(shape) + RECORD_WORDS * shape->page * shape->frames;
}

static uint64_t memory_of(const fkv_shape *shape) { return 8 * words_of(shape) + COPY_SIZE * buckets_of(shape); }

/* ---- How many keys fit ---------------------------------------------------------------------------------------------------------- */

/* e to the power of -x, for x of 0 to 700. */
static double exp_minus(double x) {
    double part = 1, sum = 1;
    int halvings = 0;
    for (; x > 0.5; halvings++) x /= 2;
    for (int i = 1; i < 16; i++) sum += part *= -x / i;
    while (halvings-- > 0) sum *= sum;
    return sum;
}

/*
 * How many overflow buckets a bucket has on average, where so many keys go to each on average. Keys are spread, so that the number of a
 * bucket's keys is a Poisson variable.
 */
static double overflow_of(double keys) {
    double chance = exp_minus(keys), sum = 0;
    if (keys > 100) return (keys - BUCKET_SLOTS) / BUCKET_SLOTS + 0.5;
    for (int i = 0; i < 300; i++) {
        if (i > BUCKET_SLOTS) sum += chance * ((i - 1) / BUCKET_SLOTS);
        chance *= keys / (i + 1);
    }
    return sum;
}

/*
 * So many keys fit, all but surely. Each session may keep a spare bucket for itself, and chance takes some more: four times as many as the
 * root of what is wanted. The library's session takes none: it updates keys that the index has.
 */
static uint64_t keys_of(const fkv_shape *shape) {
    double buckets = (double)(UINT64_C(1) << shape->bucket_bits);
    double spare = (double)shape->sessions - 1, room = (double)shape->overflow - spare;
    uint64_t low = 0, high = BUCKET_SLOTS * buckets_of(shape);
    while (low < high) {
        uint64_t middle = low + (high - low + 1) / 2;
        double wanted = buckets * overflow_of((double)middle / buckets);
        bool fits = room > 0 && wanted <= room && (room - wanted) * (room - wanted) >= 16 * wanted;
        if (fits) low = middle;
        else high = middle - 1;
    }
    return least(low, fkv_records_of(shape));
}

/* ---- Shapes --------------------------------------------------------------------------------------------------------------------- */

/* The index: a bucket for each four keys, and half as many more for those that are full. */
static void shape_index(fkv_shape *shape, uint64_t keys) {
    shape->bucket_bits = 0;
    while (shape->bucket_bits < MOST_BUCKET_BITS && (uint64_t)KEYS_A_BUCKET << shape->bucket_bits < keys) shape->bucket_bits++;
    shape->overflow = (UINT64_C(1) << shape->bucket_bits) / 2 + FKV_MOST_SESSIONS;
    while (shape->overflow < UINT64_C(1) << MOST_BUCKET_BITS && keys_of(shape) < keys) shape->overflow *= 2;
    shape->overflow = least(shape->overflow, UINT64_C(1) << MOST_BUCKET_BITS);
}

/* The memory of the log: so many records in pages, of which a quarter is read-only. */
static void shape_memory(fkv_shape *shape, uint64_t records, uint64_t updated) {
    /* Of a page so small that a commit's first updates need several, each waits for the keeper. */
    uint64_t page = most(power_for(updated), most(records / FRAMES, LEAST_PAGE));
    page = least(page, most(records / LEAST_FRAMES, LEAST_PAGE));
    shape->page = least(page, MOST_PAGE);
    shape->frames = least(most(records / shape->page, LEAST_FRAMES), MOST_FRAMES);
    shape->mutable_pages = shape->frames - shape->frames / 4;
}

int32_t fkv_shape_for(const fkv_wish *wish, fkv_shape *shape) {
    static const fkv_wish usual;
    if (!wish) wish = &usual;
    uint64_t keys = wish->keys ? wish->keys : USUAL_KEYS;
    uint64_t updated = wish->updates_between_commits ? least(wish->updates_between_commits, keys) : keys;
    uint64_t records = RECORDS_A_KEY * power_for(least(keys, UINT64_C(1) << 32));
    shape->sessions = wish->sessions ? wish->sessions : USUAL_SESSIONS;
    /* What is given back of the log's front are bytes and not addresses. So the log has as many as there may be. */
    shape->page = MOST_PAGE, shape->disk_pages = MOST_DISK_PAGES;
    if (shape->sessions > FKV_MOST_JOINED) return -FKV_BAD_SHAPE;
    shape_index(shape, keys);
    if (keys_of(shape) < keys) return -FKV_BAD_SHAPE;
    records = most(records, LEAST_PAGE * LEAST_FRAMES);
    shape_memory(shape, records, updated);
    while (wish->memory_bytes && memory_of(shape) > wish->memory_bytes) {
        if (records <= LEAST_PAGE * LEAST_FRAMES) return -FKV_BAD_SHAPE;
        records /= 2;
        shape_memory(shape, records, updated);
    }
    return 0;
}

int32_t fkv_size_of(const fkv_shape *shape, fkv_size *size) {
    uint8_t image[FKV_IMAGE_SIZE];
    fkv_shape its;
    int32_t result = fkv_with_own(shape, &its);
    if (result == 0) result = fkv_image(&its, image, sizeof image);
    if (result < 0) return result;
    uint64_t keys = keys_of(shape);
    fkv_shape made = fkv_made_of(shape);
    *size = (fkv_size){
        .memory_bytes = memory_of(shape),
        .opening_bytes = most(2 * 8 * words_of(shape), SORTED_SIZE * least(made.page * made.disk_pages, MOST_SORTED)) + OPENED_SIZE * keys,
        .file_bytes = fkv_log_place(&made) + RECORD_SIZE * made.page * made.disk_pages,
        .keys = keys,
        .records = fkv_records_of(shape),
    };
    return 0;
}

/* ---- Opening -------------------------------------------------------------------------------------------------------------------- */

static int32_t open_as_wished(const char *path, const fkv_wish *wish, fkv_file **out) {
    int32_t result = fkv_open_file(path, NULL, out);
    if (result == 0 && wish) (*out)->log_bytes = wish->log_bytes;
    return result;
}

int32_t fkv_open_or_make(const char *path, const fkv_wish *wish, fkv_file **out) {
    fkv_shape shape;
    int32_t result = open_as_wished(path, wish, out);
    if (result != -FKV_DEVICE || errno != ENOENT) return result;
    result = fkv_shape_for(wish, &shape);
    if (result == 0) result = fkv_make_file(path, &shape);
    /* Another process may have made it meanwhile. */
    if (result < 0 && !(result == -FKV_DEVICE && errno == EEXIST)) return result;
    return open_as_wished(path, wish, out);
}
