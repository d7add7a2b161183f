/* Calls of many keys, and single calls, over 2^20 keys of a store in a file, by the C library: for tools/bench/many. */
#define _POSIX_C_SOURCE 200809L
#include "fkv_posix.h"

#include <stdio.h>
#include <stdlib.h>
#include <time.h>

enum { KEYS = 1 << 20, BLOCK = 64, BLOCKS = 1 << 13, ROUNDS = 5 };

static uint64_t keys[BLOCK], numbers[BLOCK];
static fkv_each_read reads[BLOCK];
static fkv_each_update updates[BLOCK];

static void must(int32_t result, const char *what) {
    if (result >= 0) return;
    fprintf(stderr, "%s: %s\n", what, fkv_name_of(result));
    exit(1);
}

/* An even draw, by xorshift. */
static uint64_t drawn(void) {
    static uint64_t state = 88172645463325252u;
    state ^= state << 13;
    state ^= state >> 7;
    state ^= state << 17;
    return state % KEYS;
}

/* A block of calls. How many were answered at once. */
static int single(fkv_session *session, char kind) {
    int count = 0;
    fkv_update told;
    uint64_t value;
    for (int i = 0; i < BLOCK; i++) {
        switch (kind) {
        case 'g': count += fkv_get(session, keys[i], &value) == FKV_FOUND; break;
        case 'u': count += fkv_upsert(session, keys[i], numbers[i], &told) == FKV_DONE; break;
        default: count += fkv_add(session, keys[i], numbers[i], &told) == FKV_DONE;
        }
    }
    return count;
}

static int many(fkv_session *session, char kind) {
    int count = 0;
    switch (kind) {
    case 'g': must(fkv_get_many(session, keys, BLOCK, reads, BLOCK), "get_many"); break;
    case 'u': must(fkv_upsert_many(session, keys, BLOCK, numbers, BLOCK, updates, BLOCK), "upsert_many"); break;
    default: must(fkv_add_many(session, keys, BLOCK, numbers, BLOCK, updates, BLOCK), "add_many");
    }
    for (int i = 0; i < BLOCK; i++) count += kind == 'g' ? reads[i].result == FKV_FOUND : updates[i].result == FKV_DONE;
    return count;
}

static double seconds(void) {
    struct timespec now;
    clock_gettime(CLOCK_THREAD_CPUTIME_ID, &now);
    return (double)now.tv_sec + (double)now.tv_nsec / 1e9;
}

/* Nanoseconds of processor time that a call takes in this thread, with its share of a refresh. */
static double timed(fkv_session *session, char kind, int (*way)(fkv_session *, char)) {
    fkv_seen seen;
    int count = 0;
    double begin = seconds();
    for (int block = 0; block < BLOCKS; block++) {
        for (int i = 0; i < BLOCK; i++) keys[i] = drawn(), numbers[i] = 1;
        count += way(session, kind);
        if (block % 4 == 3) must(fkv_refresh(session, &seen), "refresh");
    }
    double took = seconds() - begin;
    if (count != BLOCK * BLOCKS) {
        fprintf(stderr, "%c: %d calls were answered at once\n", kind, count);
        exit(1);
    }
    return took * 1e9 / (BLOCK * BLOCKS);
}

/* Gives each key a value. The keeper opens pages meanwhile. */
static void fill(fkv_file *file, fkv_session *session) {
    fkv_update told;
    for (uint64_t key = 0; key < KEYS; key++) {
        int32_t result = fkv_upsert(session, key, key, &told);
        if (result == FKV_PENDING || result == -FKV_PENDING_FULL) {
            must(fkv_settle(file, session, NULL, NULL), "settle");
            if (result < 0) key--;
        } else must(result, "upsert");
    }
    must(fkv_settle(file, session, NULL, NULL), "settle");
}

int main(int count, char **words) {
    static const fkv_shape shape = {
        .bucket_bits = 18, .page = 65536, .frames = 32, .mutable_pages = 28, .sessions = 3, .overflow = 1 << 18, .disk_pages = 64};
    fkv_file *file;
    fkv_session *session;
    if (count != 2) return 2;
    must(fkv_make_file(words[1], &shape), "make");
    must(fkv_open_file(words[1], NULL, &file), "open");
    must(fkv_start(file, NULL), "start");
    must(fkv_join(file, FKV_ANY_SESSION, &session), "join");
    fill(file, session);
    for (const char *kind = "gua"; *kind; kind++) {
        for (int round = 0; round < ROUNDS; round++) {
            double one = timed(session, *kind, single), each = timed(session, *kind, many);
            printf("%c %.1f %.1f\n", *kind, one, each);
        }
    }
    must(fkv_leave(file, session), "leave");
    return fkv_close_file(file);
}
