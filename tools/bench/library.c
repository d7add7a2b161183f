/* So many calls of one kind over 4,096 keys of a store in a file, by the C library: for tools/bench/library, which counts them. */
#include "fkv_posix.h"

#include <stdio.h>
#include <stdlib.h>

enum { KEYS = 4096, BLOCK = 64 };

static void must(int32_t result, const char *what) {
    if (result >= 0) return;
    fprintf(stderr, "%s: %s\n", what, fkv_name_of(result));
    exit(1);
}

/* Keys in no order, each the same number of times. */
static uint64_t key_of(uint64_t number) {
    return number * UINT64_C(2654435761) % KEYS;
}

static int32_t call(fkv_session *session, char kind, uint64_t number) {
    fkv_update told;
    fkv_seen seen;
    uint64_t value;
    switch (kind) {
    case 'g': return fkv_get(session, key_of(number), &value);
    case 'u': return fkv_upsert(session, key_of(number), number, &told);
    case 'a': return fkv_add(session, key_of(number), 1, &told);
    case 'r': return fkv_refresh(session, &seen);
    default: return (int32_t)key_of(number);
    }
}

int main(int count, char **words) {
    static const fkv_shape shape = {.bucket_bits = 10, .page = 8192, .frames = 16, .mutable_pages = 12, .sessions = 4, .overflow = 1024, .disk_pages = 1024};
    fkv_file *file;
    fkv_session *session;
    fkv_seen seen;
    if (count != 4) return 2;
    must(fkv_make_file(words[1], &shape), "make");
    must(fkv_open_file(words[1], NULL, &file), "open");
    must(fkv_join(file, FKV_ANY_SESSION, &session), "join");
    for (uint64_t i = 0; i < KEYS; i++) {
        must(call(session, 'u', i), "upsert");
        if (i % BLOCK == BLOCK - 1) must(fkv_refresh(session, &seen), "refresh");
    }
    for (uint64_t i = strtoull(words[3], NULL, 10); i > 0; i--) must(call(session, words[2][0], i), words[2]);
    return 0;
}
