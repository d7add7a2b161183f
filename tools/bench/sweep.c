/*
 * What the keeper takes for a record of the log's front that it sweeps, for `tools/bench/sweep`:
 *
 *     sweep FILE memory|file
 *
 * All keys are updated, a commit sets the sweep, and all are updated again in another order. So the front has the older record of each key. The newer
 * ones are in memory, or most of them are in the file alone. One thread makes all calls. It tells processor nanoseconds for each record.
 */
#define _POSIX_C_SOURCE 200809L
#include "fkv.h"

#include <fcntl.h>
#include <stdbool.h>
#include <stdint.h>
#include <stdio.h>
#include <stdlib.h>
#include <string.h>
#include <time.h>
#include <unistd.h>

enum { BITS = 17, KEYS = 1 << BITS, PAGE = 1 << 11, IN_MEMORY = 4 * KEYS / PAGE, IN_FILE = KEYS / 16 / PAGE };

static int fd;
static fkv_session session;
static fkv_keeper keeper;

static int32_t must(int32_t result, const char *what) {
    if (result >= 0) return result;
    fprintf(stderr, "%s: %d\n", what, result);
    exit(1);
}

static uint64_t processor_ns(void) {
    struct timespec now;
    clock_gettime(CLOCK_PROCESS_CPUTIME_ID, &now);
    return (uint64_t)now.tv_sec * 1000000000u + (uint64_t)now.tv_nsec;
}

static bool make_call(int32_t call, const fkv_turned *turned, uint8_t *into) {
    if (call == FKV_SYNC) return false;
    if (call == FKV_WRITE) return pwrite(fd, turned->bytes, turned->length, (off_t)turned->place) != (ssize_t)turned->length;
    ssize_t got = pread(fd, into, turned->length, (off_t)turned->place);
    if (got >= 0) memset(into + got, 0, turned->length - (size_t)got);
    return got < 0;
}

typedef int32_t turn_fn(fkv_keeper *keeper, fkv_turned *turned, uint64_t *points, size_t room);

/* Makes a turn. Whether a commit was finished. */
static bool make_turn(turn_fn *turn) {
    uint64_t points[FKV_MOST_SESSIONS];
    uint8_t into[FKV_MOST_READ];
    fkv_turned turned;
    int32_t call = must(turn(&keeper, &turned, points, FKV_MOST_SESSIONS), "turn");
    while (call > FKV_OVER) {
        bool failed = make_call(call, &turned, into);
        size_t size = call == FKV_READ ? turned.length : 0;
        call = must(fkv_told(&keeper, failed, into, size, &turned, points, FKV_MOST_SESSIONS), "told");
    }
    return turned.finished;
}

/* Polls and makes turns until nothing of the session is pending. */
static void settle(void) {
    fkv_finished finished[FKV_MOST_PENDING];
    fkv_seen seen;
    uint64_t count;
    while (must(fkv_poll(&session, finished, FKV_MOST_PENDING, &count), "poll") > 0) {
        must(fkv_refresh(&session, &seen), "refresh");
        (void)make_turn(fkv_turn);
    }
}

/* Updates all keys, each once: an odd step passes over all of them. */
static void update_all(uint64_t step) {
    fkv_update told;
    fkv_seen seen;
    for (uint64_t i = 0; i < KEYS; i++) {
        if (must(fkv_upsert(&session, i * step % KEYS, i, &told), "upsert") == FKV_PENDING) settle();
        if (i % 64) continue;
        must(fkv_refresh(&session, &seen), "refresh");
        (void)make_turn(fkv_turn);
    }
}

static void commit(void) {
    uint64_t number;
    fkv_seen seen;
    must(fkv_commit(&keeper, FKV_TRIM, &number), "commit");
    do must(fkv_refresh(&session, &seen), "refresh");
    while (!make_turn(fkv_turn));
}

static void open_store(const char *path, bool in_memory) {
    uint8_t image[FKV_IMAGE_SIZE];
    fkv_store store;
    fkv_opened opened;
    uint64_t points[FKV_MOST_SESSIONS];
    uint64_t frames = in_memory ? IN_MEMORY : IN_FILE;
    fkv_shape shape = {BITS - 2, PAGE, frames, frames - frames / 4, 1, KEYS / 8, 1 << 10};
    must(fkv_image(&shape, image, sizeof image), "image");
    fd = open(path, O_RDWR | O_CREAT | O_EXCL, 0600);
    if (fd < 0 || pwrite(fd, image, sizeof image, 0) != sizeof image) exit(1);
    must(fkv_open(image, sizeof image, FKV_SPREAD, FKV_COLD, &store.at, &shape, &opened, points, FKV_MOST_SESSIONS), "open");
    must(fkv_take_session(&store, 0, &session.at), "session");
    must(fkv_take_keeper(&store, &keeper.at), "keeper");
}

int main(int count, char **words) {
    uint64_t wanted[FKV_MOST_WANTED];
    if (count < 3) return 2;
    open_store(words[1], strcmp(words[2], "memory") == 0);
    update_all(40503);
    commit();
    update_all(30011);
    uint64_t begun = processor_ns(), turns = 0;
    for (; turns < KEYS / 256; turns++) {
        (void)make_turn(fkv_sweep);
        if (fkv_wanted(&keeper, wanted, FKV_MOST_WANTED) > 0) exit(1);
    }
    printf("%d\n", (int)((processor_ns() - begun) / KEYS));
    return 0;
}
