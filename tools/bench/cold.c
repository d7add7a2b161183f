/* Reads of records that lie in the file alone, over 2^20 keys of a store in a file, by the C library: for tools/bench/cold. */
#define _POSIX_C_SOURCE 200809L
#include "fkv_posix.h"

#include <fcntl.h>
#include <pthread.h>
#include <stdio.h>
#include <stdlib.h>
#include <string.h>
#include <time.h>
#include <unistd.h>

/* A round of reads that wait for the disk is shorter. Reads that are counted are of fewer keys. */
enum { KEYS = 1 << 20, BLOCK = 64, BLOCKS = 300, DISK_BLOCKS = 10, ROUNDS = 15, MOST_THREADS = 4, COUNTED_KEYS = 4096, LONG_US = 60000000 };

static const char *path;
static fkv_file *file;
static int is_many, blocks;
static uint64_t key_count = KEYS;

static int32_t must(int32_t result, const char *what) {
    if (result >= 0) return result;
    fprintf(stderr, "%s: %s\n", what, fkv_text_of(result));
    exit(1);
}

static double seconds(clockid_t clock) {
    struct timespec now;
    clock_gettime(clock, &now);
    return (double)now.tv_sec + (double)now.tv_nsec / 1e9;
}

static void must_be(int32_t result, uint64_t value, uint64_t key) {
    if (result == FKV_FOUND && value == key + 1) return;
    fprintf(stderr, "key %d isn't found\n", (int)key);
    exit(1);
}

static void read_block(fkv_session *session, const uint64_t *keys) {
    fkv_each_read told[BLOCK];
    uint64_t value = 0;
    if (is_many) {
        must(fkv_read_many(file, session, keys, BLOCK, told, BLOCK), "read_many");
        for (int i = 0; i < BLOCK; i++) must_be(told[i].result, told[i].value, keys[i]);
        return;
    }
    for (int i = 0; i < BLOCK; i++) {
        int32_t result = must(fkv_read(file, session, keys[i], &value), "read");
        must_be(result, value, keys[i]);
        must(fkv_tick(file, session), "tick");
    }
}

/* A thread: where its draws begin. */
static void *read_blocks(void *its) {
    uint64_t state = *(uint64_t *)its, keys[BLOCK];
    fkv_session *session;
    must(fkv_join(file, FKV_ANY_SESSION, &session), "join");
    for (int block = 0; block < blocks; block++) {
        for (int i = 0; i < BLOCK; i++) {
            state ^= state << 13;
            state ^= state >> 7;
            state ^= state << 17;
            keys[i] = state % key_count;
        }
        read_block(session, keys);
    }
    must(fkv_leave(file, session), "leave");
    return NULL;
}

/* The system's memory has nothing of the file behind it. */
static void forget_file(void) {
    int fd = open(path, O_RDONLY);
    if (fd < 0 || fsync(fd) || posix_fadvise(fd, 0, 0, POSIX_FADV_DONTNEED)) exit(1);
    close(fd);
}

static void time_round(const char *where, int threads) {
    pthread_t all[MOST_THREADS];
    uint64_t states[MOST_THREADS];
    static uint64_t seed = 88172645463325252u;
    double begin = seconds(CLOCK_MONOTONIC), taken = seconds(CLOCK_PROCESS_CPUTIME_ID);
    for (int i = 0; i < threads; i++) {
        states[i] = seed += 0x9e3779b97f4a7c15u;
        pthread_create(&all[i], NULL, read_blocks, &states[i]);
    }
    for (int i = 0; i < threads; i++) pthread_join(all[i], NULL);
    double count = BLOCK * blocks, real = seconds(CLOCK_MONOTONIC) - begin;
    taken = seconds(CLOCK_PROCESS_CPUTIME_ID) - taken;
    printf("%s %s %d %.3f %.3f\n", where, is_many ? "many" : "single", threads, real * 1e6 / count, taken * 1e6 / count / threads);
}

static void make(void) {
    fkv_wish wish = {.keys = key_count, .sessions = MOST_THREADS};
    fkv_session *session;
    must(fkv_open_or_make(path, &wish, &file), "make");
    must(fkv_start(file, NULL), "start");
    must(fkv_join(file, FKV_ANY_SESSION, &session), "join");
    for (uint64_t key = 0; key < key_count; key++) {
        must(fkv_put(file, session, key, key + 1, NULL), "put");
        must(fkv_tick(file, session), "tick");
    }
    must(fkv_leave(file, session), "leave");
    must(fkv_close_file(file), "close");
}

/* Rounds of both ways in turn, each by 1, 2 and 4 threads. */
static void time_rounds(const char *where, int is_on_disk) {
    fkv_how how = {.mapped = strcmp(where, "mapped") == 0, .warm = FKV_COLD};
    fkv_keeping keeping = {.no_warmer = 1};
    must(fkv_open_file(path, &how, &file), "open");
    must(fkv_start(file, &keeping), "start");
    blocks = is_on_disk ? DISK_BLOCKS : BLOCKS;
    for (int threads = 1; threads <= MOST_THREADS; threads *= 2) {
        for (int round = 0; round < ROUNDS; round++) {
            for (is_many = 0; is_many < 2; is_many++) {
                if (is_on_disk) forget_file();
                time_round(where, threads);
            }
        }
    }
    must(fkv_close_file(file), "close");
}

/* So many blocks of reads by this thread, which makes each turn of the keeper: for callgrind. Before the first count the store is made. */
static int count_reads(const char *way, int block_count) {
    fkv_how how = {.warm = FKV_COLD};
    fkv_keeping keeping = {.turn_us = LONG_US, .no_warmer = 1};
    uint64_t seed = 88172645463325252u;
    key_count = COUNTED_KEYS, blocks = block_count, is_many = strcmp(way, "many") == 0;
    if (strcmp(way, "make") == 0) {
        make();
        return 0;
    }
    must(fkv_open_file(path, &how, &file), "open");
    must(fkv_start(file, &keeping), "start");
    read_blocks(&seed);
    return must(fkv_close_file(file), "close");
}

int main(int count, char **words) {
    if (count != 2 && count != 4) return 2;
    path = words[1];
    if (count == 4) return count_reads(words[2], atoi(words[3]));
    make();
    time_rounds("memory", 0);
    time_rounds("mapped", 0);
    time_rounds("disk", 1);
    return 0;
}
