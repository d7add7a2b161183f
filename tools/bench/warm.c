/* Gets of 2^20 keys before a crash, and right behind the opening that follows it, by the C library: for tools/bench/warm. */
#define _POSIX_C_SOURCE 200809L
#include "fkv_posix.h"

#include <pthread.h>
#include <stdatomic.h>
#include <stdbool.h>
#include <stdio.h>
#include <stdlib.h>
#include <string.h>
#include <time.h>
#include <unistd.h>

enum { KEYS = 1 << 20, BLOCK = 64, MOST_THREADS = 4, PARTS = 10, PART_MS = 100 };

static const char *path;
static fkv_file *file;
static atomic_int part;
static atomic_bool stops;

/* What a thread has read, by parts of a second. A line of its own: others write beside it. */
static struct {
    _Alignas(128) uint64_t reads[PARTS + 1];
} told[MOST_THREADS];

static int32_t must(int32_t result, const char *what) {
    if (result >= 0) return result;
    fprintf(stderr, "%s: %s\n", what, fkv_text_of(result));
    exit(1);
}

static void pause_ms(long ms) {
    nanosleep(&(struct timespec){ms / 1000, ms % 1000 * 1000000}, NULL);
}

/* A thread reads keys in no order until it is told to stop. */
static void *read_keys(void *its) {
    int number = *(int *)its;
    uint64_t state = 88172645463325252u + 0x9e3779b97f4a7c15u * (uint64_t)number, value = 0;
    fkv_session *session;
    must(fkv_join(file, FKV_ANY_SESSION, &session), "join");
    while (!stops) {
        for (int i = 0; i < BLOCK; i++) {
            state ^= state << 13;
            state ^= state >> 7;
            state ^= state << 17;
            uint64_t key = state % KEYS;
            if (must(fkv_read(file, session, key, &value), "read") == FKV_FOUND && value == key + 1) continue;
            fprintf(stderr, "key %d isn't found\n", (int)key);
            exit(1);
        }
        must(fkv_tick(file, session), "tick");
        told[number].reads[part] += BLOCK;
    }
    must(fkv_leave(file, session), "leave");
    return NULL;
}

/* Reads by so many threads for a second, and prints how many there were in each tenth of it. */
static void read_second(const char *when, int threads) {
    pthread_t all[MOST_THREADS];
    int numbers[MOST_THREADS];
    memset(told, 0, sizeof told);
    part = 0, stops = false;
    for (int i = 0; i < threads; i++) {
        numbers[i] = i;
        pthread_create(&all[i], NULL, read_keys, &numbers[i]);
    }
    for (int i = 0; i < PARTS; i++) {
        pause_ms(PART_MS);
        part++;
    }
    stops = true;
    for (int i = 0; i < threads; i++) pthread_join(all[i], NULL);
    printf("%s %d", when, threads);
    for (int i = 0; i < PARTS; i++) {
        uint64_t sum = 0;
        for (int t = 0; t < threads; t++) sum += told[t].reads[i];
        printf(" %llu", (unsigned long long)sum);
    }
    puts("");
}

static void make(void) {
    fkv_wish wish = {.keys = KEYS, .sessions = MOST_THREADS};
    fkv_session *session;
    must(fkv_open_or_make(path, &wish, &file), "make");
    must(fkv_start(file, NULL), "start");
    must(fkv_join(file, FKV_ANY_SESSION, &session), "join");
    for (uint64_t key = 0; key < KEYS; key++) {
        must(fkv_put(file, session, key, key + 1, NULL), "put");
        must(fkv_tick(file, session), "tick");
    }
    must(fkv_leave(file, session), "leave");
    must(fkv_commit_and_wait(file, NULL), "commit");
}

static void open_again(void) {
    must(fkv_open_file(path, NULL, &file), "open");
    must(fkv_start(file, NULL), "start");
}

/* `before`: makes the store, reads, and ends with no close, as by a crash. `behind`: opens it, and reads at once. */
int main(int count, char **words) {
    if (count != 4) return 2;
    path = words[1];
    int threads = atoi(words[3]);
    if (strcmp(words[2], "before") == 0) {
        make();
        read_second("before", threads);
        fflush(stdout);
        _exit(0);
    }
    open_again();
    read_second("behind", threads);
    return must(fkv_close_file(file), "close");
}
