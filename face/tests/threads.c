/*
 * Threads that join and leave two stores of one process, and wait for commits: threads FOLDER. Each thread has keys of its own, and
 * finds its values whatever session it gets; what it has waited for is there in the next life. Two threads tell each other under a mutex
 * what they have done, and each finds what it was told.
 */
#define _POSIX_C_SOURCE 200809L
#include "fkv_posix.h"
#include "tests.h"

#include <pthread.h>
#include <stdbool.h>

enum { STORES = 2, WORKERS = 4, SESSIONS = 3, ROUNDS = 30, KEYS = 40, PATH_ROOM = 500 };

static const fkv_shape SHAPE = {6, 16, 8, 4, SESSIONS, 64, 4096};

/* One thread: its store, its keys, and how often it has added 1 to each of them. */
struct worker {
    pthread_t thread;
    fkv_file *file;
    uint64_t first_key;
    uint64_t rounds;
};

/* Any session, as soon as one is free: there are fewer than threads. */
static fkv_session *joined(fkv_file *file) {
    fkv_session *session;
    for (;;) {
        int32_t result = fkv_join(file, FKV_ANY_SESSION, &session);
        if (result == 0) return session;
        WANTS("why no session is given", result, -FKV_NO_SESSION);
        sched_yield();
    }
}

static void wants_values(fkv_file *file, fkv_session *session, const struct worker *worker) {
    for (uint64_t i = 0; i < KEYS; i++) {
        uint64_t value = 0;
        WANTS("a read", fkv_read(file, session, worker->first_key + i, &value), worker->rounds ? FKV_FOUND : FKV_NONE);
        if (worker->rounds) WANTS("a value", value, worker->rounds);
    }
}

static void *work(void *its) {
    struct worker *worker = its;
    fkv_update told;
    for (int round = 0; round < ROUNDS; round++) {
        fkv_session *session = joined(worker->file);
        wants_values(worker->file, session, worker);
        for (uint64_t i = 0; i < KEYS; i++) {
            int32_t result = fkv_add(session, worker->first_key + i, 1, &told);
            WANTS("whether an add is accepted", result == FKV_DONE || result == FKV_PENDING, true);
        }
        worker->rounds++;
        if (round % 4 == 3 || round == ROUNDS - 1) {
            WANTS("a commit", fkv_commit_and_wait(worker->file, session), 0);
            uint64_t serial;
            WANTS("what is durable", fkv_durable(session, &serial), 0);
            WANTS("whether that is the last serial", serial >= told.serial, true);
        }
        WANTS("settling", fkv_settle(worker->file, session, NULL, NULL), 0);
        WANTS("leaving", fkv_leave(worker->file, session), 0);
    }
    return NULL;
}

/* Two threads, each with a session. A mutex orders their calls, and under it each tells the other how far its key has come. */
struct teller {
    pthread_t thread;
    pthread_mutex_t *mutex;
    fkv_file *file;
    fkv_session *session;
    struct teller *other;
    uint64_t key;
    uint64_t told;
};

static void tell_once(struct teller *teller) {
    const struct teller *other = teller->other;
    fkv_update update;
    uint64_t value = 0;
    WANTS("an increment", fkv_increment(teller->file, teller->session, teller->key, 1, &update), FKV_DONE);
    teller->told = update.value;
    WANTS("a meeting", fkv_meet(teller->session, other->session), 0);
    WANTS("a read", fkv_read(teller->file, teller->session, other->key, &value), other->told ? FKV_FOUND : FKV_NONE);
    WANTS("what the other told", value, other->told);
    WANTS("a tick", fkv_tick(teller->file, teller->session), 0);
}

static void *tell(void *its) {
    struct teller *teller = its;
    for (int round = 0; round < ROUNDS * 10; round++) {
        pthread_mutex_lock(teller->mutex);
        tell_once(teller);
        pthread_mutex_unlock(teller->mutex);
        sched_yield();
    }
    return NULL;
}

static void tell_each_other(fkv_file *file) {
    pthread_mutex_t mutex = PTHREAD_MUTEX_INITIALIZER;
    struct teller tellers[2];
    for (int i = 0; i < 2; i++) {
        tellers[i] = (struct teller){.mutex = &mutex, .file = file, .session = joined(file), .other = &tellers[1 - i], .key = 1000 + (uint64_t)i};
    }
    for (int i = 0; i < 2; i++) WANTS("a thread", pthread_create(&tellers[i].thread, NULL, tell, &tellers[i]), 0);
    for (int i = 0; i < 2; i++) pthread_join(tellers[i].thread, NULL);
    for (int i = 0; i < 2; i++) WANTS("leaving", fkv_leave(file, tellers[i].session), 0);
}

int main(int count, char **words) {
    static struct worker workers[STORES][WORKERS];
    char paths[STORES][PATH_ROOM];
    fkv_keeping keeping = {.commit_ms = 3, .log_commits = 5};
    if (count != 2) return 2;
    for (int i = 0; i < STORES; i++) {
        fkv_file *file;
        snprintf(paths[i], sizeof paths[i], "%s/threads%d", words[1], i);
        WANTS("making a file", fkv_make_file(paths[i], &SHAPE), 0);
        WANTS("opening it", fkv_open_file(paths[i], NULL, &file), 0);
        WANTS("starting the keeper", fkv_start(file, &keeping), 0);
        for (int j = 0; j < WORKERS; j++) {
            workers[i][j] = (struct worker){.file = file, .first_key = (uint64_t)j * KEYS};
            WANTS("a thread", pthread_create(&workers[i][j].thread, NULL, work, &workers[i][j]), 0);
        }
    }
    for (int i = 0; i < STORES; i++) {
        fkv_file *file = workers[i][0].file;
        for (int j = 0; j < WORKERS; j++) pthread_join(workers[i][j].thread, NULL);
        WANTS("closing", fkv_close_file(file), 0);
        WANTS("opening it again", fkv_open_file(paths[i], NULL, &file), 0);
        WANTS("starting the keeper", fkv_start(file, NULL), 0);
        fkv_session *session = joined(file);
        for (int j = 0; j < WORKERS; j++) wants_values(file, session, &workers[i][j]);
        WANTS("leaving", fkv_leave(file, session), 0);
        tell_each_other(file);
        WANTS("closing", fkv_close_file(file), 0);
    }
    return 0;
}
