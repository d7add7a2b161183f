/*
 * The keeper's thread: what it takes while it waits, and sessions that were given up with pending requests. Waits that end in time. Ends
 * of it by its own hook, by several threads, and past sessions of the thread that ends it. keeping FOLDER.
 */
#define _POSIX_C_SOURCE 200809L
#include "fkv_posix.h"
#include "tests.h"

#include <errno.h>
#include <pthread.h>
#include <signal.h>
#include <stdatomic.h>
#include <stdbool.h>
#include <string.h>
#include <sys/resource.h>
#include <time.h>
#include <unistd.h>

/* A test that waits for ever is ended by a signal behind so many seconds. */
enum { WAIT_MS = 300, MOST_SECONDS = 240, MANY_TICKS = 1000, SESSIONS = FKV_MOST_JOINED, LAST = SESSIONS - 1, OVERFLOW_PLACE = 48, PATH_ROOM = 500 };

/* Little memory, so that updates soon wait for the keeper. */
static const fkv_shape SHAPE = {6, 16, 8, 4, SESSIONS, 64, 8192};
static const char *folder;

static const char *path_of(const char *name) {
    static char path[PATH_ROOM];
    snprintf(path, sizeof path, "%s/%s", folder, name);
    return path;
}

static fkv_file *opened_with(const char *name, const fkv_shape *shape) {
    fkv_file *file;
    WANTS("making a file", fkv_make_file(path_of(name), shape), 0);
    WANTS("opening it", fkv_open_file(path_of(name), NULL, &file), 0);
    return file;
}

static fkv_file *opened(const char *name) { return opened_with(name, &SHAPE); }

/* A specified store of this shape. Its calls leave no room to its polls, and it has no overflow buckets for these. */
static fkv_file *specified(const char *name, const fkv_shape *shape) {
    uint8_t image[FKV_IMAGE_SIZE];
    fkv_file *file;
    WANTS("an image", fkv_image(shape, image, sizeof image), 0);
    memcpy(image, fkv_formats(), 8);
    memcpy(image + OVERFLOW_PLACE, &shape->overflow, sizeof shape->overflow);
    FILE *its = fopen(path_of(name), "wb");
    WANTS("making a file", its && fwrite(image, sizeof image, 1, its) == 1 && fclose(its) == 0, true);
    WANTS("opening it", fkv_open_file(path_of(name), NULL, &file), 0);
    return file;
}

static int64_t microseconds(clockid_t clock) {
    struct timespec time;
    clock_gettime(clock, &time);
    return (int64_t)time.tv_sec * 1000000 + time.tv_nsec / 1000;
}

/* How much of the time of a processor this process takes while this thread sleeps, in percent. */
static int64_t taken_meanwhile(void) {
    int64_t real = microseconds(CLOCK_MONOTONIC), taken = microseconds(CLOCK_PROCESS_CPUTIME_ID);
    nanosleep(&(struct timespec){0, WAIT_MS * 1000000L}, NULL);
    taken = microseconds(CLOCK_PROCESS_CPUTIME_ID) - taken;
    return 100 * taken / (microseconds(CLOCK_MONOTONIC) - real);
}

/* Commits are due each millisecond, and one is held up by a session that doesn't refresh. */
static void held_up(void) {
    fkv_file *file = opened("held_up");
    fkv_keeping keeping = {.commit_ms = 1};
    fkv_session *session;
    fkv_update told;
    WANTS("starting the keeper", fkv_start(file, &keeping), 0);
    WANTS("joining", fkv_join(file, 0, &session), 0);
    WANTS("an add", fkv_add(session, 7, 1, &told), FKV_DONE);
    int64_t taken = taken_meanwhile();
    WANTS("whether the keeper rests while a commit is held up", taken < 50, true);
    WANTS("a commit", fkv_commit_and_wait(file, session), 0);
    WANTS("leaving", fkv_leave(file, session), 0);
    WANTS("closing", fkv_close_file(file), 0);
}

/* A call of the file fails while a commit is in hand. */
static void failed(void) {
    fkv_file *file = opened("failed");
    fkv_keeping keeping = {.commit_ms = 1};
    fkv_session *session;
    fkv_update told;
    struct rlimit limit, before;
    signal(SIGXFSZ, SIG_IGN);
    WANTS("joining", fkv_join(file, 0, &session), 0);
    WANTS("an add", fkv_add(session, 7, 1, &told), FKV_DONE);
    getrlimit(RLIMIT_FSIZE, &before);
    limit = before;
    limit.rlim_cur = FKV_IMAGE_SIZE;
    WANTS("setting a limit", setrlimit(RLIMIT_FSIZE, &limit), 0);
    WANTS("starting the keeper", fkv_start(file, &keeping), 0);
    WANTS("a commit", fkv_commit_and_wait(file, session), -FKV_DEVICE);
    setrlimit(RLIMIT_FSIZE, &before);
    int64_t taken = taken_meanwhile();
    WANTS("whether the keeper rests behind a call that failed", taken < 2, true);
    WANTS("closing while a session is joined", fkv_close_file(file), -FKV_HANDLE_OUT);
    WANTS("leaving", fkv_leave(file, session), 0);
    errno = 0;
    WANTS("closing, with an add that no commit keeps", fkv_close_file(file), -FKV_DEVICE);
    WANTS("why", errno, EFBIG);
}

/* A session that the keeper gives back in time, or any. */
static fkv_session *joined(fkv_file *file, uint64_t number) {
    fkv_session *session;
    int32_t result = fkv_join(file, number, &session);
    while (result == -FKV_HANDLE_TAKEN || result == -FKV_NO_SESSION) {
        nanosleep(&(struct timespec){0, 100000}, NULL);
        result = fkv_join(file, number, &session);
    }
    WANTS("joining", result, 0);
    return session;
}

/* Updates keys from 0 on, until one waits for the keeper. Gives how many it has updated. */
static uint64_t filled(fkv_session *session) {
    fkv_update told;
    int32_t result = FKV_DONE;
    uint64_t key = 0;
    for (; result == FKV_DONE; key++) result = fkv_upsert(session, key, key + 1, &told);
    WANTS("the last update", result, FKV_PENDING);
    return key;
}

/* No commit waits for a session that was abandoned while no keeper ran. Its updates are kept, and it is given again. */
static void abandoned(void) {
    fkv_file *file = opened("abandoned");
    fkv_session *session, *other, *again;
    uint64_t points[FKV_MOST_SESSIONS], value;
    WANTS("joining", fkv_join(file, LAST, &session), 0);
    WANTS("joining another", fkv_join(file, 1, &other), 0);
    uint64_t keys = filled(session);
    WANTS("leaving", fkv_leave(file, session), -FKV_PENDING_LEFT);
    fkv_abandon(file, session);
    WANTS("joining it again", fkv_join(file, LAST, &again), -FKV_HANDLE_TAKEN);
    WANTS("closing while another is out", fkv_close_file(file), -FKV_HANDLE_OUT);
    WANTS("starting the keeper", fkv_start(file, NULL), 0);
    WANTS("a commit", fkv_commit_and_wait(file, other), 0);
    WANTS("leaving", fkv_leave(file, other), 0);
    fkv_last_commit(file, points);
    WANTS("its point", points[LAST], keys);
    again = joined(file, LAST);
    for (uint64_t key = 0; key < keys; key++) {
        WANTS("a read", fkv_read(file, again, key, &value), FKV_FOUND);
        WANTS("its value", value, key + 1);
    }
    /* The keeper's thread ends while it has another one. */
    fkv_abandon(file, again);
    WANTS("joining", fkv_join(file, 1, &other), 0);
    filled(other);
    fkv_abandon(file, other);
    WANTS("stopping behind a commit", fkv_stop(file, 1), 0);
    WANTS("closing", fkv_close_file(file), 0);
}

/* How many updates are done, and the serial of the last one. */
typedef struct {
    uint64_t count, newest;
} done_updates;

static void count_finished(void *its, const fkv_finished *finished) {
    done_updates *done = its;
    WANTS("what is finished", finished->kind, FKV_UPDATED);
    done->count++;
    done->newest = finished->name;
}

/* A hook that is told why commits end. */
static void note_stopped(void *its, int32_t fault) { *(_Atomic int32_t *)its = fault; }

/* In a specified store updates wait for a log that is full, and for good: who waits for them is told so. Then no commit finishes, and who waits for one hears it too. */
static void full(void) {
    enum { ROOM = 11, MORE = 5 }; /* of the log: no record has address 0 */
    static const fkv_shape small = {4, 4, 2, 1, 2, 0, (ROOM + 1) / 4};
    fkv_file *file = specified("full", &small);
    fkv_session *session, *other;
    fkv_update told;
    done_updates done = {0, 0};
    uint64_t ticket, serial, value;
    _Atomic int32_t stopped = 0;
    fkv_keeping keeping = {.stopped = note_stopped, .user = &stopped};
    WANTS("joining", fkv_join(file, 0, &session), 0);
    WANTS("joining another", fkv_join(file, 1, &other), 0);
    for (uint64_t key = 0; key < ROOM + MORE; key++) {
        int32_t result = fkv_upsert(session, key, key, &told);
        if (result == FKV_DONE) done = (done_updates){done.count + 1, told.serial};
        else WANTS("whether an update waits", result, FKV_PENDING);
    }
    WANTS("settling without a keeper", fkv_settle_for(file, session, WAIT_MS, NULL, NULL), -FKV_NO_KEEPER);
    WANTS("settling for no time without one", fkv_settle_for(file, session, 0, NULL, NULL), -FKV_NO_KEEPER);
    WANTS("a tick without one", fkv_tick(file, session), -FKV_NO_KEEPER);
    WANTS("starting the keeper", fkv_start(file, &keeping), 0);
    WANTS("the other one's sleep", fkv_sleep(other), 0);
    int64_t begun = microseconds(CLOCK_MONOTONIC);
    WANTS("settling for a while", fkv_settle_for(file, session, WAIT_MS, count_finished, &done), FKV_PENDING);
    WANTS("whether that took so long", microseconds(CLOCK_MONOTONIC) - begun >= 1000 * WAIT_MS, true);
    WANTS("how many updates are done", done.count, ROOM);
    WANTS("the last serial", fkv_serial(session, &serial), 0);
    WANTS("that serial", serial, ROOM + MORE);
    WANTS("polling once", fkv_settle_for(file, session, 0, count_finished, &done), FKV_PENDING);
    WANTS("a tick before it is found out", fkv_tick(file, session), 0);
    WANTS("settling", fkv_settle(file, session, count_finished, &done), -FKV_LOG_FULL);
    WANTS("a tick", fkv_tick(file, session), -FKV_LOG_FULL);
    WANTS("how many updates are done", done.count, ROOM);
    /* Which of those that waited are done depends on when the keeper made room. The last one is in memory. */
    WANTS("a read meanwhile", fkv_get(session, done.newest - 1, &value), FKV_FOUND);
    fkv_seen seen;
    WANTS("the other one wakes", fkv_wake(other, &seen), 0);
    WANTS("an update", fkv_put(file, other, 1000, 1, &told), -FKV_LOG_FULL);
    WANTS("its serial", told.serial, 0);
    WANTS("the other one leaves", fkv_leave(file, other), 0);
    WANTS("asking for a commit", fkv_ask_commit(file, &ticket), 0);
    WANTS("waiting while requests are pending", fkv_wait_commit_for(file, ticket, session, 1), -FKV_PENDING_LEFT);
    fkv_abandon(file, session);
    WANTS("waiting for a while", fkv_wait_commit_for(file, ticket, NULL, WAIT_MS), FKV_PENDING);
    WANTS("waiting", fkv_wait_commit(file, ticket, NULL), -FKV_LOG_FULL);
    WANTS("what the hook was told", stopped, -FKV_LOG_FULL);
    WANTS("closing", fkv_close_file(file), -FKV_LOG_FULL);
}

/* Nobody has found out that what was abandoned waits for ever. The last commit tells it, and doesn't wait for ever. */
static void full_and_abandoned(void) {
    static const fkv_shape small = {4, 4, 2, 1, 1, 0, 3};
    fkv_file *file = specified("full_and_abandoned", &small);
    fkv_session *session;
    fkv_update told;
    WANTS("joining", fkv_join(file, 0, &session), 0);
    for (uint64_t key = 0; key < 16; key++) WANTS("whether an update is accepted", fkv_upsert(session, key, key, &told) >= 0, true);
    WANTS("starting the keeper", fkv_start(file, NULL), 0);
    fkv_abandon(file, session);
    WANTS("closing", fkv_close_file(file), -FKV_LOG_FULL);
}

/* In a specified store updates waited for a page, and then find the index full, for good: who waits for them is told so, and so are a tick and a hook. */
static void index_full(void) {
    enum { ENTRIES = 14, ALL = 40 };
    static const fkv_shape small = {1, 4, 2, 1, 1, 0, 64};
    fkv_file *file = specified("index_full", &small);
    fkv_session *session;
    fkv_update told;
    done_updates done = {0, 0};
    _Atomic int32_t stopped = 0;
    fkv_keeping keeping = {.stopped = note_stopped, .user = &stopped};
    WANTS("joining", fkv_join(file, 0, &session), 0);
    for (uint64_t key = 0; key < ALL; key++) {
        int32_t result = fkv_upsert(session, key, key, &told);
        WANTS("whether an update is accepted", result >= 0, true);
        done.count += result == FKV_DONE;
    }
    WANTS("whether some wait", done.count < ENTRIES, true);
    WANTS("starting the keeper", fkv_start(file, &keeping), 0);
    WANTS("settling", fkv_settle(file, session, count_finished, &done), -FKV_INDEX_FULL);
    WANTS("how many updates are done", done.count, ENTRIES);
    WANTS("a tick", fkv_tick(file, session), -FKV_INDEX_FULL);
    WANTS("an update", fkv_put(file, session, 1000, 1, &told), -FKV_INDEX_FULL);
    WANTS("its serial", told.serial, 0);
    for (int i = 0; i < 1000 && !stopped; i++) nanosleep(&(struct timespec){0, 1000000}, NULL);
    WANTS("what the hook was told", stopped, -FKV_INDEX_FULL);
    fkv_abandon(file, session);
    WANTS("closing", fkv_close_file(file), -FKV_INDEX_FULL);
}

/* A commit is held up by a session that doesn't refresh, and goes on behind that. */
static void waited_for(void) {
    fkv_file *file = opened("waited_for");
    fkv_session *session, *other;
    fkv_update told;
    uint64_t ticket, serial;
    WANTS("starting the keeper", fkv_start(file, NULL), 0);
    WANTS("joining", fkv_join(file, 0, &session), 0);
    WANTS("joining another", fkv_join(file, 1, &other), 0);
    WANTS("an add", fkv_add(session, 7, 1, &told), FKV_DONE);
    WANTS("settling for no time", fkv_settle_for(file, session, 0, NULL, NULL), 0);
    WANTS("asking for a commit", fkv_ask_commit(file, &ticket), 0);
    int64_t begun = microseconds(CLOCK_MONOTONIC);
    WANTS("waiting for a while", fkv_wait_commit_for(file, ticket, session, WAIT_MS), FKV_PENDING);
    WANTS("whether that took so long", microseconds(CLOCK_MONOTONIC) - begun >= 1000 * WAIT_MS, true);
    WANTS("leaving", fkv_leave(file, other), 0);
    WANTS("waiting again", fkv_wait_commit_for(file, ticket, session, 1000 * MOST_SECONDS), 0);
    WANTS("what is durable", fkv_durable(session, &serial), 0);
    WANTS("that serial", serial, told.serial);
    WANTS("leaving", fkv_leave(file, session), 0);
    WANTS("closing", fkv_close_file(file), 0);
}

/* Sessions that are abandoned as others use the store, and commits run. */
static void abandoned_in_turn(void) {
    fkv_file *file = opened("in_turn");
    fkv_keeping keeping = {.commit_ms = 2};
    fkv_update told;
    uint64_t given = 0, kept = 0, points[FKV_MOST_SESSIONS];
    WANTS("starting the keeper", fkv_start(file, &keeping), 0);
    for (uint64_t round = 0; round < 300; round++) {
        fkv_session *session = joined(file, FKV_ANY_SESSION);
        for (uint64_t i = 0; i < 50; i++) given += fkv_add(session, (round * 50 + i) % 300, 1, &told) >= 0;
        fkv_abandon(file, session);
    }
    WANTS("stopping behind a commit", fkv_stop(file, 1), 0);
    fkv_last_commit(file, points);
    for (int i = 0; i < SESSIONS; i++) kept += points[i];
    WANTS("updates that are kept", kept, given);
    WANTS("closing", fkv_close_file(file), 0);
}

/* A commit's hook that would end its own thread. */
static void end_own_thread(void *its, uint64_t number, const uint64_t *points, size_t sessions) {
    fkv_file **file = its;
    (void)number, (void)points, (void)sessions;
    WANTS("stopping in a hook", fkv_stop(*file, 0), -FKV_HANDLE_OUT);
    WANTS("stopping behind a commit in a hook", fkv_stop(*file, 1), -FKV_HANDLE_OUT);
    WANTS("closing in a hook", fkv_close_file(*file), -FKV_HANDLE_OUT);
}

/* The thread goes on behind that, and others end it. */
static void ended_by_itself(void) {
    fkv_file *file = opened("by_itself");
    fkv_keeping keeping = {.committed = end_own_thread, .user = &file};
    WANTS("starting the keeper", fkv_start(file, &keeping), 0);
    WANTS("a commit", fkv_commit_and_wait(file, NULL), 0);
    WANTS("another one", fkv_commit_and_wait(file, NULL), 0);
    WANTS("stopping behind a commit", fkv_stop(file, 1), 0);
    WANTS("the last commit", fkv_last_commit(file, (uint64_t[FKV_MOST_SESSIONS]){0}), 3);
    WANTS("closing", fkv_close_file(file), 0);
}

static void *stop(void *file) {
    WANTS("stopping", fkv_stop(file, 0), 0);
    return NULL;
}

static void *start_anew(void *file) {
    stop(file);
    WANTS("starting it anew", fkv_start(file, NULL), 0);
    return NULL;
}

/* Two threads end the keeper's, and one of them starts it anew at once. The other one doesn't wait for the end of that. */
static void ended_by_two(void) {
    fkv_file *file = opened("by_two");
    for (int round = 0; round < 500; round++) {
        pthread_t one, other;
        WANTS("starting the keeper", fkv_start(file, NULL), 0);
        WANTS("a thread", pthread_create(&one, NULL, start_anew, file), 0);
        WANTS("another one", pthread_create(&other, NULL, stop, file), 0);
        pthread_join(one, NULL);
        pthread_join(other, NULL);
        WANTS("stopping", fkv_stop(file, 0), 0);
    }
    WANTS("closing", fkv_close_file(file), 0);
}

/* The keeper rests for long, and a session that polls by itself asks it for its next turn. */
static void nudged(void) {
    fkv_file *file = opened("nudged");
    fkv_keeping keeping = {.turn_us = 1000000 * MOST_SECONDS};
    fkv_finished finished[FKV_MOST_PENDING];
    fkv_session *session;
    fkv_seen seen;
    uint64_t count;
    WANTS("starting the keeper", fkv_start(file, &keeping), 0);
    WANTS("joining", fkv_join(file, 0, &session), 0);
    filled(session);
    while (fkv_poll(session, finished, FKV_MOST_PENDING, &count) > 0) {
        fkv_refresh(session, &seen);
        fkv_nudge(file);
        nanosleep(&(struct timespec){0, 100000}, NULL);
    }
    WANTS("leaving", fkv_leave(file, session), 0);
    WANTS("dropping", fkv_drop_file(file), 0);
}

/* A thread of a session that another one has joined: it ticks until it is told to end. */
struct ticking {
    fkv_file *file;
    fkv_session *session;
    atomic_int ticks;
    atomic_bool is_over;
};

static void *tick(void *its) {
    struct ticking *ticking = its;
    while (!ticking->is_over) {
        fkv_tick(ticking->file, ticking->session);
        ticking->ticks++;
    }
    return NULL;
}

/* A last commit isn't waited for past a session of the same thread that is awake, and is made past one that sleeps, or that another thread has. */
static void stops_past_own(void) {
    fkv_file *file = opened("own");
    fkv_keeping keeping = {0};
    fkv_session *session;
    fkv_update told;
    fkv_seen seen;
    uint64_t points[FKV_MOST_SESSIONS];
    pthread_t thread;
    WANTS("starting the keeper", fkv_start(file, &keeping), 0);
    WANTS("joining", fkv_join(file, 0, &session), 0);
    WANTS("an add", fkv_increment(file, session, 7, 1, &told), FKV_DONE);
    WANTS("a stop past an own session that is awake", fkv_stop(file, FKV_STOP_COMMIT), -FKV_HANDLE_OUT);
    WANTS("an add after it", fkv_increment(file, session, 7, 1, &told), FKV_DONE);
    WANTS("a commit after it", fkv_commit_and_wait(file, session), 0);
    WANTS("a third add", fkv_increment(file, session, 7, 1, &told), FKV_DONE);
    WANTS("going to sleep", fkv_sleep(session), 0);
    WANTS("a stop past an own session that sleeps", fkv_stop(file, FKV_STOP_COMMIT), 0);
    fkv_last_commit(file, points);
    WANTS("its point", points[0], 3);
    WANTS("starting the keeper again", fkv_start(file, &keeping), 0);
    WANTS("waking", fkv_wake(session, &seen), 0);
    struct ticking ticking = {.file = file, .session = session};
    WANTS("a thread", pthread_create(&thread, NULL, tick, &ticking), 0);
    while (ticking.ticks < MANY_TICKS) nanosleep(&(struct timespec){0, 100000}, NULL);
    WANTS("a stop past a session that another thread has", fkv_stop(file, FKV_STOP_COMMIT), 0);
    ticking.is_over = true;
    pthread_join(thread, NULL);
    WANTS("leaving", fkv_leave(file, session), 0);
    WANTS("closing", fkv_close_file(file), 0);
}

int main(int count, char **words) {
    if (count != 2) return 2;
    folder = words[1];
    alarm(MOST_SECONDS);
    held_up();
    failed();
    abandoned();
    abandoned_in_turn();
    full();
    full_and_abandoned();
    index_full();
    waited_for();
    ended_by_itself();
    ended_by_two();
    stops_past_own();
    nudged();
    return 0;
}
