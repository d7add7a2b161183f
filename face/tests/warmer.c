/*
 * The library's own session, and memory that it keeps warm: warmer FOLDER. Users have as many sessions as they asked for, and see nothing of
 * its serials. What is only read stays in memory while other keys are updated, and what a read has found in the file comes back. A full log,
 * renewals, ends and crashes are as without it.
 */
#define _GNU_SOURCE
#include "fkv_posix.h"
#include "tests.h"

#include <fcntl.h>
#include <pthread.h>
#include <signal.h>
#include <stdatomic.h>
#include <stdbool.h>
#include <string.h>
#include <sys/wait.h>
#include <time.h>
#include <unistd.h>

/* Live keys fill half of the memory: PAGE times FRAMES records. */
enum { PAGE = 2048, FRAMES = 32, RING = PAGE * FRAMES, KEYS = RING / 2, SESSIONS = 3, TURNS = 10 };
enum { BUCKET_BITS = 13, TAG_BITS = 15, HOMES = 1 << (BUCKET_BITS + TAG_BITS) };
enum { SESSIONS_PLACE = 40, OVERFLOW_PLACE = 48, COMMIT_MS = 50, BLOCK = 64, ROUNDS = 20, CRASHES = 5, MOST_SECONDS = 280, TRIES = 3, PATH_ROOM = 500 };

static const fkv_shape SHAPE = {BUCKET_BITS, PAGE, FRAMES, FRAMES * 3 / 4, SESSIONS, 8192, 4096};
/* A commit alone makes a record read-only before its page is about to leave. */
static const fkv_shape MUTABLE = {BUCKET_BITS, PAGE, FRAMES, FRAMES - 1, SESSIONS, 8192, 4096};
/* Its log is soon full: it has room for four times as many records as the library leaves to users alone. */
static const fkv_shape SHORT = {BUCKET_BITS, PAGE, FRAMES, FRAMES * 3 / 4, SESSIONS, 8192, 4 * 65536 / PAGE};
static const char *folder;
static fkv_file *file;
static atomic_bool ends;
static atomic_ullong waited;
static atomic_int told_unwarmed;
/* Each has a home of its own: of keys that share one only the last updated is kept. */
static uint64_t keys[KEYS];

static const char *path_of(const char *name) {
    static char path[PATH_ROOM];
    snprintf(path, sizeof path, "%s/%s", folder, name);
    return path;
}

static int64_t microseconds(clockid_t clock) {
    struct timespec time;
    clock_gettime(clock, &time);
    return (int64_t)time.tv_sec * 1000000 + time.tv_nsec / 1000;
}

static void rest_ms(long ms) { nanosleep(&(struct timespec){ms / 1000, ms % 1000 * 1000000}, NULL); }

static fkv_session *joined(uint64_t number) {
    fkv_session *session;
    WANTS("joining", fkv_join(file, number, &session), 0);
    return session;
}

static void leave(fkv_session *session) { WANTS("leaving", fkv_leave(file, session), 0); }

/* (nothing of the log is given back: what a sweep wants is kept too, and would be counted) */
static void start(const fkv_keeping *keeping) {
    fkv_keeping its = keeping ? *keeping : (fkv_keeping){0};
    its.log_bytes = FKV_LOG_KEEPS;
    WANTS("starting the keeper", fkv_start(file, &its), 0);
}

static void close_store(void) { WANTS("closing", fkv_close_file(file), 0); }

static fkv_stats stats_now(void) {
    fkv_stats stats;
    WANTS("how it fares", fkv_stats_of(file, &stats), 0);
    return stats;
}

static void note_unwarmed(void *user) {
    (void)user;
    told_unwarmed++;
}

static void make(const char *name, const fkv_shape *shape) {
    unlink(path_of(name));
    WANTS("making a file", fkv_make_file(path_of(name), shape), 0);
}

static void open_at(const char *name, uint64_t warm) {
    WANTS("opening", fkv_open_file(path_of(name), &(fkv_how){.warm = warm}, &file), 0);
}

static void choose_keys(void) {
    static uint8_t taken[HOMES / 8];
    size_t count = 0;
    for (uint64_t key = 0; count < KEYS; key++) {
        uint64_t home = fkv_spread(key) % HOMES;
        if (taken[home / 8] >> home % 8 & 1) continue;
        taken[home / 8] |= (uint8_t)(1 << home % 8);
        keys[count++] = key;
    }
}

/* ---- Sessions ------------------------------------------------------------------------------------------------------------------- */

/* How many sessions a file has, its library's too. */
static uint64_t sessions_in_file(const char *name) {
    uint64_t sessions = 0;
    int fd = open(path_of(name), O_RDONLY);
    WANTS("reading a file", pread(fd, &sessions, sizeof sessions, SESSIONS_PLACE), sizeof sessions);
    close(fd);
    return sessions;
}

/* Users have so many sessions, and no more. */
static void wants_sessions(uint64_t sessions) {
    fkv_session *all[FKV_MOST_SESSIONS], *more;
    WANTS("the shape's sessions", fkv_shape_of(file).sessions, sessions);
    for (uint64_t i = 0; i < sessions; i++) all[i] = joined(FKV_ANY_SESSION);
    WANTS("one session more", fkv_join(file, FKV_ANY_SESSION, &more), -FKV_NO_SESSION);
    WANTS("the one behind them", fkv_join(file, sessions, &more), -FKV_NO_SESSION);
    WANTS("those that are joined", stats_now().joined, (UINT64_C(1) << sessions) - 1);
    for (uint64_t i = 0; i < sessions; i++) leave(all[i]);
}

/* So many that were asked for are so many that are given. 32 can't be asked for. */
static void asked_for(void) {
    static const uint64_t counts[] = {1, 2, SESSIONS, FKV_MOST_JOINED};
    fkv_shape shape = SHAPE;
    fkv_size size, larger;
    fkv_wish wish = {.keys = 100};
    for (size_t i = 0; i < sizeof counts / sizeof *counts; i++) {
        shape.sessions = counts[i];
        make("asked", &shape);
        WANTS("the sessions of the file", sessions_in_file("asked"), counts[i] + 1);
        open_at("asked", 0);
        wants_sessions(counts[i]);
        close_store();
    }
    WANTS("its size", fkv_size_of(&shape, &size), 0);
    shape.sessions--;
    WANTS("the size of fewer", fkv_size_of(&shape, &larger), 0);
    /* (its words, and its overflow buckets with their copy) */
    WANTS("what a session takes", size.memory_bytes - larger.memory_bytes, 128 + 65 * (64 + 112));
    shape.sessions = wish.sessions = FKV_MOST_JOINED + 1;
    WANTS("making 32", fkv_make_file(path_of("none"), &shape), -FKV_BAD_SHAPE);
    WANTS("a size of 32", fkv_size_of(&shape, &size), -FKV_BAD_SHAPE);
    WANTS("a wish of 32", fkv_shape_for(&wish, &shape), -FKV_BAD_SHAPE);
    WANTS("renewing to 32", fkv_renew_file(path_of("asked"), path_of("none"), &shape, FKV_AS_THEY_LIE, NULL), -FKV_BAD_SHAPE);
    shape.sessions = 0;
    WANTS("making 0", fkv_make_file(path_of("none"), &shape), -FKV_BAD_SHAPE);
    wish.sessions = FKV_MOST_JOINED;
    WANTS("a wish of 31", fkv_shape_for(&wish, &shape), 0);
    WANTS("its sessions", shape.sessions, FKV_MOST_JOINED);
}

/* A file of so many sessions, as older libraries make it, of this class. */
static void put_image(const char *name, uint64_t sessions, bool is_living) {
    static uint8_t image[FKV_IMAGE_SIZE];
    fkv_shape shape = {6, 64, 16, 8, sessions, 64, 4096};
    WANTS("an image", fkv_image(&shape, image, sizeof image), 0);
    if (!is_living) memcpy(image, fkv_formats(), 8);
    memcpy(image + OVERFLOW_PLACE, &shape.overflow, sizeof shape.overflow);
    int fd = open(path_of(name), O_WRONLY | O_CREAT | O_TRUNC, 0666);
    WANTS("writing it", write(fd, image, sizeof image), sizeof image);
    close(fd);
}

/* Such a file of n sessions gives n - 1 to users, unless that is none. A specified one gives all. Where there is none for the library it says so. */
static void older(void) {
    static const struct {
        uint64_t sessions;
        bool is_living;
        uint64_t given;
    } files[] = {{1, true, 1}, {2, true, 1}, {32, true, 31}, {1, false, 1}, {2, false, 2}, {32, false, 32}};
    for (size_t i = 0; i < sizeof files / sizeof *files; i++) {
        fkv_keeping keeping = {.unwarmed = note_unwarmed};
        int told = files[i].given == files[i].sessions;
        put_image("older", files[i].sessions, files[i].is_living);
        open_at("older", 0);
        told_unwarmed = 0;
        keeping.no_warmer = 1;
        start(&keeping);
        wants_sessions(files[i].given);
        WANTS("stopping", fkv_stop(file, FKV_STOP_COMMIT), 0);
        WANTS("what is told where it isn't wanted", told_unwarmed, 0);
        keeping.no_warmer = 0;
        for (int round = 0; round < 2; round++) {
            start(&keeping);
            WANTS("stopping", fkv_stop(file, FKV_STOP_COMMIT), 0);
            WANTS("whether it is told that memory isn't kept warm, once", told_unwarmed, told);
        }
        close_store();
    }
}

/* ---- Memory --------------------------------------------------------------------------------------------------------------------- */

static uint64_t value_of(uint64_t key) { return 5 * key + 3; }

static void load(void) {
    fkv_session *session = joined(0);
    for (int i = 0; i < KEYS; i++) {
        WANTS("a put", fkv_put(file, session, keys[i], value_of(keys[i]), NULL), FKV_DONE);
        WANTS("a tick", fkv_tick(file, session), 0);
    }
    leave(session);
}

/* Updates each second key, until told to end. */
static void *update(void *none) {
    fkv_session *session = joined(0);
    for (int i = 0; !atomic_load(&ends); i = (i + 2) % KEYS) {
        WANTS("an update", fkv_put(file, session, keys[i], value_of(keys[i]), NULL), FKV_DONE);
        WANTS("a tick", fkv_tick(file, session), 0);
    }
    leave(session);
    return none;
}

/* Gets all others, and counts those gets that have to wait. */
static void get_once(fkv_session *session) {
    fkv_seen seen;
    uint64_t value;
    for (int i = 1; i < KEYS; i += 2) {
        int32_t result = fkv_get(session, keys[i], &value);
        if (result == FKV_PENDING) {
            waited++;
            WANTS("settling", fkv_settle(file, session, NULL, NULL), 0);
        } else {
            WANTS("a get", result, FKV_FOUND);
            WANTS("its value", value, value_of(keys[i]));
        }
        if (i % BLOCK == 1) WANTS("a refresh", fkv_refresh(session, &seen), 0);
    }
}

static void *get(void *none) {
    fkv_session *session = joined(1);
    while (!atomic_load(&ends)) get_once(session);
    leave(session);
    return none;
}

/* So many times as memory has records, records are appended while others are got. */
static void turn_memory(const fkv_shape *shape, bool no_warmer) {
    fkv_keeping keeping = {.commit_ms = COMMIT_MS, .log_commits = UINT32_MAX, .no_warmer = no_warmer, .unwarmed = note_unwarmed};
    pthread_t threads[2];
    make("turns", shape);
    open_at("turns", 0);
    told_unwarmed = 0;
    start(&keeping);
    load();
    ends = false;
    waited = 0;
    uint64_t begun = stats_now().tail;
    WANTS("a thread", pthread_create(&threads[0], NULL, update, NULL), 0);
    WANTS("another one", pthread_create(&threads[1], NULL, get, NULL), 0);
    while (stats_now().tail < begun + TURNS * RING && !(no_warmer && waited)) rest_ms(1);
    ends = true;
    for (int i = 0; i < 2; i++) pthread_join(threads[i], NULL);
    WANTS("what is told", told_unwarmed, 0);
}

/*
 * No get of what isn't updated waits. A machine that gives the keeper's thread no processor for long lets records go: two tries of three have to
 * be without. The store of the last one stays open.
 */
static void turns_warm(const fkv_shape *shape) {
    int tries[] = {0, 0};
    for (;;) {
        turn_memory(shape, false);
        if (++tries[waited > 0] == TRIES / 2 + 1) break;
        close_store();
    }
    WANTS("gets that had to wait", waited, 0);
}

/* So it is with pages of which all but one are mutable. */
static void stays_warm_by_commits(void) {
    turns_warm(&MUTABLE);
    close_store();
}

/* None waits, and all is as if nothing had been kept. */
static void stays_warm(void) {
    uint64_t points[FKV_MOST_SESSIONS], serial, other;
    turns_warm(&SHAPE);
    fkv_stats stats = stats_now();
    WANTS("records that were read back", stats.cold_reads, 0);
    WANTS("whether records were kept", stats.kept > TURNS * KEYS / 4, true);
    WANTS("who is joined", stats.joined, 0);
    fkv_session *session = joined(0), *second = joined(1);
    WANTS("the last serial", fkv_serial(session, &serial), 0);
    WANTS("that of the other", fkv_serial(second, &other), 0);
    WANTS("what the other one has updated", other, 0);
    leave(second);
    WANTS("a commit", fkv_commit_and_wait(file, session), 0);
    fkv_last_commit(file, points);
    WANTS("the point", points[0], serial);
    for (int i = 1; i < FKV_MOST_SESSIONS; i++) WANTS("the other points", points[i], 0);
    WANTS("whether all else are records of users", stats.tail - 1 - stats.kept <= serial, true);
    get_once(session);
    WANTS("gets that had to wait", waited, 0);
    leave(session);
    close_store();
    open_at("turns", 0);
    fkv_last_commit(file, points);
    WANTS("the point behind an opening", points[0], serial);
    for (int i = 1; i < FKV_MOST_SESSIONS; i++) WANTS("the other points", points[i], 0);
    wants_sessions(SESSIONS);
    close_store();
}

/* Without it gets wait, and a session's number stays. */
static void goes_cold(void) {
    turn_memory(&SHAPE, true);
    WANTS("whether gets had to wait", waited > 0, true);
    WANTS("records that were kept", stats_now().kept, 0);
    wants_sessions(SESSIONS);
    close_store();
}

/* Whether a get finds the key in memory, soon. */
static bool comes_to_memory(fkv_session *session, uint64_t key) {
    uint64_t value;
    for (int i = 0; i < 20000; i++) {
        int32_t result = fkv_get(session, key, &value);
        WANTS("whether a get is answered", result == FKV_FOUND || result == FKV_PENDING, true);
        if (result == FKV_FOUND) return true;
        WANTS("settling", fkv_settle(file, session, NULL, NULL), 0);
        rest_ms(1);
    }
    return false;
}

/* What reads have found in the file alone is in memory from then on: single reads, and one of many. No user has made an update. */
static void found(void) {
    enum { MANY = 40 };
    uint64_t value, points[FKV_MOST_SESSIONS];
    fkv_each_read told[MANY];
    open_at("turns", FKV_COLD);
    uint64_t number = fkv_last_commit(file, points), point = points[0];
    start(NULL);
    fkv_session *session = joined(2);
    WANTS("a read", fkv_read(file, session, keys[MANY], &value), FKV_FOUND);
    WANTS("whether it comes to memory", comes_to_memory(session, keys[MANY]), true);
    WANTS("reads", fkv_read_many(file, session, keys, MANY, told, MANY), 0);
    for (uint64_t i = 0; i < MANY; i++) {
        WANTS("one of them", told[i].value, value_of(keys[i]));
        WANTS("whether it comes to memory", comes_to_memory(session, keys[i]), true);
    }
    fkv_stats stats = stats_now();
    WANTS("whether they were kept", stats.kept > MANY, true);
    WANTS("a serial", fkv_serial(session, &value), 0);
    WANTS("updates of the session that has read", value, 0);
    leave(session);
    close_store();
    open_at("turns", 0);
    WANTS("whether a close of a store that was only read makes no commit", fkv_last_commit(file, points), number);
    WANTS("the point", points[0], point);
    close_store();
}

/* What share of a processor this process takes for 400 ms, in percent. */
static int64_t share_taken(void) {
    int64_t real = microseconds(CLOCK_MONOTONIC), taken = microseconds(CLOCK_PROCESS_CPUTIME_ID);
    rest_ms(400);
    return 100 * (microseconds(CLOCK_PROCESS_CPUTIME_ID) - taken) / (microseconds(CLOCK_MONOTONIC) - real);
}

/* A store that is opened and does nothing keeps nothing, and takes no processor. So does one that has come to rest, which takes a while where
 * the machine gives its processors to others. */
static void idle(void) {
    open_at("turns", 0);
    start(NULL);
    fkv_session *session = joined(0);
    for (int round = 0; round < 2; round++) {
        uint64_t kept;
        int64_t taken;
        int tries = 0;
        do {
            rest_ms(200);
            kept = stats_now().kept;
            taken = share_taken();
        } while ((taken > 5 || stats_now().kept != kept) && ++tries < 20);
        WANTS("whether it takes no processor", taken <= 5, true);
        WANTS("what it has kept meanwhile", stats_now().kept, kept);
        if (round == 0) WANTS("what a store keeps in which nothing happens", kept, 0);
        for (int i = 0; i < KEYS; i++) WANTS("a put", fkv_put(file, session, keys[i], value_of(keys[i]), NULL), FKV_DONE);
        WANTS("a commit", fkv_commit_and_wait(file, session), 0);
    }
    leave(session);
    close_store();
}

/* ---- A full log ----------------------------------------------------------------------------------------------------------------- */

/* The log is the user's up to where calls end, but for the library's share. Its last part is the user's alone. */
static void full_log(void) {
    const uint64_t records = SHORT.page * SHORT.disk_pages - 65 * (SESSIONS + 1) * (SESSIONS + 1), last = records - 65536;
    fkv_keeping keeping = {.commit_ms = 5, .log_commits = UINT32_MAX};
    uint64_t kept = 0;
    int32_t result = FKV_DONE;
    make("full", &SHORT);
    open_at("full", 0);
    start(&keeping);
    load();
    fkv_session *session = joined(0);
    for (uint64_t i = 0; result == FKV_DONE; i++) {
        result = fkv_put(file, session, keys[i * 2 % KEYS], i, NULL);
        if (result == FKV_DONE) fkv_tick(file, session);
        if (i % 1024) continue;
        fkv_stats stats = stats_now();
        /* (a step that began before it may still go on) */
        if (stats.tail > last + 4 * RING && kept == 0) kept = stats.kept;
        WANTS("what it keeps of its last part", kept == 0 || stats.kept == kept, true);
    }
    fkv_stats stats = stats_now();
    WANTS("why no more is put", result, -FKV_LOG_FULL);
    WANTS("where calls end", stats.tail, records);
    WANTS("whether records were kept", stats.kept > 0, true);
    WANTS("whether they are within their share", stats.kept <= records / 8, true);
    fkv_abandon(file, session);
    fkv_drop_file(file);
}

/* ---- Ends, renewals, crashes ---------------------------------------------------------------------------------------------------- */

static void *end_later(void *none) {
    rest_ms(1 + rand() % 10);
    ends = true;
    return none;
}

/* It ends in the midst of its work in each way, and begins again. What users did is kept or lost as by that way. */
static void ends_anyhow(void) {
    fkv_keeping keeping = {.commit_ms = 2, .log_commits = 100};
    pthread_t thread;
    make("ends", &SHAPE);
    open_at("ends", 0);
    start(&keeping);
    load();
    for (int round = 0; round < ROUNDS; round++) {
        ends = false;
        WANTS("a thread", pthread_create(&thread, NULL, end_later, NULL), 0);
        if (round % 4 == 3) {
            fkv_session *session = joined(1);
            for (int i = 0; !ends; i = (i + 2) % KEYS) {
                fkv_update told;
                if (fkv_upsert(session, keys[i], value_of(keys[i]), &told) < 0) break;
            }
            fkv_abandon(file, session);
        } else {
            update(NULL);
        }
        pthread_join(thread, NULL);
        int64_t begun = microseconds(CLOCK_MONOTONIC);
        if (round % 4 == 0) WANTS("stopping", fkv_stop(file, FKV_STOP_NOW), 0);
        if (round % 4 == 1) WANTS("stopping behind a commit", fkv_stop(file, FKV_STOP_COMMIT), 0);
        if (round % 4 == 2) WANTS("dropping", fkv_drop_file(file), 0);
        if (round % 4 == 3) close_store();
        if (round % 4 > 1) open_at("ends", 0);
        WANTS("whether the end comes soon", microseconds(CLOCK_MONOTONIC) - begun < 60000000, true);
        start(&keeping);
    }
    fkv_session *session = joined(2);
    uint64_t value;
    for (int i = 0; i < KEYS; i++) {
        WANTS("a read", fkv_read(file, session, keys[i], &value), FKV_FOUND);
        WANTS("its value", value, value_of(keys[i]));
    }
    leave(session);
    close_store();
}

/* The store has these points, and is of so many sessions. */
static void wants_points(uint64_t sessions, uint64_t first, uint64_t last) {
    uint64_t points[FKV_MOST_SESSIONS], serial;
    fkv_last_commit(file, points);
    for (uint64_t i = 0; i < FKV_MOST_SESSIONS; i++) WANTS("a point", points[i], i == 0 ? first : i == SESSIONS - 1 ? last : 0);
    wants_sessions(sessions);
    for (uint64_t i = 0; i < sessions; i++) {
        fkv_session *session = joined(i);
        WANTS("a serial", fkv_serial(session, &serial), 0);
        WANTS("which it is", serial, points[i]);
        leave(session);
    }
}

/* More sessions, fewer, and as many: the library's serials are never a user's. Fewer than have a point are refused. */
static void renewals(void) {
    fkv_shape more = SHAPE, fewer = SHAPE;
    uint64_t points[FKV_MOST_SESSIONS];
    more.sessions = SESSIONS + 3, fewer.sessions = 1;
    turn_memory(&SHAPE, false);
    WANTS("a commit", fkv_commit_and_wait(file, NULL), 0);
    fkv_last_commit(file, points);
    uint64_t point = points[0];
    WANTS("renewing it with more sessions", fkv_renew_here(file, &more, NULL), 0);
    WANTS("the sessions of the file", sessions_in_file("turns"), more.sessions + 1);
    wants_points(more.sessions, point, 0);
    fkv_session *session = joined(SESSIONS - 1);
    WANTS("a put", fkv_put(file, session, 0, value_of(0), NULL), FKV_DONE);
    leave(session);
    WANTS("renewing it with fewer sessions than have a point", fkv_renew_here(file, &fewer, NULL), -FKV_NO_SESSION);
    WANTS("renewing it as it is", fkv_renew_here(file, NULL, NULL), 0);
    wants_points(more.sessions, point, 1);
    WANTS("renewing it with fewer sessions", fkv_renew_here(file, &SHAPE, NULL), 0);
    wants_points(SESSIONS, point, 1);
    close_store();
    turn_memory(&SHAPE, false);
    WANTS("closing behind a commit", fkv_close_file(file), 0);
    unlink(path_of("renewed"));
    char from[PATH_ROOM];
    snprintf(from, sizeof from, "%s", path_of("turns"));
    WANTS("renewing it in another file", fkv_renew_file(from, path_of("renewed"), &fewer, FKV_AS_THEY_LIE, NULL), 0);
    open_at("renewed", 0);
    fkv_last_commit(file, points);
    wants_points(1, points[0], 0);
    close_store();
}

/* A child updates until it is killed, and memory is kept warm meanwhile. All values are those of the points. */
static void crashes(void) {
    make("crashes", &SHAPE);
    for (int round = 0; round < CRASHES; round++) {
        pid_t child = fork();
        if (child == 0) {
            fkv_keeping keeping = {.commit_ms = 5, .log_commits = 10};
            open_at("crashes", 0);
            start(&keeping);
            fkv_session *session = joined((uint64_t)round % SESSIONS);
            for (uint64_t key = 0;; key = (key * 5 + 1) % KEYS) {
                WANTS("an add", fkv_increment(file, session, key, 1, NULL), FKV_DONE);
                WANTS("a tick", fkv_tick(file, session), 0);
            }
        }
        WANTS("whether there is a child", child > 0, true);
        rest_ms(200 + 100 * round);
        kill(child, SIGKILL);
        WANTS("the child's end", waitpid(child, NULL, 0), child);
        uint64_t points[FKV_MOST_SESSIONS], sum = 0, all = 0, value;
        open_at("crashes", round % 2 ? FKV_COLD : 0);
        start(NULL);
        fkv_last_commit(file, points);
        for (int i = 0; i < FKV_MOST_SESSIONS; i++) all += points[i];
        fkv_session *session = joined(FKV_ANY_SESSION);
        for (uint64_t key = 0; key < KEYS; key++) sum += fkv_read(file, session, key, &value) == FKV_FOUND ? value : 0;
        WANTS("the values' sum", sum, all);
        leave(session);
        close_store();
    }
}

int main(int count, char **words) {
    if (count != 2) return 2;
    folder = words[1];
    alarm(MOST_SECONDS);
    choose_keys();
    asked_for();
    older();
    stays_warm_by_commits();
    stays_warm();
    found();
    idle();
    goes_cold();
    full_log();
    ends_anyhow();
    renewals();
    crashes();
    return 0;
}
