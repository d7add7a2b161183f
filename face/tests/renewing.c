/*
 * Renewals of an open store in place: renewing FOLDER. A process that ends at any of its calls of the system leaves the old store or the
 * new one. A call that fails leaves the old one open, and it goes on. Sessions go on with their serials.
 */
#define _GNU_SOURCE
#include "fkv_posix.h"
#include "tests.h"

#include <errno.h>
#include <pthread.h>
#include <stdbool.h>
#include <string.h>
#include <sys/stat.h>
#include <sys/syscall.h>
#include <sys/wait.h>
#include <unistd.h>

enum { KEYS = 200, SESSIONS = 3, ENDED = 9, MOST_CALLS = 200, MOST_SECONDS = 120, PATH_ROOM = 500 };

static const fkv_shape SHAPE = {8, 16, 8, 4, SESSIONS, 64, 512}, LARGE = {10, 64, 8, 4, SESSIONS, 256, 65536};
static char path[PATH_ROOM], folder[PATH_ROOM];
static fkv_file *file;
/* Calls of the system that change a file: at this one the process ends, or the call fails. */
static int calls, ends_at, fails_at;

static bool comes_to(const char *what) {
    (void)what;
    calls++;
    if (calls == ends_at) _exit(ENDED);
    if (calls != fails_at) return false;
    errno = EIO;
    return true;
}

ssize_t pwrite(int fd, const void *bytes, size_t length, off_t place) {
    return comes_to("pwrite") ? -1 : (ssize_t)syscall(SYS_pwrite64, fd, bytes, length, place);
}

int fsync(int fd) { return comes_to("fsync") ? -1 : 0 * fd; }

int fdatasync(int fd) { return comes_to("fdatasync") ? -1 : 0 * fd; }

int rename(const char *from, const char *to) { return comes_to("rename") ? -1 : (int)syscall(SYS_rename, from, to); }

static fkv_session *joined(uint64_t number) {
    fkv_session *session;
    WANTS("joining", fkv_join(file, number, &session), 0);
    return session;
}

/* Adds 1 to each key once, by one session. */
static void add_to_all(uint64_t number) {
    fkv_session *session = joined(number);
    fkv_update told;
    uint64_t before;
    WANTS("the last serial", fkv_serial(session, &before), 0);
    for (uint64_t key = 0; key < KEYS; key++) {
        WANTS("an add", fkv_increment(file, session, key, 1, &told), FKV_DONE);
        WANTS("its serial", told.serial, before + key + 1);
        WANTS("a tick", fkv_tick(file, session), 0);
    }
    WANTS("leaving", fkv_leave(file, session), 0);
}

static void wants_all(uint64_t value) {
    uint64_t keys[KEYS], points[FKV_MOST_SESSIONS], sum = 0;
    fkv_each_read told[KEYS];
    fkv_session *session = joined(0);
    for (uint64_t i = 0; i < KEYS; i++) keys[i] = i;
    WANTS("reads", fkv_read_many(file, session, keys, KEYS, told, KEYS), 0);
    for (int i = 0; i < KEYS; i++) WANTS("a value", told[i].value, value);
    WANTS("leaving", fkv_leave(file, session), 0);
    fkv_last_commit(file, points);
    for (int i = 0; i < SESSIONS; i++) sum += points[i];
    WANTS("the points' sum", sum, KEYS * value);
}

static void open_store(void) {
    WANTS("opening", fkv_open_file(path, NULL, &file), 0);
    WANTS("starting the keeper", fkv_start(file, NULL), 0);
}

/* A store in whose second commit each key has the value 2. */
static void make_store(void) {
    unlink(path);
    WANTS("making a file", fkv_make_file(path, &SHAPE), 0);
    open_store();
    add_to_all(0);
    WANTS("a commit", fkv_commit_and_wait(file, NULL), 0);
    add_to_all(2);
    WANTS("closing", fkv_close_file(file), 0);
}

static void *join_late(void *its) {
    fkv_session **session = its;
    WANTS("joining", fkv_join(file, 1, session), 0);
    return NULL;
}

/* It is the same store to its users, and has the new shape. What it did last is kept, and it goes on. */
static void goes_on(void) {
    uint64_t points[FKV_MOST_SESSIONS];
    fkv_renewed told;
    fkv_file *other;
    fkv_session *session, *late;
    pthread_t thread;
    struct stat before, after;
    make_store();
    open_store();
    session = joined(1);
    WANTS("renewing while a session is joined", fkv_renew_here(file, NULL, NULL), -FKV_HANDLE_OUT);
    WANTS("leaving", fkv_leave(file, session), 0);
    add_to_all(1);
    stat(path, &before);
    WANTS("a thread", pthread_create(&thread, NULL, join_late, &late), 0);
    int32_t result = fkv_renew_here(file, &LARGE, &told);
    pthread_join(thread, NULL);
    WANTS("leaving", fkv_leave(file, late), 0);
    /* (who joined before it began has held it up) */
    if (result == -FKV_HANDLE_OUT) result = fkv_renew_here(file, &LARGE, &told);
    WANTS("renewing", result, 0);
    stat(path, &after);
    WANTS("whether there is another file", before.st_ino != after.st_ino, true);
    WANTS("its bytes", after.st_size, told.size);
    WANTS("its commit", fkv_last_commit(file, points), 1);
    WANTS("its shape", memcmp(&LARGE, &(fkv_shape){0}, sizeof LARGE) != 0 && fkv_shape_of(file).page == LARGE.page, true);
    WANTS("opening it elsewhere", fkv_open_file(path, NULL, &other), -FKV_DEVICE);
    WANTS("why", errno, EWOULDBLOCK);
    wants_all(3);
    add_to_all(1);
    WANTS("renewing it again", fkv_renew_here(file, NULL, NULL), 0);
    wants_all(4);
    WANTS("too small a shape", fkv_renew_here(file, &(fkv_shape){2, 4, 8, 4, SESSIONS, 0, 1}, &told), -FKV_LOG_FULL);
    add_to_all(2);
    WANTS("closing", fkv_close_file(file), 0);
    open_store();
    wants_all(5);
    WANTS("closing", fkv_close_file(file), 0);
    WANTS("opening", fkv_open_file(path, NULL, &file), 0);
    WANTS("renewing without a keeper", fkv_renew_here(file, NULL, NULL), 0);
    session = joined(1);
    WANTS("a put", fkv_put(file, session, 7, 1, NULL), FKV_DONE);
    WANTS("leaving", fkv_leave(file, session), 0);
    WANTS("renewing what isn't kept without a keeper", fkv_renew_here(file, NULL, NULL), -FKV_NO_KEEPER);
    WANTS("closing", fkv_close_file(file), 0);
}

/* A process ends at each call in turn. */
static void ends_anywhere(void) {
    int status = ENDED;
    bool was_old = false, was_new = false;
    for (int at = 1; status == ENDED; at++) {
        uint64_t points[FKV_MOST_SESSIONS];
        WANTS("whether its calls end", at < MOST_CALLS, true);
        make_store();
        pid_t child = fork();
        if (child == 0) {
            WANTS("opening", fkv_open_file(path, NULL, &file), 0);
            calls = 0, ends_at = at;
            WANTS("renewing", fkv_renew_here(file, &LARGE, NULL), 0);
            _exit(0);
        }
        WANTS("the child", waitpid(child, &status, 0), child);
        status = WIFEXITED(status) ? WEXITSTATUS(status) : -1;
        WANTS("how it has ended", status == ENDED || status == 0, true);
        open_store();
        bool is_new = fkv_last_commit(file, points) == 1;
        was_new |= is_new, was_old |= !is_new;
        wants_all(2);
        add_to_all(1);
        WANTS("closing", fkv_close_file(file), 0);
    }
    WANTS("whether either was left", was_old && was_new, true);
}

/* Each call fails in turn. The store is the old one then, and goes on; but where the folder's sync has failed it has to be opened anew. */
static void fails_anywhere(void) {
    int32_t result = -FKV_DEVICE;
    for (int at = 1; result < 0; at++) {
        uint64_t points[FKV_MOST_SESSIONS];
        WANTS("whether its calls end", at < MOST_CALLS, true);
        make_store();
        open_store();
        calls = 0, fails_at = at;
        errno = 0;
        result = fkv_renew_here(file, &LARGE, NULL);
        if (result < 0) WANTS("why", errno, EIO);
        fails_at = 0;
        bool is_new = fkv_last_commit(file, points) == 1;
        if (result < 0 && is_new) {
            WANTS("a commit", fkv_commit_and_wait(file, NULL), -FKV_DEVICE);
            WANTS("closing", fkv_close_file(file), 0);
            open_store();
        }
        wants_all(2);
        add_to_all(1);
        WANTS("a commit", fkv_commit_and_wait(file, NULL), 0);
        wants_all(3);
        WANTS("closing", fkv_close_file(file), 0);
    }
}

int main(int count, char **words) {
    if (count != 2) return 2;
    alarm(MOST_SECONDS);
    snprintf(folder, sizeof folder, "%s", words[1]);
    snprintf(path, sizeof path, "%s/renewing", words[1]);
    goes_on();
    ends_anywhere();
    fails_anywhere();
    return 0;
}
