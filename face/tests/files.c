/* The calls of fkv_posix.h over real files: files FOLDER. */
#define _GNU_SOURCE
#include "fkv_posix.h"
#include "tests.h"

#include <errno.h>
#include <fcntl.h>
#include <pthread.h>
#include <signal.h>
#include <stdbool.h>
#include <string.h>
#include <sys/resource.h>
#include <sys/stat.h>
#include <sys/syscall.h>
#include <sys/wait.h>
#include <unistd.h>

enum { KEYS = 1000, PATH_ROOM = 500, LEFTOVERS = 150 };

/* A call that the system has refused for this reason, maybe in another thread. */
#define WANTS_DEVICE(what, call, why) (errno = 0, wants_device(__FILE__, __LINE__, what, call, why))

/* Small pages and little memory, so that most records lie in the file alone; and an index that has room for all keys. */
static const fkv_shape SHAPE = {10, 16, 8, 4, 3, 64, 4096};
static const char *folder;
static uint64_t told_commits, told_progress, folder_syncs;
static bool folders_fail, process_dies;

/* The library's syncs come here, before those of the C library: folders are counted, or fail; or the process dies. */
int fsync(int fd) {
    struct stat known;
    if (process_dies) _exit(0);
    if (fstat(fd, &known) == 0 && S_ISDIR(known.st_mode)) {
        folder_syncs++;
        errno = EIO;
        if (folders_fail) return -1;
    }
    return (int)syscall(SYS_fsync, fd);
}

static void wants_device(const char *file, int line, const char *what, int32_t got, int why) {
    int told = errno;
    wants(file, line, what, got, -FKV_DEVICE);
    wants(file, line, "its errno", told, why);
}

static const char *path_of(const char *name) {
    static char path[PATH_ROOM];
    snprintf(path, sizeof path, "%s/%s", folder, name);
    return path;
}

static void count_commit(void *user, uint64_t number, const uint64_t *points, size_t sessions) {
    (void)user;
    WANTS("how many points are told", sessions, SHAPE.sessions);
    WANTS("whether a point is told", points[0] > 0, true);
    WANTS("a commit's number", number, ++told_commits);
}

static void count_progress(void *user, const fkv_progress *progress) {
    (void)user;
    WANTS("whether progress is within the whole", progress->total == 0 || progress->done <= progress->total, true);
    told_progress++;
}

static void put(fkv_file *file, fkv_session *session, uint64_t key, uint64_t value) {
    fkv_update told;
    fkv_seen seen;
    int32_t result = fkv_upsert(session, key, value, &told);
    while (result == -FKV_PENDING_FULL) {
        WANTS("settling", fkv_settle(file, session, NULL, NULL), 0);
        result = fkv_upsert(session, key, value, &told);
    }
    WANTS("whether an upsert is accepted", result == FKV_DONE || result == FKV_PENDING, true);
    if (key % 16 == 0) WANTS("a refresh", fkv_refresh(session, &seen), 0);
}

static void wants_values(fkv_file *file, fkv_session *session, uint64_t more) {
    uint64_t value;
    for (uint64_t key = 0; key < KEYS; key++) {
        WANTS("a read", fkv_read(file, session, key, &value), FKV_FOUND);
        WANTS("its value", value, key + more);
    }
    WANTS("a read of no value", fkv_read(file, session, KEYS, &value), FKV_NONE);
}

/* What is there is never replaced, and a file is open once. */
static void making(void) {
    const char *path = path_of("making");
    fkv_file *file, *other;
    fkv_shape bad = SHAPE;
    fkv_opened opened;
    fkv_how how = {.opened = &opened};
    bad.sessions = FKV_MOST_JOINED + 1;
    WANTS("a file of a bad shape", fkv_make_file(path, &bad), -FKV_BAD_SHAPE);
    WANTS("opening no file", fkv_open_file(path, NULL, &file), -FKV_DEVICE);
    WANTS("why", errno, ENOENT);
    WANTS("making a file", fkv_make_file(path, &SHAPE), 0);
    WANTS("making it again", fkv_make_file(path, &SHAPE), -FKV_DEVICE);
    WANTS("why", errno, EEXIST);
    WANTS("opening it", fkv_open_file(path, &how, &file), 0);
    WANTS("the number of a new store", opened.number, 0);
    WANTS("its sessions", fkv_shape_of(file).sessions, SHAPE.sessions);
    WANTS("opening it again", fkv_open_file(path, NULL, &other), -FKV_DEVICE);
    WANTS("why", errno, EWOULDBLOCK);
    WANTS("closing it", fkv_close_file(file), 0);
    WANTS("opening it behind that", fkv_open_file(path, NULL, &file), 0);
    WANTS("closing it", fkv_close_file(file), 0);
    int foreign = open(path_of("foreign"), O_WRONLY | O_CREAT, 0666);
    WANTS("opening an empty file", fkv_open_file(path_of("foreign"), NULL, &file), -FKV_NOT_A_STORE);
    WANTS("writing", write(foreign, "no store", 8), 8);
    close(foreign);
    WANTS("opening a foreign file", fkv_open_file(path_of("foreign"), NULL, &file), -FKV_NOT_A_STORE);
    WANTS("opening a folder", fkv_open_file(folder, NULL, &file), -FKV_DEVICE);
    WANTS("making in no folder", fkv_make_file(path_of("none/store"), &SHAPE), -FKV_DEVICE);
}

/* A log without a bound may have as many pages as there may be, and the file is as long as the log is. */
static void making_unbounded(void) {
    const char *path = path_of("unbounded");
    struct stat seen;
    fkv_file *file;
    fkv_shape shape = SHAPE;
    shape.disk_pages = 0;
    WANTS("making a file", fkv_make_file(path, &shape), 0);
    WANTS("looking at it", stat(path, &seen), 0);
    WANTS("its bytes", seen.st_size, FKV_IMAGE_SIZE);
    WANTS("opening it", fkv_open_file(path, NULL, &file), 0);
    WANTS("its pages", fkv_shape_of(file).disk_pages, UINT64_C(1) << 30);
    WANTS("closing it", fkv_close_file(file), 0);
}

/* A file whose folder wasn't synced as it was made stays. Each opening syncs the folder, and is refused where that fails. */
static void naming(void) {
    fkv_file *file;
    const char *path = path_of("naming");
    folders_fail = true;
    WANTS_DEVICE("making a file", fkv_make_file(path, &SHAPE), EIO);
    WANTS_DEVICE("opening it", fkv_open_file(path, NULL, &file), EIO);
    folders_fail = false;
    WANTS_DEVICE("making it again", fkv_make_file(path, &SHAPE), EEXIST);
    folder_syncs = 0;
    WANTS("opening it", fkv_open_file(path, NULL, &file), 0);
    WANTS("how many folders were synced", folder_syncs, 1);
    WANTS("closing it", fkv_close_file(file), 0);
}

/* Makings that were cut short leave files, and a later one doesn't mind. */
static void leftovers(void) {
    const char *path = path_of("leftovers");
    for (int i = 0; i < LEFTOVERS; i++) {
        pid_t child = fork();
        if (child == 0) {
            process_dies = true;
            fkv_make_file(path, &SHAPE);
            _exit(1);
        }
        int status = 1;
        WANTS("a making that is cut short", waitpid(child, &status, 0), child);
        WANTS("its status", status, 0);
    }
    WANTS("making a file", fkv_make_file(path, &SHAPE), 0);
}

/* A child that was forked has the file's descriptor, and not its lock once that is given back. */
static void forking(void) {
    fkv_file *file;
    int ends[2];
    char byte;
    const char *path = path_of("naming");
    WANTS("a pipe", pipe(ends), 0);
    WANTS("opening it", fkv_open_file(path, NULL, &file), 0);
    pid_t child = fork();
    if (child == 0) {
        close(ends[1]);
        _exit(read(ends[0], &byte, 1) != 0);
    }
    WANTS("whether there is a child", child > 0, true);
    WANTS("closing it", fkv_close_file(file), 0);
    WANTS("opening it while a child lives", fkv_open_file(path, NULL, &file), 0);
    WANTS("closing it", fkv_close_file(file), 0);
    close(ends[0]);
    close(ends[1]);
    WANTS("the child's end", waitpid(child, NULL, 0), child);
}

static void joining(void) {
    const char *path = path_of("joining");
    fkv_file *file;
    fkv_session *one, *two, *any;
    WANTS("making a file", fkv_make_file(path, &SHAPE), 0);
    WANTS("opening it", fkv_open_file(path, NULL, &file), 0);
    WANTS("joining session 1", fkv_join(file, 1, &one), 0);
    WANTS("joining it again", fkv_join(file, 1, &two), -FKV_HANDLE_TAKEN);
    WANTS("joining session 3 of 3", fkv_join(file, 3, &two), -FKV_NO_SESSION);
    WANTS("joining any", fkv_join(file, FKV_ANY_SESSION, &two), 0);
    WANTS("joining the last", fkv_join(file, FKV_ANY_SESSION, &any), 0);
    WANTS("joining one more", fkv_join(file, FKV_ANY_SESSION, &any), -FKV_NO_SESSION);
    WANTS("closing while sessions are out", fkv_close_file(file), -FKV_HANDLE_OUT);
    WANTS("leaving", fkv_leave(file, two), 0);
    WANTS("joining what was left", fkv_join(file, 0, &two), 0);
    WANTS("sleeping", fkv_sleep(two), 0);
    WANTS("leaving asleep", fkv_leave(file, two), 0);
    WANTS("leaving", fkv_leave(file, one), 0);
    fkv_abandon(file, any);
    WANTS("joining what was abandoned with nothing pending", fkv_join(file, 2, &any), 0);
    fkv_abandon(file, any);
    WANTS("closing", fkv_close_file(file), 0);
}

/* What was committed is there in the next life, and what lies in the file alone is read back. */
static void committing(void) {
    const char *path = path_of("committing");
    fkv_file *file;
    fkv_session *session;
    fkv_keeping keeping = {.commit_ms = 5, .log_commits = 3, .committed = count_commit, .progress = count_progress};
    fkv_how how = {.progress = count_progress};
    uint64_t points[FKV_MOST_SESSIONS], ticket, serial;
    WANTS("making a file", fkv_make_file(path, &SHAPE), 0);
    WANTS("opening it", fkv_open_file(path, NULL, &file), 0);
    WANTS("a commit without a keeper", fkv_ask_commit(file, &ticket), -FKV_NO_KEEPER);
    WANTS("starting the keeper", fkv_start(file, &keeping), 0);
    WANTS("starting it again", fkv_start(file, &keeping), -FKV_HANDLE_TAKEN);
    WANTS("joining", fkv_join(file, 0, &session), 0);
    for (uint64_t key = 0; key < KEYS; key++) put(file, session, key, key + 1);
    /* (an update that is pending hasn't taken effect) */
    WANTS("settling", fkv_settle(file, session, NULL, NULL), 0);
    wants_values(file, session, 1);
    WANTS("asking for a commit", fkv_ask_commit(file, &ticket), 0);
    WANTS("waiting for it", fkv_wait_commit(file, ticket, session), 0);
    WANTS("what is durable", fkv_durable(session, &serial), 0);
    WANTS("that serial", serial, KEYS);
    for (uint64_t key = 0; key < KEYS; key++) put(file, session, key, key + 2);
    WANTS("settling", fkv_settle(file, session, NULL, NULL), 0);
    WANTS("leaving", fkv_leave(file, session), 0);
    WANTS("stopping behind a commit", fkv_stop(file, 1), 0);
    WANTS("stopping again", fkv_stop(file, 0), 0);
    WANTS("whether commits were told", told_commits > 1, true);
    uint64_t number = fkv_last_commit(file, points);
    WANTS("the last commit", number, told_commits);
    WANTS("its point", points[0], 2 * KEYS);
    WANTS("closing", fkv_close_file(file), 0);
    uint64_t before = told_progress;
    WANTS("opening it", fkv_open_file(path, &how, &file), 0);
    WANTS("whether progress of opening was told", told_progress > before, true);
    WANTS("the recovered commit", fkv_last_commit(file, points), number);
    WANTS("its point", points[0], 2 * KEYS);
    WANTS("starting the keeper", fkv_start(file, NULL), 0);
    WANTS("joining", fkv_join(file, 2, &session), 0);
    wants_values(file, session, 2);
    WANTS("leaving", fkv_leave(file, session), 0);
    WANTS("closing with the keeper", fkv_close_file(file), 0);
    how.mapped = 1;
    WANTS("opening it mapped", fkv_open_file(path, &how, &file), 0);
    WANTS("the recovered commit", fkv_last_commit(file, points), number);
    WANTS("closing", fkv_close_file(file), 0);
}

/* A file that can't grow: its first call that fails ends all commits, and the store goes on in memory. */
static void failing(void) {
    const char *path = path_of("failing");
    fkv_file *file;
    fkv_session *session;
    fkv_update told;
    struct rlimit limit, before;
    uint64_t ticket, value;
    signal(SIGXFSZ, SIG_IGN);
    WANTS("making a file", fkv_make_file(path, &SHAPE), 0);
    WANTS("opening it", fkv_open_file(path, NULL, &file), 0);
    WANTS("starting the keeper", fkv_start(file, NULL), 0);
    WANTS("joining", fkv_join(file, 0, &session), 0);
    WANTS("an add", fkv_add(session, 7, 1, &told), FKV_DONE);
    getrlimit(RLIMIT_FSIZE, &before);
    limit = before;
    limit.rlim_cur = 2000;
    WANTS("setting a limit", setrlimit(RLIMIT_FSIZE, &limit), 0);
    WANTS("asking for a commit", fkv_ask_commit(file, &ticket), 0);
    WANTS_DEVICE("waiting for it", fkv_wait_commit(file, ticket, session), EFBIG);
    setrlimit(RLIMIT_FSIZE, &before);
    WANTS_DEVICE("the keeper's fault", fkv_keeper_fault(file), EFBIG);
    WANTS_DEVICE("the next commit", fkv_ask_commit(file, &ticket), EFBIG);
    WANTS_DEVICE("one that is waited for", fkv_commit_and_wait(file, session), EFBIG);
    WANTS("a read", fkv_get(session, 7, &value), FKV_FOUND);
    WANTS("an add", fkv_add(session, 7, 1, &told), FKV_DONE);
    for (uint64_t key = 0; fkv_upsert(session, key, 1, &told) != -FKV_PENDING_FULL; key++) {
        WANTS("whether too many wait", key < KEYS, true);
    }
    WANTS_DEVICE("settling what waits for the keeper", fkv_settle(file, session, NULL, NULL), EFBIG);
    fkv_abandon(file, session);
    WANTS_DEVICE("stopping behind a commit", fkv_stop(file, 1), EFBIG);
    WANTS("closing", fkv_close_file(file), 0);
    WANTS("opening it", fkv_open_file(path, NULL, &file), 0);
    WANTS("joining", fkv_join(file, 0, &session), 0);
    WANTS("a read of what no commit kept", fkv_get(session, 7, &value), FKV_NONE);
    WANTS("leaving", fkv_leave(file, session), 0);
    WANTS("closing", fkv_close_file(file), 0);
}

/* A descriptor of a standard stream isn't the store's, though it is closed. */
static void streams(void) {
    fkv_file *file;
    struct stat before, behind;
    WANTS("the size before", stat(path_of("joining"), &before), 0);
    int kept = dup(STDOUT_FILENO);
    close(STDOUT_FILENO);
    WANTS("opening it", fkv_open_file(path_of("joining"), NULL, &file), 0);
    printf("this is for standard output\n");
    fflush(stdout);
    WANTS("closing", fkv_close_file(file), 0);
    dup2(kept, STDOUT_FILENO);
    close(kept);
    clearerr(stdout);
    WANTS("the size behind", stat(path_of("joining"), &behind), 0);
    WANTS("the file's size", behind.st_size, before.st_size);
    WANTS("opening it", fkv_open_file(path_of("joining"), NULL, &file), 0);
    WANTS("closing", fkv_close_file(file), 0);
}

/* A store whose keeper this thread runs by itself: its turns over a descriptor, up to a commit's end. The next opening has what it kept. */
static void own_turns(void) {
    static uint8_t bytes[FKV_IMAGE_SIZE];
    fkv_shape shape = {4, 4, 4, 2, 1, 4, 64};
    fkv_store store;
    fkv_session session;
    fkv_keeper keeper;
    fkv_opened opened;
    fkv_update update;
    fkv_turned turned = {0};
    fkv_seen seen;
    fkv_file *file;
    uint64_t points[FKV_MOST_SESSIONS], number, written = 0, value;
    WANTS("its bytes", fkv_image(&shape, bytes, sizeof bytes), 0);
    int fd = open(path_of("own_turns"), O_RDWR | O_CREAT, 0666);
    WANTS("writing them", write(fd, bytes, sizeof bytes), sizeof bytes);
    WANTS("opening its bytes", fkv_open(bytes, sizeof bytes, FKV_SPREAD, FKV_COLD, &store.at, &shape, &opened, points, FKV_MOST_SESSIONS), 0);
    WANTS("taking the session", fkv_take_session(&store, 0, &session.at), 0);
    WANTS("taking the keeper", fkv_take_keeper(&store, &keeper.at), 0);
    WANTS("an upsert", fkv_upsert(&session, 7, 10, &update), FKV_DONE);
    WANTS("a commit", fkv_commit(&keeper, 0, &number), 0);
    for (int turns = 0; !turned.finished; turns++) {
        WANTS("whether the commit ends", turns < 1000, true);
        WANTS("a turn", fkv_turn_file(fd, &keeper, &turned, points, FKV_MOST_SESSIONS, &written), FKV_OVER);
        WANTS("a refresh", fkv_refresh(&session, &seen), 0);
    }
    WANTS("the commit's number", turned.number, number);
    WANTS("its point", points[0], 1);
    WANTS("whether bytes were written", written > FKV_READ_SIZE, true);
    WANTS("ending the session", fkv_end_session(&session), 0);
    fkv_free_session(session);
    fkv_end_keeper(&keeper);
    fkv_free_keeper(keeper);
    WANTS("closing", fkv_close(&store), 0);
    fkv_free_store(store);
    close(fd);
    WANTS("opening it", fkv_open_file(path_of("own_turns"), NULL, &file), 0);
    fkv_session *its;
    WANTS("starting the keeper", fkv_start(file, NULL), 0);
    WANTS("joining", fkv_join(file, 0, &its), 0);
    WANTS("a read", fkv_read(file, its, 7, &value), FKV_FOUND);
    WANTS("its value", value, 10);
    WANTS("leaving", fkv_leave(file, its), 0);
    WANTS("closing the file", fkv_close_file(file), 0);
}

/* A call that the system refuses: as the read of a descriptor that is closed. */
static void refused_call(void) {
    uint8_t into[FKV_MOST_READ];
    fkv_turned turned = {.place = 0, .length = FKV_READ_SIZE};
    int fd = open(path_of("own_turns"), O_RDONLY);
    WANTS("a read", fkv_call_file(fd, FKV_READ, &turned, into), 0);
    WANTS("what it has read", memcmp(into, "FKVSTOR2", 8), 0);
    close(fd);
    errno = 0;
    WANTS("a read of a closed descriptor", fkv_call_file(fd, FKV_READ, &turned, into), -1);
    WANTS("why", errno, EBADF);
}

int main(int count, char **words) {
    if (count != 2) return 2;
    folder = words[1];
    making();
    making_unbounded();
    naming();
    leftovers();
    forking();
    joining();
    committing();
    failing();
    streams();
    own_turns();
    refused_call();
    return 0;
}
