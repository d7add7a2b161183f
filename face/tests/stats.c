/*
 * How a store fares, where no other test asks: stats FOLDER. Entries of the index, as openings and full commits count them; and what is
 * pending just now, by reason.
 */
#define _POSIX_C_SOURCE 200809L
#include "fkv_posix.h"
#include "tests.h"

#include <stdbool.h>
#include <time.h>
#include <unistd.h>

enum { KEYS = 200, MOST_SECONDS = 240, PATH_ROOM = 500 };

static const char *folder;
static fkv_file *file;

static const char *path_of(const char *name) {
    static char path[PATH_ROOM];
    snprintf(path, sizeof path, "%s/%s", folder, name);
    return path;
}

static fkv_stats stats_now(void) {
    fkv_stats stats;
    WANTS("how it fares", fkv_stats_of(file, &stats), 0);
    return stats;
}

static fkv_session *joined(void) {
    fkv_session *session;
    WANTS("joining", fkv_join(file, FKV_ANY_SESSION, &session), 0);
    return session;
}

static void open_shape(const char *name, const fkv_shape *shape) {
    WANTS("making", fkv_make_file(path_of(name), shape), 0);
    WANTS("opening", fkv_open_file(path_of(name), NULL, &file), 0);
}

static void put(fkv_session *session, uint64_t from, uint64_t to) {
    for (uint64_t key = from; key < to; key++) WANTS("a put", fkv_put(file, session, key, key, NULL), FKV_DONE);
}

/* A full commit counts what the index has, a log commit doesn't, and an opening counts anew. A key that is removed leaves its entry. */
static void entries(void) {
    fkv_opened opened;
    WANTS("making", fkv_open_or_make(path_of("entries"), &(fkv_wish){.keys = 1000}, &file), 0);
    WANTS("starting the keeper", fkv_start(file, &(fkv_keeping){.log_commits = 1}), 0);
    fkv_session *session = joined();
    WANTS("entries of a new store", stats_now().entries, 0);
    put(session, 0, KEYS);
    WANTS("entries before a commit", stats_now().entries, 0);
    WANTS("a full commit", fkv_commit_and_wait(file, session), 0);
    WANTS("entries", stats_now().entries, KEYS);
    put(session, 0, 2 * KEYS);
    WANTS("a removal", fkv_remove(file, session, 0, NULL), FKV_DONE);
    WANTS("a log commit", fkv_commit_and_wait(file, session), 0);
    WANTS("entries behind it", stats_now().entries, KEYS);
    WANTS("a full commit", fkv_commit_and_wait(file, session), 0);
    WANTS("entries behind that", stats_now().entries, 2 * KEYS);
    put(session, 1, 2 * KEYS + 1);
    WANTS("leaving", fkv_leave(file, session), 0);
    WANTS("closing", fkv_close_file(file), 0);
    WANTS("opening", fkv_open_file(path_of("entries"), &(fkv_how){.opened = &opened}, &file), 0);
    WANTS("what the opening found", opened.entries, 2 * KEYS + 1);
    WANTS("entries", stats_now().entries, 2 * KEYS + 1);
    WANTS("renewing it here", fkv_renew_here(file, NULL, NULL), 0);
    WANTS("entries of keys that have a value", stats_now().entries, 2 * KEYS);
    WANTS("closing", fkv_close_file(file), 0);
}

static bool has_pending(void) {
    fkv_stats stats = stats_now();
    for (int i = 0; i < FKV_REASONS; i++) {
        if (stats.pending[i]) return true;
    }
    return false;
}

/* Reads that nobody serves yet: they are pending until the session's next wait, until a tick of it, or until the keeper has tended to it. */
static void reads(void) {
    uint64_t value;
    WANTS("making", fkv_open_or_make(path_of("reads"), &(fkv_wish){.keys = 1000}, &file), 0);
    WANTS("starting the keeper", fkv_start(file, NULL), 0);
    fkv_session *session = joined();
    put(session, 0, KEYS);
    WANTS("leaving", fkv_leave(file, session), 0);
    WANTS("closing", fkv_close_file(file), 0);
    WANTS("opening", fkv_open_file(path_of("reads"), &(fkv_how){.warm = FKV_COLD}, &file), 0);
    for (uint64_t round = 0; round < 3; round++) {
        session = joined();
        WANTS("a read without a keeper", fkv_read(file, session, 2 * round, &value), -FKV_NO_KEEPER);
        WANTS("another one", fkv_read(file, session, 2 * round + 1, &value), -FKV_NO_KEEPER);
        WANTS("reads that are pending", stats_now().pending[0], 2);
        WANTS("those that were waited for", stats_now().waited[0], 2 * round + 2);
        WANTS("starting the keeper", fkv_start(file, NULL), 0);
        if (round == 0) WANTS("settling", fkv_settle(file, session, NULL, NULL), 0);
        while (round == 1 && has_pending()) {
            fkv_nudge(file);
            WANTS("a tick", fkv_tick(file, session), 0);
        }
        if (round == 2) fkv_abandon(file, session);
        else WANTS("leaving", fkv_leave(file, session), 0);
        while (round == 2 && has_pending()) nanosleep(&(struct timespec){0, 1000000}, NULL);
        WANTS("whether some are pending", has_pending(), false);
        WANTS("stopping", fkv_stop(file, FKV_STOP_NOW), 0);
    }
    WANTS("closing", fkv_close_file(file), 0);
}

/* An update that finds no open page is pending for that reason, until the keeper has opened one. */
static void updates(void) {
    static const fkv_shape small = {4, 4, 2, 1, 1, 16, 128};
    uint64_t key = 0;
    int32_t result;
    open_shape("updates", &small);
    fkv_session *session = joined();
    while ((result = fkv_put(file, session, key, key, NULL)) == FKV_DONE) key++;
    WANTS("a put that nobody makes room for", result, -FKV_NO_KEEPER);
    fkv_stats stats = stats_now();
    uint64_t all = 0;
    for (int i = 0; i < FKV_REASONS; i++) all += stats.pending[i];
    WANTS("what is pending", all, 1);
    WANTS("and waits for room", stats.pending[FKV_NO_ROOM], 1);
    WANTS("starting the keeper", fkv_start(file, NULL), 0);
    put(session, key + 1, key + 2);
    WANTS("whether some are pending", has_pending(), false);
    WANTS("updates that were waited for", stats_now().waited[FKV_NO_ROOM] >= 1, true);
    WANTS("settling", fkv_settle(file, session, NULL, NULL), 0);
    WANTS("whether some are pending", has_pending(), false);
    WANTS("leaving", fkv_leave(file, session), 0);
    WANTS("closing", fkv_close_file(file), 0);
}

int main(int count, char **words) {
    if (count != 2) return 2;
    folder = words[1];
    alarm(MOST_SECONDS);
    entries();
    reads();
    updates();
    return 0;
}
