/*
 * What memory has as a store opens: warm FOLDER. Its newest records are found at once, as many as were asked for and as fit; the others wait for the
 * keeper. The bytes of the file stay as they are.
 */
#include "fkv_posix.h"
#include "tests.h"

#include <stdbool.h>
#include <string.h>
#include <unistd.h>

enum { FEW = 400, MANY = 3000, ASKED = 50, SURE = 800, MOST_SECONDS = 240, PATH_ROOM = 500 };

/* Memory has 1,024 records. An opening leaves two pages of them for new ones at most. */
static const fkv_shape SHAPE = {9, 64, 16, 8, 1, 1024, 4096};
static const char *folder;
static fkv_file *file;
static fkv_session *session;

static const char *path_of(const char *name) {
    static char path[PATH_ROOM];
    snprintf(path, sizeof path, "%s/%s", folder, name);
    return path;
}

static void open_warm(const char *name, uint64_t warm) {
    fkv_how how = {.warm = warm};
    WANTS("opening", fkv_open_file(path_of(name), &how, &file), 0);
    WANTS("joining", fkv_join(file, 0, &session), 0);
}

static void start(void) { WANTS("starting the keeper", fkv_start(file, NULL), 0); }

static void close_store(void) {
    WANTS("leaving", fkv_leave(file, session), 0);
    WANTS("closing", fkv_close_file(file), 0);
}

/*
 * Keys have their records in the order in which they were put: the newest ones are those of the greatest keys. (So nothing keeps memory warm
 * meanwhile, by newer records of old keys.)
 */
static void make(const char *name, uint64_t keys) {
    fkv_keeping keeping = {.no_warmer = 1};
    WANTS("making", fkv_make_file(path_of(name), &SHAPE), 0);
    open_warm(name, 0);
    WANTS("starting the keeper", fkv_start(file, &keeping), 0);
    for (uint64_t key = 0; key < keys; key++) {
        WANTS("a put", fkv_put(file, session, key, 3 * key + 1, NULL), FKV_DONE);
        WANTS("a tick", fkv_tick(file, session), 0);
    }
    close_store();
}

static void wants_found(uint64_t from, uint64_t to) {
    for (uint64_t key = from; key < to; key++) {
        uint64_t value = 0;
        WANTS("a get", fkv_get(session, key, &value), FKV_FOUND);
        WANTS("its value", value, 3 * key + 1);
    }
}

static void wants_read(uint64_t from, uint64_t to, uint64_t more) {
    for (uint64_t key = from; key < to; key++) {
        uint64_t value = 0;
        WANTS("a read", fkv_read(file, session, key, &value), FKV_FOUND);
        WANTS("its value", value, 3 * key + 1 + more);
    }
}

static void wants_pending(uint64_t key) {
    uint64_t value = 0;
    WANTS("a get of what memory hasn't", fkv_get(session, key, &value), FKV_PENDING);
    start();
    WANTS("settling", fkv_settle(file, session, NULL, NULL), 0);
}

static size_t bytes_of(const char *name, char *into, size_t room) {
    FILE *its = fopen(path_of(name), "rb");
    WANTS("whether the file opens", its != NULL, true);
    size_t size = fread(into, 1, room, its);
    fclose(its);
    return size;
}

/* All that fit, those that were asked for, and none. */
static void few(void) {
    static char before[1 << 20], after[1 << 20];
    make("few", FEW);
    size_t size = bytes_of("few", before, sizeof before);
    open_warm("few", 0);
    wants_found(0, FEW);
    WANTS("leaving", fkv_leave(file, session), 0);
    WANTS("dropping", fkv_drop_file(file), 0);
    WANTS("the size of the file", bytes_of("few", after, sizeof after), size);
    WANTS("whether its bytes are as they were", memcmp(before, after, size), 0);
    open_warm("few", ASKED);
    wants_found(FEW - ASKED, FEW);
    wants_pending(FEW - ASKED - 1);
    close_store();
    open_warm("few", FKV_COLD);
    wants_pending(FEW - 1);
    close_store();
}

/* More than memory has. They are updated, where they lie in memory too, and none is lost. */
static void many(void) {
    make("many", MANY);
    open_warm("many", 0);
    wants_found(MANY - SURE, MANY);
    wants_pending(0);
    wants_read(0, MANY, 0);
    close_store();
    open_warm("many", 0);
    start();
    for (uint64_t key = MANY; key > 0; key--) WANTS("a put", fkv_put(file, session, key - 1, 3 * (key - 1) + 8, NULL), FKV_DONE);
    wants_read(0, MANY, 7);
    close_store();
    open_warm("many", FKV_COLD);
    start();
    wants_read(0, MANY, 7);
    close_store();
}

int main(int count, char **words) {
    if (count != 2) return 2;
    folder = words[1];
    alarm(MOST_SECONDS);
    few();
    many();
    return 0;
}
