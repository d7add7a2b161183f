/* Opens and closes stores again and again, and ends with all memory given back: opens COUNT FOLDER. valgrind watches. */
#include "fkv_posix.h"
#include "tests.h"

#include <stdbool.h>

enum { SESSIONS = 4, EACH_FILE = 100, PATH_ROOM = 500 };

static const fkv_shape SHAPE = {3, 4, 4, 2, SESSIONS, 2, 1024};

/* A store of bytes, with some of its handles. */
static void open_bytes(uint64_t round) {
    uint8_t image[FKV_IMAGE_SIZE];
    uint64_t points[FKV_MOST_SESSIONS];
    fkv_store store;
    fkv_session session;
    fkv_keeper keeper;
    fkv_shape shape;
    fkv_opened told;
    fkv_update update;
    fkv_turned turned;
    WANTS("an image", fkv_image(&SHAPE, image, sizeof image), 0);
    WANTS("opening", fkv_open(image, sizeof image, FKV_SPREAD, FKV_COLD, &store.at, &shape, &told, points, FKV_MOST_SESSIONS), 0);
    for (uint64_t i = 0; i < round % (SESSIONS + 1); i++) {
        WANTS("taking a session", fkv_take_session(&store, i, &session.at), 0);
        WANTS("an add", fkv_add(&session, 7, 1, &update), FKV_DONE);
        WANTS("ending it", fkv_end_session(&session), 0);
        fkv_free_session(session);
    }
    if (round % 2) {
        WANTS("taking the keeper", fkv_take_keeper(&store, &keeper.at), 0);
        fkv_turn(&keeper, &turned, points, FKV_MOST_SESSIONS);
        fkv_end_keeper(&keeper);
        fkv_free_keeper(keeper);
    }
    WANTS("closing", fkv_close(&store), 0);
    fkv_free_store(store);
}

/* The same in a file, with a commit. */
static void open_file(const char *path) {
    fkv_file *file;
    fkv_session *session;
    fkv_update update;
    uint64_t ticket;
    WANTS("opening", fkv_open_file(path, NULL, &file), 0);
    WANTS("starting", fkv_start(file, NULL), 0);
    WANTS("joining", fkv_join(file, FKV_ANY_SESSION, &session), 0);
    WANTS("whether an add is accepted", fkv_add(session, 7, 1, &update) >= 0, true);
    WANTS("settling", fkv_settle(file, session, NULL, NULL), 0);
    WANTS("asking for a commit", fkv_ask_commit(file, &ticket), 0);
    WANTS("waiting for it", fkv_wait_commit(file, ticket, session), 0);
    WANTS("leaving", fkv_leave(file, session), 0);
    WANTS("closing", fkv_close_file(file), 0);
}

/* The same without a keeper, and with a session that is abandoned while requests of it wait for one. */
static void open_abandoned(const char *path) {
    fkv_file *file;
    fkv_session *session;
    fkv_update update;
    int32_t result = FKV_DONE;
    WANTS("opening", fkv_open_file(path, NULL, &file), 0);
    WANTS("joining", fkv_join(file, FKV_ANY_SESSION, &session), 0);
    for (uint64_t key = 0; result == FKV_DONE; key++) result = fkv_upsert(session, key, 1, &update);
    WANTS("the last update", result, FKV_PENDING);
    fkv_abandon(file, session);
    WANTS("closing", fkv_close_file(file), 0);
}

int main(int count, char **words) {
    char path[PATH_ROOM];
    if (count != 3) return 2;
    uint64_t rounds = strtoull(words[1], NULL, 10);
    snprintf(path, sizeof path, "%s/opens", words[2]);
    WANTS("making a file", fkv_make_file(path, &SHAPE), 0);
    for (uint64_t i = 0; i < rounds; i++) {
        open_bytes(i);
        if (i % EACH_FILE) continue;
        open_file(path);
        open_abandoned(path);
    }
    /* What is refused holds nothing either. */
    WANTS("opening no store", fkv_open_file("/dev/null", NULL, &(fkv_file *){NULL}), -FKV_DEVICE);
    printf("%" PRIu64 " openings\n", rounds);
    return 0;
}
