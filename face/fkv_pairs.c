/* The pairs of a store, and its renewal, by the proved renewal of its bytes. */
#define _GNU_SOURCE
#include "fkv_file.h"

#include <errno.h>
#include <string.h>
#include <sys/mman.h>
#include <unistd.h>

/* A record in the file, in words: its header, key and value. All numbers there have their lowest byte first. */
enum { WORD = 8, KEY_AT = 8, VALUE_AT = 16 };

/* ---- A renewal in memory -------------------------------------------------------------------------------------------------------- */

/* Memory of zeros that is only taken as it is written. */
static int32_t take_room(size_t size, struct bytes *room) {
    void *at = mmap(NULL, size, PROT_READ | PROT_WRITE, MAP_PRIVATE | MAP_ANONYMOUS | MAP_NORESERVE, -1, 0);
    if (at == MAP_FAILED) return -FKV_MEMORY;
    *room = (struct bytes){at, size};
    return 0;
}

void fkv_give_bytes(struct bytes *room) {
    int why = errno;
    if (room->at) munmap(room->at, room->size);
    room->at = NULL;
    errno = why;
}

/* The shape that a renewal takes for one that was asked for: all zeros stand for the old store's own. Any other gets what each file has beside it. */
static int32_t shape_for_renewal(const fkv_shape *asked, fkv_shape *shape) {
    static const fkv_shape none;
    *shape = none;
    if (!asked || memcmp(asked, &none, sizeof none) == 0) return 0;
    int32_t result = fkv_with_own(asked, shape);
    if (result == 0) *shape = fkv_made_of(asked);
    return result;
}

/*
 * Renews a store's bytes. What is new has a record for each key, so it is hardly larger than the old one: the first call mostly has room
 * enough. It isn't where the new shape's index is larger.
 */
int32_t fkv_renew_bytes(struct bytes old, const fkv_shape *asked, uint32_t keys, fkv_renewed *told, struct bytes *new) {
    size_t room = old.size + FKV_IMAGE_SIZE;
    fkv_shape shape;
    if (shape_for_renewal(asked, &shape) < 0) return -FKV_BAD_SHAPE;
    fkv_forget_own(old);
    int32_t result = -FKV_ROOM_SMALL;
    for (int tries = 0; tries < 2 && result == -FKV_ROOM_SMALL; tries++) {
        result = take_room(room, new);
        if (result < 0) return result;
        result = fkv_renew(old.at, old.size, &shape, keys, told, new->at, new->size);
        if (result < 0) fkv_give_bytes(new);
        room = (size_t)told->size;
    }
    return result;
}

/* ---- Pairs ---------------------------------------------------------------------------------------------------------------------- */

static uint64_t word_at(const uint8_t *at) {
    uint64_t word = 0;
    for (int i = WORD - 1; i >= 0; i--) word = word << 8 | at[i];
    return word;
}

/* The records of a store that was just renewed are its pairs. */
static int32_t each_record(const fkv_file *file, const uint8_t *bytes, uint64_t size, fkv_pair_fn *each, void *user) {
    uint64_t first = fkv_log_place(&file->shape) + FKV_READ_SIZE;
    for (uint64_t at = first; at + FKV_READ_SIZE <= size; at += FKV_READ_SIZE) {
        uint64_t key = word_at(bytes + at + KEY_AT);
        int32_t result = each(user, file->keys == FKV_SPREAD ? fkv_spread_back(key) : key, word_at(bytes + at + VALUE_AT));
        if (result) return result;
    }
    return 0;
}

/* Reads all bytes of an open store's file while nobody makes a turn: as a crash at that place would leave them, with all writes kept. */
static int32_t show_between_turns(fkv_file *file, struct bytes *shown) {
    static const fkv_how read_all;
    pthread_mutex_lock(&file->lock);
    fkv_take_turn(file);
    pthread_mutex_unlock(&file->lock);
    int32_t result = fkv_show_bytes(file->fd, &read_all, shown);
    int why = errno;
    pthread_mutex_lock(&file->lock);
    fkv_give_turn(file);
    pthread_cond_signal(&file->work);
    pthread_mutex_unlock(&file->lock);
    errno = why;
    return result;
}

int32_t fkv_each(fkv_file *file, fkv_pair_fn *each, void *user) {
    struct bytes old = {NULL, 0}, new = {NULL, 0};
    fkv_renewed told = {0, 0, 0};
    int32_t result = show_between_turns(file, &old);
    if (result == 0) result = fkv_renew_bytes(old, NULL, FKV_AS_THEY_LIE, &told, &new);
    fkv_give_bytes(&old);
    if (result == 0) result = each_record(file, new.at, told.size, each, user);
    fkv_give_bytes(&new);
    return result;
}

/* ---- Files ---------------------------------------------------------------------------------------------------------------------- */

int fkv_write_bytes(void *its, int fd) {
    const struct bytes *bytes = its;
    for (size_t done = 0; done < bytes->size;) {
        ssize_t put = pwrite(fd, bytes->at + done, bytes->size - done, (off_t)done);
        if (put < 0 && errno != EINTR) return -1;
        if (put > 0) done += (size_t)put;
    }
    return 0;
}

int32_t fkv_renew_file(const char *old_path, const char *new_path, const fkv_shape *shape, uint32_t keys, fkv_renewed *told) {
    static const fkv_how read_all;
    struct bytes old = {NULL, 0}, new = {NULL, 0};
    fkv_renewed own;
    if (!told) told = &own;
    *told = (fkv_renewed){0, 0, 0};
    int fd = fkv_open_locked(old_path);
    if (fd < 0) return -FKV_DEVICE;
    int32_t result = fsync(fd) ? -FKV_DEVICE : fkv_show_bytes(fd, &read_all, &old);
    if (result == 0) result = fkv_renew_bytes(old, shape, keys, told, &new);
    fkv_give_bytes(&old);
    if (result == 0 && fkv_make_beside(new_path, fkv_write_bytes, &(struct bytes){new.at, (size_t)told->size})) result = -FKV_DEVICE;
    fkv_give_bytes(&new);
    int why = errno;
    close(fd);
    errno = why;
    return result;
}
