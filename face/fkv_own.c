/*
 * What a living file has beside what was asked for: the library's own session, which is the last one of two or more, and overflow buckets
 * that its calls leave to its polls.
 */
#define _POSIX_C_SOURCE 200809L
#include "fkv_file.h"

#include <string.h>

enum {
    /* Bytes of a format's name; and where a store's file says how many sessions it has. */
    FORMAT_SIZE = 8,
    SESSIONS_PLACE = 40,
    /* Both slots that tell of a commit: where they say how many sessions have points, and where these begin. */
    SLOT_PLACE = 512,
    SLOT_SIZE = 512,
    COUNT_PLACE = 48,
    POINTS_PLACE = 56,
    WORD = 8,
    /* Requests that a session has in hand at most: those that are pending, and the one that it makes. */
    IN_HAND = FKV_MOST_PENDING + 1,
    MOST_OVERFLOW = 1 << 24
};

/* No point is so large. */
#define POINT_LIMIT (UINT64_C(1) << 48)

/* Pages that the log of a living store may have at most, in all its life. */
#define MOST_DISK_PAGES (UINT64_C(1) << 30)

/* A number of the file: its lowest byte comes first. */
static uint64_t word_at(const uint8_t *at) {
    uint64_t word = 0;
    for (int i = WORD - 1; i >= 0; i--) word = word << 8 | at[i];
    return word;
}

bool fkv_is_living(const uint8_t *bytes) { return memcmp(bytes, fkv_formats(), FORMAT_SIZE) != 0; }

/* (0 asks for as many as there may be) */
static uint64_t pages_of(const fkv_shape *asked) { return asked->disk_pages ? asked->disk_pages : MOST_DISK_PAGES; }

int32_t fkv_with_own(const fkv_shape *asked, fkv_shape *shape) {
    if (asked->sessions < 1 || asked->sessions > FKV_MOST_JOINED) return -FKV_BAD_SHAPE;
    *shape = *asked;
    shape->sessions++;
    shape->disk_pages = pages_of(asked);
    return 0;
}

static uint64_t least(uint64_t one, uint64_t other) { return one < other ? one : other; }

fkv_shape fkv_made_of(const fkv_shape *asked) {
    fkv_shape made = *asked;
    made.sessions++;
    made.disk_pages = pages_of(asked);
    /* (too many of them are refused as they are) */
    if (made.overflow < MOST_OVERFLOW) made.overflow = least(made.overflow + IN_HAND * made.sessions, MOST_OVERFLOW);
    return made;
}

fkv_shape fkv_asked_of(const fkv_file *file) {
    fkv_shape asked = file->shape;
    if (file->is_living) asked.overflow -= least(asked.overflow, IN_HAND * (asked.sessions + file->has_own));
    return asked;
}

/* (No record has address 0.) */
uint64_t fkv_records_of(const fkv_shape *asked) {
    uint64_t sessions = asked->sessions + 1, kept = IN_HAND * sessions * sessions + 1, room = asked->page * pages_of(asked);
    return room - least(room, kept);
}

void fkv_take_own(fkv_file *file, bool is_living) {
    file->is_living = is_living;
    file->has_own = is_living && file->shape.sessions >= 2;
    if (!file->has_own) return;
    file->shape.sessions--;
    fkv_hide_own(file, file->points);
}

void fkv_hide_own(const fkv_file *file, uint64_t *points) {
    if (file->has_own) points[file->shape.sessions] = 0;
}

void fkv_forget_own(struct bytes bytes) {
    if (bytes.size < FKV_IMAGE_SIZE || !fkv_is_living(bytes.at)) return;
    uint64_t sessions = word_at(bytes.at + SESSIONS_PLACE);
    if (sessions < 2 || sessions > FKV_MOST_SESSIONS) return;
    for (int i = 0; i < 2; i++) {
        uint8_t *slot = bytes.at + SLOT_PLACE + i * SLOT_SIZE, *point = slot + POINTS_PLACE + (sessions - 1) * WORD;
        /* (a slot that is damaged stays so) */
        if (word_at(slot + COUNT_PLACE) == sessions && word_at(point) < POINT_LIMIT) memset(point, 0, WORD);
    }
}
