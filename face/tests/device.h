/* A device in memory, whose syncs count: a crash leaves what was synced, or all that was written. */
#ifndef DEVICE_H
#define DEVICE_H

#include "fkv.h"
#include "tests.h"

#include <stdbool.h>
#include <string.h>

enum { DEVICE_SIZE = 1 << 20 };

struct device {
    uint8_t now[DEVICE_SIZE];
    uint8_t synced[DEVICE_SIZE];
    size_t size;
    size_t synced_size;
    uint64_t calls;    /* that were made */
    uint64_t fails_at; /* the call that fails, counted from 1; 0: none */
};

/* A new store of this shape lies on it. */
static inline void begin_device(struct device *device, const fkv_shape *shape) {
    memset(device, 0, sizeof *device);
    WANTS("making an image", fkv_image(shape, device->now, FKV_IMAGE_SIZE), 0);
    memcpy(device->synced, device->now, FKV_IMAGE_SIZE);
    device->size = device->synced_size = FKV_IMAGE_SIZE;
}

/* Makes a posted call. True where it fails. */
static inline bool call_device(struct device *device, int32_t call, const fkv_turned *turned, uint8_t *into) {
    if (++device->calls == device->fails_at) return true;
    if (call == FKV_SYNC) {
        memcpy(device->synced, device->now, DEVICE_SIZE);
        device->synced_size = device->size;
        return false;
    }
    size_t end = (size_t)(turned->place + turned->length);
    WANTS("whether a call fits the device", end <= DEVICE_SIZE, true);
    if (call == FKV_READ) {
        WANTS("whether a read is of a record, or of a sweep's", turned->length == FKV_READ_SIZE || turned->length == FKV_MOST_READ, true);
        memcpy(into, device->now + turned->place, (size_t)turned->length);
        return false;
    }
    memcpy(device->now + turned->place, turned->bytes, (size_t)turned->length);
    if (end > device->size) device->size = end;
    return false;
}

/* Makes the calls of a turn that has posted this one, up to its end. */
static inline int32_t end_turn(struct device *device, fkv_keeper *keeper, int32_t call, fkv_turned *turned, uint64_t *points, size_t room) {
    uint8_t into[FKV_MOST_READ] = {0};
    while (call > FKV_OVER) {
        bool failed = call_device(device, call, turned, into);
        call = fkv_told(keeper, failed, into, call == FKV_READ ? (size_t)turned->length : 0, turned, points, room);
    }
    return call;
}

/* Makes a whole turn. */
static inline int32_t turn_device(struct device *device, fkv_keeper *keeper, fkv_turned *turned, uint64_t *points, size_t room) {
    return end_turn(device, keeper, fkv_turn(keeper, turned, points, room), turned, points, room);
}

#endif
