/* Records that are read back by a mapping of the file. The caller has the turn. */
#define _GNU_SOURCE
#include "fkv_file.h"

#include <string.h>
#include <sys/mman.h>

/* A mapping begins with twice the file's bytes, and so many at least: the file grows. */
enum { LEAST_MAPPED = 1 << 24 };

void fkv_drop_map(fkv_file *file) {
    fkv_give_bytes(&file->map);
    file->map = (struct bytes){NULL, 0};
}

/* Maps the file anew, and more than it has: it grows. False where the system doesn't. */
static bool map_more(fkv_file *file) {
    size_t size = (size_t)file->log_end * 2 > LEAST_MAPPED ? (size_t)file->log_end * 2 : LEAST_MAPPED;
    fkv_drop_map(file);
    void *at = mmap(NULL, size, PROT_READ, MAP_SHARED, file->fd, 0);
    if (at == MAP_FAILED) return false;
    /* Records are read here and there: those beside them aren't wanted. */
    madvise(at, size, MADV_RANDOM);
    file->map = (struct bytes){at, size};
    return true;
}

bool fkv_read_mapped(fkv_file *file, uint64_t place, uint8_t into[FKV_READ_SIZE]) {
    if (!file->is_mapped || place > file->log_end || file->log_end - place < FKV_READ_SIZE) return false;
    if (file->map.size < file->log_end && !map_more(file)) {
        file->is_mapped = false;
        return false;
    }
    memcpy(into, file->map.at + place, FKV_READ_SIZE);
    return true;
}
