/* The memory of a store. A store's words are one large block, and calls read and write all over that: so it begins at a huge page, and the system
   is asked for such pages. With pages of 4 KB a call of a large store would wait for the table of pages as often as for the words. */
#define _GNU_SOURCE
#include <stdlib.h>
#include <sys/mman.h>

/* From SOME bytes on a block begins at a cache line, and from HUGE_PAGE bytes on at a huge page. */
#define LINE ((size_t)64)
#define SOME ((size_t)1 << 16)
#define HUGE_PAGE ((size_t)1 << 21)

/* tools/face/make has the kit's memory call it where that calls `malloc`. What it gives is freed by `free`. NULL if there is no memory. */
void *fkv_malloc(size_t size);

void *fkv_malloc(size_t size) {
    void *at;
    if (size < SOME) return malloc(size);
    if (posix_memalign(&at, size < HUGE_PAGE ? LINE : HUGE_PAGE, size)) return NULL;
#ifdef MADV_HUGEPAGE
    /* A system that has no huge pages refuses it, and gives small ones. */
    if (size >= HUGE_PAGE) (void)madvise(at, size & ~(HUGE_PAGE - 1), MADV_HUGEPAGE);
#endif
    return at;
}
