/* Refuses the request for memory whose number the variable REFUSE names, counted from 1. At the end it writes how many
   requests there were into the file that the variable REQUESTS names, if it is set. */
#define _GNU_SOURCE
#include <dlfcn.h>
#include <errno.h>
#include <fcntl.h>
#include <stdio.h>
#include <stdlib.h>
#include <unistd.h>

static long refused, count;

__attribute__((constructor)) static void begin(void) {
    const char *number = getenv("REFUSE");
    refused = number ? atol(number) : 0;
    count = 0;
}

__attribute__((destructor)) static void end(void) {
    const char *name = getenv("REQUESTS");
    int file = name ? open(name, O_CREAT | O_TRUNC | O_WRONLY, 0644) : -1;
    if (file >= 0) {
        dprintf(file, "%ld\n", count);
        close(file);
    }
}

void *malloc(size_t size) {
    static void *(*next)(size_t);
    if (!next) next = (void *(*)(size_t))dlsym(RTLD_NEXT, "malloc");
    return ++count == refused ? NULL : next(size);
}

/* (the library of C asks so for large blocks) */
int posix_memalign(void **at, size_t alignment, size_t size) {
    static int (*next)(void **, size_t, size_t);
    if (!next) next = (int (*)(void **, size_t, size_t))dlsym(RTLD_NEXT, "posix_memalign");
    return ++count == refused ? ENOMEM : next(at, alignment, size);
}

void *realloc(void *old, size_t size) {
    static void *(*next)(void *, size_t);
    if (!next) next = (void *(*)(void *, size_t))dlsym(RTLD_NEXT, "realloc");
    return ++count == refused ? NULL : next(old, size);
}

/* A program with threads ends by this call, which runs no destructor. */
void _exit(int status) {
    static void (*next)(int);
    if (!next) next = (void (*)(int))dlsym(RTLD_NEXT, "_exit");
    end();
    next(status);
    abort();
}
