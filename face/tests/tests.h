/* What the tests share. */
#ifndef TESTS_H
#define TESTS_H

#include <inttypes.h>
#include <stdio.h>
#include <stdlib.h>

/* Ends the test where something isn't as it should be, and says what. */
#define WANTS(what, got, wanted) wants(__FILE__, __LINE__, what, (int64_t)(got), (int64_t)(wanted))

static inline void wants(const char *file, int line, const char *what, int64_t got, int64_t wanted) {
    if (got == wanted) return;
    fprintf(stderr, "%s:%d: %s is %" PRId64 ", and should be %" PRId64 "\n", file, line, what, got, wanted);
    exit(1);
}

#endif
