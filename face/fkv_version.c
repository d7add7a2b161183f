/* The library's version, and the formats that it opens. */
#include "fkv.h"

/* Each says itself in a text: the numbers of the version come through the second. */
#define TEXT_OF(its) #its
#define TEXT(its) TEXT_OF(its)
#define NUMBERS TEXT(FKV_VERSION_MAJOR) "." TEXT(FKV_VERSION_MINOR) "." TEXT(FKV_VERSION_PATCH)

/* tools/face/make says whether what is linked beside this file was proved as it was built, and else what it was built from. */
#ifdef FKV_IS_PROVED
#define BUILT "proved"
#else
#ifndef FKV_BUILT_FROM
#define FKV_BUILT_FROM "unknown sources"
#endif
#define BUILT "without proof, built from " FKV_BUILT_FROM
#endif

const char *fkv_version(void) {
    return NUMBERS " " BUILT;
}

const char *fkv_formats(void) {
    return "FKVSTOR1 FKVSTOR2";
}
