/* The library's version and the formats that it opens, which it prints: it makes stores of the second, opens those of both, and refuses any
   other. */
#include "fkv.h"
#include "tests.h"

#include <string.h>

enum { TEXT = 8 };

static const fkv_shape SMALL = {3, 4, 4, 2, 2, 2, 64};
static const fkv_shape LARGE = {11, 4, 4, 2, 2, 2, 64};

static int32_t open_image(const uint8_t *image) {
    uint64_t points[FKV_MOST_SESSIONS];
    fkv_store store;
    fkv_shape shape;
    fkv_opened told;
    int32_t result = fkv_open(image, FKV_IMAGE_SIZE, FKV_SPREAD, FKV_COLD, &store.at, &shape, &told, points, FKV_MOST_SESSIONS);
    if (result < 0) return result;
    WANTS("closing", fkv_close(&store), 0);
    fkv_free_store(store);
    return 0;
}

/* A new store of this shape has the second format, and opens. With the first one's text it is a specified store, which has small sizes alone. With
   another text it doesn't open. */
static void opens(const fkv_shape *shape, const char *formats, int32_t as_specified) {
    const char *specified = formats, *living = formats + TEXT + 1;
    uint8_t image[FKV_IMAGE_SIZE];
    WANTS("an image", fkv_image(shape, image, sizeof image), 0);
    WANTS("its text", memcmp(image, living, TEXT), 0);
    WANTS("opening it", open_image(image), 0);
    memcpy(image, specified, TEXT);
    WANTS("opening it as a specified store", open_image(image), as_specified);
    memcpy(image, living, TEXT);
    for (size_t i = 0; i < TEXT; i++) {
        image[i] ^= 4;
        WANTS("opening another format", open_image(image), -FKV_NOT_A_STORE);
        image[i] ^= 4;
    }
}

/* A specified store is renewed: without sizes it keeps its class, and with its own sizes it becomes a living one. */
static void renews(const char *formats) {
    static const fkv_shape own;
    const char *specified = formats, *living = formats + TEXT + 1;
    uint8_t image[FKV_IMAGE_SIZE], renewed[32 * FKV_IMAGE_SIZE];
    fkv_renewed told;
    WANTS("an image", fkv_image(&SMALL, image, sizeof image), 0);
    memcpy(image, specified, TEXT);
    WANTS("renewing it as it is", fkv_renew(image, sizeof image, &own, FKV_AS_THEY_LIE, &told, renewed, sizeof renewed), 0);
    WANTS("its text", memcmp(renewed, specified, TEXT), 0);
    WANTS("renewing it with sizes", fkv_renew(image, sizeof image, &SMALL, FKV_AS_THEY_LIE, &told, renewed, sizeof renewed), 0);
    WANTS("its text then", memcmp(renewed, living, TEXT), 0);
}

int main(void) {
    char numbers[40];
    const char *version = fkv_version(), *formats = fkv_formats();
    snprintf(numbers, sizeof numbers, "%d.%d.%d ", FKV_VERSION_MAJOR, FKV_VERSION_MINOR, FKV_VERSION_PATCH);
    WANTS("whether the version begins with its numbers", strncmp(version, numbers, strlen(numbers)), 0);
    WANTS("the length of two formats", strlen(formats), 2 * TEXT + 1);
    WANTS("what parts them", formats[TEXT], ' ');
    opens(&SMALL, formats, 0);
    opens(&LARGE, formats, -FKV_NOT_A_STORE);
    renews(formats);
    printf("%s\n%s\n", version, formats);
    return 0;
}
