/* Prints each number with the name that the header's table has, and the one that the library has. */
#include "fkv.h"

#include <stdio.h>

/* The library's own names, which the header hides behind fkv_name_of. */
size_t fkv_fault_name(uint32_t number, uint8_t *into, size_t room);

int main(void) {
    for (uint32_t number = 1; number < 40; number++) {
        uint8_t name[40] = {0};
        size_t length = fkv_fault_name(number, name, sizeof name);
        printf("%u %s %s %.*s\n", number, fkv_name_of((int32_t)number), fkv_name_of(-(int32_t)number), (int)length, (const char *)name);
    }
    return 0;
}
