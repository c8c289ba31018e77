/* Prints the version of the library, and ends with 1 where it isn't the header's. */
#include "w16.h"

#include <stdio.h>

int main(void) {
    uint32_t version = w16_version();
    printf("%u.%u.%u\n", (unsigned)(version >> 16), (unsigned)(version >> 8 & 0xff), (unsigned)(version & 0xff));
    return version != W16_VERSION;
}
