/* Loads a module from its file and prints its handle, or the name of a file that the load needs and doesn't have. usage: load FILE */
#include "w16.h"

#include <stdio.h>

static uint8_t bytes[1 << 20];

int main(int count, char **words) {
    w16 machine = W16_NONE;
    uint16_t module = 0;
    char name[W16_MOST_NAME];
    size_t length = 0;
    FILE *file = count == 2 ? fopen(words[1], "rb") : NULL;
    if (file == NULL)
        return 2;
    length = fread(bytes, 1, sizeof bytes, file);
    fclose(file);
    if (w16_new(&machine, 65536, 16) != W16_DONE || w16_add_file(&machine, "MODULE", 6, bytes, length) != W16_DONE)
        return 1;
    /* A handle is above 32; a number of at most 32 says why the load is refused. */
    if (w16_load_library(&machine, "MODULE", 6, &module) == W16_DONE)
        printf("%04x\n", module);
    if (w16_missing_file(&machine, name, sizeof name, &length) == W16_DONE)
        printf("it needs %.*s\n", (int)length, name);
    w16_free(&machine);
    return 0;
}
