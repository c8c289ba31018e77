/* Loads an application and prints where its program begins, once its file has been given room for the stack and the heap (room.h). usage: start FILE */
#include "room.h"
#include "w16.h"

#include <stdio.h>

static uint8_t bytes[1 << 20];

int main(int count, char **words) {
    w16 machine = W16_NONE;
    w16_start start;
    uint16_t module = 0;
    size_t length = 0;
    FILE *file = count == 2 ? fopen(words[1], "rb") : NULL;
    if (file == NULL)
        return 2;
    length = fread(bytes, 1, sizeof bytes, file);
    fclose(file);
    if (!give_room(bytes, length))
        return 2;
    if (w16_new(&machine, 65536, 16) != W16_DONE || w16_add_file(&machine, "MODULE", 6, bytes, length) != W16_DONE)
        return 1;
    if (w16_load_module(&machine, "MODULE", 6, &module) == W16_DONE && w16_module_start(&machine, module, &start) == W16_DONE)
        printf("cs:ip %08x, ss:sp %08x, ds %04x, heap %u, stack %u\n", (unsigned)start.entry, (unsigned)start.stack, start.data,
               start.heap, start.stack_size);
    w16_free(&machine);
    return 0;
}
