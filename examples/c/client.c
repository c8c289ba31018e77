/* A client of w16.h: it makes the calls of calls.txt, and prints what a script's replies to them would be. After each step it draws the heap, one
 * character for 32 bytes, on a line that begins with '#': '.' is free, a letter an object's, a capital one where that is locked. */
#include "w16.h"

#include <stdio.h>
#include <stdlib.h>
#include <string.h>

#define MEMORY 1024
#define GRAIN 32

static w16 machine = W16_NONE;

/* Ends the program where a call isn't done. */
static void done(const char *call, uint8_t status) {
    if (status != W16_DONE) {
        fprintf(stderr, "%s: status %d\n", call, status);
        w16_free(&machine);
        exit(1);
    }
}

#define TRY(call) done(#call, call)

/* Draws the heap behind a few words on what was done. */
static void draw(const char *step) {
    char row[MEMORY / GRAIN + 1];
    w16_part part;
    memset(row, '.', sizeof row);
    row[MEMORY / GRAIN] = '\0';
    for (uint32_t at = 0; w16_walk_from(&machine, at, &part) == W16_DONE; at = part.at + part.size) {
        char letter = (char)((part.locks ? 'A' : 'a') + (part.handle - 0x100) / 8 % 26);
        if (part.kind != 0)
            memset(row + part.at / GRAIN, letter, part.size / GRAIN);
    }
    printf("# |%s| %s\n", row, step);
}

static uint16_t alloc(uint16_t flags, uint32_t size, const char *step) {
    uint16_t handle;
    TRY(w16_global_alloc(&machine, flags, size, &handle));
    printf("%04x\n", handle);
    draw(step);
    return handle;
}

static uint32_t lock(uint16_t handle, const char *step) {
    uint32_t pointer;
    TRY(w16_global_lock(&machine, handle, &pointer));
    printf("%08x\n", pointer);
    draw(step);
    return pointer;
}

static void unlock(uint16_t handle, const char *step) {
    uint16_t left;
    TRY(w16_global_unlock(&machine, handle, &left));
    printf("%04x\n", left);
    draw(step);
}

static void release(uint16_t handle, const char *step) {
    uint16_t left;
    TRY(w16_global_free(&machine, handle, &left));
    printf("%04x\n", left);
    draw(step);
}

static void compact(uint32_t size, const char *step) {
    uint32_t longest, moved;
    TRY(w16_global_compact(&machine, size, &longest));
    TRY(w16_moved(&machine, &moved));
    printf("%08x\n%08x\n", longest, moved);
    draw(step);
}

static void discard(uint16_t handle, const char *step) {
    uint16_t same;
    TRY(w16_global_discard(&machine, handle, &same));
    printf("%04x\n", same);
    draw(step);
}

/* Five bytes at a far pointer, where they lie in the machine, or the fault that they meet. */
static void read_five(uint32_t pointer) {
    w16_lent five;
    uint8_t status = w16_look(&machine, pointer, 5, &five);
    if (status == W16_FAULT_NOT_PRESENT) {
        printf("fault notpresent\n");
        return;
    }
    done("w16_look", status);
    printf("bytes %02x%02x%02x%02x%02x\n", five.at[0], five.at[1], five.at[2], five.at[3], five.at[4]);
}

/* Another first byte, which is written in the machine itself. */
static void write_first(uint32_t pointer, uint8_t byte) {
    w16_lent first;
    TRY(w16_lend(&machine, pointer, 1, &first));
    first.at[0] = byte;
    printf("ok\n");
}

/* A local heap in a segment: one object, and its name and near pointer. */
static void local(uint16_t selector) {
    uint16_t begun, name, pointer;
    TRY(w16_local_init(&machine, selector, 16, 96, &begun));
    TRY(w16_ds(&machine, selector));
    TRY(w16_local_alloc(&machine, 0x42, 20, &name));
    TRY(w16_local_lock(&machine, name, &pointer));
    printf("%04x\nok\n%04x\n%04x\n", begun, name, pointer);
}

int main(void) {
    uint16_t first, second, third;
    uint32_t pointer;

    TRY(w16_new(&machine, MEMORY, 16));
    first = alloc(0x0002, 256, "the first object, moveable");
    second = alloc(0x0042, 128, "the second, filled with zeros");
    third = alloc(0x0102, 192, "the third, which may be discarded");
    pointer = lock(second, "the second is locked");
    TRY(w16_write(&machine, pointer, (const uint8_t *)"hello", 5));
    printf("ok\n");
    write_first(pointer, 'J');
    release(first, "the first goes");
    compact(448, "so long a hole is there: nothing moves, the second is locked");
    unlock(second, "the second is unlocked");
    compact(704, "for a longer one the other two slide down, and 320 bytes move");
    read_five(pointer);
    discard(third, "the third is discarded, and keeps its handle");
    read_five((uint32_t)(third + 1) << 16);
    local((uint16_t)(pointer >> 16));
    draw("a local heap in the second leaves the picture as it is");
    w16_free(&machine);
    w16_free(&machine);
    return 0;
}
