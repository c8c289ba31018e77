/* room.c: gives a program its stack and heap, as room.h says. */
#include "room.h"

static unsigned word_at(const uint8_t *at) {
    return (unsigned)(at[0] | at[1] << 8);
}

static void put_word(uint8_t *at, unsigned word) {
    at[0] = word & 0xff;
    at[1] = word >> 8 & 0xff;
}

int give_room(uint8_t *bytes, size_t size) {
    size_t at, entry;
    const uint8_t *head;
    unsigned segment, least, stack, heap;
    if (size < 64)
        return 0;
    at = word_at(bytes + 60) | (size_t)word_at(bytes + 62) << 16;
    if (at > size || size - at < 64 || word_at(bytes + at) != 0x454e)
        return 0;
    head = bytes + at;
    segment = word_at(head + 0x0e);
    heap = word_at(head + 0x10);
    stack = word_at(head + 0x12);
    entry = at + word_at(head + 0x22) + 8 * (size_t)segment - 8;
    if (segment == 0 || segment > word_at(head + 0x1c) || entry + 8 > size)
        return 0;
    least = word_at(bytes + entry + 6);
    if (least == 0 || least + stack + heap > 65536)
        return 0;
    /* A size of 0 is 65,536. */
    put_word(bytes + entry + 6, least + stack + heap);
    if (word_at(head + 0x1a) == segment && word_at(head + 0x18) == 0)
        put_word(bytes + at + 0x18, least + stack);
    return 1;
}
