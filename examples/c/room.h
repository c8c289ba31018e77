/* Gives a program its stack and heap, which lie in its automatic data segment, after the data. The header of a module file says how long they are, but a
 * segment has only the bytes that its file gives it, so the file's bytes are changed before w16_add_file. */
#ifndef ROOM_H
#define ROOM_H

#include <stddef.h>
#include <stdint.h>

#ifdef __cplusplus
extern "C" {
#endif

/* Makes the automatic data segment of a module file longer by the header's stack and heap. Where the stack lies in it and SP is 0, SP becomes the
 * stack's end. Whether that was done: the file has such a segment, of at most 65,536 bytes then. */
int give_room(uint8_t *bytes, size_t size);

#ifdef __cplusplus
}
#endif

#endif
