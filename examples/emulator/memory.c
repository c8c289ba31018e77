/* memory.c: keeps the bytes that the processor works on and those of the library the same. Each object has a copy in the processor's memory, at the address
 * that its descriptor has. What the program has written goes into the bytes that the library lends, before a call that may move it; after the call, what
 * came or moved is read again. Where the processor could work in the library's own memory, memory_put would be a use, and memory_get would only drop
 * translated code. */
#include "runner.h"

#include <string.h>

static const uint32_t MOST_IN_A_LINE = 1024;

/* What the processor reads and writes. No machine has more than 16 MB. */
static uint8_t bytes[1 << 24] __attribute__((aligned(4096)));

uint8_t *memory_bytes(void) {
    return bytes;
}

void memory_put(unsigned slot) {
    uint16_t selector = W16_SELECTOR_AT(slot);
    uint32_t from = 0, to = known[slot].limit + 1, count;
    const uint8_t *ours = bytes + known[slot].base;
    w16_lent lent;
    use(selector);
    done(w16_look(&machine, W16_FAR(selector, 0), to, &lent));
    while (from < to && ours[from] == lent.at[from])
        from++;
    while (from < to && ours[to - 1] == lent.at[to - 1])
        to--;
    if (from == to)
        return;
    done(w16_lend(&machine, W16_FAR(selector, from), to - from, &lent));
    memcpy(lent.at, ours + from, lent.count);
    for (; from < to; from += count) {
        count = to - from < MOST_IN_A_LINE ? to - from : MOST_IN_A_LINE;
        note(calls, "Write 0x%08x ", (unsigned)W16_FAR(selector, from));
        note_bytes(calls, ours + from, count);
        note(replies, "ok\n");
    }
}

void memory_get(unsigned slot) {
    done(w16_peek(&machine, W16_FAR(W16_SELECTOR_AT(slot), 0), bytes + known[slot].base, (size_t)known[slot].limit + 1));
    processor_forget(slot);
}

uint8_t *memory_at(uint16_t selector, uint16_t offset) {
    const w16_descriptor *it = &known[selector >> 3];
    if (!(selector & 4) || !it->present || offset > it->limit)
        die("the program passes the bad pointer %04x:%04x", selector, offset);
    return bytes + it->base + offset;
}
