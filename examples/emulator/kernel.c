/* kernel.c: answers the calls of KERNEL that a program makes by the library's calls. The stub of KERNEL has an entry for each, which the program gets to
 * by an import, and which takes the arguments from the stack itself. */
#include "runner.h"

#include <stdlib.h>
#include <string.h>

/* The n-th word of the arguments, the last pushed first, and two words. */
static uint16_t word(unsigned n) {
    const uint8_t *at = memory_at(get_register(UC_X86_REG_SS), (uint16_t)(get_register(UC_X86_REG_SP) + 4 + 2 * n));
    return (uint16_t)(at[0] | at[1] << 8);
}

static unsigned dword(unsigned n) {
    return word(n) | (unsigned)word(n + 1) << 16;
}

/* What names an entry, a resource or a type: a text, or a number where the pointer's selector is 0. In a script a number stands after a '#'. */
typedef struct label {
    const char *text;
    size_t length;
    uint16_t number;
    char script[258];
} label;

static label label_of(unsigned n) {
    label it = { "", 0, word(n), "" };
    if (word(n + 1) != 0) {
        it.text = (const char *)memory_at(word(n + 1), word(n));
        it.length = strlen(it.text);
        snprintf(it.script, sizeof it.script, "%s", it.text);
    } else
        snprintf(it.script, sizeof it.script, "#%u", it.number);
    return it;
}

/* By these calls objects may move, lose their bytes or get them. */
static bool moves(uint16_t ordinal) {
    static const uint8_t MOVING[] = { 5, 6, 13, 15, 16, 17, 25, 61, 62, 63, 95, 96 };
    return ordinal < 256 && memchr(MOVING, ordinal, sizeof MOVING) != NULL;
}

/* Ends the runner with the name of an entry that isn't answered. */
static void unanswered(uint16_t kernel, uint16_t ordinal) {
    char name[255];
    size_t length = 0;
    uint16_t of = 0;
    uint32_t pointer;
    for (size_t i = 0; of != ordinal && w16_export_from(&machine, kernel, i, name, sizeof name, &length, &of, &pointer) == W16_DONE; i++) {}
    die("the call KERNEL.%u, %.*s, isn't here", ordinal, of == ordinal ? (int)length : 0, name);
}

#define LINE(...) (note(calls, __VA_ARGS__), note(calls, "\n"))
#define WORD(call, ...) (done(call), LINE(__VA_ARGS__), note(replies, "%04x\n", w), d = w)
#define DWORD(call, ...) (done(call), LINE(__VA_ARGS__), note(replies, "%08x\n", (unsigned)d))
#define M &machine
#define LABEL(it) (it).text, (it).length, (it).number

void kernel_call(uint16_t kernel, uint16_t ordinal) {
    uint16_t w = 0, ds = get_register(UC_X86_REG_DS);
    uint32_t d = 0;
    label it, type;
    if (moves(ordinal))
        before_call();
    if (ordinal >= 4 && ordinal <= 13) {
        done(w16_ds(&machine, ds));
        LINE("DS 0x%04x", ds);
        note(replies, "ok\n");
    }
    switch (ordinal) {
    case 4: WORD(w16_local_init(M, word(2), word(1), word(0), &w), "LocalInit 0x%04x %u %u", word(2), word(1), word(0)); break;
    case 5: WORD(w16_local_alloc(M, word(1), word(0), &w), "LocalAlloc 0x%04x %u", word(1), word(0)); break;
    case 6: WORD(w16_local_realloc(M, word(2), word(1), word(0), &w), "LocalReAlloc 0x%04x %u 0x%04x", word(2), word(1), word(0)); break;
    case 7: WORD(w16_local_free(M, word(0), &w), "LocalFree 0x%04x", word(0)); break;
    case 8: WORD(w16_local_lock(M, word(0), &w), "LocalLock 0x%04x", word(0)); break;
    case 9: WORD(w16_local_unlock(M, word(0), &w), "LocalUnlock 0x%04x", word(0)); break;
    case 10: WORD(w16_local_size(M, word(0), &w), "LocalSize 0x%04x", word(0)); break;
    case 11: WORD(w16_local_handle(M, word(0), &w), "LocalHandle 0x%04x", word(0)); break;
    case 12: WORD(w16_local_flags(M, word(0), &w), "LocalFlags 0x%04x", word(0)); break;
    case 13: WORD(w16_local_compact(M, word(0), &w), "LocalCompact %u", word(0)); break;
    case 15: WORD(w16_global_alloc(M, word(2), dword(0), &w), "GlobalAlloc 0x%04x %u", word(2), dword(0)); break;
    case 16: WORD(w16_global_realloc(M, word(3), dword(1), word(0), &w), "GlobalReAlloc 0x%04x %u 0x%04x", word(3), dword(1), word(0)); break;
    case 17: WORD(w16_global_free(M, word(0), &w), "GlobalFree 0x%04x", word(0)); break;
    case 18: DWORD(w16_global_lock(M, word(0), &d), "GlobalLock 0x%04x", word(0)); break;
    case 19: WORD(w16_global_unlock(M, word(0), &w), "GlobalUnlock 0x%04x", word(0)); break;
    case 20: DWORD(w16_global_size(M, word(0), &d), "GlobalSize 0x%04x", word(0)); break;
    case 21: DWORD(w16_global_handle(M, word(0), &d), "GlobalHandle 0x%04x", word(0)); break;
    case 22: WORD(w16_global_flags(M, word(0), &w), "GlobalFlags 0x%04x", word(0)); break;
    case 25: DWORD(w16_global_compact(M, dword(0), &d), "GlobalCompact %u", dword(0)); break;
    case 47: it = label_of(0); WORD(w16_get_module_handle(M, it.text, it.length, &w), "GetModuleHandle %s", it.text); break;
    case 48: WORD(w16_get_module_usage(M, word(0), &w), "GetModuleUsage 0x%04x", word(0)); break;
    case 50: it = label_of(0); DWORD(w16_get_proc_address(M, word(2), LABEL(it), &d), "GetProcAddress 0x%04x %s", word(2), it.script); break;
    case 60:
        it = label_of(2), type = label_of(0);
        WORD(w16_find_resource(M, word(4), LABEL(it), LABEL(type), &w), "FindResource 0x%04x %s %s", word(4), it.script, type.script);
        break;
    case 61: WORD(w16_load_resource(M, word(1), word(0), &w), "LoadResource 0x%04x %u", word(1), word(0)); break;
    case 62: DWORD(w16_lock_resource(M, word(0), &d), "LockResource 0x%04x", word(0)); break;
    case 63: WORD(w16_free_resource(M, word(0), &w), "FreeResource 0x%04x", word(0)); break;
    case 65: DWORD(w16_sizeof_resource(M, word(1), word(0), &d), "SizeofResource 0x%04x %u", word(1), word(0)); break;
    case 91: d = 1; break;
    case 95: it = label_of(0); d = load(it.text, it.length, true); break;
    case 96: WORD(w16_free_library(M, word(0), &w), "FreeLibrary 0x%04x", word(0)); break;
    case 115: note(said, "%s", (const char *)memory_at(word(1), word(0))); break;
    case 163: WORD(w16_global_lru_oldest(M, word(0), &w), "GlobalLRUOldest 0x%04x", word(0)); break;
    case 164: WORD(w16_global_lru_newest(M, word(0), &w), "GlobalLRUNewest 0x%04x", word(0)); break;
    case 186: DWORD(w16_get_selector_base(M, word(0), &d), "GetSelectorBase 0x%04x", word(0)); break;
    case 188: DWORD(w16_get_selector_limit(M, word(0), &d), "GetSelectorLimit 0x%04x", word(0)); break;
    default: unanswered(kernel, ordinal);
    }
    if (moves(ordinal))
        after_call(ordinal <= 13 ? ds >> 3 : 0);
    set_register(UC_X86_REG_AX, (uint16_t)d);
    set_register(UC_X86_REG_DX, (uint16_t)(d >> 16));
}
