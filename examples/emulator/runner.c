/* runner.c: runs a 16-bit Windows program on a processor, over the memory, modules and resources of w16.h.
 *
 *     runner [--memory N] [--selectors N] [--log FOLDER] [--quiet] FOLDER APP.EXE
 *
 * Module files come from the first FOLDER. With --log each call that isn't a question is written to calls.txt in a folder that exists, its reply to
 * replies.txt, and each module file as the library got it, so that w16heap can make the same calls.
 *
 * The status is 1 where a check of the program didn't hold, and 2 where the program didn't end by itself. */
#include "../c/room.h"
#include "runner.h"

#include <ctype.h>
#include <stdarg.h>
#include <stdlib.h>
#include <string.h>

w16 machine = W16_NONE;
w16_descriptor known[SLOTS];
size_t slots;
FILE *said, *calls, *replies;

static uint32_t memory = 327680, selectors = 256;
static const char *folder, *log_folder;
static unsigned held, failed, kernel_calls, fetches, moved;

void die(const char *format, ...) {
    va_list list;
    va_start(list, format);
    fprintf(stderr, "runner: ");
    vfprintf(stderr, format, list);
    fprintf(stderr, "\n");
    exit(2);
}

void done(uint8_t status) {
    if (status != W16_DONE)
        die("%s", w16_status_text(status));
}

void note(FILE *file, const char *format, ...) {
    va_list list;
    va_start(list, format);
    if (file != NULL)
        vfprintf(file, format, list);
    va_end(list);
}

void note_bytes(FILE *file, const uint8_t *bytes, size_t count) {
    for (size_t i = 0; file != NULL && i < count; i++)
        fprintf(file, "%02x", bytes[i]);
    note(file, "\n");
}

void use(uint16_t selector) {
    note(calls, "Read 0x%08x 0\n", (unsigned)W16_FAR(selector, 0));
    note(replies, "bytes\n");
    done(w16_fetch(&machine, selector));
}

void before_call(void) {
    for (unsigned slot = W16_FIRST_SELECTOR >> 3; slot < slots; slot++)
        if (processor_used(slot) && known[slot].present && !known[slot].code)
            memory_put(slot);
}

/* The descriptors that have changed are asked for, slot by slot, and go into the processor's table. */
void after_call(unsigned written) {
    uint16_t slot = 0;
    while (w16_next_changed(&machine, known, slots, &slot) == W16_DONE) {
        const w16_descriptor *it = &known[slot];
        if (it->present)
            memory_get(slot);
        processor_describe(slot);
        moved++;
        note(calls, "GetSelectorBase 0x%04x\nGetSelectorLimit 0x%04x\n", W16_SELECTOR_AT(slot), W16_SELECTOR_AT(slot));
        note(replies, "%08x\n%08x\n", (unsigned)it->base, (unsigned)it->limit);
    }
    if (written != 0)
        memory_get(written);
    processor_reload();
}

static FILE *open_in(const char *where, const char *name, size_t length, const char *mode) {
    char path[1024];
    snprintf(path, sizeof path, "%s/%.*s", where, (int)length, name);
    return fopen(path, mode);
}

/* Adds a module file from the folder, whose names are in capital letters; whether it has one of that name. */
static bool add_file(const char *name, size_t length) {
    static uint8_t bytes[1 << 20];
    char capitals[W16_MOST_NAME];
    size_t count;
    FILE *file;
    for (size_t i = 0; i < length; i++)
        capitals[i] = (char)toupper((unsigned char)name[i]);
    if ((file = open_in(folder, capitals, length, "rb")) == NULL)
        return false;
    count = fread(bytes, 1, sizeof bytes, file);
    fclose(file);
    give_room(bytes, count);
    done(w16_add_file(&machine, name, length, bytes, count));
    if (log_folder != NULL && ((file = open_in(log_folder, name, length, "wb")) == NULL || fwrite(bytes, 1, count, file) != count || fclose(file) != 0))
        die("the log can't be written");
    return true;
}

/* Loads a module: its handle, or why it is refused. What the load misses is added from the folder. */
uint16_t load(const char *file, size_t length, bool library) {
    char missing[W16_MOST_NAME];
    size_t count;
    uint16_t handle;
    do
        done(library ? w16_load_library(&machine, file, length, &handle) : w16_load_module(&machine, file, length, &handle));
    while ((handle == W16_LOAD_NO_FILE || handle == W16_LOAD_BAD_REFERENCE)
           && w16_missing_file(&machine, missing, sizeof missing, &count) == W16_DONE && add_file(missing, count));
    note(calls, "%s %.*s\n", library ? "LoadLibrary" : "LoadModule", (int)length, file);
    note(replies, "%04x\n", handle);
    return handle;
}

/* Says which modules are loaded, and from which files. */
static void list_modules(void) {
    uint16_t handle = 0;
    char name[255], file[W16_MOST_NAME];
    size_t length, file_length;
    for (uint16_t from = 0; w16_module_from(&machine, from, &handle) == W16_DONE; from = (uint16_t)(handle + 1)) {
        done(w16_module_name(&machine, handle, name, sizeof name, &length));
        done(w16_module_file(&machine, handle, file, sizeof file, &file_length));
        note(said, "module %04x is %.*s, of %.*s\n", handle, (int)length, name, (int)file_length, file);
    }
}

/* Ends the log with the bytes of each object, so that they are compared as well. */
static void end_log(void) {
    w16_lent lent;
    for (unsigned slot = 0; slot < slots; slot++)
        for (uint32_t at = 0; known[slot].present && at <= known[slot].limit; at += (uint32_t)lent.count) {
            uint32_t left = known[slot].limit + 1 - at;
            done(w16_look(&machine, W16_FAR(W16_SELECTOR_AT(slot), at), left < 1024 ? left : 1024, &lent));
            note(calls, "Read 0x%08x %u\n", (unsigned)W16_FAR(W16_SELECTOR_AT(slot), at), (unsigned)lent.count);
            note(replies, "bytes ");
            note_bytes(replies, lent.at, lent.count);
        }
    if (calls == NULL || replies == NULL || fclose(calls) != 0 || fclose(replies) != 0)
        die("the log can't be written");
}

/* Runs the program to its end, and answers its status. */
static uint8_t run(uint16_t kernel, uint16_t stub) {
    for (;;) {
        int trap = processor_run();
        uint16_t cs = get_register(UC_X86_REG_CS), ip = get_register(UC_X86_REG_IP);
        if (trap == TRAP_BREAK && cs == stub) {
            kernel_calls++;
            kernel_call(kernel, (uint16_t)(ip / 4));
        } else if (trap == TRAP_ABSENT) {
            uint16_t selector = processor_absent();
            before_call();
            use(selector);
            after_call(0);
            fetches++;
            note(said, "segment %04x is fetched\n", selector);
        } else if (trap == TRAP_CHECK) {
            bool holds = get_register(UC_X86_REG_AX) & 1;
            holds ? held++ : failed++;
            if (!holds)
                printf("DOESN'T HOLD: %s\n", (const char *)memory_at(cs, get_register(UC_X86_REG_DX)));
        } else if (trap == TRAP_DOS && get_register(UC_X86_REG_AX) >> 8 == 0x4c)
            return (uint8_t)get_register(UC_X86_REG_AX);
        else
            die("interrupt %d at %04x:%04x", trap, cs, ip);
    }
}

int main(int count, char **words) {
    const char *app = NULL;
    uint16_t module, kernel = 0, stub = 0;
    uint8_t status;
    w16_start start;
    said = stdout;
    for (int i = 1; i < count; i++) {
        bool more = i + 1 < count;
        if (!strcmp(words[i], "--memory") && more) memory = (uint32_t)strtoul(words[++i], NULL, 0);
        else if (!strcmp(words[i], "--selectors") && more) selectors = (uint32_t)strtoul(words[++i], NULL, 0);
        else if (!strcmp(words[i], "--log") && more) log_folder = words[++i];
        else if (!strcmp(words[i], "--quiet")) said = NULL;
        else if (folder == NULL) folder = words[i];
        else app = words[i];
    }
    if (app == NULL)
        die("usage: runner [--memory N] [--selectors N] [--log FOLDER] [--quiet] FOLDER APP.EXE");
    if (log_folder != NULL) {
        calls = open_in(log_folder, "calls.txt", 9, "w");
        replies = open_in(log_folder, "replies.txt", 11, "w");
    }
    done(w16_new(&machine, memory, selectors));
    slots = (W16_FIRST_SELECTOR >> 3) + selectors;
    processor_begin(memory_bytes(), memory);

    module = load(app, strlen(app), false);
    if (module <= 32)
        die("%s isn't loaded: %u", app, module);
    done(w16_get_module_handle(&machine, "KERNEL", 6, &kernel));
    done(w16_module_segment(&machine, kernel, 1, &stub));
    done(w16_module_start(&machine, module, &start));
    list_modules();
    if (start.entry == 0 || start.stack == 0)
        die("%s is no application", app);
    use(W16_SELECTOR_OF(start.entry));
    use(W16_SELECTOR_OF(start.stack));
    use(start.data);
    after_call(0);
    set_register(UC_X86_REG_DI, module);
    processor_start(&start);
    status = run(kernel, stub);

    before_call();
    if (log_folder != NULL)
        end_log();
    printf("%u checks held, %u didn't; %u calls of KERNEL, %u fetches, %u descriptors changed\n", held, failed, kernel_calls, fetches, moved);
    w16_free(&machine);
    return failed != 0 || held == 0 || status != 0;
}
