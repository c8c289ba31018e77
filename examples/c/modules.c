/* A client of w16.h that loads modules: it makes the calls of modules-calls.txt, and prints what a script's replies to them would be. The machine
 * asks for each file by its name, and then gets it from the folder that is the argument. What it asked for stands on a line that begins with '#'. */
#include "w16.h"

#include <stdio.h>
#include <stdlib.h>
#include <string.h>

static w16 machine = W16_NONE;

/* Ends the program where a call isn't done. */
static void done(const char *call, uint8_t status) {
    if (status != W16_DONE) {
        fprintf(stderr, "%s: status %d\n", call, status);
        w16_free(&machine);
        exit(1);
    }
}

#define TRY(call) done(#call, call)

/* Adds a file of the folder; false where the folder has none of that name. */
static bool add(const char *folder, const char *name, size_t length) {
    static uint8_t bytes[65536];
    char path[1024];
    size_t count;
    FILE *file;
    snprintf(path, sizeof path, "%s/%.*s", folder, (int)length, name);
    file = fopen(path, "rb");
    if (file == NULL)
        return false;
    count = fread(bytes, 1, sizeof bytes, file);
    fclose(file);
    TRY(w16_add_file(&machine, name, length, bytes, count));
    return true;
}

/* Loads a module. As long as a file is missing (2), or one that the module refers to (20), that is added, and the load is made again. */
static uint16_t load(const char *folder, const char *file) {
    char name[W16_MOST_NAME];
    size_t length;
    uint16_t handle;
    for (;;) {
        TRY(w16_load_module(&machine, file, strlen(file), &handle));
        if ((handle != 2 && handle != 20) || w16_missing_file(&machine, name, sizeof name, &length) != W16_DONE)
            break;
        printf("# %.*s is missing\n", (int)length, name);
        if (!add(folder, name, length))
            break;
    }
    printf("%04x\n", handle);
    return handle;
}

/* Some bytes at a far pointer, at most 16. */
static void show(uint32_t pointer, size_t count) {
    uint8_t bytes[16];
    TRY(w16_read(&machine, pointer, bytes, count));
    printf("bytes ");
    for (size_t i = 0; i < count; i++)
        printf("%02x", bytes[i]);
    printf("\n");
}

static uint16_t module_named(const char *name) {
    uint16_t handle;
    TRY(w16_get_module_handle(&machine, name, strlen(name), &handle));
    printf("%04x\n", handle);
    return handle;
}

/* The code of two entries of a module, one by its name and one by its ordinal. */
static void entries(uint16_t module) {
    uint32_t by_name, by_ordinal;
    TRY(w16_get_proc_address(&machine, module, W16_TEXT("GETA"), &by_name));
    TRY(w16_get_proc_address(&machine, module, W16_NUMBER(2), &by_ordinal));
    printf("%08x\n%08x\n", by_name, by_ordinal);
    show(by_name, 10);
}

/* A resource of a module, from its name and type to its bytes and back. */
static void resource(uint16_t module) {
    uint16_t place, object, left, refused;
    uint32_t size, pointer;
    TRY(w16_find_resource(&machine, module, W16_NUMBER(1), W16_NUMBER(10), &place));
    TRY(w16_sizeof_resource(&machine, module, place, &size));
    TRY(w16_load_resource(&machine, module, place, &object));
    TRY(w16_lock_resource(&machine, object, &pointer));
    printf("%04x\n%08x\n%04x\n%08x\n", place, size, object, pointer);
    show(pointer, size);
    TRY(w16_global_unlock(&machine, object, &left));
    TRY(w16_free_resource(&machine, object, &refused));
    printf("%04x\n%04x\n", left, refused);
}

int main(int count, char **arguments) {
    const char *folder = count == 2 ? arguments[1] : ".";
    uint16_t application, left;

    TRY(w16_new(&machine, 4096, 16));
    application = load(folder, "TAPP.EXE");
    entries(module_named("TLIB"));
    resource(load(folder, "TRES.DLL"));
    TRY(w16_free_module(&machine, application, &left));
    printf("%04x\n", left);
    module_named("TLIB");
    w16_free(&machine);
    return 0;
}
