/* Loads an application with its libraries, and prints in which order a program would run their first routines, and their last ones before it frees the
 * application. Then it takes their files away. usage: order FOLDER */
#include "w16.h"

#include <stdio.h>
#include <stdlib.h>
#include <string.h>

#define FILES 4

static const char *const files[FILES] = {"TTOP.EXE", "TRING1.DLL", "TRING2.DLL", "TLIB.DLL"};
static w16 machine = W16_NONE;

/* Ends the program where a call isn't done. */
static void done(uint8_t status) {
    if (status != W16_DONE) {
        fprintf(stderr, "%s\n", w16_status_text(status));
        w16_free(&machine);
        exit(1);
    }
}

static void add(const char *folder, const char *name) {
    static uint8_t bytes[65536];
    char path[1024];
    size_t count;
    FILE *file;
    snprintf(path, sizeof path, "%s/%s", folder, name);
    if ((file = fopen(path, "rb")) == NULL)
        exit(2);
    count = fread(bytes, 1, sizeof bytes, file);
    fclose(file);
    done(w16_add_file(&machine, name, strlen(name), bytes, count));
}

static void name_it(const char *what, uint16_t handle) {
    char name[255];
    size_t length;
    done(w16_module_name(&machine, handle, name, sizeof name, &length));
    printf("%s %.*s\n", what, (int)length, name);
}

static void remove_files(void) {
    for (int i = 0; i < FILES; i++)
        printf("%s: %s\n", files[i], w16_status_text(w16_remove_file(&machine, files[i], strlen(files[i]))));
}

int main(int count, char **words) {
    uint8_t loaded[W16_MODULE_HANDLES] = {0}, gone[W16_MODULE_HANDLES] = {0};
    uint16_t application, handle, left;
    if (count != 2)
        return 2;
    done(w16_new(&machine, 65536, 16));
    for (int i = 0; i < FILES; i++)
        add(words[1], files[i]);
    done(w16_load_module(&machine, files[0], strlen(files[0]), &application));
    while (w16_next_loaded(&machine, loaded, sizeof loaded, &handle) == W16_DONE)
        name_it("first routine of", handle);
    remove_files();
    while (w16_would_free(&machine, application, gone, sizeof gone, &handle) == W16_DONE) {
        name_it("last routine of", handle);
        loaded[handle] = 0;
    }
    done(w16_free_library(&machine, application, &left));
    remove_files();
    remove_files();
    w16_free(&machine);
    return 0;
}
