/* w16.h: the memory of Windows 3.1, as a machine that a program holds.
 *
 * A machine is held by a struct w16 that is the caller's. It begins as W16_NONE, gets a machine by w16_new, and gives it back by w16_free. Nothing
 * is global, so a program may have many.
 *
 * Every function except w16_free answers a status. What a call answers beside it goes out through the last pointer, where the status is W16_DONE; else
 * what that pointer points to stays as it was. Each call is the command of the same name of a script; docs/COMMANDS.md says in full what it does.
 *
 * What the caller has to keep:
 * - A struct w16 is changed by these functions alone, and is not copied: a copy would be freed twice.
 * - One call at a time for each machine. Machines on several threads don't touch each other.
 * - Each pointer is valid, and so is each buffer for the number of bytes that is given with it; none overlaps another one, the struct w16 or bytes that
 *   the machine lends.
 * - Bytes that are lent are reached until the next call alone, and none beside them (w16_look, w16_lend).
 * - The program has rattle_alloc, rattle_realloc and rattle_dealloc, by which the library takes memory of it (examples/c/heap.c has them over malloc).
 *   It does so in w16_new, w16_add_file, w16_local_init, w16_builtin, w16_load_module and w16_load_library alone.
 */
#ifndef W16_H
#define W16_H

#include <stdbool.h>
#include <stddef.h>
#include <stdint.h>

#ifdef __cplusplus
extern "C" {
#endif

/* The version of this header, a byte for each of its numbers: 0.1.0, as w16heap --version has it. */
#define W16_VERSION 0x000100

/* The version of the library that is linked. A program that is linked with the library of its header gets W16_VERSION. */
uint32_t w16_version(void);

/* A machine, or none. */
typedef struct w16 {
    void *at;
    bool held;
} w16;

#define W16_NONE { NULL, false }

/* Statuses. */
enum {
    W16_DONE = 0,              /* the call was made */
    W16_NO_MACHINE = 1,        /* the struct holds no machine: nothing was done */
    W16_NO_MEMORY = 2,         /* the program has no memory for it: nothing was done */
    W16_BAD_SIZE = 3,          /* no machine has these sizes, or no call takes that many bytes: nothing was done */
    W16_FAULT_SELECTOR = 4,    /* no object has the far pointer's selector */
    W16_FAULT_READ_ONLY = 5,   /* the object's bytes are code, which can't be written */
    W16_FAULT_NOT_PRESENT = 6, /* the object has no bytes */
    W16_FAULT_LIMIT = 7,       /* the access goes past the last byte that the selector reaches */
    W16_END = 8,               /* nothing is left of what is asked for one by one */
    W16_FAULT_ROOM = 9,        /* there is no room for the bytes of a module's object */
    W16_FAULT_STORE = 10,      /* a module's file can't be read */
    W16_FAULT_DAMAGED = 11,    /* a module's file reads otherwise than it did at the load */
    W16_EXISTS = 12,           /* a file has the name already: nothing was done */
    W16_NONE_MISSING = 13,     /* no file is known to be missing */
    W16_NO_MODULE = 14,        /* no module has the handle, or only a built-in has it */
    W16_NO_FILE = 15,          /* no file has the name: nothing was done */
    W16_IN_USE = 16            /* a module is loaded from the file: nothing was done */
};

/* What a status says, as a text that ends with a zero. */
static inline const char *w16_status_text(uint8_t status) {
    switch (status) {
    case W16_DONE: return "done";
    case W16_NO_MACHINE: return "no machine is held";
    case W16_NO_MEMORY: return "out of memory";
    case W16_BAD_SIZE: return "bad size";
    case W16_FAULT_SELECTOR: return "no object has the selector";
    case W16_FAULT_READ_ONLY: return "the object is code, which can't be written";
    case W16_FAULT_NOT_PRESENT: return "the object has no bytes";
    case W16_FAULT_LIMIT: return "the access goes past the object's end";
    case W16_END: return "nothing is left";
    case W16_FAULT_ROOM: return "no room for the bytes of a module's object";
    case W16_FAULT_STORE: return "a module's file can't be read";
    case W16_FAULT_DAMAGED: return "a module's file isn't what it was at load";
    case W16_EXISTS: return "there is a file of that name";
    case W16_NONE_MISSING: return "no file is missing";
    case W16_NO_MODULE: return "no module has the handle";
    case W16_NO_FILE: return "no file has the name";
    case W16_IN_USE: return "a module is loaded from the file";
    default: return "no status";
    }
}

/* Names of objects. A handle is a word; a fixed object's is its selector, and any other's selector is one above it. A far pointer has the selector
 * in its high word. An object has a selector for each 65,536 bytes, 8 apart. */
#define W16_FIRST_SELECTOR 0x0107
#define W16_SELECTOR(handle) ((uint16_t)((handle) | 1))
#define W16_SELECTOR_AT(slot) ((uint16_t)((slot) << 3 | 7))
#define W16_FAR(selector, offset) ((uint32_t)(selector) << 16 | (uint16_t)(offset))
#define W16_SELECTOR_OF(pointer) ((uint16_t)((pointer) >> 16))
#define W16_OFFSET_OF(pointer) ((uint16_t)(pointer))

/* Flags of w16_global_alloc and w16_global_realloc, and what w16_global_flags answers. Bits without a name are ignored. */
enum {
    W16_GMEM_FIXED = 0x0000,
    W16_GMEM_MOVEABLE = 0x0002,    /* it moves while it isn't locked; of a reallocation: a fixed or locked object may move to grow */
    W16_GMEM_NOCOMPACT = 0x0010,   /* no other object is moved or discarded */
    W16_GMEM_NODISCARD = 0x0020,   /* no other object is discarded */
    W16_GMEM_ZEROINIT = 0x0040,    /* new bytes are zeros */
    W16_GMEM_MODIFY = 0x0080,      /* of a reallocation: the kind is changed, and not the size */
    W16_GMEM_DISCARDABLE = 0x0100, /* beside MOVEABLE: it may lose its bytes to another's request */
    W16_GMEM_DDESHARE = 0x2000,    /* other tasks share it */
    W16_GMEM_DISCARDED = 0x4000,   /* answered: it has no bytes */
    W16_GMEM_LOCKCOUNT = 0x00ff    /* answered: the bits of the lock count */
};

/* The same of w16_local_alloc, w16_local_realloc and w16_local_flags. */
enum {
    W16_LMEM_FIXED = 0x0000,
    W16_LMEM_MOVEABLE = 0x0002,
    W16_LMEM_NOCOMPACT = 0x0010,
    W16_LMEM_NODISCARD = 0x0020,
    W16_LMEM_ZEROINIT = 0x0040,
    W16_LMEM_MODIFY = 0x0080,
    W16_LMEM_DISCARDABLE = 0x0f00, /* any of these bits */
    W16_LMEM_DISCARDED = 0x4000,
    W16_LMEM_LOCKCOUNT = 0x00ff
};

/* The numbers, of 32 and less, by which w16_load_module and w16_load_library refuse a load. */
enum {
    W16_LOAD_NO_ROOM = 0,        /* no room, no handle or no use is left */
    W16_LOAD_NO_FILE = 2,        /* no file has the name */
    W16_LOAD_BAD_FILE = 11,      /* the file isn't a module, or its relocations aren't sound */
    W16_LOAD_TARGET_1 = 12,      /* for another target system: 1, 3, or any other */
    W16_LOAD_TARGET_3 = 13,
    W16_LOAD_TARGET_OTHER = 14,
    W16_LOAD_TWICE = 16,         /* w16_load_module of an application that is loaded */
    W16_LOAD_BAD_REFERENCE = 20  /* a module that it refers to is refused */
};

/* The functions by which the library takes memory of the program that links it. A block that is asked for is aligned to 16 bytes; ok says whether
 * there was memory; a block that can't get another size stays as it is, and at is its address still. */
struct rattle_tried {
    bool ok;
    void *at;
};

struct rattle_tried rattle_alloc(size_t size, size_t align);
struct rattle_tried rattle_realloc(void *at, size_t kept, size_t size, size_t align);
void rattle_dealloc(void *at);

/* A new machine of this many bytes of memory, a multiple of 32 from 32 to 16,777,216, and this many selectors, from 1 to 8,160. It replaces one that
 * is held, which is freed. W16_BAD_SIZE, W16_NO_MEMORY: the struct stays as it was. */
uint8_t w16_new(w16 *machine, uint32_t memory, uint32_t selectors);

/* Frees the machine, if one is held: freeing twice does no harm. */
void w16_free(w16 *machine);

/* The global heap. Every handle that is answered is 0 where the call is refused. */

/* A new object of at most 16,711,680 bytes, with a selector for each 65,536 of them, 8 apart from that of its handle on. */
uint8_t w16_global_alloc(w16 *machine, uint16_t flags, uint32_t size, uint16_t *handle);
/* Frees an object: 0, or the handle where it is bad or the object locked. */
uint8_t w16_global_free(w16 *machine, uint16_t handle, uint16_t *left);
/* One lock more: a far pointer to the first byte, the selector in its high word; or 0. */
uint8_t w16_global_lock(w16 *machine, uint16_t handle, uint32_t *pointer);
/* One lock less: 1 where locks are left, else 0. */
uint8_t w16_global_unlock(w16 *machine, uint16_t handle, uint16_t *left);
/* Discards and moves objects until a hole is as long as it can be: the longest hole's bytes. A size of 0 only asks what that could be. */
uint8_t w16_global_compact(w16 *machine, uint32_t size, uint32_t *longest);
/* Another size in bytes; with 0x0080 in the flags another kind. The handle may be another one then, and the old one is bad. */
uint8_t w16_global_realloc(w16 *machine, uint16_t handle, uint32_t size, uint16_t flags, uint16_t *same);
/* Takes the bytes of a discardable object that isn't locked. */
uint8_t w16_global_discard(w16 *machine, uint16_t handle, uint16_t *same);
/* A discardable object with bytes becomes the last to be discarded, or the first. */
uint8_t w16_global_lru_newest(w16 *machine, uint16_t handle, uint16_t *same);
uint8_t w16_global_lru_oldest(w16 *machine, uint16_t handle, uint16_t *same);
/* The size in bytes, or 0. */
uint8_t w16_global_size(w16 *machine, uint16_t handle, uint32_t *size);
/* Flags, and the lock count in the low byte; or 0. */
uint8_t w16_global_flags(w16 *machine, uint16_t handle, uint16_t *flags);
/* The selector in the high word and its object's handle in the low one, or 0. */
uint8_t w16_global_handle(w16 *machine, uint16_t selector, uint32_t *both);

/* Selectors and far memory. A fault reads and writes nothing, and leaves all as it was, except one: where a module's object had no bytes, an access
 * past its end, W16_FAULT_LIMIT, leaves it with its bytes, and what was discarded and moved for them. */

/* A use makes a discardable object the last to be discarded. Uses are w16_read, w16_write, w16_fill, w16_look and w16_lend that answer W16_DONE, of no
 * bytes too, w16_global_lock, w16_lock_resource and w16_global_lru_newest; and an object that gets its bytes, or becomes discardable, is the last then.
 * The same five far accesses and w16_lock_resource fetch: a module's segment or resource that has no bytes gets them first. Else only loads give such
 * objects bytes. Questions, w16_peek and descriptors are no use and fetch nothing. */

/* The address in the machine's memory of the first byte that the selector reaches; 0 is an address too, and also says that the selector is bad or its
 * object has no bytes: w16_get_descriptor tells these apart. */
uint8_t w16_get_selector_base(w16 *machine, uint16_t selector, uint32_t *base);
/* The offset of the last byte that it reaches, or 0. */
uint8_t w16_get_selector_limit(w16 *machine, uint16_t selector, uint32_t *limit);
/* Reads count bytes from a far pointer on, any number that the selector reaches. */
uint8_t w16_read(w16 *machine, uint32_t pointer, uint8_t *into, size_t count);
/* Writes count bytes from a far pointer on, all or none: W16_FAULT_LIMIT where the selector reaches fewer, and none reaches more than 65,536;
 * W16_FAULT_READ_ONLY for code. */
uint8_t w16_write(w16 *machine, uint32_t pointer, const uint8_t *bytes, size_t count);
/* Writes the same byte count times from a far pointer on; W16_BAD_SIZE for more than 65,536. */
uint8_t w16_fill(w16 *machine, uint32_t pointer, uint32_t count, uint8_t byte);
/* Reads any number of bytes without a use or a fetch: W16_FAULT_NOT_PRESENT where the object has no bytes. */
uint8_t w16_peek(w16 *machine, uint32_t pointer, uint8_t *into, size_t count);
/* Fetches the selector's object where it has no bytes, and is a use of it: a read of no bytes. */
static inline uint8_t w16_fetch(w16 *machine, uint16_t selector) {
    uint8_t none = 0;
    return w16_read(machine, W16_FAR(selector, 0), &none, 0);
}

/* Bytes of an object that are lent: they lie in the machine, and nothing is copied. */
typedef struct w16_lent {
    uint8_t *at;
    size_t count; /* as many as were asked for */
} w16_lent;

/* Lends bytes from a far pointer on, any number that the selector reaches: w16_read of so many, or where write is true w16_write, with its faults, what it
 * fetches and its use. The address is valid until the next call on this machine, whichever it is. Until then the caller reaches these bytes, and none
 * beside them. It only reads those that aren't lent to be written; of those that are, what stands there at the next call is what was written.
 * Nothing checks that: a write beside them, or after the next call, may change what the machine keeps in its free memory, and then it reads and writes
 * outside of its own. */
uint8_t w16_find(w16 *machine, uint32_t pointer, size_t count, bool write, w16_lent *lent);
/* Lends bytes to be read, of code too; and to be written. */
static inline uint8_t w16_look(w16 *machine, uint32_t pointer, size_t count, w16_lent *lent) {
    return w16_find(machine, pointer, count, false, lent);
}
static inline uint8_t w16_lend(w16 *machine, uint32_t pointer, size_t count, w16_lent *lent) {
    return w16_find(machine, pointer, count, true, lent);
}

/* Lends the whole memory: what a selector reaches begins at its descriptor's base. The address is the same until w16_free, for clients that map the memory
 * into a processor. Such a client may read all of it, and between two calls write bytes of objects that are present and no code; everything else stays as
 * it is, since free memory has the machine's own tables in it. A use is told by w16_look of no bytes. */
uint8_t w16_memory(w16 *machine, w16_lent *lent);

/* What a selector tells, by which a client may reach the bytes itself. All is 0 where no object has it. */
typedef struct w16_descriptor {
    uint32_t base;   /* the address in the machine's memory of the first byte that it reaches */
    uint32_t limit;  /* the offset of the last byte that it reaches */
    uint16_t object; /* the object's handle */
    uint8_t present; /* 1 where the object has bytes, else base and limit are 0 */
    uint8_t code;    /* 1 for code, which can't be written */
} w16_descriptor;

/* W16_FAULT_SELECTOR: no object has the selector. */
uint8_t w16_get_descriptor(w16 *machine, uint16_t selector, w16_descriptor *told);
/* What has changed since. The client has a table of count descriptors by slot, which is selector >> 3, zeros at first; of more than 8,192 the rest is
 * left alone. The next slot, from *slot on, whose descriptor isn't the table's is set there and answered; W16_END: none is left, and *slot stays. So
 * after a call by which descriptors may change:
 *     for (slot = 0; w16_next_changed(&machine, known, count, &slot) == W16_DONE; )
 * Such calls are w16_global_alloc, _free, _compact, _realloc and _discard, loads, calls that free modules, and those that load, lock and free
 * resources; far accesses that fetch; and w16_local_alloc and w16_local_realloc, by which a segment may grow. No other changes any, as is proved. Bytes
 * may change under an unchanged descriptor too: w16_local_init, _alloc, _realloc, _free, _discard and _compact write into the segment that DS names. */
uint8_t w16_next_changed(w16 *machine, w16_descriptor *known, size_t count, uint16_t *slot);
/* Whether a descriptor that has changed is of an object that was discarded: its handle names it still, and it has no bytes. So the answers of
 * w16_next_changed after a call tell what the call discarded. An object that was made or reallocated with no bytes looks the same. */
static inline bool w16_is_discarded(const w16_descriptor *told) {
    return told->object != 0 && !told->present;
}

/* Module files. They are kept in memory. A file's name is length bytes of text; letters of ASCII may differ in case. */

/* Adds a file, whose name and bytes are copied. W16_EXISTS: a file has that name, and stays as it is, since a module may be loaded from it
 * (w16_remove_file takes it away). W16_BAD_SIZE: the name is empty. */
uint8_t w16_add_file(w16 *machine, const char *name, size_t length, const uint8_t *bytes, size_t count);
/* Takes a file away, and gives its memory back. W16_IN_USE: a module is loaded from it, which reads its code there when that was discarded.
 * W16_NO_FILE: no file has the name. */
uint8_t w16_remove_file(w16 *machine, const char *name, size_t length);
/* The name of the file that a load missed: ask after one that answered 2 or 20, add the file, and load again. It is the last name, of at most
 * W16_MOST_NAME bytes, by which no file was found; W16_NONE_MISSING where a file was found or added since. W16_BAD_SIZE: the buffer is shorter. */
uint8_t w16_missing_file(w16 *machine, char *name, size_t room, size_t *length);

/* The longest name that w16_missing_file gives, in bytes; no zero ends it. */
#define W16_MOST_NAME 259

/* Modules. Far accesses and calls on resources fetch bytes from their files, and may meet W16_FAULT_ROOM, _STORE and _DAMAGED. */

/* What names an entry of a module, a resource or a type: three arguments at once, a text and its length, or no text and a number. The text is a
 * literal; another one is given as its address, its length and 0. */
#define W16_TEXT(literal) "" literal, sizeof(literal) - 1, 0
#define W16_NUMBER(number) "", 0, (number)

/* A module of a name without a file: its handle, or 0. */
uint8_t w16_builtin(w16 *machine, const char *name, size_t length, uint16_t *handle);
/* Loads a module by the name of its file, and all that it refers to: its handle, or why it is refused, a number of at most 32. */
uint8_t w16_load_module(w16 *machine, const char *file, size_t length, uint16_t *handle);
/* The same, and of an application that is there one use more. */
uint8_t w16_load_library(w16 *machine, const char *file, size_t length, uint16_t *handle);
/* One use less; then modules go that have no use and no importer: 1 where the handle still names a module, else 0. */
uint8_t w16_free_library(w16 *machine, uint16_t handle, uint16_t *left);
uint8_t w16_free_module(w16 *machine, uint16_t handle, uint16_t *left);
/* The handle of the module of a name, or 0. */
uint8_t w16_get_module_handle(w16 *machine, const char *name, size_t length, uint16_t *handle);
/* Its uses and importers together, or 0. */
uint8_t w16_get_module_usage(w16 *machine, uint16_t handle, uint16_t *uses);
/* A far pointer to an entry, by W16_TEXT(name) or W16_NUMBER(ordinal); or 0. */
uint8_t w16_get_proc_address(w16 *machine, uint16_t handle, const char *name, size_t length, uint16_t ordinal, uint32_t *pointer);

/* Where the program of a module begins, by its file's header. The sizes of heap and stack are only said: a load adds neither to the automatic data
 * segment, nor can that be made longer once it is loaded, since a module owns it. A client that wants them in it raises the segment's least size, the last
 * word of the eight bytes for it in the segment table, and SP, in the file's bytes before w16_add_file. */
typedef struct w16_start {
    uint32_t entry;      /* cs:ip, a far pointer; 0 where the header names no segment of the file */
    uint32_t stack;      /* ss:sp, likewise */
    uint16_t data;       /* the selector of the automatic data segment, or 0 */
    uint16_t heap;       /* how long the local heap is to be at first, in bytes */
    uint16_t stack_size; /* how long the stack is to be */
    uint16_t flags;      /* the header's flags; 0x8000 for a library */
} w16_start;

/* What is asked about modules below changes nothing. W16_NO_MODULE: no module has the handle; a built-in's counts for w16_module_name
 * and w16_module_from alone. */

uint8_t w16_module_start(w16 *machine, uint16_t handle, w16_start *start);
/* The selector of a segment, by its number from 1; W16_END: the module has no segment of the number. */
uint8_t w16_module_segment(w16 *machine, uint16_t handle, uint16_t number, uint16_t *selector);
/* The first handle from a number on that names a module or a built-in; W16_END after the last. All of them go from 0 to one after each:
 *     for (from = 0; w16_module_from(&machine, from, &handle) == W16_DONE; from = handle + 1) */
uint8_t w16_module_from(w16 *machine, uint16_t from, uint16_t *handle);
/* The name of a module or a built-in, and the name of the file that a module was loaded from. No zero ends them.
 * W16_BAD_SIZE: the buffer is shorter. A module's name has at most 255 bytes. */
uint8_t w16_module_name(w16 *machine, uint16_t handle, char *name, size_t room, size_t *length);
uint8_t w16_module_file(w16 *machine, uint16_t handle, char *name, size_t room, size_t *length);
/* The handle of the module or built-in that a module refers to, by its place from 0 in its file's table; W16_END after the last. */
uint8_t w16_module_import(w16 *machine, uint16_t handle, size_t place, uint16_t *import);

/* How many module handles there can be, counted from 0: a table of that many bytes has one for each. A byte that isn't 0 marks a module. */
#define W16_MODULE_HANDLES 233

/* The next module that was loaded, of those that a table doesn't mark; it is marked there. W16_END: the table marks all that it has a byte for. A
 * module comes after those that its file refers to, unless they lead back to it by what they refer to: so a client runs first routines in this order.
 * With a table of zeros at first, these are after each load the modules that it brought:
 *     while (w16_next_loaded(&machine, marks, W16_MODULE_HANDLES, &handle) == W16_DONE)
 * A handle is given again to a later module, so a client takes away the mark of each module that goes. */
uint8_t w16_next_loaded(w16 *machine, uint8_t *marks, size_t count, uint16_t *handle);
/* The next module that w16_free_library or w16_free_module of a handle would free, once those are gone that a table marks; it is marked there. No module
 * uses it then. W16_END: the table marks all that would go. A client begins with zeros, runs their last routines in this order, and then frees. */
uint8_t w16_would_free(w16 *machine, uint16_t ended, uint8_t *marks, size_t count, uint16_t *handle);
/* The names of a module's entries, by an index from 0, in the order of the file: a name of at most 255 bytes, its ordinal, and the far pointer that
 * w16_get_proc_address answers for this ordinal. W16_END after the last; W16_BAD_SIZE: the buffer is shorter. */
uint8_t w16_export_from(w16 *machine, uint16_t handle, size_t index, char *name, size_t room, size_t *length, uint16_t *ordinal, uint32_t *pointer);

/* Resources. Name and type are each a W16_TEXT or a W16_NUMBER. */

/* The place of a resource in its module's table, from 1, or 0. */
uint8_t w16_find_resource(w16 *machine, uint16_t handle, const char *name, size_t length, uint16_t number, const char *type, size_t type_length,
                          uint16_t type_number, uint16_t *place);
/* Loads the resource at a place: its object's handle, or 0. One that is there has a load more. */
uint8_t w16_load_resource(w16 *machine, uint16_t handle, uint16_t place, uint16_t *object);
/* As w16_global_lock, once the object has its bytes again. */
uint8_t w16_lock_resource(w16 *machine, uint16_t object, uint32_t *pointer);
/* One load less; the last frees the object, if it isn't locked: 0, or 1 where it is refused. */
uint8_t w16_free_resource(w16 *machine, uint16_t object, uint16_t *refused);
/* How many bytes it has in its file, or 0. */
uint8_t w16_sizeof_resource(w16 *machine, uint16_t handle, uint16_t place, uint32_t *size);

/* The heap as it stands. */

/* A part of it: an object's bytes, or a hole. */
typedef struct w16_part {
    uint32_t at;     /* its address */
    uint32_t size;   /* its bytes */
    uint16_t handle; /* 0 for a hole */
    uint8_t kind;    /* 0 for a hole, 1 fixed, 2 moveable, 3 discardable */
    uint8_t locks;   /* the lock count */
} w16_part;

/* The first part that begins at an address or above it; W16_END after the last. A whole walk goes from 0 to each part's end:
 *     for (at = 0; w16_walk_from(&machine, at, &part) == W16_DONE; at = part.at + part.size) */
uint8_t w16_walk_from(w16 *machine, uint32_t from, w16_part *part);
/* How many bytes the last w16_global_alloc, _realloc, _discard or _compact moved. It says nothing of what loads, fetches and segments that grow move:
 * a client that keeps addresses compares descriptors (w16_next_changed). */
uint8_t w16_moved(w16 *machine, uint32_t *bytes);

/* Local heaps, in the segment that w16_ds names. Every name that is answered is 0 where the call is refused. */

/* Begins a heap from start up to end in the selector's object, or in that of w16_ds where the selector is 0: 1, or 0. W16_NO_MEMORY: nothing began. */
uint8_t w16_local_init(w16 *machine, uint16_t selector, uint16_t start, uint32_t end, uint16_t *begun);
/* From now on the calls below act in the heap in this selector's object, which is looked up at each call. */
uint8_t w16_ds(w16 *machine, uint16_t selector);
/* A new object: a fixed one's near pointer, or another one's number. */
uint8_t w16_local_alloc(w16 *machine, uint16_t flags, uint16_t size, uint16_t *name);
/* Another size or kind: the name, which a fixed object that was moved has anew. */
uint8_t w16_local_realloc(w16 *machine, uint16_t name, uint16_t size, uint16_t flags, uint16_t *now);
/* Takes the bytes of a discardable object that isn't locked. */
uint8_t w16_local_discard(w16 *machine, uint16_t name, uint16_t *same);
/* Frees an object: 0, or the name where it is bad or the object locked. */
uint8_t w16_local_free(w16 *machine, uint16_t name, uint16_t *left);
/* One lock more: the near pointer, which is an offset in the segment; or 0. */
uint8_t w16_local_lock(w16 *machine, uint16_t name, uint16_t *pointer);
/* One lock less: 1 where locks are left, else 0. */
uint8_t w16_local_unlock(w16 *machine, uint16_t name, uint16_t *left);
/* The size in bytes, or 0. */
uint8_t w16_local_size(w16 *machine, uint16_t name, uint16_t *size);
/* Flags, and the lock count in the low byte; or 0. */
uint8_t w16_local_flags(w16 *machine, uint16_t name, uint16_t *flags);
/* The name of the object that begins at a near pointer. */
uint8_t w16_local_handle(w16 *machine, uint16_t pointer, uint16_t *name);
/* As w16_global_compact, inside the heap. */
uint8_t w16_local_compact(w16 *machine, uint16_t size, uint16_t *longest);

#ifdef __cplusplus
}
#endif

#endif
