/* runner.h: what the parts of the runner know of each other. */
#ifndef RUNNER_H
#define RUNNER_H

#include "w16.h"

#include <stdio.h>
#include <unicorn/unicorn.h>

/* The machine, and what each of its selectors was when it was asked last, by slot, which is selector >> 3. Both belong to runner.c. */
enum { SLOTS = 8192 };
extern w16 machine;
extern w16_descriptor known[SLOTS];
extern size_t slots; /* how many of them can have an object */

/* runner.c. What is said goes to said, and the log to calls and replies, each of which may be none. */
extern FILE *said, *calls, *replies;
void note(FILE *file, const char *format, ...);
void note_bytes(FILE *file, const uint8_t *bytes, size_t count);
void die(const char *format, ...);
void done(uint8_t status); /* ends the runner where a call isn't done */
/* Before a call by which objects may move or lose their bytes, and after it: the bytes of a slot were changed by the call, or 0. */
void before_call(void);
void after_call(unsigned slot);
void use(uint16_t selector); /* a use of a segment, which gets its bytes first where it has none */
uint16_t load(const char *file, size_t length, bool library);

/* memory.c: the one place that knows how the processor has the bytes of the machine. */
uint8_t *memory_bytes(void);
/* The bytes of a slot that the program has written go to the library; where there are none, it is a use all the same. */
void memory_put(unsigned slot);
void memory_get(unsigned slot); /* the bytes of a slot are the library's again */
uint8_t *memory_at(uint16_t selector, uint16_t offset);

/* processor.c */
enum { TRAP_BREAK = 3, TRAP_ABSENT = 11, TRAP_DOS = 0x21, TRAP_CHECK = 0x60 };
void processor_begin(uint8_t *bytes, uint32_t size);
void processor_forget(unsigned slot);   /* drops what was translated of the code in a slot */
void processor_describe(unsigned slot); /* puts a slot's descriptor into the table */
bool processor_used(unsigned slot);     /* whether a segment register has had the slot since this was asked last */
void processor_reload(void);            /* loads the segment registers from the table again */
void processor_start(const w16_start *start);
int processor_run(void);         /* runs the program until it traps, and answers the number */
uint16_t processor_absent(void); /* the selector whose segment wasn't present */
uint16_t get_register(int name);
void set_register(int name, uint16_t word);

/* kernel.c: answers a call of KERNEL. */
void kernel_call(uint16_t kernel, uint16_t ordinal);

#endif
