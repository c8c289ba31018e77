/* processor.c: a processor of Unicorn in protected mode. A program runs at level 3, its selectors are of a local descriptor table, and the machine's
 * memory lies at an address of its own. */
#include "runner.h"

#include <string.h>

/* Where things lie: the tables, with the iretd by which a program begins at level 3, and its frame; and the machine's memory. */
enum { TABLES = 0x100000, GATE = TABLES + 0x100, FRAME = TABLES + 0x200, LDT = TABLES + 0x1000, TABLES_SIZE = 0x11000, MEMORY = 0x1000000 };

static uc_engine *uc;
static uint8_t tables[TABLES_SIZE] __attribute__((aligned(4096)));
static int trap;
static uint32_t next;                  /* the offset in the code segment at which the program goes on */
static uint64_t code_from, code_count; /* the code segment that it is in */
static uc_context *clean, *dirty;

static void check(uc_err error) {
    if (error != UC_ERR_OK)
        die("the processor: %s", uc_strerror(error));
}

uint16_t get_register(int name) {
    uint16_t word = 0;
    uc_reg_read(uc, name, &word);
    return word;
}

void set_register(int name, uint16_t word) {
    uc_reg_write(uc, name, &word);
}

static void put_descriptor(size_t at, uint32_t base, uint32_t limit, uint8_t access, uint8_t size) {
    const uint8_t eight[8] = { (uint8_t)limit, (uint8_t)(limit >> 8), (uint8_t)base, (uint8_t)(base >> 8), (uint8_t)(base >> 16), access,
                               (uint8_t)(size << 4 | (limit >> 16 & 15)), (uint8_t)(base >> 24) };
    memcpy(tables + at, eight, 8);
}

void processor_describe(unsigned slot) {
    const w16_descriptor *it = &known[slot];
    uint8_t access = (uint8_t)((it->present ? 0xf0 : 0x70) | (it->code ? 0x0a : 0x02));
    put_descriptor(LDT - TABLES + 8 * slot, MEMORY + it->base, it->limit, it->object == 0 ? 0 : access, 0);
}

bool processor_used(unsigned slot) {
    uint8_t *access = &tables[LDT - TABLES + 8 * slot + 5];
    bool used = *access & 1;
    *access &= 0xfe;
    return used || get_register(UC_X86_REG_SS) >> 3 == (int)slot;
}

/* Where a segment isn't present any longer, the register gets the null selector. */
void processor_reload(void) {
    static const int REGISTERS[] = { UC_X86_REG_DS, UC_X86_REG_ES, UC_X86_REG_SS, UC_X86_REG_CS };
    for (unsigned i = 0; i < 4; i++) {
        uint16_t selector = get_register(REGISTERS[i]);
        if (selector & 4)
            set_register(REGISTERS[i], known[selector >> 3].present ? selector : 0);
    }
    code_count = 0;
}

void processor_forget(unsigned slot) {
    uint64_t from = MEMORY + (uint64_t)known[slot].base;
    check(uc_ctl_remove_cache(uc, from, from + known[slot].limit + 1));
}

static void on_trap(uc_engine *engine, uint32_t number, void *data) {
    (void)data;
    trap = (int)number;
    uc_emu_stop(engine);
}

/* Before each instruction, which also keeps the processor's own pointer to it exact for a fault. Where code goes on in another segment, that is a use
 * of it: the code is there, so nothing moves. */
static void on_code(uc_engine *engine, uint64_t address, uint32_t size, void *data) {
    (void)engine, (void)size, (void)data;
    if (address - code_from >= code_count) {
        uint16_t selector = get_register(UC_X86_REG_CS);
        if (!(selector & 4))
            return;
        code_from = MEMORY + (uint64_t)known[selector >> 3].base;
        code_count = (uint64_t)known[selector >> 3].limit + 1;
        if (address - code_from >= code_count)
            die("the program runs past the end of segment %04x", selector);
        use(selector);
    }
}

void processor_begin(uint8_t *bytes, uint32_t size) {
    const uc_x86_mmr global = { 0, TABLES, 0xff, 0 }, local = { 0x18, LDT, 0xffff, 0x8200 };
    uc_hook hook;
    check(uc_open(UC_ARCH_X86, UC_MODE_32, &uc));
    check(uc_mem_map_ptr(uc, TABLES, sizeof tables, UC_PROT_ALL, tables));
    check(uc_mem_map_ptr(uc, MEMORY, (size + 4095) & ~(size_t)4095, UC_PROT_ALL, bytes));
    put_descriptor(8, 0, 0xfffff, 0x93, 12);
    tables[GATE - TABLES] = 0xcf; /* iretd */
    check(uc_reg_write(uc, UC_X86_REG_GDTR, &global));
    check(uc_reg_write(uc, UC_X86_REG_LDTR, &local));
    check(uc_hook_add(uc, &hook, UC_HOOK_INTR, (void *)on_trap, NULL, 1, 0));
    check(uc_hook_add(uc, &hook, UC_HOOK_CODE, (void *)on_code, NULL, 1, 0));
    check(uc_context_alloc(uc, &clean));
    check(uc_context_alloc(uc, &dirty));
    check(uc_context_save(uc, clean));
}

/* The registers are as Windows has them where a program begins: CX is the heap's size, BX the stack's. */
void processor_start(const w16_start *start) {
    const uint32_t frame[5] = { W16_OFFSET_OF(start->entry), W16_SELECTOR_OF(start->entry), 0x202, W16_OFFSET_OF(start->stack),
                                W16_SELECTOR_OF(start->stack) };
    const uint32_t top = FRAME;
    memcpy(tables + (FRAME - TABLES), frame, sizeof frame);
    set_register(UC_X86_REG_SS, 8);
    check(uc_reg_write(uc, UC_X86_REG_ESP, &top));
    set_register(UC_X86_REG_DS, start->data);
    set_register(UC_X86_REG_CX, start->heap);
    set_register(UC_X86_REG_BX, start->stack_size);
    next = GATE;
}

int processor_run(void) {
    trap = -1;
    check(uc_emu_start(uc, next, 0xffffffff, 0, 0));
    check(uc_reg_read(uc, UC_X86_REG_EIP, &next));
    return trap;
}

/* Unicorn hands a fault to the hook and never delivers it, so it would take the next one for a fault within a fault. This takes its note of the fault
 * away, which is the one word of its state that was -1 before and is the fault's number now. The error code, which has the selector, lies before it:
 * so Unicorn 2.0 has it, and what is found is checked. */
uint16_t processor_absent(void) {
    enum { ERROR_CODE = 112 };
    size_t size = uc_context_size(uc), note = 0, found = 0;
    int32_t before, after, code;
    uint8_t *from = (uint8_t *)clean, *to = (uint8_t *)dirty;
    check(uc_context_save(uc, dirty));
    for (size_t i = ERROR_CODE; i + 4 <= size; i += 4) {
        memcpy(&before, from + i, 4);
        memcpy(&after, to + i, 4);
        if (before == -1 && after == TRAP_ABSENT)
            note = i, found++;
    }
    if (found != 1)
        die("%u places for the processor's note of a fault", (unsigned)found);
    memcpy(&code, to + note - ERROR_CODE, 4);
    before = -1;
    memcpy(to + note, &before, 4);
    check(uc_context_restore(uc, dirty));
    if (!(code & 4) || code < 0 || code > 0xffff || known[code >> 3].object == 0 || known[code >> 3].present)
        die("the fault's error code %x is no selector of an absent segment", (unsigned)code);
    return (uint16_t)(code | 3);
}
