/* What a process knows of itself: its modules with their tables, and a thread's stack and registers.
 *
 * Include it first: it asks for the names that GNU's headers show. */
#ifndef OWN_PROCESS_H
#define OWN_PROCESS_H
#ifndef _GNU_SOURCE
#define _GNU_SOURCE
#endif
#include <kalzurenk.h>
#include <link.h>
#include <pthread.h>
#include <ucontext.h>

enum { MOST_MODULES = 256 };

typedef struct own_modules {
    kz_region tables[MOST_MODULES];
    kz_module modules[MOST_MODULES];
    const char *names[MOST_MODULES];
    size_t length;
} own_modules;

/* The segment that holds an address of a file. */
static inline const ElfW(Phdr) *segment_of(const struct dl_phdr_info *info, ElfW(Addr) address) {
    for (int i = 0; i < info->dlpi_phnum; i++) {
        const ElfW(Phdr) *p = &info->dlpi_phdr[i];
        if (p->p_type == PT_LOAD && p->p_vaddr <= address && address < p->p_vaddr + p->p_memsz)
            return p;
    }
    return NULL;
}

/* Adds a module: its code lies from its first executable segment to its last. Of its memory the segment
 * is handed in that holds .eh_frame_hdr, and .eh_frame beside it. */
static inline int add_module(struct dl_phdr_info *info, size_t size, void *data) {
    (void)size;
    own_modules *own = (own_modules *)data;
    const ElfW(Phdr) *header = NULL;
    uint64_t start = UINT64_MAX, end = 0, base = info->dlpi_addr;
    for (int i = 0; i < info->dlpi_phnum; i++) {
        const ElfW(Phdr) *p = &info->dlpi_phdr[i];
        if (p->p_type == PT_GNU_EH_FRAME)
            header = p;
        if (p->p_type == PT_LOAD && (p->p_flags & PF_X)) {
            start = p->p_vaddr < start ? p->p_vaddr : start;
            end = p->p_vaddr + p->p_memsz > end ? p->p_vaddr + p->p_memsz : end;
        }
    }
    const ElfW(Phdr) *segment = header == NULL ? NULL : segment_of(info, header->p_vaddr);
    if (segment == NULL || end == 0 || own->length == MOST_MODULES)
        return 0;
    uint64_t tables = base + segment->p_vaddr;
    own->tables[own->length] = (kz_region)KZ_REGION(tables, (const uint8_t *)tables, segment->p_memsz);
    own->modules[own->length] = (kz_module)KZ_MODULE(base + start, base + end, base + header->p_vaddr, 0, KZ_ELF_HEADER);
    own->names[own->length] = info->dlpi_name[0] != 0 ? info->dlpi_name : "program";
    own->length++;
    return 0;
}

/* The modules that are loaded now. */
static inline void find_modules(own_modules *own) {
    own->length = 0;
    dl_iterate_phdr(add_module, own);
}

/* The address after the last of the calling thread's stack. */
static inline uint64_t end_of_stack(void) {
    pthread_attr_t attributes;
    void *low;
    size_t size;
    pthread_getattr_np(pthread_self(), &attributes);
    pthread_attr_getstack(&attributes, &low, &size);
    pthread_attr_destroy(&attributes);
    return (uint64_t)low + size;
}

/* The registers at which a signal stopped a thread. */
static inline kz_registers registers_of(const ucontext_t *context) {
    const greg_t *from = context->uc_mcontext.gregs;
    const int order[16] = {REG_RAX, REG_RDX, REG_RCX, REG_RBX, REG_RSI, REG_RDI, REG_RBP, REG_RSP,
                           REG_R8,  REG_R9,  REG_R10, REG_R11, REG_R12, REG_R13, REG_R14, REG_R15};
    kz_registers registers = {sizeof registers, {0}, (uint64_t)from[REG_RIP]};
    for (int i = 0; i < 16; i++)
        registers.general[i] = (uint64_t)from[order[i]];
    return registers;
}

/* The stack pointer. */
static inline uint64_t stack_pointer(const kz_registers *registers) { return registers->general[7]; }

/* Where a thread's stack begins that was stopped at an instruction: the 128 bytes below its stack pointer are its own too,
 * and a signal leaves them as they are. In an epilogue a register that was just taken from the stack is told to lie
 * there. */
static inline uint64_t start_of_stack(const kz_registers *registers) { return stack_pointer(registers) - 128; }

/* A stack where it lies: nobody else writes it while it is walked. */
static inline kz_region stack_from(uint64_t start, uint64_t end) {
    return (kz_region)KZ_REGION(start, (const uint8_t *)start, end - start);
}

/* How many frames have a return address: the outermost has none. */
static inline uint64_t returns_in(const kz_end *end) { return end->count - (end->reason == KZ_OUTERMOST); }

/* Whether the frames are those that another unwinder found, of which the first ones are of the handler
 * that asked it. */
static inline bool agree(const kz_frame *frames, const kz_end *end, void *const *found, int length) {
    int skipped = 0;
    while (skipped < length && (uint64_t)found[skipped] != frames[0].ra)
        skipped++;
    uint64_t count = returns_in(end);
    if (end->reason != KZ_OUTERMOST || count != (uint64_t)(length - skipped))
        return false;
    for (uint64_t i = 0; i < count; i++)
        if (frames[i].ra != (uint64_t)found[skipped + (int)i])
            return false;
    return true;
}

#endif
