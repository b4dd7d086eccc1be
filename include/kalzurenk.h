/* Kalzurenk for C: walks of x86-64 stacks and deliveries of exceptions, over memory that is handed in.
 *
 * Nothing is asked of the process that calls: no loader, no signals, no threads. What is handed in is
 * memory at its addresses (a stack or a copy of one, the tables of modules), the modules, and the
 * registers of a stopped thread. Each call is proved to end and to read nothing but what is handed in;
 * what is proved of its answer, docs/EMBEDDING.md says. That this header is the library's is tested.
 *
 * What C has to see to, as nothing checks it:
 *   - Each pointer is valid for its length, aligned, and not null, also where the length is 0.
 *   - What a call writes (frames, end, cleanups, delivery, place, a session) overlaps nothing else that is handed in, and
 *     nobody changes memory that is handed in while a call runs.
 *   - A `bool` is 0 or 1.
 *   - kz_walk, kz_deliver, kz_session_deliver, kz_session_open and kz_session_close take memory by malloc and realloc,
 *     or give it back by free: they aren't called from a signal handler, or from the forked child of a process with
 *     threads. kz_session_walk takes none. A handler may call it for a session that no interrupted call uses.
 *   - Calls may run side by side in several threads; a session is used by one call at a time, and in
 *     the thread that opened it, or in a handler that runs there.
 */
#ifndef KALZURENK_H
#define KALZURENK_H

#include <stdbool.h>
#include <stddef.h>
#include <stdint.h>

#ifdef __cplusplus
extern "C" {
#endif

/* The version of this header: its layouts, numbers and calls. */
#define KZ_VERSION 2

/* The version of the library that is linked: the same, or its layouts are others. */
uint32_t kz_version(void);

/* The first member of a struct that is handed in by its address is its size, as the caller was compiled: sizeof of it;
 * that of a frame stands in its end, and that of a cleanup in its delivery. A session is an address alone. So a struct
 * can grow with the library: a call that knows another size answers which struct it is, and reads no more of it. A call
 * that writes a struct leaves its sizes. */

/* Memory: bytes that lie at an address and after it. */
typedef struct kz_region {
    uint64_t size; /* sizeof(kz_region) */
    uint64_t address;
    const uint8_t *bytes;
    size_t length;
} kz_region;

/* The format of a module, and what `tables` and `more` are in it. */
enum {
    KZ_ELF = 0,        /* the address of .eh_frame;       the text base, or 0 */
    KZ_ELF_HEADER = 1, /* the address of .eh_frame_hdr;   the text base, or 0 */
    KZ_MACHO = 2,      /* the address of __unwind_info;   that of __eh_frame, or 0 */
    KZ_PE = 3          /* the RVA of .pdata;              how many bytes it has */
};

/* A module: its addresses are those from `start` to before `end`. The start of a Mach-O or a PE module
 * is its base. */
typedef struct kz_module {
    uint64_t size; /* sizeof(kz_module) */
    uint64_t start;
    uint64_t end;
    uint64_t tables;
    uint64_t more;
    uint64_t format;
} kz_module;

/* The registers of a stopped thread. The general ones are in the order of DWARF: rax, rdx, rcx, rbx,
 * rsi, rdi, rbp, rsp, r8 to r15. */
typedef struct kz_registers {
    uint64_t size; /* sizeof(kz_registers) */
    uint64_t general[16];
    uint64_t ip;
} kz_registers;

/* A frame: of the first, and of one that a signal interrupted, the instruction pointer, of each other the
 * address to which its callee returns; the stack pointer, which is the canonical frame address of the frame
 * before; the registers that calls keep; and whether it was interrupted where it stands, and not stopped in a
 * call: of the first as the call says, and of each other whether the frame before is a signal's. The address
 * to look up is `ra` where it was, else `ra` - 1. */
typedef struct kz_frame {
    uint64_t ra;
    uint64_t sp;
    uint64_t rbx;
    uint64_t rbp;
    uint64_t r12;
    uint64_t r13;
    uint64_t r14;
    uint64_t r15;
    uint64_t interrupted; /* 1 or 0 */
} kz_frame;

/* Why there are no more frames. */
enum {
    KZ_OUTERMOST = 0,      /* the last frame's `ra` is 0: it is the end of the stack */
    KZ_NO_MODULE = 1,      /* no module holds `address` */
    KZ_NO_DESCRIPTION = 2, /* the tables of its module say nothing of `address` */
    KZ_UNREADABLE = 3,     /* `detail` bytes into the frame table an entry can't be read, for `error` */
    KZ_REFUSED = 4,        /* the step from `address` has the fault `error` */
    KZ_LIMIT = 5           /* there are as many frames as there are places */
};

/* Errors of call frame information are 1 to 25. */
enum {
    KZ_END_OF_BYTES = 1,
    KZ_UNKNOWN_ENCODING = 2,
    KZ_UNSUPPORTED_ENCODING = 3,
    KZ_OMITTED_POINTER = 4,
    KZ_UNDEFINED_BASE = 5,
    KZ_BAD_ULEB128 = 6,
    KZ_BAD_SLEB128 = 7,
    KZ_UNKNOWN_VERSION = 8,
    KZ_ADDRESS_SIZE = 9,
    KZ_UNKNOWN_AUGMENTATION = 10,
    KZ_NO_CIE = 11,
    KZ_NO_FDE = 12,
    KZ_ADDRESS_OVERFLOW = 13,
    KZ_LOCATION_GOES_BACK = 14,
    KZ_UNKNOWN_INSTRUCTION = 15,
    KZ_NO_CFA_REGISTER = 16,
    KZ_TOO_MANY_RULES = 17,
    KZ_STACK_FULL = 18,
    KZ_STACK_EMPTY = 19,
    KZ_UNSUPPORTED_REGISTER = 20,
    KZ_UNKNOWN_OPERATION = 21,
    KZ_DIVISION_BY_ZERO = 22,
    KZ_BAD_BRANCH = 23,
    KZ_TOO_MANY_OPERATIONS = 24,
    KZ_NO_UNWIND_INFORMATION = 25,
    /* of a section of compact unwinding: a part that doesn't fit in its bytes */
    KZ_COMPACT_HEADER = 101,
    KZ_COMPACT_GLOBAL_OPCODES = 102,
    KZ_COMPACT_PAGES = 103,
    KZ_COMPACT_REGULAR_PAGE = 104,
    KZ_COMPACT_REGULAR_FUNCTIONS = 105,
    KZ_COMPACT_COMPRESSED_PAGE = 106,
    KZ_COMPACT_COMPRESSED_FUNCTIONS = 107,
    KZ_COMPACT_LOCAL_OPCODES = 108,
    KZ_COMPACT_PAGE_KIND = 109,
    /* the same: what it says */
    KZ_COMPACT_FIRST_ADDRESS = 110,
    KZ_COMPACT_KIND = 111,
    KZ_COMPACT_SENTINEL = 112,
    KZ_COMPACT_OVERFLOW = 113,
    /* of a part again: one that deliveries alone read */
    KZ_COMPACT_PERSONALITIES = 114,
    KZ_COMPACT_LSDA = 115,
    /* of a step */
    KZ_UNMAPPED = 201,     /* the word at `detail` isn't wholly in a region */
    KZ_COMPACT_FORM = 202, /* the function's opcode gives no caller */
    KZ_PE_INFO = 203,      /* unwind data of a PE module can't be read */
    KZ_CHAIN_LIMIT = 204,  /* more than 32 unwind records are chained */
    /* of a delivery */
    KZ_FRAME_LIMIT = 211, /* the search or a pass needs more states than the limit */
    KZ_PASS_LIMIT = 212,  /* more cleanups would run than the limit */
    KZ_NO_RESUME = 213    /* the resume table has no return address for the pad `detail` */
};

/* How far a walk came: how many frames there are, and why there are no more. What a reason doesn't
 * speak of is 0. */
typedef struct kz_end {
    uint64_t size;       /* sizeof(kz_end) */
    uint64_t frame_size; /* sizeof(kz_frame) */
    uint64_t count;
    uint64_t address;
    uint64_t detail;
    uint32_t reason;
    uint32_t error;
} kz_end;

/* What is faulty of what was handed in: the place of the region, the module or the pair in its list, 0 for
 * what stands in no list; and where it shares an address with earlier ones, the lowest start of these. */
typedef struct kz_place {
    uint64_t size; /* sizeof(kz_place) */
    uint64_t index;
    uint64_t address;
} kz_place;

/* What a call answers. */
enum {
    KZ_OK = 0,
    KZ_NO_MEMORY = 1,
    KZ_REGION_EMPTY = 2,    /* a region has no bytes */
    KZ_REGION_WRAPS = 3,    /* a region ends past the highest address */
    KZ_REGION_OVERLAPS = 4, /* a region shares an address with an earlier one */
    KZ_MODULE_FORMAT = 5,   /* a module's format isn't known, or a number of a PE module has over 32 bits */
    KZ_MODULE_WRAPS = 6,    /* a module is empty or reversed, or a Mach-O or PE module has 2^32 bytes or more */
    KZ_MODULE_OVERLAPS = 7, /* a module shares an address with an earlier one */
    /* a size isn't known: */
    KZ_REGION_SIZE = 8,     /* that of a region */
    KZ_MODULE_SIZE = 9,     /* that of a module */
    KZ_REGISTERS_SIZE = 10, /* that of the registers */
    KZ_END_SIZE = 11,       /* that of the end */
    KZ_FRAME_SIZE = 12,     /* that of a frame */
    KZ_PLACE_SIZE = 13,     /* that of the place; nothing is written */
    KZ_THROW_SIZE = 14,     /* that of what is thrown */
    KZ_RESUME_SIZE = 15,    /* that of a pair of the resume table */
    KZ_DELIVERY_SIZE = 16,  /* that of the delivery */
    KZ_CLEANUP_SIZE = 17    /* that of a cleanup */
};

/* What these structs are initialized with, sizes and all: `kz_end end = KZ_END;`. */
#define KZ_END {sizeof(kz_end), sizeof(kz_frame), 0, 0, 0, 0, 0}
#define KZ_PLACE {sizeof(kz_place), 0, 0}
#define KZ_REGION(address, bytes, length) {sizeof(kz_region), (address), (bytes), (length)}
#define KZ_MODULE(start, end, tables, more, format) {sizeof(kz_module), (start), (end), (tables), (more), (format)}

/* Walks the stack of a stopped thread as far as it goes, at most `frames_length` frames (and at most
 * 2^32 - 1), and says why there are no more.
 *
 * `interrupted` says that the thread stands before the instruction at `start->ip`, and not after a call.
 * Where the answer isn't KZ_OK, `frames` and `end` are as before, and `place` says what is faulty, unless
 * its own size isn't known. Of `frames` only the first `end->count` are written. */
uint32_t kz_walk(const kz_region *regions, size_t regions_length, const kz_module *modules,
                 size_t modules_length, const kz_registers *start, bool interrupted, kz_frame *frames,
                 size_t frames_length, kz_end *end, kz_place *place);

/* What is thrown: the exception's word, which RAX holds at each landing pad, and the most states of the
 * search and of each pass, which is also the most cleanups. */
typedef struct kz_throw {
    uint64_t size; /* sizeof(kz_throw) */
    uint64_t exception;
    uint32_t limit;
} kz_throw;

/* Where a delivery goes on after the cleanup at a landing pad: what the call of _Unwind_Resume that ends
 * the cleanup would return to. Of several pairs of one pad the first counts. */
typedef struct kz_resume {
    uint64_t size; /* sizeof(kz_resume) */
    uint64_t pad;
    uint64_t ret;
} kz_resume;

/* A cleanup that runs: its landing pad, and the stack pointer there. */
typedef struct kz_cleanup {
    uint64_t pad;
    uint64_t sp;
} kz_cleanup;

/* How a delivery ends. */
enum {
    KZ_INSTALLED = 0,     /* at the landing pad of the frame that takes the exception */
    KZ_END_OF_STACK = 1,  /* no frame takes it */
    KZ_FATAL_PHASE_1 = 2, /* in the search a language table says to terminate, or isn't readable */
    KZ_FATAL_PHASE_2 = 3, /* in a cleanup pass it does, or the stack ends */
    KZ_NOT_DELIVERED = 4  /* the delivery is refused, for `error`; nothing is visited and no cleanup runs */
};

/* What a delivery does. What its outcome doesn't speak of is 0. */
typedef struct kz_delivery {
    uint64_t size;         /* sizeof(kz_delivery) */
    uint64_t cleanup_size; /* sizeof(kz_cleanup) */
    uint64_t visited;      /* how many states the search visits */
    uint64_t cleanups;     /* how many cleanups run */
    uint64_t detail;       /* of KZ_UNMAPPED the address, of KZ_NO_RESUME the landing pad */
    uint32_t outcome;
    uint32_t error;
    uint64_t general[16]; /* the registers at the handler, in the order of kz_registers */
    uint64_t ip;          /* the handler's landing pad */
} kz_delivery;

#define KZ_DELIVERY {sizeof(kz_delivery), sizeof(kz_cleanup), 0, 0, 0, 0, 0, {0}, 0}
#define KZ_THROW(exception, limit) {sizeof(kz_throw), (exception), (limit)}
#define KZ_RESUME(pad, ret) {sizeof(kz_resume), (pad), (ret)}

/* Delivers an exception to the stack of a thread, as the Itanium C++ ABI says: a search for a frame that
 * takes it, and then the cleanups on the way there, from the innermost outwards, up to the landing pad of
 * that frame. Of the cleanups as many are written as there are places.
 *
 * `start` is a state that was stopped in a call: `start->ip` is what the call returns to. The frame that
 * takes the exception is the first whose language table has a handler as the first action there, of
 * whatever type, as Rust's personality reads it: a frame of C++ that cleans up first and then handles is
 * passed. RDX is 0 at each landing pad. Where the answer isn't KZ_OK, `cleanups` and `delivery` are as
 * before, and `place` says what is faulty, unless its own size isn't known. */
uint32_t kz_deliver(const kz_region *regions, size_t regions_length, const kz_module *modules,
                    size_t modules_length, const kz_registers *start, const kz_throw *thrown,
                    const kz_resume *resumes, size_t resumes_length, kz_cleanup *cleanups,
                    size_t cleanups_length, kz_delivery *delivery, kz_place *place);

/* A session: modules that are kept from walk to walk, with indexes of their frame tables. */
typedef struct kz_session {
    void *at;
} kz_session;

/* Opens a session over these modules, of whose walks each has at most `limit` frames.
 *
 * The bytes of the regions have to stay as they are for ever; the lists themselves needn't stay. Each
 * ELF module that can be gets an index. `*session` is written where the answer is KZ_OK, and is then to
 * be passed to the calls below, and to be closed once. */
uint32_t kz_session_open(const kz_region *regions, size_t regions_length, const kz_module *modules,
                         size_t modules_length, uint32_t limit, void **session, kz_place *place);

/* Walks as kz_walk does, over the session's modules, with these regions beside those of the session: the
 * thread's stack, in one region or a few. At most the session's `limit` frames are written. No memory is
 * taken, and the answer is never KZ_NO_MEMORY. A thread that was stopped at an instruction has 128 bytes of
 * its stack below its stack pointer: hand these in, too. */
uint32_t kz_session_walk(kz_session *session, const kz_region *regions, size_t regions_length,
                         const kz_registers *start, bool interrupted, kz_frame *frames,
                         size_t frames_length, kz_end *end, kz_place *place);

/* Delivers as kz_deliver does, over the session's modules, with these regions beside those of the session.
 * Memory is taken for the resume table and for `thrown->limit` states, and given back. */
uint32_t kz_session_deliver(kz_session *session, const kz_region *regions, size_t regions_length,
                            const kz_registers *start, const kz_throw *thrown, const kz_resume *resumes,
                            size_t resumes_length, kz_cleanup *cleanups, size_t cleanups_length,
                            kz_delivery *delivery, kz_place *place);

/* Gives a session's memory back. */
void kz_session_close(kz_session session);

#ifdef __cplusplus
}
#endif

#endif
