/* A C++ exception that is delivered by kz_deliver, and over a session, compared with what the process does. The program's
 * own functions of the base ABI stand before libgcc's, which they call: they note each landing pad, its stack pointer and
 * its registers as the runtime enters it, and where each cleanup goes on. The first throw fills the resume table; each
 * further one is delivered by both before it is thrown. */
#include <cinttypes>
#include <cstdio>
#include <cstring>
#include <dlfcn.h>
#include <unwind.h>
extern "C" {
#include "own_process.h"
}

enum { MOST = 64, MOST_REGIONS = 1024 };

/* DWARF's numbers of what a landing pad keeps: RBX, RBP, R12 to R15. */
static const int kept[] = {3, 6, 12, 13, 14, 15};

struct Pad {
    uint64_t pad, sp, exception, kept[6];
};

static own_modules own;
static kz_region regions[MOST_REGIONS];
static size_t regions_length;
static kz_resume resumes[MOST];
static Pad pads[MOST];
static uint64_t stack_end, pending_pad;
static size_t resumes_length, pads_length;
static kz_cleanup cleanups[MOST], session_cleanups[MOST];
static kz_delivery told, session_told;
static kz_session session;
static uint32_t status;
static bool is_compared, differs;

template <typename Function> static Function next(const char *name) {
    return reinterpret_cast<Function>(dlsym(RTLD_NEXT, name));
}

/* The runtime enters a landing pad. */
extern "C" void _Unwind_SetIP(_Unwind_Context *context, _Unwind_Ptr ip) {
    next<void (*)(_Unwind_Context *, _Unwind_Ptr)>("_Unwind_SetIP")(context, ip);
    Pad &pad = pads[pads_length++];
    pad = {ip, _Unwind_GetCFA(context), _Unwind_GetGR(context, 0), {}};
    for (int i = 0; i < 6; i++)
        pad.kept[i] = _Unwind_GetGR(context, kept[i]);
    pending_pad = ip;
}

/* A cleanup ends. */
extern "C" void _Unwind_Resume(_Unwind_Exception *exception) {
    bool is_known = false;
    for (size_t i = 0; i < resumes_length; i++)
        is_known |= resumes[i].pad == pending_pad;
    if (!is_known)
        resumes[resumes_length++] = KZ_RESUME(pending_pad, (uint64_t)__builtin_return_address(0));
    next<void (*)(_Unwind_Exception *)>("_Unwind_Resume")(exception);
    __builtin_unreachable();
}

/* Adds the memory of a module: a delivery reads language tables, and the cells of data that name their personalities. */
static int add_segments(dl_phdr_info *info, size_t, void *) {
    for (int i = 0; i < info->dlpi_phnum; i++) {
        const ElfW(Phdr) &segment = info->dlpi_phdr[i];
        uint64_t start = info->dlpi_addr + segment.p_vaddr;
        if (segment.p_type == PT_LOAD && (segment.p_flags & PF_R) && regions_length < MOST_REGIONS - 1)
            regions[regions_length++] = KZ_REGION(start, (const uint8_t *)start, segment.p_memsz);
    }
    return 0;
}

static void check(const char *what, uint64_t is, uint64_t due) {
    if (is != due) {
        std::printf("%s: %#" PRIx64 " and not %#" PRIx64 "\n", what, is, due);
        differs = true;
    }
}

/* What is due from here on. */
__attribute__((noinline)) static void deliver_here(uint64_t exception) {
    ucontext_t here;
    getcontext(&here);
    kz_registers start = registers_of(&here);
    regions[regions_length] = stack_from(start_of_stack(&start), stack_end);
    kz_throw thrown = KZ_THROW(exception, MOST);
    kz_place place = KZ_PLACE;
    told = KZ_DELIVERY;
    status = kz_deliver(regions, regions_length + 1, own.modules, own.length, &start, &thrown, resumes, resumes_length,
                        cleanups, MOST, &told, &place);
    session_told = KZ_DELIVERY;
    uint32_t over = kz_session_deliver(&session, regions + regions_length, 1, &start, &thrown, resumes, resumes_length,
                                       session_cleanups, MOST, &session_told, &place);
    check("the status over the session", over, status);
    check("the session's outcome", session_told.outcome, told.outcome);
    check("the session's error", session_told.error, told.error);
    check("the session's detail", session_told.detail, told.detail);
    check("the session's landing pad", session_told.ip, told.ip);
    for (int i : kept)
        check("a register of the session's handler", session_told.general[i], told.general[i]);
    check("the session's stack pointer", session_told.general[7], told.general[7]);
    check("the session's cleanups", std::memcmp(session_cleanups, cleanups, sizeof cleanups) == 0, 1);
}

/* An exception is thrown. */
extern "C" _Unwind_Reason_Code _Unwind_RaiseException(_Unwind_Exception *exception) {
    pads_length = 0;
    if (is_compared)
        deliver_here((uint64_t)exception);
    return next<_Unwind_Reason_Code (*)(_Unwind_Exception *)>("_Unwind_RaiseException")(exception);
}

/* ---- what is thrown through */

struct Counted {
    static int live;
    int n;
    explicit Counted(int m) : n(m) { live++; }
    ~Counted() { live -= 1 + 0 * n; }
};
int Counted::live;

__attribute__((noinline)) static int throws(int n) {
    Counted here(n);
    if (n >= 0)
        throw n;
    return here.n;
}

__attribute__((noinline)) static int deep(int n, int kept_by_callee) {
    Counted here(n);
    volatile int spilled = kept_by_callee * 3;
    int result = n == 0 ? throws(kept_by_callee) : deep(n - 1, kept_by_callee + 1) + spilled;
    return result + here.n + kept_by_callee;
}

__attribute__((noinline)) static int without_cleanup(int n) {
    volatile int here = n;
    return deep(n, n) + here;
}

__attribute__((noinline)) static int catches(int n) {
    try {
        return without_cleanup(n);
    } catch (int thrown) {
        return thrown;
    }
}

/* ---- what is compared */

static void compare(const char *what) {
    check("status", status, KZ_OK);
    check("outcome", told.outcome, KZ_INSTALLED);
    check("error", told.error, 0);
    check("cleanups", told.cleanups, pads_length - 1);
    for (size_t i = 0; i + 1 < pads_length && i < told.cleanups; i++) {
        check("pad", cleanups[i].pad, pads[i].pad);
        check("stack pointer", cleanups[i].sp, pads[i].sp);
    }
    const Pad &handler = pads[pads_length - 1];
    check("landing", told.ip, handler.pad);
    check("its stack pointer", told.general[7], handler.sp);
    check("its exception", told.general[0], handler.exception);
    for (int i = 0; i < 6; i++)
        check("a register that calls keep", told.general[kept[i]], handler.kept[i]);
    std::printf("%s: %" PRIu64 " frames searched, %" PRIu64 " cleanups, and the handler: %s\n", what, told.visited,
                told.cleanups, differs ? "DIFFER" : "as the process did");
}

int main() {
    find_modules(&own);
    dl_iterate_phdr(add_segments, nullptr);
    stack_end = end_of_stack();
    /* Of these segments the calls read what doesn't change: tables, and cells with addresses. */
    kz_place place = KZ_PLACE;
    check("the session", kz_session_open(regions, regions_length, own.modules, own.length, MOST, &session.at, &place), KZ_OK);
    const int depths[] = {0, 1, 7};
    for (int n : depths) {
        is_compared = false;
        check("caught", (uint64_t)catches(n), (uint64_t)(n + n));
        is_compared = true;
        check("caught", (uint64_t)catches(n), (uint64_t)(n + n));
        check("live", (uint64_t)Counted::live, 0);
        compare(n == 0 ? "one call" : n == 1 ? "two calls" : "eight calls");
    }
    /* A cleanup whose pad the table doesn't have. */
    size_t all = resumes_length;
    resumes_length = 0;
    check("caught", (uint64_t)catches(2), 4);
    check("status", status, KZ_OK);
    check("outcome", told.outcome, KZ_NOT_DELIVERED);
    check("error", told.error, KZ_NO_RESUME);
    check("pad", told.detail, pads[0].pad);
    check("cleanups", told.cleanups, 0);
    /* A pair of another size. */
    resumes[1].size = 16;
    resumes_length = all;
    check("caught", (uint64_t)catches(2), 4);
    check("status", status, KZ_RESUME_SIZE);
    kz_session_close(session);
    std::puts(differs ? "FAILED" : "each delivery is as the process did it");
    return differs;
}
