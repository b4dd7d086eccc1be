/* A crash handler: it runs on a stack of its own, walks the stack that crashed where it lies, and writes a backtrace.
 * The session is opened when the program starts. The walk takes no memory, so that a handler may make it.
 *
 *     crash write|call|overflow
 *
 * `write`: to a null pointer. `call`: through one, whose caller is known by the return address that the call pushed.
 * `overflow`: of the stack. The first two are compared with what backtrace() found just before, in the same function:
 * from its caller on the frames have to be the same. */
#include "own_process.h"
#include <execinfo.h>
#include <signal.h>
#include <stdio.h>
#include <stdlib.h>
#include <string.h>
#include <sys/uio.h>
#include <unistd.h>

enum { MOST = 64, PAGE = 4096 };

static own_modules own;
static kz_session session;
static uint64_t stack_end;
static const char *how;
static void *found[MOST];
static int found_length;

/* The first address from `low` on that can be read: a stack that overflowed has its pointer in a guard page. */
static uint64_t readable_from(uint64_t low, uint64_t end) {
    while (low < end) {
        char byte;
        struct iovec here = {&byte, 1}, there = {(void *)low, 1};
        if (process_vm_readv(getpid(), &here, 1, &there, 1, 0) == 1)
            return low;
        low = (low | (PAGE - 1)) + 1;
    }
    return end;
}

static void put(const char *text) { (void)!write(STDERR_FILENO, text, strlen(text)); }

static void put_number(uint64_t number) {
    char text[19] = "0x0000000000000000";
    for (int i = 17; i > 1; i--, number >>= 4)
        text[i] = "0123456789abcdef"[number & 15];
    put(text);
}

static void put_frame(uint64_t address) {
    put("  ");
    put_number(address);
    for (size_t i = 0; i < own.length; i++) {
        if (own.modules[i].start <= address && address < own.modules[i].end) {
            put(" in ");
            put(own.names[i]);
        }
    }
    put("\n");
}

static bool is_in_module(uint64_t address) {
    for (size_t i = 0; i < own.length; i++)
        if (own.modules[i].start <= address && address < own.modules[i].end)
            return true;
    return false;
}

/* Whether the callers of the innermost frame are those that backtrace() found in its function. */
static bool has_found_callers(const kz_frame *frames, const kz_end *end) {
    if (end->reason != KZ_OUTERMOST || returns_in(end) != (uint64_t)found_length)
        return false;
    for (int i = 1; i < found_length; i++)
        if (frames[i].ra != (uint64_t)found[i])
            return false;
    return found_length > 20;
}

static void on_crash(int number, siginfo_t *info, void *context) {
    (void)number, (void)info;
    kz_registers start = registers_of(context);
    bool interrupted = true;
    if (!is_in_module(start.ip)) { /* a call to nowhere: go on after it */
        start.ip = *(const uint64_t *)stack_pointer(&start);
        start.general[7] += 8;
        interrupted = false;
    }
    kz_region memory = stack_from(readable_from(start_of_stack(&start), stack_end), stack_end);
    static kz_frame frames[MOST];
    kz_end end = KZ_END;
    kz_place place = KZ_PLACE;
    uint32_t status = kz_session_walk(&session, &memory, 1, &start, interrupted, frames, MOST, &end, &place);
    if (status != KZ_OK)
        _exit(2);
    put("crashed:\n");
    for (uint64_t i = 0; i < end.count && i < 8; i++)
        put_frame(frames[i].ra);
    bool is_due = strcmp(how, "overflow") == 0 ? end.reason == KZ_LIMIT && end.count == MOST
                                               : has_found_callers(frames, &end);
    put(is_due ? "as it should be\n" : "DIFFERS\n");
    _exit(is_due ? 0 : 1);
}

static volatile uint64_t *nowhere;
static uint64_t (*volatile no_function)(uint64_t);

/* Goes so deep, and then crashes. */
__attribute__((noinline)) static uint64_t deep(uint64_t n) {
    volatile uint64_t here[16] = {n};
    if (n == 0)
        found_length = backtrace(found, MOST);
    if (n == 0 && strcmp(how, "write") == 0)
        *nowhere = 1;
    if (n == 0 && strcmp(how, "call") == 0)
        return no_function(n) + here[0];
    return deep(n - 1) + here[0];
}

int main(int count, char **words) {
    how = count > 1 ? words[1] : "write";
    find_modules(&own);
    stack_end = end_of_stack();
    kz_place place = KZ_PLACE;
    if (kz_session_open(own.tables, own.length, own.modules, own.length, MOST, &session.at, &place) != KZ_OK)
        return 2;
    stack_t alternate = {.ss_sp = malloc(1 << 16), .ss_size = 1 << 16};
    sigaltstack(&alternate, NULL);
    struct sigaction action = {.sa_sigaction = on_crash, .sa_flags = SA_SIGINFO | SA_ONSTACK};
    sigaction(SIGSEGV, &action, NULL);
    return deep(20) == 1 ? 3 : 4;
}
