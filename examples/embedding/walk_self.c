/* Samples of the program's own thread: a signal stops it in a callback of the C library, and the handler walks the stack
 * where it lies. It copies registers and stack, too, and the copy is walked after it. Both walks are compared with what
 * glibc's backtrace() finds in the handler, by libgcc. */
#include "own_process.h"
#include <execinfo.h>
#include <inttypes.h>
#include <signal.h>
#include <stdio.h>
#include <stdlib.h>
#include <string.h>

enum { MOST = 256, STACK = 1 << 20 };

static own_modules own;
static kz_session session;
static kz_registers start;
static uint8_t stack[STACK];
static kz_region memory;
static uint64_t stack_end;
static void *found[MOST];
static int found_length;

/* What a walk tells. */
typedef struct walk {
    kz_frame frames[MOST];
    kz_end end;
    kz_place place;
    uint32_t status;
} walk;

static walk in_handler = {.end = KZ_END, .place = KZ_PLACE}, of_copy = {.end = KZ_END, .place = KZ_PLACE};

static void walk_over(const kz_region *region, walk *to) {
    to->status = kz_session_walk(&session, region, 1, &start, true, to->frames, MOST, &to->end, &to->place);
}

static void on_signal(int number, siginfo_t *info, void *context) {
    (void)number, (void)info;
    start = registers_of(context);
    uint64_t from = start_of_stack(&start);
    kz_region here = stack_from(from, stack_end);
    walk_over(&here, &in_handler);
    size_t length = stack_end - from < STACK ? stack_end - from : STACK;
    memcpy(stack, (const void *)from, length);
    memory = (kz_region)KZ_REGION(from, stack, length);
    found_length = backtrace(found, MOST);
}

static int by_callback(const void *a, const void *b) {
    raise(SIGUSR1);
    return *(const int *)a - *(const int *)b;
}

__attribute__((noinline)) static uint64_t deep(int n) {
    volatile uint64_t here = (uint64_t)n;
    if (n == 0) {
        int two[2] = {2, 1};
        qsort(two, 2, sizeof two[0], by_callback);
        return here;
    }
    return deep(n - 1) + here;
}

static int fail(const char *what, uint32_t status, const kz_place *place) {
    printf("%s: status %u at %" PRIu64 " (%#" PRIx64 ")\n", what, status, place->index, place->address);
    return 1;
}

int main(void) {
    find_modules(&own);
    stack_end = end_of_stack();
    (void)backtrace(found, MOST); /* so that it loads libgcc now, and not in the handler */
    find_modules(&own);

    kz_place place = KZ_PLACE;
    uint32_t status = kz_session_open(own.tables, own.length, own.modules, own.length, MOST, &session.at, &place);
    if (status != KZ_OK)
        return fail("open", status, &place);
    struct sigaction action = {.sa_sigaction = on_signal, .sa_flags = SA_SIGINFO};
    sigaction(SIGUSR1, &action, NULL);
    (void)deep(20);
    walk_over(&memory, &of_copy);
    kz_session_close(session);
    if (in_handler.status != KZ_OK)
        return fail("in the handler", in_handler.status, &in_handler.place);
    if (of_copy.status != KZ_OK)
        return fail("of the copy", of_copy.status, &of_copy.place);

    const kz_frame *frames = in_handler.frames;
    const kz_end *end = &in_handler.end;
    bool agrees = agree(frames, end, found, found_length);
    bool copy_agrees = agree(of_copy.frames, &of_copy.end, found, found_length);
    for (uint64_t i = 0; i < returns_in(end); i++) {
        char **name = backtrace_symbols((void *const[]){(void *)frames[i].ra}, 1);
        printf("#%-2" PRIu64 " %#018" PRIx64 " sp %#" PRIx64 "  %s\n", i, frames[i].ra, frames[i].sp, name[0]);
        free(name);
    }
    printf("%" PRIu64 " frames of %zu modules, end %u at %#" PRIx64, returns_in(end), own.length, end->reason, end->address);
    printf(": backtrace() %s in the handler, and %s with the copy\n", agrees ? "agrees" : "DIFFERS",
           copy_agrees ? "agrees" : "DIFFERS");
    return agrees && copy_agrees ? 0 : 1;
}
