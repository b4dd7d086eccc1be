/* Samples of a thread: the handler of a timer's signal walks the stack where it lies by a session, and then libgcc and
 * libunwind walk it from the same handler.
 *
 * Include it first, as own_process.h. */
#ifndef BESIDE_OTHERS_H
#define BESIDE_OTHERS_H
#include "own_process.h"
#define UNW_LOCAL_ONLY
#include <libunwind.h>
#include <signal.h>
#include <time.h>
#include <unistd.h>
#include <unwind.h>

enum { MOST = 1024, MOST_TRACED = 1024, KEPT = 1 << 20 };

typedef struct trace {
    void *found[MOST_TRACED];
    int length;
} trace;

static own_modules own;
static kz_session session;
static uint64_t stack_end;
static timer_t timer;
static volatile int samples, wanted = 1000;
static int by_libgcc, by_libunwind, whole, frames_in_all;
static void *innermost[KEPT];
/* Called with a sample in which one of the others found other frames. */
static void (*differs)(const kz_frame *frames, const kz_end *end, const trace *libgcc, const trace *libunwind);

static _Unwind_Reason_Code add_one(struct _Unwind_Context *context, void *data) {
    trace *to = (trace *)data;
    if (to->length == MOST_TRACED)
        return _URC_END_OF_STACK;
    if (_Unwind_GetIP(context) != 0)
        to->found[to->length++] = (void *)_Unwind_GetIP(context);
    return _URC_NO_REASON;
}

static void trace_by_libgcc(trace *to) {
    to->length = 0;
    _Unwind_Backtrace(add_one, to);
}

static void trace_by_libunwind(trace *to) {
    unw_context_t here;
    unw_cursor_t cursor;
    to->length = 0;
    unw_getcontext(&here);
    unw_init_local(&cursor, &here);
    do {
        unw_word_t ip = 0;
        unw_get_reg(&cursor, UNW_REG_IP, &ip);
        if (ip != 0 && to->length < MOST_TRACED)
            to->found[to->length++] = (void *)ip;
    } while (unw_step(&cursor) > 0);
}

static void on_timer(int number, siginfo_t *info, void *context) {
    (void)number, (void)info;
    if (samples == wanted)
        return;
    kz_registers start = registers_of((const ucontext_t *)context);
    kz_region memory = stack_from(start_of_stack(&start), stack_end);
    static kz_frame frames[MOST];
    static trace libgcc, libunwind;
    kz_end end = KZ_END;
    kz_place place = KZ_PLACE;
    if (kz_session_walk(&session, &memory, 1, &start, true, frames, MOST, &end, &place) != KZ_OK)
        return;
    trace_by_libgcc(&libgcc);
    trace_by_libunwind(&libunwind);
    bool is_libgccs = agree(frames, &end, libgcc.found, libgcc.length);
    bool is_libunwinds = agree(frames, &end, libunwind.found, libunwind.length);
    by_libgcc += is_libgccs;
    by_libunwind += is_libunwinds;
    if (differs != NULL && !(is_libgccs && is_libunwinds))
        differs(frames, &end, &libgcc, &libunwind);
    whole += end.reason == KZ_OUTERMOST;
    frames_in_all += (int)returns_in(&end);
    innermost[samples % KEPT] = (void *)start.ip;
    samples++;
}

/* Begins to sample the calling thread, so many nanoseconds apart; answers whether it could. */
static bool begin_samples(long nanoseconds) {
    static trace first;
    trace_by_libgcc(&first), trace_by_libunwind(&first); /* so that both make their tables now */
    find_modules(&own);
    stack_end = end_of_stack();
    kz_place place = KZ_PLACE;
    if (kz_session_open(own.tables, own.length, own.modules, own.length, MOST, &session.at, &place) != KZ_OK)
        return false;
    struct sigaction action = {.sa_sigaction = on_timer, .sa_flags = SA_SIGINFO | SA_RESTART};
    sigaction(SIGPROF, &action, NULL);
    struct sigevent event = {.sigev_notify = SIGEV_THREAD_ID, .sigev_signo = SIGPROF};
    event._sigev_un._tid = gettid();
    struct itimerspec every = {{0, nanoseconds}, {0, nanoseconds}};
    return timer_create(CLOCK_MONOTONIC, &event, &timer) == 0 && timer_settime(timer, 0, &every, NULL) == 0;
}

#endif
