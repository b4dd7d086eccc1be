/* The mark of each frame: a signal's handler walks its own stack, through the frame of the signal, and a second signal's
 * handler walks through both. Each frame's mark is compared with what libgcc says of the same frame (_Unwind_GetIPInfo), and
 * the marked frames with the places at which the signals stopped the thread. */
#include "own_process.h"
#include <signal.h>
#include <stdio.h>
#include <unwind.h>

enum { MOST = 64 };

static own_modules own;
static kz_session session;
static uint64_t stack_end, stopped_at[2];
static int is_due = 1, signals;

typedef struct trace {
    uint64_t ip[MOST];
    int interrupted[MOST];
    int length;
} trace;

static _Unwind_Reason_Code add_one(struct _Unwind_Context *context, void *data) {
    trace *to = data;
    if (to->length < MOST) {
        to->ip[to->length] = _Unwind_GetIPInfo(context, &to->interrupted[to->length]);
        to->length++;
    }
    return _URC_NO_REASON;
}

__attribute__((noinline)) static void walk_here(void) {
    ucontext_t here;
    getcontext(&here);
    kz_registers start = registers_of(&here);
    kz_region memory = stack_from(stack_pointer(&start), stack_end);
    static kz_frame frames[MOST];
    kz_end end = KZ_END;
    kz_place place = KZ_PLACE;
    static trace libgcc;
    libgcc.length = 0;
    is_due &= kz_session_walk(&session, &memory, 1, &start, false, frames, MOST, &end, &place) == KZ_OK;
    _Unwind_Backtrace(add_one, &libgcc);
    is_due &= end.reason == KZ_OUTERMOST && end.count > 4;
    int marked = 0;
    for (uint64_t i = 1; i < returns_in(&end) && (int)i < libgcc.length; i++) {
        is_due &= frames[i].ra == libgcc.ip[i] && frames[i].interrupted == (uint64_t)(libgcc.interrupted[i] != 0);
        if (frames[i].interrupted == 1)
            is_due &= marked < signals && frames[i].ra == stopped_at[signals - ++marked];
    }
    is_due &= marked == signals && frames[0].interrupted == 0;
    printf("%d signals: %d of %d frames were interrupted\n", signals, marked, (int)returns_in(&end));
}

static void on_signal(int number, siginfo_t *info, void *context) {
    (void)info;
    stopped_at[signals++] = (uint64_t)((ucontext_t *)context)->uc_mcontext.gregs[REG_RIP];
    walk_here();
    if (number == SIGUSR1)
        raise(SIGUSR2);
}

int main(void) {
    find_modules(&own);
    stack_end = end_of_stack();
    kz_place place = KZ_PLACE;
    if (kz_session_open(own.tables, own.length, own.modules, own.length, MOST, &session.at, &place) != KZ_OK)
        return 2;
    struct sigaction action = {.sa_sigaction = on_signal, .sa_flags = SA_SIGINFO};
    sigaction(SIGUSR1, &action, NULL);
    sigaction(SIGUSR2, &action, NULL);
    walk_here();
    raise(SIGUSR1);
    kz_session_close(session);
    puts(is_due ? "the marks are libgcc's" : "the marks DIFFER");
    return is_due && signals == 2 ? 0 : 1;
}
