/* Walks of one stack, so many times, by one of several unwinders: for callgrind, whose counts for two numbers of walks
 * are subtracted.
 *
 *     measure session|walk|unw_step|unw_backtrace|libgcc|deliver|raise WALKS DEPTH
 *
 * The last two search it for a handler, and find none: kz_deliver, and libgcc's _Unwind_RaiseException.
 *
 * The stack goes through the program's own functions and the C library's qsort. Kalzurenk walks it where it lies, from
 * the function that calls it; the others begin in it. */
#include "own_process.h"
#define UNW_LOCAL_ONLY
#include <libunwind.h>
#include <stdio.h>
#include <stdlib.h>
#include <string.h>
#include <unwind.h>

enum { MOST = 1024 };

static own_modules own;
static uint64_t stack_end;
static const char *how;
static int walks;
static unsigned long counted;

static _Unwind_Reason_Code count_one(struct _Unwind_Context *context, void *data) {
    (void)data;
    counted += _Unwind_GetIP(context) != 0;
    return _URC_NO_REASON;
}

static void fail(const char *what, uint32_t status) {
    fprintf(stderr, "%s: %u\n", what, status);
    exit(1);
}

static void walk_by_session(const kz_region *memory, const kz_registers *start) {
    static kz_frame frames[MOST];
    kz_session session;
    kz_place place = KZ_PLACE;
    kz_end end = KZ_END;
    uint32_t status =
        kz_session_open(own.tables, own.length, own.modules, own.length, MOST, &session.at, &place);
    if (status != KZ_OK)
        fail("open", status);
    for (int i = 0; i < walks; i++) {
        status = kz_session_walk(&session, memory, 1, start, true, frames, MOST, &end, &place);
        if (status != KZ_OK || end.reason != KZ_OUTERMOST)
            fail("walk", status);
        counted += returns_in(&end);
    }
    kz_session_close(session);
}

static kz_region regions[MOST_MODULES + 1];

static void walk_anew(const kz_registers *start) {
    static kz_frame frames[MOST];
    kz_place place = KZ_PLACE;
    kz_end end = KZ_END;
    for (int i = 0; i < walks; i++) {
        uint32_t status = kz_walk(regions, own.length + 1, own.modules, own.length, start, true, frames, MOST, &end, &place);
        if (status != KZ_OK || end.reason != KZ_OUTERMOST)
            fail("walk", status);
        counted += returns_in(&end);
    }
}

static void deliver(const kz_registers *start) {
    static const kz_resume no_resumes[1];
    static kz_cleanup cleanups[MOST];
    kz_throw thrown = KZ_THROW(0, MOST);
    kz_delivery delivery = KZ_DELIVERY;
    kz_place place = KZ_PLACE;
    for (int i = 0; i < walks; i++) {
        uint32_t status = kz_deliver(regions, own.length + 1, own.modules, own.length, start, &thrown, no_resumes, 0, cleanups,
                                     MOST, &delivery, &place);
        if (status != KZ_OK || delivery.outcome != KZ_END_OF_STACK)
            fail("deliver", status);
        counted += delivery.visited - 1;
    }
}

static __attribute__((noinline)) void walk_all(void) {
    ucontext_t here;
    getcontext(&here);
    kz_registers start = registers_of(&here);
    kz_region memory = stack_from(stack_pointer(&start), stack_end);
    memcpy(regions, own.tables, sizeof own.tables);
    regions[own.length] = memory;
    if (strcmp(how, "session") == 0)
        walk_by_session(&memory, &start);
    if (strcmp(how, "walk") == 0)
        walk_anew(&start);
    if (strcmp(how, "deliver") == 0)
        deliver(&start);
    for (int i = 0; strcmp(how, "raise") == 0 && i < walks; i++) {
        static struct _Unwind_Exception exception;
        if (_Unwind_RaiseException(&exception) != _URC_END_OF_STACK)
            fail("raise", 0);
        counted++;
    }
    for (int i = 0; strcmp(how, "unw_step") == 0 && i < walks; i++) {
        unw_cursor_t cursor;
        unw_context_t now;
        unw_getcontext(&now);
        unw_init_local(&cursor, &now);
        do {
            unw_word_t ip;
            unw_get_reg(&cursor, UNW_REG_IP, &ip);
            counted += ip != 0;
        } while (unw_step(&cursor) > 0);
    }
    for (int i = 0; strcmp(how, "unw_backtrace") == 0 && i < walks; i++) {
        static void *found[MOST];
        counted += (unsigned long)unw_backtrace(found, MOST);
    }
    for (int i = 0; strcmp(how, "libgcc") == 0 && i < walks; i++)
        _Unwind_Backtrace(count_one, NULL);
    if (walks > 0)
        printf("%lu\n", counted / (unsigned long)walks);
}

static int by_callback(const void *a, const void *b) {
    static bool is_done;
    if (!is_done)
        walk_all();
    is_done = true;
    return *(const int *)a - *(const int *)b;
}

static __attribute__((noinline)) int deep(int n) {
    volatile int here = n;
    if (n == 0) {
        int two[2] = {2, 1};
        qsort(two, 2, sizeof two[0], by_callback);
        return here;
    }
    return deep(n - 1) + here;
}

int main(int count, char **words) {
    if (count < 4)
        return 2;
    how = words[1];
    walks = atoi(words[2]);
    find_modules(&own);
    stack_end = end_of_stack();
    return deep(atoi(words[3])) < 0;
}
