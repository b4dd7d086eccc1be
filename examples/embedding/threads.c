/* Four threads, each with a session of its own over the same tables, each of which walks its own stack again and again, and
 * searches it for a handler, of which there is none. Run under helgrind, it shows that calls in several threads share
 * nothing. */
#include "own_process.h"
#include <stdio.h>

enum { THREADS = 4, WALKS = 200, MOST = 64 };

static own_modules own;

typedef struct thread_result {
    pthread_t thread;
    uint64_t walks, frames;
} thread_result;

/* Whether a search for a handler, from a frame that was stopped in a call, visits so many frames and finds none. */
static bool finds_no_handler(kz_session *session, const kz_region *memory, const kz_frame *frame, uint64_t frames) {
    static const kz_resume no_resumes[1];
    kz_registers start = {.size = sizeof start, .ip = frame->ra};
    start.general[3] = frame->rbx;
    start.general[6] = frame->rbp;
    start.general[7] = frame->sp;
    start.general[12] = frame->r12;
    start.general[13] = frame->r13;
    start.general[14] = frame->r14;
    start.general[15] = frame->r15;
    kz_throw thrown = KZ_THROW(0, MOST);
    kz_cleanup cleanup;
    kz_delivery delivery = KZ_DELIVERY;
    kz_place place = KZ_PLACE;
    uint32_t status =
        kz_session_deliver(session, memory, 1, &start, &thrown, no_resumes, 0, &cleanup, 1, &delivery, &place);
    return status == KZ_OK && delivery.outcome == KZ_END_OF_STACK && delivery.visited == frames;
}

__attribute__((noinline)) static uint64_t walk_here(kz_session *session, uint64_t stack_end) {
    ucontext_t here;
    getcontext(&here);
    kz_registers start = registers_of(&here);
    kz_region memory = stack_from(stack_pointer(&start), stack_end);
    kz_frame frames[MOST];
    kz_end end = KZ_END;
    kz_place place = KZ_PLACE;
    if (kz_session_walk(session, &memory, 1, &start, true, frames, MOST, &end, &place) != KZ_OK)
        return 0;
    if (end.reason != KZ_OUTERMOST || !finds_no_handler(session, &memory, &frames[1], end.count - 1))
        return 0;
    return end.count;
}

__attribute__((noinline)) static uint64_t deep(int n, kz_session *session, uint64_t stack_end) {
    volatile int here = n;
    return n == 0 ? walk_here(session, stack_end) : deep(n - 1, session, stack_end) + (uint64_t)(here - n);
}

static void *walk_often(void *data) {
    thread_result *result = data;
    uint64_t stack_end = end_of_stack();
    kz_session session;
    kz_place place = KZ_PLACE;
    if (kz_session_open(own.tables, own.length, own.modules, own.length, MOST, &session.at, &place) != KZ_OK)
        return NULL;
    for (int i = 0; i < WALKS; i++) {
        uint64_t frames = deep(i % 20, &session, stack_end);
        result->walks += frames > (uint64_t)(i % 20);
        result->frames += frames;
    }
    kz_session_close(session);
    return NULL;
}

int main(void) {
    find_modules(&own);
    thread_result results[THREADS] = {0};
    uint64_t walks = 0;
    for (int i = 0; i < THREADS; i++)
        pthread_create(&results[i].thread, NULL, walk_often, &results[i]);
    for (int i = 0; i < THREADS; i++) {
        pthread_join(results[i].thread, NULL);
        walks += results[i].walks;
    }
    printf("%d threads with a session each: %d walks, %d to the outermost frame and without a handler\n", THREADS,
           THREADS * WALKS, (int)walks);
    return walks == THREADS * WALKS ? 0 : 1;
}
