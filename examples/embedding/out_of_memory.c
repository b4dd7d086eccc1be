/* Each allocation of the calls failing in turn: the status is KZ_NO_MEMORY, nothing is told, and nothing is
 * kept. Where what fails would only have made a block smaller, the block serves as it is, and the status is KZ_OK.
 * Link with -Wl,--wrap=malloc,--wrap=realloc. */
#include <kalzurenk.h>
#include <malloc.h>
#include <stdio.h>
#include <stdlib.h>

static long left = -1;
/* Whether the allocation that failed would have made a block smaller. */
static bool was_smaller;

void *__real_malloc(size_t size);
void *__real_realloc(void *at, size_t size);

static int fails(void) { return left >= 0 && left-- == 0; }

void *__wrap_malloc(size_t size) { return fails() ? NULL : __real_malloc(size); }

void *__wrap_realloc(void *at, size_t size) {
    if (!fails())
        return __real_realloc(at, size);
    was_smaller = size <= malloc_usable_size(at);
    return NULL;
}

static const uint8_t table[] = {20, 0, 0, 0, 0, 0, 0, 0, 1, 'z', 'R', 0, 1, 0x78, 16, 1, 0x1b, 12, 7, 8, 0x90, 1, 0, 0,
                                20, 0, 0, 0, 28, 0, 0, 0, 0xe0, 0xef, 0xff, 0xff, 16, 0, 0, 0, 0, 0, 0, 0, 0, 0, 0, 0,
                                0,  0, 0, 0};
static const uint8_t stack[64];
static const kz_region regions[] = {KZ_REGION(0x2000, table, sizeof table), KZ_REGION(0x7000, stack, sizeof stack)};
static const kz_module module = KZ_MODULE(0x1000, 0x1010, 0x2000, 0, KZ_ELF);
/* A thread that was stopped at an instruction, and one that throws. */
static const kz_registers stopped = {.size = sizeof stopped, .general = {[7] = 0x7000}, .ip = 0x1001};
static const kz_registers throwing = {.size = sizeof throwing, .general = {[7] = 0x7000}, .ip = 0x1006};

static kz_session session;
static int failed;

static uint32_t open_session(void) {
    kz_place place = KZ_PLACE;
    if (session.at)
        kz_session_close(session);
    session.at = NULL;
    uint32_t status = kz_session_open(regions, 1, &module, 1, 4, &session.at, &place);
    failed |= (status == KZ_OK) != (session.at != NULL);
    return status;
}

/* By kz_session_walk, or by kz_walk. */
static uint32_t walk(bool in_session) {
    kz_frame frames[4] = {{.ra = 5}};
    kz_end end = KZ_END;
    kz_place place = KZ_PLACE;
    end.count = 5;
    uint32_t status = in_session ? kz_session_walk(&session, regions + 1, 1, &stopped, true, frames, 4, &end, &place)
                                 : kz_walk(regions, 2, &module, 1, &stopped, true, frames, 4, &end, &place);
    failed |= status == KZ_OK ? end.count != 2 || end.reason != KZ_OUTERMOST : frames[0].ra != 5 || end.count != 5;
    return status;
}

static uint32_t walk_anew(void) { return walk(false); }

static uint32_t walk_in_session(void) { return walk(true); }

/* By kz_session_deliver, or by kz_deliver. */
static uint32_t deliver(bool in_session) {
    static const kz_resume resumes[] = {KZ_RESUME(0x1008, 0x100a), KZ_RESUME(0x1004, 0x1006)};
    kz_throw thrown = KZ_THROW(0x9000, 4);
    kz_cleanup cleanup = {5, 5};
    kz_delivery delivery = KZ_DELIVERY;
    kz_place place = KZ_PLACE;
    delivery.visited = 5;
    uint32_t status =
        in_session
            ? kz_session_deliver(&session, regions + 1, 1, &throwing, &thrown, resumes, 2, &cleanup, 1, &delivery, &place)
            : kz_deliver(regions, 2, &module, 1, &throwing, &thrown, resumes, 2, &cleanup, 1, &delivery, &place);
    failed |= status == KZ_OK ? delivery.visited != 2 || delivery.outcome != KZ_END_OF_STACK : delivery.visited != 5;
    failed |= cleanup.pad != 5;
    return status;
}

static uint32_t deliver_anew(void) { return deliver(false); }

static uint32_t deliver_in_session(void) { return deliver(true); }

/* How many allocations a call makes: each fails in turn, until none is left. */
static int allocations(uint32_t (*call)(void)) {
    for (int n = 0;; n++) {
        left = n;
        was_smaller = false;
        uint32_t status = call();
        bool is_left = left >= 0;
        left = -1;
        failed |= status != (is_left || was_smaller ? KZ_OK : KZ_NO_MEMORY);
        if (is_left)
            return n;
    }
}

int main(void) {
    int walks = allocations(walk_anew), deliveries = allocations(deliver_anew), opens = allocations(open_session);
    int samples = allocations(walk_in_session), session_deliveries = allocations(deliver_in_session);
    kz_session_close(session);
    failed |= walks == 0 || deliveries == 0 || opens == 0 || samples != 0 || session_deliveries == 0;
    printf("%s: %d, %d, %d, %d and %d allocations of a walk, a delivery, a session, and a walk and a delivery in it\n",
           failed ? "FAILED" : "each failure is reported", walks, deliveries, opens, samples, session_deliveries);
    return failed;
}
