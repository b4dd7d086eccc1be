/* Each status but that of memory, and each reason why a walk ends, by kz_walk and by a session, and deliveries that no
 * frame takes or that are refused, by kz_deliver and by a session. The tables are those of the worked examples
 * in crates/stack_walks/specs/WalkEndSample.antt, and what is due of them is what crates/stack_walks proves of these. */
#include <inttypes.h>
#include <kalzurenk.h>
#include <stdio.h>
#include <string.h>

static const uint8_t no_entry[] = {0, 0, 0, 0};
static const uint8_t cut_entry[] = {9, 0, 0, 0, 1};
/* a CIE whose program is an instruction that there is not, and an FDE of the 16 bytes from 0x1000 on */
static const uint8_t bad_row[] = {10, 0, 0,  0,    0, 0, 0, 0, 1, 0, 1,  0x78, 16, 0x3f, 20, 0, 0, 0, 18,
                                  0,  0, 0,  0,    0x10, 0, 0, 0, 0, 0, 0,  16,   0,  0,    0,  0, 0, 0, 0};
/* An empty list is a pointer that isn't null, too. */
static const kz_module no_modules[1];
static int failed;

#define AT(index, address) ((kz_place){sizeof(kz_place), (index), (address)})
#define DUE(count, address, detail, reason, error) \
    ((kz_end){sizeof(kz_end), sizeof(kz_frame), (count), (address), (detail), (reason), (error)})

static void check(const char *what, uint64_t is, uint64_t due) {
    if (is != due) {
        printf("%s: %#" PRIx64 " and not %#" PRIx64 "\n", what, is, due);
        failed = 1;
    }
}

/* Walks from after a call that returns to `ra`, with one module at 0x1000 whose frame table is at 0x2000. */
static void ends(const char *what, const uint8_t *table, size_t length, uint64_t ra, size_t places, kz_end due) {
    kz_region region = KZ_REGION(0x2000, table, length);
    kz_module module = KZ_MODULE(0x1000, 0x1010, 0x2000, 0, KZ_ELF);
    kz_registers start = {.size = sizeof start, .ip = ra};
    kz_frame frames[2];
    memset(frames, 0x77, sizeof frames);
    for (int by_session = 0; by_session < 2; by_session++) {
        kz_end end = KZ_END;
        kz_place place = AT(9, 9);
        uint32_t status;
        if (by_session) {
            static const uint8_t stack[8];
            kz_region sample = KZ_REGION(0x7000, stack, sizeof stack);
            kz_session session;
            status = kz_session_open(&region, 1, &module, 1, 8, &session.at, &place);
            check(what, status, KZ_OK);
            status = kz_session_walk(&session, &sample, 1, &start, false, frames, places, &end, &place);
            kz_session_close(session);
        } else {
            status = kz_walk(&region, 1, &module, 1, &start, false, frames, places, &end, &place);
        }
        check(what, status, KZ_OK);
        check(what, place.index, 9);
        check(what, end.count, due.count);
        check(what, end.reason, due.reason);
        check(what, end.address, due.address);
        check(what, end.detail, due.detail);
        check(what, end.error, due.error);
        check(what, end.size, sizeof end);
        check(what, end.frame_size, sizeof frames[0]);
        check(what, frames[0].ra, due.count > 0 ? ra : 0x7777777777777777);
        check(what, frames[0].interrupted, due.count > 0 ? 0 : 0x7777777777777777);
        check(what, frames[1].ra, 0x7777777777777777);
        printf("%-15s %-8s status %u frames %" PRIu64 " reason %u address %#" PRIx64 " detail %" PRIu64 " error %u\n", what,
               by_session ? "session" : "walk", status, end.count, end.reason, end.address, end.detail, end.error);
    }
}

static void refused(const char *what, const kz_region *regions, size_t m, const kz_module *modules, size_t n,
                    uint32_t due, kz_place at) {
    kz_registers start = {.size = sizeof start, .ip = 0x1005};
    kz_frame frame = {.ra = 5};
    kz_end end = DUE(5, 0, 0, 0, 0);
    kz_place place = AT(9, 9);
    uint32_t status = kz_walk(regions, m, modules, n, &start, false, &frame, 1, &end, &place);
    printf("%-15s %-8s status %u place %" PRIu64 " address %#" PRIx64 "\n", what, "walk", status, place.index, place.address);
    check(what, status, due);
    check(what, place.index, at.index);
    check(what, place.address, at.address);
    check(what, frame.ra, 5);
    check(what, end.count, 5);
    void *session = &frame;
    place = AT(9, 9);
    check(what, kz_session_open(regions, m, modules, n, 8, &session, &place), due);
    check(what, place.index, at.index);
    check(what, place.address, at.address);
    check(what, session == &frame, 1);
}

/* A sample's region that the session's memory doesn't leave room for, the second of two. */
static void refused_sample(const char *what, kz_region region, uint32_t due, kz_place at) {
    static const uint8_t stack[8];
    kz_region memory = KZ_REGION(0x2000, no_entry, sizeof no_entry);
    kz_region sample[] = {KZ_REGION(0x7000, stack, sizeof stack), region};
    kz_registers start = {.size = sizeof start, .ip = 0x1005};
    kz_frame frame = {.ra = 5};
    kz_end end = DUE(5, 0, 0, 0, 0);
    kz_place place = AT(9, 9);
    kz_session session;
    check(what, kz_session_open(&memory, 1, no_modules, 0, 8, &session.at, &place), KZ_OK);
    uint32_t status = kz_session_walk(&session, sample, 2, &start, false, &frame, 1, &end, &place);
    kz_session_close(session);
    printf("%-15s %-8s status %u place %" PRIu64 " address %#" PRIx64 "\n", what, "session", status, place.index,
           place.address);
    check(what, status, due);
    check(what, place.index, at.index);
    check(what, place.address, at.address);
    check(what, frame.ra, 5);
    check(what, end.count, 5);
}

/* A size that isn't known, of each struct: by kz_walk, kz_session_open and kz_session_walk. */
static void refused_size(const char *what, size_t of_region, size_t of_module, size_t of_registers, size_t of_end,
                         size_t of_frame, size_t of_place, uint32_t due, uint64_t index) {
    static const uint8_t stack[8];
    kz_region regions[] = {KZ_REGION(0x2000, no_entry, sizeof no_entry), {of_region, 0x7000, stack, sizeof stack}};
    kz_module module = {of_module, 0x1000, 0x1010, 0x2000, 0, KZ_ELF};
    kz_registers start = {.size = of_registers, .ip = 0x1005};
    kz_frame frame = {.ra = 5};
    kz_end end = {of_end, of_frame, 5, 0, 0, 0, 0};
    kz_place place = {of_place, 9, 9}, untouched = place;
    kz_session session = {&frame};
    check(what, kz_walk(regions, 2, &module, 1, &start, false, &frame, 1, &end, &place), due);
    check(what, place.index, due == KZ_PLACE_SIZE ? 9 : index);
    check(what, place.address, due == KZ_PLACE_SIZE ? 9 : 0);
    check(what, place.size, of_place);
    printf("%-15s %-8s status %u place %" PRIu64 " address %" PRIu64 "\n", what, "walk", due, place.index, place.address);
    if (due == KZ_REGION_SIZE || due == KZ_MODULE_SIZE || due == KZ_PLACE_SIZE) {
        place = untouched;
        check(what, kz_session_open(regions, 2, &module, 1, 8, &session.at, &place), due);
        check(what, session.at == (void *)&frame, 1);
        check(what, place.index, due == KZ_PLACE_SIZE ? 9 : index);
    }
    if (due != KZ_MODULE_SIZE) {
        kz_place known = KZ_PLACE;
        place = untouched;
        check(what, kz_session_open(regions, 1, no_modules, 0, 8, &session.at, &known), KZ_OK);
        check(what, kz_session_walk(&session, regions + 1, 1, &start, false, &frame, 1, &end, &place), due);
        kz_session_close(session);
        check(what, place.index, due == KZ_PLACE_SIZE ? 9 : 0);
    }
    check(what, frame.ra, 5);
    check(what, end.count, 5);
    check(what, end.size, of_end);
}

static void refused_sizes(void) {
    const size_t region = sizeof(kz_region), module = sizeof(kz_module), registers = sizeof(kz_registers);
    const size_t end = sizeof(kz_end), frame = sizeof(kz_frame), place = sizeof(kz_place);
    refused_size("region size", region - 8, module, registers, end, frame, place, KZ_REGION_SIZE, 1);
    refused_size("module size", region, module + 8, registers, end, frame, place, KZ_MODULE_SIZE, 0);
    refused_size("registers size", region, module, 0, end, frame, place, KZ_REGISTERS_SIZE, 0);
    refused_size("end size", region, module, registers, end - 16, frame, place, KZ_END_SIZE, 0);
    refused_size("frame size", region, module, registers, end, frame - 8, place, KZ_FRAME_SIZE, 0);
    refused_size("place size", region, module, registers, end, frame, place + 8, KZ_PLACE_SIZE, 0);
}

/* A delivery to one frame, stopped after a call that returns to `ra`, with the module of `ends` over `table`. */
static kz_delivery deliver(const char *what, int by_session, const uint8_t *table, size_t length, uint64_t ra,
                           const kz_throw *thrown, const kz_resume *resumes, kz_delivery delivery, uint32_t due,
                           uint64_t index) {
    static const uint8_t stack[8];
    kz_region regions[] = {KZ_REGION(0x2000, table, length), KZ_REGION(0x7000, stack, sizeof stack)};
    kz_module module = KZ_MODULE(0x1000, 0x1010, 0x2000, 0, KZ_ELF);
    kz_registers start = {.size = sizeof start, .ip = ra};
    kz_cleanup cleanup = {5, 5};
    kz_place place = AT(9, 9), known = KZ_PLACE;
    kz_session session;
    uint32_t status;
    if (by_session) {
        check(what, kz_session_open(regions, 1, &module, 1, 8, &session.at, &known), KZ_OK);
        status = kz_session_deliver(&session, regions + 1, 1, &start, thrown, resumes, 2, &cleanup, 1, &delivery, &place);
        kz_session_close(session);
    } else {
        status = kz_deliver(regions, 2, &module, 1, &start, thrown, resumes, 2, &cleanup, 1, &delivery, &place);
    }
    check(what, status, due);
    check(what, place.index, due == KZ_OK ? 9 : index);
    check(what, place.address, due == KZ_OK ? 9 : 0);
    check(what, cleanup.pad, 5);
    printf("%-15s %-8s status %u place %" PRIu64, what, by_session ? "in it" : "deliver", status, place.index);
    return delivery;
}

/* A size that isn't known, of each struct that deliveries alone take. */
static void refused_delivery(const char *what, size_t of_throw, size_t of_resume, size_t of_delivery, size_t of_cleanup,
                             uint32_t due, uint64_t index) {
    kz_throw thrown = {of_throw, 0, 4};
    kz_resume resumes[] = {KZ_RESUME(0x1000, 0x1001), {of_resume, 0x1002, 0x1003}};
    kz_delivery before = {of_delivery, of_cleanup, 5, 5, 5, 5, 5, {5}, 5};
    for (int by_session = 0; by_session < 2; by_session++) {
        kz_delivery after =
            deliver(what, by_session, no_entry, sizeof no_entry, 0x5005, &thrown, resumes, before, due, index);
        check(what, (uint64_t)memcmp(&before, &after, sizeof after), 0);
        puts("");
    }
}

/* A delivery that no frame takes, or that is refused. */
static void delivered(const char *what, const uint8_t *table, size_t length, uint64_t ra, uint32_t limit, uint64_t visited,
                      uint32_t outcome, uint32_t error) {
    kz_throw thrown = KZ_THROW(0, limit);
    kz_resume resumes[] = {KZ_RESUME(0x1000, 0x1001), KZ_RESUME(0x1002, 0x1003)};
    kz_delivery before = {sizeof before, sizeof(kz_cleanup), 5, 5, 5, 5, 5, {5}, 5}, due = KZ_DELIVERY;
    due.visited = visited;
    due.outcome = outcome;
    due.error = error;
    for (int by_session = 0; by_session < 2; by_session++) {
        kz_delivery after = deliver(what, by_session, table, length, ra, &thrown, resumes, before, KZ_OK, 0);
        check(what, (uint64_t)memcmp(&due, &after, sizeof after), 0);
        printf(" visited %" PRIu64 " outcome %u error %u\n", after.visited, after.outcome, after.error);
    }
}

static void deliveries(void) {
    const size_t throw = sizeof(kz_throw), resume = sizeof(kz_resume);
    const size_t told = sizeof(kz_delivery), cleanup = sizeof(kz_cleanup);
    refused_delivery("throw size", throw + 8, resume, told, cleanup, KZ_THROW_SIZE, 0);
    refused_delivery("resume size", throw, resume - 8, told, cleanup, KZ_RESUME_SIZE, 1);
    refused_delivery("delivery size", throw, resume, told - 8, cleanup, KZ_DELIVERY_SIZE, 0);
    refused_delivery("cleanup size", throw, resume, told, cleanup + 8, KZ_CLEANUP_SIZE, 0);
    delivered("end of stack", no_entry, sizeof no_entry, 0x5005, 1, 1, KZ_END_OF_STACK, 0);
    delivered("frame limit", no_entry, sizeof no_entry, 0x5005, 0, 0, KZ_NOT_DELIVERED, KZ_FRAME_LIMIT);
    delivered("not delivered", bad_row, sizeof bad_row, 0x1005, 4, 0, KZ_NOT_DELIVERED, KZ_UNKNOWN_INSTRUCTION);
}

int main(void) {
    ends("outermost", no_entry, sizeof no_entry, 0, 1, DUE(1, 0, 0, KZ_OUTERMOST, 0));
    ends("no module", no_entry, sizeof no_entry, 0x5005, 1, DUE(1, 0x5004, 0, KZ_NO_MODULE, 0));
    ends("no description", no_entry, sizeof no_entry, 0x1005, 1, DUE(1, 0x1004, 0, KZ_NO_DESCRIPTION, 0));
    ends("unreadable", cut_entry, sizeof cut_entry, 0x1005, 1, DUE(1, 0x1004, 0, KZ_UNREADABLE, KZ_END_OF_BYTES));
    ends("refused", bad_row, sizeof bad_row, 0x1005, 1, DUE(1, 0x1004, 0, KZ_REFUSED, KZ_UNKNOWN_INSTRUCTION));
    ends("limit", no_entry, sizeof no_entry, 0x1005, 0, DUE(0, 0, 0, KZ_LIMIT, 0));

    kz_region one = KZ_REGION(0x1000, no_entry, 1), empty = KZ_REGION(0x3000, no_entry, 0);
    kz_region high = KZ_REGION(UINT64_MAX, no_entry, 2);
    kz_region both[] = {one, KZ_REGION(0xfff, no_entry, 4)}, empties[] = {one, empty}, highs[] = {one, high};
    refused("empty", empties, 2, no_modules, 0, KZ_REGION_EMPTY, AT(1, 0));
    refused("wraps", highs, 2, no_modules, 0, KZ_REGION_WRAPS, AT(1, 0));
    refused("overlaps", both, 2, no_modules, 0, KZ_REGION_OVERLAPS, AT(1, 0x1000));
    kz_module elf = KZ_MODULE(0x1000, 0x1001, 0x1000, 0, KZ_ELF);
    refused("format", &one, 1, (kz_module[]){elf, KZ_MODULE(0x2000, 0x2001, 0, 0, 4)}, 2, KZ_MODULE_FORMAT, AT(1, 0));
    refused("pe", &one, 1, (kz_module[]){KZ_MODULE(0x2000, 0x2001, UINT64_C(1) << 32, 0, KZ_PE)}, 1, KZ_MODULE_FORMAT, AT(0, 0));
    refused("reversed", &one, 1, (kz_module[]){elf, KZ_MODULE(0x2000, 0x2000, 0, 0, KZ_MACHO)}, 2, KZ_MODULE_WRAPS, AT(1, 0));
    refused("shared", &one, 1, (kz_module[]){elf, elf}, 2, KZ_MODULE_OVERLAPS, AT(1, 0x1000));
    refused_sample("empty", empty, KZ_REGION_EMPTY, AT(1, 0));
    refused_sample("wraps", high, KZ_REGION_WRAPS, AT(1, 0));
    refused_sample("overlaps", (kz_region)KZ_REGION(0x2003, no_entry, 1), KZ_REGION_OVERLAPS, AT(1, 0x2000));
    refused_sample("overlaps too", (kz_region)KZ_REGION(0x7007, no_entry, 1), KZ_REGION_OVERLAPS, AT(1, 0x7000));
    refused_sizes();
    deliveries();
    check("version", kz_version(), KZ_VERSION);
    puts(failed ? "FAILED" : "each status and each reason is as it should be");
    return failed;
}
