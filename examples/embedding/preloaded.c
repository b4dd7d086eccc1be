/* Samples any program: a library that is loaded before its own, which stops its main thread again and again by a timer and
 * walks the stack where it lies. Each walk is compared with libgcc's and libunwind's of the same stack, made in the same
 * handler; of the first few that differ it writes the frames. The program's modules are those that are there when it starts:
 * one that loads more later wants another session. At the end it says how many walks were the same.
 *
 *     KZ_SAMPLES=10000 LD_PRELOAD=out/preloaded.so PROGRAM.. */
#include "beside_others.h"
#include <stdio.h>
#include <stdlib.h>
#include <unistd.h>

enum { MOST_SHOWN = 5 };

static void put_frames(const char *by, const kz_frame *frames, int count) {
    dprintf(STDERR_FILENO, "  %s:", by);
    for (int i = 0; i < count; i++)
        dprintf(STDERR_FILENO, " %#lx", (unsigned long)frames[i].ra);
    dprintf(STDERR_FILENO, "\n");
}

static void put_trace(const char *by, const trace *found) {
    dprintf(STDERR_FILENO, "  %s:", by);
    for (int i = 0; i < found->length; i++)
        dprintf(STDERR_FILENO, " %p", found->found[i]);
    dprintf(STDERR_FILENO, "\n");
}

/* The file of the module that holds an address, and how far into it. */
static void put_place(uint64_t address) {
    for (size_t i = 0; i < own.length; i++)
        if (own.modules[i].start <= address && address < own.modules[i].end)
            dprintf(STDERR_FILENO, " in %s, %#lx after its code's start", own.names[i],
                    (unsigned long)(address - own.modules[i].start));
}

static void show(const kz_frame *frames, const kz_end *end, const trace *libgcc, const trace *libunwind) {
    static int shown;
    if (shown == MOST_SHOWN)
        return;
    shown++;
    dprintf(STDERR_FILENO, "a sample differs; reason %u at %#lx", end->reason, (unsigned long)end->address);
    put_place(end->address);
    dprintf(STDERR_FILENO, "\n");
    put_frames("kalzurenk", frames, (int)returns_in(end));
    put_trace("libgcc", libgcc);
    put_trace("libunwind", libunwind);
}

__attribute__((constructor)) static void begin(void) {
    const char *many = getenv("KZ_SAMPLES");
    wanted = many != NULL ? atoi(many) : wanted;
    differs = show;
    unsetenv("LD_PRELOAD"); /* not in what the program starts */
    if (!begin_samples(500000))
        _exit(2);
}

__attribute__((destructor)) static void tell(void) {
    timer_delete(timer);
    dprintf(STDERR_FILENO, "%d samples of %d frames in all, %d to the outermost frame", samples, frames_in_all, whole);
    dprintf(STDERR_FILENO, "; the same as libgcc's %d, as libunwind's %d\n", by_libgcc, by_libunwind);
    if (samples != by_libgcc || samples != by_libunwind)
        _exit(9);
}
