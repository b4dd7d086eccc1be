/* A profiler of its own process: a timer stops it again and again, and the handler walks the stack where it lies, by a
 * session that was opened before. Each walk is compared with libgcc's and libunwind's of the same stack, made in the
 * same handler. At the end it says how many samples were in which function.
 *
 *     profile [SAMPLES] */
#include "beside_others.h"
#include <dlfcn.h>
#include <stdio.h>
#include <stdlib.h>
#include <string.h>

/* ---- what is profiled: sorting, formatting and searching, by the C library */

static int compare(const void *a, const void *b) { return strcmp(*(char *const *)a, *(char *const *)b); }

__attribute__((noinline)) static unsigned long work(void) {
    enum { WORDS = 512 };
    char *words[WORDS];
    unsigned long sum = 0;
    for (int i = 0; i < WORDS; i++) {
        char text[32];
        snprintf(text, sizeof text, "%x-%d", (unsigned)i * 2654435761u, i);
        words[i] = strdup(text);
    }
    qsort(words, WORDS, sizeof words[0], compare);
    for (int i = 0; i < WORDS; i++) {
        sum += strtoul(words[i], NULL, 16);
        free(words[i]);
    }
    return sum;
}

__attribute__((noinline)) static unsigned long deep(int n) {
    volatile unsigned long here = (unsigned long)n;
    return n == 0 ? work() : deep(n - 1) + here;
}

/* ---- what it says */

static const char *name_of(void *address) {
    Dl_info info;
    return dladdr(address, &info) != 0 && info.dli_sname != NULL ? info.dli_sname : "a function without a name";
}

static int by_name(const void *a, const void *b) {
    return strcmp(name_of(*(void *const *)a), name_of(*(void *const *)b));
}

static void tell(void) {
    int kept = samples < KEPT ? samples : KEPT;
    qsort(innermost, (size_t)kept, sizeof innermost[0], by_name);
    for (int i = 0, j; i < kept; i = j) {
        for (j = i; j < kept && strcmp(name_of(innermost[i]), name_of(innermost[j])) == 0; j++) {
        }
        if (100 * (j - i) >= kept)
            fprintf(stderr, "%6d %s\n", j - i, name_of(innermost[i]));
    }
    printf("%d samples of %d frames in all, %d to the outermost frame; the same as libgcc's %d, as libunwind's %d\n",
           samples, frames_in_all, whole, by_libgcc, by_libunwind);
}

int main(int count, char **words) {
    if (count > 1)
        wanted = atoi(words[1]);
    if (!begin_samples(200000))
        return 2;
    volatile unsigned long sum = 0;
    while (samples < wanted)
        sum += deep(samples % 32);
    timer_delete(timer);
    tell();
    return samples == by_libgcc && samples == by_libunwind ? 0 : 1;
}
