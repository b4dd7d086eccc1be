/* Ten threads, or as many as its argument says: the first waits for the others, and these in calls of nine depths. */
#define _GNU_SOURCE
#include <pthread.h>
#include <stdio.h>
#include <stdlib.h>

#include "stopped.h"

KEPT long countdown(long n) {
    if (n == 0) {
        wait_here();
        return 1;
    }
    long below = countdown(n - 1);
    return below * n + below;
}

static void *run(void *depth) {
    char name[16];
    snprintf(name, sizeof name, "depth %ld", (long)depth);
    pthread_setname_np(pthread_self(), name);
    return (void *)countdown((long)depth);
}

int main(int count, char **words) {
    static pthread_t threads[1000];
    long others = count > 1 ? strtol(words[1], NULL, 10) - 1 : 9;
    for (long i = 0; i < others && i < 1000; i++) {
        pthread_create(&threads[i], NULL, run, (void *)(i % 9 + 1));
    }
    for (long i = 0; i < others && i < 1000; i++) {
        pthread_join(threads[i], NULL);
    }
    return 0;
}
