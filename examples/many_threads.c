/* As many threads as its word asks, each in calls of another depth, and then a signal that ends all of them. */
#include <pthread.h>
#include <signal.h>
#include <stdlib.h>
#include <unistd.h>

#include "stopped.h"

static pthread_barrier_t all_there;

KEPT long countdown(long n) {
    if (n == 0) {
        pthread_barrier_wait(&all_there);
        wait_here();
        return 1;
    }
    long below = countdown(n - 1);
    return below * n + below;
}

static void *run(void *depth) {
    return (void *)countdown((long)depth);
}

int main(int count, char **words) {
    long number = count > 1 ? atol(words[1]) : 1000;
    pthread_attr_t attributes;
    pthread_t thread;
    pthread_attr_init(&attributes);
    pthread_attr_setstacksize(&attributes, 65536);
    pthread_barrier_init(&all_there, NULL, (unsigned)number);
    for (long i = 1; i < number; i++) {
        if (pthread_create(&thread, &attributes, run, (void *)(i % 10)) != 0) {
            return 1;
        }
    }
    pthread_barrier_wait(&all_there);
    usleep(200000);
    raise(SIGABRT);
    return 0;
}
