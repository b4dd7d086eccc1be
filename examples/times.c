/* A program that asks for the time again and again: most of its time it is in code that the system maps. */
#include <time.h>

#include "stopped.h"

static struct timespec now;

KEPT long ask(long n) {
    long sum = 0;
    for (long i = 0; i < 1000000; i++) {
        clock_gettime(CLOCK_MONOTONIC, &now);
        sum += now.tv_nsec & n;
    }
    return sum;
}

KEPT long turn(long n) {
    return n == 0 ? ask(7) + 1 : turn(n - 1) + n;
}

int main(void) {
    while (turn(3) >= 0) {
    }
    return 0;
}
