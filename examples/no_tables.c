/* A function without a frame table, called by one that has one and calling one that has one: libc's. Built in
   two parts, of which this one is compiled with -fno-asynchronous-unwind-tables where it says so. */
#include "stopped.h"
#include <stdlib.h>

#ifdef BARE
extern int stop_in(const void *a, const void *b);

KEPT int bare(int n) {
    int pair[2] = {n, n + 1};
    int below = stop_in(pair, pair + 1);
    return below * n + pair[0];
}
#else
extern int bare(int n);

KEPT int stop_in(const void *a, const void *b) {
    wait_here();
    return *(const int *)a - *(const int *)b;
}

int main(void) {
    return bare(3);
}
#endif
