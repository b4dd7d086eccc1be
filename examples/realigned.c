/* A function that aligns its frame more strictly than its caller, and whose frame's size is known only
   when it runs. */
#include <alloca.h>
#include <stdalign.h>

#include "stopped.h"

KEPT long innermost(char *aligned, char *place, long n) {
    wait_here();
    return aligned[0] + place[0] + n;
}

KEPT long realigned(long n) {
    alignas(64) char aligned[64] = {1};
    char *place = alloca((unsigned long)n);
    place[0] = 2;
    long first = innermost(aligned, place, n);
    return first + innermost(place, aligned, first) * n;
}

KEPT long caller(long n) {
    return realigned(n + 40) * n;
}

int main(void) {
    return (int)(caller(3) + caller(4));
}
