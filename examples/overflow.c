/* A recursion without an end: the stack overflows, and the system ends the process with a core. */
#include "stopped.h"

KEPT long descend(long n) {
    volatile char room[512];
    room[n % 512] = (char)n;
    return descend(n + 1) + room[(n + 1) % 512];
}

int main(void) {
    return (int)descend(0);
}
