/* Functions that are to be compiled without frame tables and with frame pointers. */
#include <unistd.h>

#include "stopped.h"

KEPT int wait_deep(int n) {
    volatile int kept = n;
    pause();
    return kept;
}

KEPT int turn(int n) {
    return n == 0 ? wait_deep(n) + 1 : turn(n - 1) + n;
}

int main(void) {
    return turn(6) + 1;
}
