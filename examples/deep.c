/* A thread in a recursion as deep as its word asks, which then ends by a signal: its core has as many frames. */
#include <signal.h>
#include <stdlib.h>
#include <unistd.h>

#include "stopped.h"

KEPT long descend(long n) {
    if (n == 0) {
        raise(SIGABRT);
        return 1;
    }
    return descend(n - 1) + n;
}

int main(int count, char **words) {
    return (int)descend(count > 1 ? atol(words[1]) : 100000);
}
