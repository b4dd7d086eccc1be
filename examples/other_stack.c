/* A handler that runs on a stack of its own (sigaltstack), as those do that report an overflow. */
#define _GNU_SOURCE
#include <signal.h>
#include <stdlib.h>

#include "stopped.h"

static char other_stack[65536];

KEPT void handler(int number) {
    (void)number;
    wait_here();
}

KEPT long interrupted(long n) {
    raise(SIGUSR1);
    return n + 1;
}

int main(void) {
    stack_t stack = {.ss_sp = other_stack, .ss_size = sizeof other_stack};
    struct sigaction action = {.sa_handler = handler, .sa_flags = SA_ONSTACK};
    sigaltstack(&stack, NULL);
    sigaction(SIGUSR1, &action, NULL);
    return (int)interrupted(0);
}
