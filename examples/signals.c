/* A signal's handler inside of a signal's handler. The first signal comes while a function stands at
   its first instruction, and the second while the first one's handler is in the C library. With OTHER_STACK the
   second handler runs on a stack of its own. */
#define _DEFAULT_SOURCE
#include <signal.h>
#include <stddef.h>
#include <unistd.h>

#include "stopped.h"

/* The byte before `spin` belongs to another function, whose frame is larger. */
__asm__(
    "    .text\n"
    "    .type before_spin, @function\n"
    "before_spin:\n"
    "    .cfi_startproc\n"
    "    sub $24, %rsp\n"
    "    .cfi_def_cfa_offset 32\n"
    "    ud2\n"
    "    .cfi_endproc\n"
    "    .size before_spin, . - before_spin\n"
    "    .type spin, @function\n"
    "spin:\n"
    "    .cfi_startproc\n"
    "    jmp spin\n"
    "    .cfi_endproc\n"
    "    .size spin, . - spin\n");

void spin(void);

KEPT void second_handler(int number) {
    (void)number;
    wait_here();
}

static volatile sig_atomic_t was_sent;

KEPT void first_handler(int number) {
    (void)number;
    was_sent = kill(getpid(), SIGUSR1) == 0;
}

KEPT long interrupted(long n) {
    alarm(1);
    spin();
    return n + 1;
}

KEPT long caller(long n) {
    return interrupted(n) * n + n;
}

int main(void) {
    signal(SIGALRM, first_handler);
#ifdef OTHER_STACK
    static char other_stack[65536];
    stack_t stack = {.ss_sp = other_stack, .ss_size = sizeof other_stack};
    struct sigaction action = {.sa_handler = second_handler, .sa_flags = SA_ONSTACK};
    sigaltstack(&stack, NULL);
    sigaction(SIGUSR1, &action, NULL);
#else
    signal(SIGUSR1, second_handler);
#endif
    return (int)caller(3);
}
