/* A call of vfork, which keeps its return address in a register, as its child uses the same stack: a
   debugger stops inside of it. */
#define _DEFAULT_SOURCE
#include <sys/wait.h>
#include <unistd.h>

#include "stopped.h"

KEPT long forks(long n) {
    wait_here();
    pid_t child = vfork();
    if (child == 0) {
        _exit(0);
    }
    return waitpid(child, NULL, 0) + n;
}

KEPT long caller(long n) {
    return forks(n) * n;
}

int main(void) {
    return (int)caller(3);
}
