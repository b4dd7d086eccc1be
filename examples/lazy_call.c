/* A call of a function of the C library that the dynamic linker binds only when it is called: a debugger
   stops inside the stub of the procedure linkage table. */
#include <unistd.h>

#include "stopped.h"

KEPT long bound_lazily(long n) {
    wait_here();
    return getpagesize() + n;
}

KEPT long caller(long n) {
    return bound_lazily(n) * n;
}

int main(void) {
    return (int)caller(3);
}
