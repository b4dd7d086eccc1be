/* Frames whose size is known only when they run: they are found by RBP. */
#include "stopped.h"

KEPT long fill(char *bytes, long n) {
    long sum = 0;
    for (long i = 0; i < n; i++) {
        bytes[i] = (char)(i * n);
        sum += bytes[i];
    }
    wait_here();
    return sum;
}

KEPT long on_the_stack(long n, long kept) {
    char *bytes = __builtin_alloca(n);
    long sum = fill(bytes, n);
    return sum + bytes[n / 2] * kept;
}

KEPT long growing(long n) {
    long sum = 0;
    char bytes[n];
    if (n < 100) {
        sum = growing(2 * n);
    }
    sum += on_the_stack(n + 1, sum);
    return sum + fill(bytes, n);
}

int main(void) {
#ifdef EVERY_INSTRUCTION
    /* With the loop's other numbers of turns each instruction runs. */
    char one;
    return (int)growing(30) + (int)fill(0, 0) + (int)fill(&one, 1);
#else
    return (int)growing(30);
#endif
}
