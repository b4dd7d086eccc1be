/* Nested calls, of which each keeps values in registers that its callee saves. */
#include "stopped.h"

KEPT long innermost(long a, long b, long c) {
    wait_here();
    return a + b * c;
}

KEPT long inner(long a, long b) {
    long first = innermost(a, b, a ^ b);
    long second = innermost(b, a, first);
    return first + second + a * b;
}

KEPT long middle(long a, long b, long c, long d, long e, long f) {
    long first = inner(a, b);
    long second = inner(c, d);
    long third = inner(e, f);
    return (first ^ a) + (second ^ b) + (third ^ c) + (d ^ e) * f;
}

KEPT long countdown(long n) {
    if (n == 0) {
        return middle(1, 2, 3, 4, 5, 6);
    }
    long below = countdown(n - 1);
    return below * n + below;
}

int main(void) {
    long first = countdown(3);
    return (int)(countdown(1) + first);
}
