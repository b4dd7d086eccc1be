/* A call through a pointer that is null or, with an argument, leads to where nothing is mapped. */
#include "stopped.h"

typedef void (*callback)(void);

static volatile callback registered;

KEPT long notify(long a, long b) {
    long sum = a * b;
    registered();
    return sum + a;
}

KEPT long dispatch(long a) {
    return notify(a, a + 1) + a;
}

int main(int count, char **words) {
    (void)words;
    if (count > 1) {
        registered = (callback)0x123456789000;
    }
    return (int)dispatch(count);
}
