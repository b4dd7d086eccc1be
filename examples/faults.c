/* A program that ends by the fault that its word names, a few calls deep, and leaves a core. */
#include <stdlib.h>
#include <string.h>

#include "stopped.h"

static char kept;
static void *volatile none;

KEPT void smash(char *room, size_t size) {
    memset(room, 'A', size);
}

KEPT void fail(const char *fault) {
    char room[16];
    switch (fault[0]) {
        case 'n': kept = *(volatile char *)NULL; break;
        case 'w': kept = *(volatile char *)0x123456789abcUL; break;
        case 'a': abort();
        case 'd': {
            char *volatile block = malloc(24);
            free(block);
            free(block);
            break;
        }
        case 's': smash(room, 64); break;
        case 'c': ((void (*)(void))none)(); break;
    }
}

KEPT int turn(int n, const char *fault) {
    if (n == 0) {
        fail(fault);
        return 1;
    }
    return turn(n - 1, fault) + n;
}

int main(int count, char **words) {
    return count > 1 ? turn(2, words[1]) : 0;
}
