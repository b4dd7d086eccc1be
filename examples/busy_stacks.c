/* Functions that call one another and count, without a C library: a small program for a profile, whose tables are
   few. Built by gcc -O2 -static -nostdlib. */
typedef unsigned long word;

#define KEPT __attribute__((noinline, noclone))

static volatile word sink;

KEPT word mix(word seed, word rounds) {
    for (word i = 0; i < rounds; i++)
        seed = seed * 6364136223846793005u + 1442695040888963407u;
    sink = seed;
    return seed;
}

KEPT word nest(word seed, word depth) {
    if (depth == 0)
        return mix(seed, 40000) + 1;
    return nest(seed + 1, depth - 1) + mix(seed, 10000);
}

KEPT word all(word times) {
    word sum = 0;
    for (word i = 0; i < times; i++)
        sum += nest(i, i % 4);
    return sum;
}

void begin(void) {
    word status = all(4000) == 7;
    __asm__ volatile("syscall" : : "a"(60), "D"(status) : "rcx", "r11", "memory");
    __builtin_unreachable();
}

/* The outermost frame: its caller's address is undefined. */
__asm__(".globl _start\n"
        ".type _start, @function\n"
        "_start:\n"
        ".cfi_startproc\n"
        ".cfi_undefined rip\n"
        "call begin\n"
        "hlt\n"
        ".cfi_endproc\n"
        ".size _start, .-_start\n");
