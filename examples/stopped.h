/* How the examples stop: the thread waits for a signal in the function that calls this. */
#ifndef STOPPED_H
#define STOPPED_H

/* The system call pause(2), without a call of a function. */
static inline __attribute__((always_inline)) void wait_here(void) {
    long result = 34;
    __asm__ volatile("syscall" : "+a"(result) : : "rcx", "r11", "memory");
}

/* A function that the compiler neither copies into its callers nor makes others of. */
#ifdef __clang__
#define KEPT __attribute__((noinline))
#else
#define KEPT __attribute__((noipa))
#endif

#endif
