/* A signal's handler over a function that the signal interrupted at its first instruction. The code to which the handler returns is
   the GNU C library's own; crt1.o's _start calls what stands here in the rest of that library's place. */
#define _DEFAULT_SOURCE
#include <signal.h>
#define APART __attribute__((noipa))
extern long sink;
long sink;
__thread int __libc_errno;
static long thread_block[64];
int __libc_sigaction(int number, const struct sigaction *action, struct sigaction *old);
void trapped(void);

/* The byte before `trapped` belongs to another function, whose frame is larger. Its first instruction raises the signal. */
__asm__(
    "    .text\n"
    "    .type before_trapped, @function\n"
    "before_trapped:\n"
    "    .cfi_startproc\n"
    "    sub $24, %rsp\n"
    "    .cfi_def_cfa_offset 32\n"
    "    ud2\n"
    "    .cfi_endproc\n"
    "    .size before_trapped, . - before_trapped\n"
    "    .globl trapped\n"
    "    .type trapped, @function\n"
    "trapped:\n"
    "    .cfi_startproc\n"
    "    ud2\n"
    "    .cfi_endproc\n"
    "    .size trapped, . - trapped\n");

void __stack_chk_fail(void) { for (;;) ; }
APART void work(void) {}

/* it keeps a value over the call in RBX, so that the interrupted function's is on its stack */
APART void handler(int number) {
    long kept = number;
    work();
    sink = kept;
}
APART long calls(long a, long b) {
    long kept = a + b;
    trapped();
    return kept * b;
}
int main(void) { return 0; }

/* the library's code finds a word for its check of the stack, and its error number, by FS */
void __libc_start_main(int (*f)(void), int argc) {
    long result = 158;
    __asm__ volatile("syscall" : "+a"(result) : "D"(0x1002L), "S"(&thread_block[32]) : "rcx", "r11", "memory");
    struct sigaction action = {.sa_handler = handler};
    __libc_sigaction(SIGILL, &action, 0);
    sink = calls(argc + 6, argc);
    for (;;) work();
}
