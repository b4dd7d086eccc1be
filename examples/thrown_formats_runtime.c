/* What the code of an image calls for an exception. An image has no imports: it goes on to the functions that the
 * program has given. */
#include "thrown_formats.h"

struct Runtime runtime = {0};

/* typeid(int), whose words are the program's. */
const void *_ZTIi[2] = {0};

/* A jump, so that the caller is the frame that the exception passes on. */
#ifdef _WIN32
#define CONVENTION WINDOWS
#define FRAME WindowsFrame
__asm__(".text\n.globl _Unwind_Resume\n_Unwind_Resume:\n    mov %rcx, %rdi\n    jmp *runtime(%rip)\n");
#else
#define CONVENTION SYSTEM_V
#define FRAME SystemFrame
__asm__(".text\n.globl __Unwind_Resume\n__Unwind_Resume:\n    jmpq *_runtime(%rip)\n");
#endif

void *__cxa_begin_catch(void *exception) {
    return runtime.begin_catch(exception);
}

void __cxa_end_catch(void) {
    runtime.end_catch();
}

/* The process finds its own one in the tables that it was given. */
void __gxx_personality_seh0(void) {}
void __gxx_personality_v0(void) {}

Word CONVENTION entered(Word turns, struct Chain *chain);

FRAME CONVENTION begin(const struct Runtime *given) {
    runtime = *given;
    _ZTIi[0] = given->type_of_int[0];
    _ZTIi[1] = given->type_of_int[1];
    return entered;
}
