/* The code of an image: functions with frames of different kinds, from `enter` to the next image. It is
 * compiled for PE, where the next one is the Mach-O image, and for Mach-O, where it is the ELF program. */
#include "stopped.h"
#include "three_formats.h"

#ifdef _WIN32
#define NEXT macho
#else
#define NEXT elf
#endif

/* A leaf, without a frame where it is optimised. */
KEPT Word leaf(Word a, Word b) {
    return a * 3 + (b ^ 5);
}

/* After the call stands an instruction without a prefix, where it is optimised by clang. */
KEPT int subtracting(int a, int b) {
    int found = (int)leaf(a, b);
    return b - found;
}

/* A loop, and jumps in its body. */
KEPT Word counting(Word turns) {
    Word sum = 0;
    for (Word i = 0; i < turns; i++) {
        sum += i % 2 == 0 ? leaf(i, sum) : sum / 2;
        if (sum > 1000) {
            continue;
        }
        sum += 3;
    }
    return sum;
}

/* A call at the end, which is a jump where it is optimised. */
KEPT Word ending(Word turns) {
#ifdef EVERY_INSTRUCTION
    /* With other numbers of turns each instruction of `counting` runs. */
    turns += (counting(0) + counting(40)) % 2;
#endif
    Word sum = counting(turns);
    return leaf(sum, counting(turns + 1));
}

/* A frame so large that a Mach-O opcode leaves its size in the code. */
KEPT Word large(Word turns, const struct Images *images) {
    volatile Word room[280];
    room[turns] = turns;
    Word deeper = images->NEXT(turns, images);
    return deeper + room[turns];
}

/* Numbers in the registers of the vector unit, of which Windows has functions save some. */
KEPT Word real_numbers(Word turns, const struct Images *images) {
    double first = (double)turns, second = first * first;
    Word deeper = large(turns, images);
    return deeper + (Word)(first * second) + leaf((Word)second, deeper);
}

/* A frame whose size is known only when it runs. */
KEPT Word growing(Word turns, const struct Images *images) {
    volatile char *bytes = __builtin_alloca(turns * 24 + 40);
    bytes[turns] = 1;
    Word deeper = real_numbers(turns, images);
    return deeper + bytes[turns] + leaf(deeper, turns);
}

/* Values in all registers that are kept across calls. */
KEPT Word keeping(Word a, Word b, Word c, Word d, const struct Images *images) {
    Word e = leaf(a, b), f = leaf(b, c), g = leaf(c, d), h = leaf(d, a);
    Word deeper = growing(a, images);
    return deeper + leaf(a ^ e, b ^ f) + leaf(c ^ g, d ^ h) + e * f + g * h + a * b + c * d;
}

/* A path that needs no frame, for which an optimised prologue is jumped over. */
KEPT Word perhaps(Word turns, const struct Images *images) {
    if (turns > 8) {
        return turns;
    }
    Word first = keeping(turns, turns + 1, turns + 2, turns + 3, images);
    return first + leaf(first, turns) * turns;
}

KEPT Word last(Word a, Word b);

Word enter(Word turns, const struct Images *images) {
    int small = subtracting((int)turns, 7);
    Word first = perhaps(turns, images);
    Word second = perhaps(turns + 10, images);
    return first * 2 + last(second, first) + ending(turns + 3) + small;
}

/* After all others: it keeps RBX alone, and so has an opcode of its own. LLD 14 writes the opcode of neighbours
 * that have the same one once, and lets the table end where the first of these ends. */
KEPT Word last(Word a, Word b) {
    __asm__ volatile("add %1, %0" : "+r"(a) : "r"(b) : "rbx");
    return a;
}
