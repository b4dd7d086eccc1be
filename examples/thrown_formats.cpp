// A throw through three formats: ELF code calls a function of a PE image, this one of a Mach-O image, and this ELF code,
// twice over, and the innermost call throws. Each frame destroys an object, but for one, which handles the exception:
// the outer one of the format that the argument names; with `none` nothing takes it. The process finds the frames of the images by descriptions that
// stand beside the program (registered_frames.py), for the unwinder and the personality of the C++ library.
#include "placed_images.h"

#define CONVENTION SYSTEM_V
#define HERE ELF_FORMAT
#define NEXT pe
#include "thrown_formats_frames.h"

#include <cxxabi.h>
#include <typeinfo>
#include <unwind.h>

extern "C" void __register_frame(const void *descriptions);
extern "C" const char pe_frames[], macho_frames[];

static Chain chain;

KEPT Word throwing(Word number) {
    throw static_cast<int>(number);
}

static Word SYSTEM_V entered(Word turns, Chain *all) {
    return turns == 0 ? throwing(all->handler) : onwards(turns, all);
}

// Before main, so that a run from there has the images.
static __attribute__((constructor)) void place_images(int, char **words) {
    static const Runtime runtime = {
        reinterpret_cast<void (*)(void *)>(_Unwind_Resume), abi::__cxa_begin_catch, abi::__cxa_end_catch,
        reinterpret_cast<const void *const *>(&typeid(int)),
    };
    auto begin_pe = reinterpret_cast<WindowsFrame(WINDOWS *)(const Runtime *)>(placed_pe(contents(words[0], "pe")));
    auto begin_macho = reinterpret_cast<SystemFrame(SYSTEM_V *)(const Runtime *)>(placed_macho(contents(words[0], "macho")));
    chain.pe = begin_pe(&runtime);
    chain.macho = begin_macho(&runtime);
    chain.elf = entered;
    __register_frame(pe_frames);
    __register_frame(macho_frames);
}

// What the destructors have to have noted, from the innermost outwards.
static Word due_notes() {
    const Word outwards[] = {MACHO_FORMAT, PE_FORMAT, ELF_FORMAT};
    Word due = 0;
    for (int turns = 1; turns <= OUTER; turns++) {
        for (Word format : outwards) {
            due = turns == OUTER && format == chain.handler ? due : 10 * due + format;
        }
    }
    return due;
}

int main(int count, char **words) {
    const char *names[] = {"", "elf", "macho", "pe", "none"};
    for (Word format = ELF_FORMAT; format <= NO_FORMAT && count == 2; format++) {
        chain.handler = strcmp(words[1], names[format]) == 0 ? format : chain.handler;
    }
    if (chain.handler == 0) {
        fprintf(stderr, "usage: %s elf|macho|pe|none\n", words[0]);
        return 2;
    }
    entered(OUTER, &chain);
    return chain.notes == due_notes() ? 0 : 1;
}
