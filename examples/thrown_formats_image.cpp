// The code of an image: its two frames, and where a call of them begins. It is compiled for PE, where the next format
// is Mach-O, and for Mach-O, where it is ELF.
#ifdef _WIN32
#define CONVENTION WINDOWS
#define HERE PE_FORMAT
#define NEXT macho
#else
#define CONVENTION SYSTEM_V
#define HERE MACHO_FORMAT
#define NEXT elf
#endif
#include "thrown_formats_frames.h"

extern "C" Word CONVENTION entered(Word turns, Chain *chain) {
    return onwards(turns, chain);
}
