/* What the program thrown_formats and the two images that it maps know of one another. */
#ifndef THROWN_FORMATS_H
#define THROWN_FORMATS_H

#include "three_formats.h"

enum { ELF_FORMAT = 1, MACHO_FORMAT, PE_FORMAT, NO_FORMAT };

/* The frames of each format are there so many times over. An outermost one handles the exception. */
enum { OUTER = 2 };

struct Chain;
typedef Word(WINDOWS *WindowsFrame)(Word turns, struct Chain *chain);
typedef Word(SYSTEM_V *SystemFrame)(Word turns, struct Chain *chain);

/* A function of each format, which of them handles the exception, and what the destructors noted. */
struct Chain {
    WindowsFrame pe;
    SystemFrame macho;
    SystemFrame elf;
    Word handler;
    Word notes;
};

/* What the code of an image needs for an exception: functions of libgcc and of the C++ library, and typeid(int). */
struct Runtime {
    void(SYSTEM_V *resume)(void *exception);
    void *(SYSTEM_V *begin_catch)(void *exception);
    void(SYSTEM_V *end_catch)(void);
    const void *const *type_of_int;
};

#endif
