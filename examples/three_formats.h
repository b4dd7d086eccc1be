/* What the program three_formats and the two images that it maps know of one another. */
#ifndef THREE_FORMATS_H
#define THREE_FORMATS_H

/* The calling conventions of the images: Mach-O has that of System V, as ELF; PE that of Windows. */
#define SYSTEM_V __attribute__((sysv_abi))
#define WINDOWS __attribute__((ms_abi))

typedef long long Word;

/* A function of each image, that goes on to the next one. No image has imports. */
struct Images {
    Word(WINDOWS *pe)(Word turns, const struct Images *images);
    Word(SYSTEM_V *macho)(Word turns, const struct Images *images);
    Word(SYSTEM_V *elf)(Word turns, const struct Images *images);
};

#endif
