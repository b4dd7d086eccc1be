/* PE and Mach-O files that a program maps at the addresses that they were linked for. They stand beside the program. */
#ifndef PLACED_IMAGES_H
#define PLACED_IMAGES_H

#include <fcntl.h>
#include <stdint.h>
#include <stdio.h>
#include <stdlib.h>
#include <string.h>
#include <sys/mman.h>
#include <unistd.h>

static uint64_t number(const uint8_t *bytes, int size) {
    uint64_t found = 0;
    memcpy(&found, bytes, size);
    return found;
}

static void place(uint64_t address, uint64_t size, const uint8_t *bytes, uint64_t count) {
    void *wanted = (void *)(address & ~4095ull);
    int protection = PROT_READ | PROT_WRITE | PROT_EXEC, flags = MAP_PRIVATE | MAP_ANONYMOUS | MAP_FIXED_NOREPLACE;
    if (mmap(wanted, size + (address & 4095), protection, flags, -1, 0) != wanted) {
        perror("mmap");
        exit(1);
    }
    memcpy((void *)address, bytes, count < size ? count : size);
}

/* Each section at its place. The address of the entry. */
static uint64_t placed_pe(const uint8_t *file) {
    const uint8_t *header = file + number(file + 0x3c, 4);
    const uint8_t *section = header + 24 + number(header + 20, 2);
    uint64_t base = number(header + 48, 8);
    for (int left = number(header + 6, 2); left > 0; left--, section += 40) {
        place(base + number(section + 12, 4), number(section + 8, 4), file + number(section + 20, 4), number(section + 16, 4));
    }
    return base + number(header + 40, 4);
}

/* Each segment with contents at its place. The address of the entry, which is named relative to the file. */
static uint64_t placed_macho(const uint8_t *file) {
    const uint8_t *command = file + 32;
    uint64_t text = 0, entry = 0;
    for (int left = number(file + 16, 4); left > 0; left--, command += number(command + 4, 4)) {
        if (number(command, 4) == 0x19 && number(command + 48, 8) > 0) {
            place(number(command + 24, 8), number(command + 32, 8), file + number(command + 40, 8), number(command + 48, 8));
            text = strcmp((const char *)command + 8, "__TEXT") == 0 ? number(command + 24, 8) : text;
        }
        entry = number(command, 4) == 0x80000028 ? number(command + 8, 8) : entry;
    }
    return text + entry;
}

static const uint8_t *contents(const char *program, const char *ending) {
    static char name[4096];
    snprintf(name, sizeof name, "%s.%s", program, ending);
    int file = open(name, O_RDONLY);
    void *bytes = file < 0 ? MAP_FAILED : mmap(0, lseek(file, 0, SEEK_END), PROT_READ, MAP_PRIVATE, file, 0);
    if (bytes == MAP_FAILED) {
        perror(name);
        exit(1);
    }
    return (const uint8_t *)bytes;
}

#endif
