/* Makes one call of the C library fail, by its number, in a program that is run with this preloaded.
 *
 *     gcc -shared -fPIC -O2 tools/fail_alloc.c -o fail_alloc.so
 *     FAIL_CALL=alloc FAIL_AT=3 LD_PRELOAD=./fail_alloc.so PROGRAM
 *
 * FAIL_CALL is alloc, read or write; calls are counted from 1. With FAIL_ON=1 each later one fails too.
 * The last number is written to the file FAIL_COUNT, if it is set. tools/fail_alloc.py does all this. */
#define _GNU_SOURCE
#include <dlfcn.h>
#include <errno.h>
#include <fcntl.h>
#include <stdio.h>
#include <stdlib.h>
#include <string.h>
#include <unistd.h>

extern void *__libc_malloc(size_t);
extern void *__libc_calloc(size_t, size_t);
extern void *__libc_realloc(void *, size_t);
extern void *__libc_memalign(size_t, size_t);

static unsigned long allocations, reads, writes;

static int fails(const char *call, unsigned long *count)
{
    const char *named = getenv("FAIL_CALL"), *at = getenv("FAIL_AT"), *on = getenv("FAIL_ON");
    if (!named || strcmp(named, call))
        return 0;
    ++*count;
    unsigned long number = at ? strtoul(at, NULL, 10) : 0;
    return number && (*count == number || (on && *count > number));
}

static void *no_memory(void)
{
    errno = ENOMEM;
    return NULL;
}

void *malloc(size_t size)
{
    return fails("alloc", &allocations) ? no_memory() : __libc_malloc(size);
}

void *calloc(size_t count, size_t size)
{
    return fails("alloc", &allocations) ? no_memory() : __libc_calloc(count, size);
}

void *realloc(void *old, size_t size)
{
    return fails("alloc", &allocations) ? no_memory() : __libc_realloc(old, size);
}

void *memalign(size_t alignment, size_t size)
{
    return fails("alloc", &allocations) ? no_memory() : __libc_memalign(alignment, size);
}

void *aligned_alloc(size_t alignment, size_t size)
{
    return memalign(alignment, size);
}

int posix_memalign(void **into, size_t alignment, size_t size)
{
    void *found = memalign(alignment, size);
    if (!found)
        return ENOMEM;
    *into = found;
    return 0;
}

ssize_t read(int file, void *into, size_t size)
{
    static ssize_t (*real)(int, void *, size_t);
    if (!real)
        real = (ssize_t (*)(int, void *, size_t))dlsym(RTLD_NEXT, "read");
    if (fails("read", &reads)) {
        errno = EIO;
        return -1;
    }
    return real(file, into, size);
}

ssize_t write(int file, const void *from, size_t size)
{
    static ssize_t (*real)(int, const void *, size_t);
    if (!real)
        real = (ssize_t (*)(int, const void *, size_t))dlsym(RTLD_NEXT, "write");
    if (fails("write", &writes)) {
        errno = EIO;
        return -1;
    }
    return real(file, from, size);
}

/* the names by which Rattle's library calls them */
ssize_t __read(int file, void *into, size_t size)
{
    return read(file, into, size);
}

ssize_t __write(int file, const void *from, size_t size)
{
    return write(file, from, size);
}

__attribute__((destructor)) static void tell(void)
{
    const char *path = getenv("FAIL_COUNT");
    if (!path)
        return;
    char text[64];
    int length = snprintf(text, sizeof text, "%lu %lu %lu\n", allocations, reads, writes);
    int file = open(path, O_WRONLY | O_CREAT | O_TRUNC, 0600);
    unsetenv("FAIL_CALL");
    if (file >= 0 && write(file, text, length) == length)
        close(file);
}
