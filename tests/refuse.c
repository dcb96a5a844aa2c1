/* Loaded in front of the C library (LD_PRELOAD), refuses one request of a program for memory: that with the number in
 * REFUSE_AT, counted from 1. It writes a byte to the file descriptor in REFUSE_TELLS when it does. */
#define _GNU_SOURCE
#include <dlfcn.h>
#include <errno.h>
#include <stdatomic.h>
#include <stdlib.h>
#include <unistd.h>

static atomic_ulong asked;

/* What the environment says of one name, or 0. */
static unsigned long number(const char *name)
{
    const char *text = getenv(name);
    return text ? strtoul(text, NULL, 10) : 0;
}

static int is_refused(void)
{
    static unsigned long at;
    if (!at)
        at = number("REFUSE_AT");
    if (atomic_fetch_add(&asked, 1) + 1 != at)
        return 0;
    if (write((int)number("REFUSE_TELLS"), "!", 1) != 1)
        _exit(99);
    errno = ENOMEM;
    return 1;
}

#define REAL(name) ((__typeof__(&name))dlsym(RTLD_NEXT, #name))

void *malloc(size_t size)
{
    static void *(*real)(size_t);
    if (!real)
        real = REAL(malloc);
    return is_refused() ? NULL : real(size);
}

void *realloc(void *block, size_t size)
{
    static void *(*real)(void *, size_t);
    if (!real)
        real = REAL(realloc);
    return is_refused() ? NULL : real(block, size);
}

int posix_memalign(void **block, size_t align, size_t size)
{
    static int (*real)(void **, size_t, size_t);
    if (!real)
        real = REAL(posix_memalign);
    return is_refused() ? ENOMEM : real(block, align, size);
}

void *aligned_alloc(size_t align, size_t size)
{
    static void *(*real)(size_t, size_t);
    if (!real)
        real = REAL(aligned_alloc);
    return is_refused() ? NULL : real(align, size);
}

/* dlsym may ask for zeroed memory before the real calloc is known: it gets none, and does without. */
void *calloc(size_t count, size_t size)
{
    static void *(*real)(size_t, size_t);
    static int looks;
    if (!real) {
        if (looks)
            return NULL;
        looks = 1;
        real = REAL(calloc);
    }
    return is_refused() ? NULL : real(count, size);
}
