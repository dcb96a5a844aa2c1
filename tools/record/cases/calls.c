/* Each call once, with its odd arguments. */
#define _GNU_SOURCE
#include <errno.h>
#include <malloc.h>
#include <stdint.h>
#include <stdlib.h>

static void *volatile kept;

int main(void) {
    void *a = malloc(100), *b = calloc(3, 50), *c = NULL, *d;
    a = realloc(a, 200);
    kept = realloc(NULL, 30);
    free(NULL);
    if (posix_memalign(&c, 64, 500) || posix_memalign(&d, 24, 500) != EINVAL)
        return 1;
    kept = aligned_alloc(8, 40);
    kept = memalign(48, 100);
    kept = valloc(10);
    kept = pvalloc(10);
    kept = malloc((size_t)-1);
    kept = calloc((size_t)1 << 62, 16);
    if (!c || kept)
        return 1;
    kept = realloc(b, (size_t)-5);
    kept = realloc(c, 0);
    kept = malloc(0);
    mallopt(M_TOP_PAD, 131072);
    free(a);
    return 0;
}
