/* Fifty threads that come and go, some of them joined, and free what others made. */
#define _GNU_SOURCE
#include <pthread.h>
#include <stdatomic.h>
#include <stdlib.h>
#include <unistd.h>

enum { THREADS = 50, PLACES = 64, CALLS = 800 };

static _Atomic(void *) place[PLACES];
static atomic_int live;

static void *make(unsigned kind, size_t size) {
    if (kind == 0)
        return calloc(1, size);
    return kind == 1 ? aligned_alloc(64, size) : malloc(size);
}

static void *work(void *number) {
    unsigned x = (unsigned)(long)number * 7919 + 13;
    for (int i = 0; i < CALLS; i++) {
        x = x * 1103515245 + 12345;
        size_t size = (x >> 9) % (x >> 28 ? 1500 : 200000);
        void *old = atomic_exchange(&place[x >> 16 & (PLACES - 1)], make(x >> 5 & 7, size));
        if (old && x & 1)
            old = realloc(old, size / 2 + 1);
        free(old);
    }
    atomic_fetch_sub(&live, 1);
    return NULL;
}

int main(void) {
    for (long i = 0; i < THREADS; i++) {
        pthread_t thread;
        atomic_fetch_add(&live, 1);
        pthread_create(&thread, NULL, work, (void *)i);
        if (i % 3)
            pthread_detach(thread);
        else
            pthread_join(thread, NULL);
    }
    while (atomic_load(&live))
        usleep(1000);
    for (int i = 0; i < PLACES; i++)
        free(place[i]);
    return 0;
}
