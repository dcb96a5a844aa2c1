/* Fills a heap: four threads keep blocks of all sizes, one more ends, and each frees blocks of the one before it. Then it
 * writes its process's number, and waits. */
#define _GNU_SOURCE
#include <pthread.h>
#include <stdatomic.h>
#include <stdint.h>
#include <stdlib.h>
#include <string.h>
#include <unistd.h>

enum { THREADS = 4, BLOCKS = 400, ROUNDS = 20000, SHARED = 200 };

static void *blocks[THREADS + 1][BLOCKS];
static void *_Atomic handed[THREADS + 1][SHARED];
static pthread_barrier_t begun, done;

static uint32_t draw(uint32_t *state, uint32_t below) {
    *state = *state * 1664525u + 1013904223u;
    return (uint32_t)(((uint64_t)*state * below) >> 32);
}

static size_t size_of(uint32_t *state) {
    uint32_t kind = draw(state, 1000);
    return draw(state, kind < 600 ? 200 : kind < 900 ? 3000 : kind < 996 ? 40000 : 400000);
}

/* Aligned blocks are main's alone, since a heap's header is longer from glibc 2.35 on, and so the leads in it differ. */
static void *new_block(int self, uint32_t *state) {
    void *at = NULL;
    size_t size = size_of(state);
    if (self || draw(state, 50))
        at = malloc(size);
    else if (posix_memalign(&at, (size_t)32 << draw(state, 8), size))
        abort();
    memset(at, (int)draw(state, 256), size);
    return at;
}

static void turn(int self, uint32_t *state) {
    void **slot = &blocks[self][draw(state, BLOCKS)];
    uint32_t what = draw(state, 100);
    if (what < 10)
        *slot = realloc(*slot, 1 + size_of(state));
    else if (what < 14 && *slot)
        *slot = atomic_exchange(&handed[self][draw(state, SHARED)], *slot);
    else if (what < 18)
        free(atomic_exchange(&handed[(self + 1) % THREADS][draw(state, SHARED)], NULL));
    else {
        free(*slot);
        *slot = what < 65 ? new_block(self, state) : NULL;
    }
}

static void *work(void *number) {
    int self = (int)(intptr_t)number;
    uint32_t state = (uint32_t)self + 1;
    free(malloc(100));
    if (self)
        pthread_barrier_wait(&begun);
    for (int i = 0; i < (self < THREADS ? ROUNDS : 200); i++)
        turn(self, &state);
    if (self && self < THREADS) {
        pthread_barrier_wait(&done);
        pause();
    }
    return NULL;
}

int main(void) {
    pthread_t thread, last;
    pthread_barrier_init(&begun, NULL, 2);
    pthread_barrier_init(&done, NULL, THREADS);
    for (int i = 1; i <= THREADS; i++) {
        pthread_create(&thread, NULL, work, (void *)(intptr_t)i);
        pthread_barrier_wait(&begun);
        last = thread;
    }
    pthread_join(last, NULL);
    work(NULL);
    pthread_barrier_wait(&done);
    char text[16];
    int length = 0;
    for (int rest = getpid(), place = 1000000000; place; rest %= place, place /= 10)
        text[length++] = (char)('0' + rest / place);
    text[length++] = '\n';
    if (write(1, text, (size_t)length) == length)
        pause();
    return 1;
}
