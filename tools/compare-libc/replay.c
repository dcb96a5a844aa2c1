/* Replays a trace on the machine's own C library, and prints where each block lies: a line in the form of places.h for
 * each line of the trace that makes a block or gives it another size. One thread runs at a time, in the order of the
 * lines. The program's own memory, and that which the C library asks for itself, isn't of the heap that is looked at. */
#define _GNU_SOURCE
#include "places.h"
#include <errno.h>
#include <fcntl.h>
#include <malloc.h>
#include <pthread.h>
#include <semaphore.h>
#include <stdatomic.h>
#include <stdbool.h>
#include <stdio.h>
#include <stdlib.h>
#include <string.h>
#include <sys/mman.h>
#include <sys/personality.h>
#include <sys/stat.h>

extern void *__libc_malloc(size_t), *__libc_calloc(size_t, size_t), *__libc_realloc(void *, size_t);
extern void *__libc_memalign(size_t, size_t);
extern void __libc_free(void *);
extern int __libc_mallopt(int, int);

#define MODEL_BREAK 0x555555559000u
enum { CONGRUENT = 1 << 25, THREADS = 64, TRAYS = 65536, OWN_ROOM = 1 << 22 };

/* ---- memory that isn't of the heap: what the C library asks for itself, as for a thread, comes from here */

static char *own;
static _Atomic size_t own_used;

/* The size stands before the block. */
static void *own_block(size_t size) {
    size_t room = (size + 31) & ~(size_t)15, from = own_used;
    if (!own)
        own = mmap(NULL, OWN_ROOM, PROT_READ | PROT_WRITE, MAP_PRIVATE | MAP_ANONYMOUS, -1, 0);
    if (own == MAP_FAILED)
        return NULL;
    do
        if (room < size || room > OWN_ROOM - from)
            return NULL;
    while (!atomic_compare_exchange_weak(&own_used, &from, from + room));
    *(size_t *)(own + from) = size;
    return own + from + 16;
}

void *malloc(size_t size) { return own_block(size); }

void *calloc(size_t count, size_t size) { return own_block(count * size); }

void free(void *at) { (void)at; }

void *realloc(void *at, size_t size) {
    void *to = own_block(size);
    if (to && at)
        memcpy(to, at, ((size_t *)at)[-2] < size ? ((size_t *)at)[-2] : size);
    return to;
}

/* Blocks are aligned to 16, which is all that is asked of these here. */
void *memalign(size_t align, size_t size) { return align <= 16 ? own_block(size) : NULL; }

void *aligned_alloc(size_t align, size_t size) { return memalign(align, size); }

int posix_memalign(void **to, size_t align, size_t size) { return (*to = memalign(align, size)) ? 0 : ENOMEM; }

/* ---- the trace */

static struct places places;
static const char *text, *at, *end;
static unsigned long line = 1;
static uint64_t most_names;
static void **names[THREADS], *trays[TRAYS];
static sem_t turn[THREADS], all_done;
static pthread_t threads[THREADS];
static bool begun[THREADS];

__attribute__((noreturn)) static void fail(const char *what) {
    fprintf(stderr, "compare-libc: line %lu: %s\n", line, what);
    exit(3);
}

static uint64_t number(void) {
    uint64_t n = 0;
    if (at == end || *at < '0' || *at > '9')
        fail("no number");
    for (; at < end && *at >= '0' && *at <= '9'; at++)
        if (__builtin_mul_overflow(n, 10, &n) || __builtin_add_overflow(n, (uint64_t)(*at - '0'), &n))
            fail("no number");
    return n;
}

static void expect(char c) {
    if (at == end || *at++ != c)
        fail("no line of a trace");
}

static uint64_t field(void) {
    expect(' ');
    return number();
}

/* A field that may be negative. */
static int signed_field(void) {
    expect(' ');
    bool negative = at < end && *at == '-';
    at += negative;
    uint64_t n = number();
    if (n > (uint64_t)INT32_MAX + negative)
        fail("no number");
    return (int)(negative ? -(int64_t)n : (int64_t)n);
}

static void **name_of(unsigned thread) {
    uint64_t n = field();
    if (n < 1 || n > most_names)
        fail("no name");
    return &names[thread][n];
}

static void **tray_of(void) {
    uint64_t n = field();
    if (n >= TRAYS)
        fail("no tray");
    return &trays[n];
}

/* The thread of the next line; THREADS behind the last. */
static unsigned next_thread(void) {
    const char *here = at;
    if (at == end)
        return THREADS;
    uint64_t n = number();
    at = here;
    if (n >= THREADS)
        fail("no thread");
    return (unsigned)n;
}

static void show(const void *block) {
    char place[PLACE_ROOM];
    fwrite(place, 1, (size_t)(put_place(&places, place, block) - place), stdout);
}

static void *aligned(uint64_t align, uint64_t size) {
    return align % 8 || !align || (align & (align - 1)) ? NULL : __libc_memalign(align, size);
}

static void resize(void **name, uint64_t size) {
    void *to = *name ? __libc_realloc(*name, size) : NULL;
    if (!*name || to)
        *name = to;
    else if (!size)
        *name = NULL;
    if (size)
        show(to);
}

/* One line; whether it ends its thread. */
static bool run_line(unsigned thread) {
    char command;
    void **name = NULL;
    uint64_t first;
    number();
    expect(' ');
    if (at == end)
        fail("no command");
    command = *at++;
    if (command != 'x' && command != 's' && command != 'o')
        name = name_of(thread);
    switch (command) {
    case 'm': show(*name = __libc_malloc(field())); break;
    case 'c': first = field(); show(*name = __libc_calloc(first, field())); break;
    case 'a': first = field(); show(*name = aligned(first, field())); break;
    case 'r': resize(name, field()); break;
    case 'f': __libc_free(*name); *name = NULL; break;
    case 'p': *tray_of() = *name; *name = NULL; break;
    case 't': *name = *tray_of(); break;
    case 'o': first = (uint64_t)signed_field(); __libc_mallopt((int)first, signed_field()); break;
    case 's': case 'x': break;  /* the text of malloc_stats changes no place */
    default: fail("no command");
    }
    expect('\n');
    line++;
    return command == 'x';
}

/* ---- threads: each runs its lines, and hands the turn to the thread of the next */

static void *thread_run(void *number_of_thread);

static void begin_thread(unsigned thread) {
    if (begun[thread])
        return;
    begun[thread] = true;
    names[thread] = mmap(NULL, (most_names + 1) * sizeof(void *), PROT_READ | PROT_WRITE,
                         MAP_PRIVATE | MAP_ANONYMOUS | MAP_NORESERVE, -1, 0);
    if (names[thread] == MAP_FAILED || sem_init(&turn[thread], 0, 0))
        fail("no memory");
    if (thread && pthread_create(&threads[thread], NULL, thread_run, (void *)(uintptr_t)thread))
        fail("no thread could be begun");
}

static void hand_turn(void) {
    unsigned next = next_thread();
    if (next == THREADS) {
        sem_post(&all_done);
        return;
    }
    begin_thread(next);
    sem_post(&turn[next]);
}

static void wait_for(sem_t *sem) {
    while (sem_wait(sem))
        ;
}

/* The lines of a thread up to its end; true where it ended by its own line. */
static bool own_lines(unsigned thread) {
    for (;;) {
        wait_for(&turn[thread]);
        while (next_thread() == thread)
            if (run_line(thread))
                return true;
        hand_turn();
    }
}

/* Joins the thread that ends, so that the next line comes when its cache was given back, and hands the turn on. */
static void *joiner(void *number_of_thread) {
    pthread_join(threads[(uintptr_t)number_of_thread], NULL);
    hand_turn();
    return NULL;
}

static void *thread_run(void *number_of_thread) {
    pthread_t other;
    own_lines((unsigned)(uintptr_t)number_of_thread);
    if (pthread_create(&other, NULL, joiner, number_of_thread) || pthread_detach(other))
        fail("no thread could be begun");
    return NULL;
}

/* Thread 0 is the process's own, in a thread beside which this one waits; so it is that which waits in `own_lines`. */
static void *wait_for_end(void *none) {
    (void)none;
    wait_for(&all_done);
    exit(fflush(stdout) || ferror(stdout) ? 7 : 0);
}

static void read_trace(const char *path) {
    struct stat file;
    int fd = open(path, O_RDONLY);
    if (fd < 0 || fstat(fd, &file)) {
        fprintf(stderr, "compare-libc: %s: %s\n", path, strerror(errno));
        exit(6);
    }
    if (file.st_size)
        text = mmap(NULL, (size_t)file.st_size, PROT_READ, MAP_PRIVATE, fd, 0);
    if (text == MAP_FAILED || file.st_size < 11 || memcmp(text, "ptmtrace ", 9) || (text[9] != '1' && text[9] != '2') ||
        text[10] != '\n' || text[file.st_size - 1] != '\n')
        fail("no trace");
    most_names = text[9] == '2' ? UINT32_MAX : 65535;
    at = text + 11;
    end = text + file.st_size;
    line = 2;
}

/* Starts anew where addresses are random, or where variables change the C library's malloc. */
static void start_anew(char **words) {
    int now = personality(0xffffffff);
    if (now != -1 && !(now & ADDR_NO_RANDOMIZE) && personality((unsigned long)now | ADDR_NO_RANDOMIZE) != -1) {
        char *none[] = {NULL};
        execve("/proc/self/exe", words, none);
    }
}

/* Moves the break to where it is to a multiple of 32 MiB as the model's is; else the offsets of aligned blocks wouldn't be
 * comparable. */
static uintptr_t heap_start(void) {
    uintptr_t now = (uintptr_t)sbrk(0), far = (MODEL_BREAK - now) & (CONGRUENT - 1);
    return sbrk((intptr_t)far) == (void *)-1 ? now : now + far;
}

int main(int count, char **words) {
    static char buffer[1 << 16], first[PLACE_ROOM];
    pthread_t waiter;
    if (count != 2) {
        fputs("usage: replay TRACE\n", stderr);
        return 2;
    }
    start_anew(words);
    places.start = heap_start();
    /* The C library gives main to the thread of the first call, which is thread 0 in every program; this one, of a number
     * that it doesn't know, changes nothing. */
    mallopt(0, 0);
    setvbuf(stdout, buffer, _IOFBF, sizeof buffer);
    read_trace(words[1]);
    fwrite(first, 1, (size_t)(put_first_line(&places, first) - first), stdout);
    sem_init(&all_done, 0, 0);
    if (pthread_create(&waiter, NULL, wait_for_end, NULL))
        fail("no thread could be begun");
    begin_thread(0);
    hand_turn();
    own_lines(0);
}
