/* The library that stands before the C library's malloc. Each call is served by the C library under one lock, and
 * becomes lines of the trace under the same lock, so that the trace has the order in which the calls were served. */
#define _GNU_SOURCE
#include "sink.h"
#include "trace.h"
#include <dlfcn.h>
#include <errno.h>
#include <fcntl.h>
#include <limits.h>
#include <malloc.h>
#include <pthread.h>
#include <stdlib.h>
#include <string.h>
#include <sys/auxv.h>
#include <sys/mman.h>
#include <sys/prctl.h>
#include <sys/syscall.h>
#include <sys/uio.h>
#include <time.h>
#include <unistd.h>

/* The C library's own; no search by dlsym, which may itself call malloc. */
extern void *__libc_malloc(size_t), *__libc_calloc(size_t, size_t), *__libc_realloc(void *, size_t);
extern void *__libc_memalign(size_t, size_t);
extern void __libc_free(void *);
extern int __libc_mallopt(int, int);

enum { ROUNDS = 4, PAUSE = 20000, PAUSES = 2500, MIN_CHUNK = 32, MALLOC_ALIGNMENT = 16, PAGE = 4096, MAPPED = 2 };
#define BIG ((uint64_t)INT64_MAX)

/* Whether calls are recorded. It stands in a page of its own, which the system wipes in a child that came by a fork that
 * nobody was told of: such a child, whose lock may be held by a thread that it doesn't have, records nothing. */
static const int off;
static int *on_page;
static const volatile int *on = &off;

static pthread_mutex_t lock = PTHREAD_MUTEX_INITIALIZER;
static _Atomic int started;
static pthread_key_t key;
static struct slot fork_slot;

static __thread int number __attribute__((tls_model("initial-exec"))) = -1;
static __thread int inside __attribute__((tls_model("initial-exec")));

/* Threads whose last destructor has run, and which may call free a last time on their way out. */
static struct {
    int thread;
    bool late;      /* nobody waits for it any more */
    int *cleared;   /* the word that the system clears when the thread is gone, where it tells */
} ending[THREADS];
static _Atomic int endings;

/* ---- threads */

/* A thread is gone when the system cleared the word of its number; the word's memory may be gone, or be another
 * thread's, since. */
static bool is_gone(int thread) {
    int word = 0, process = getpid();
    if (ending[thread].cleared) {
        struct iovec to = {&word, sizeof word}, from = {ending[thread].cleared, sizeof word};
        long got = syscall(SYS_process_vm_readv, process, &to, 1L, &from, 1L, 0L);
        if (got == sizeof word)
            return word != ending[thread].thread;
        if (errno == EFAULT)
            return true;
    }
    return syscall(SYS_tgkill, process, ending[thread].thread, 0) != 0;
}

/* Writes the ends of the threads that are gone; whether another is on its way out that is to be waited for. */
static bool note_exits(void) {
    bool others = false;
    for (int t = 1; t < THREADS; t++) {
        if (ending[t].thread && is_gone(t)) {
            ending[t].thread = 0;
            endings--;
            if (trace_runs())
                trace_exited(t);
        }
        others = others || (ending[t].thread && !ending[t].late);
    }
    return others;
}

static void give_up(void) {
    for (int t = 1; t < THREADS; t++)
        if (ending[t].thread && !ending[t].late) {
            ending[t].late = true;
            mine->late++;
        }
}

/* A thread that ends gives back its cache where nobody sees it, between its last destructor and its death. No other call
 * is served meanwhile, so that its end has its place in the order; but not for ever, as it may wait for a thread that
 * waits here, and not by a thread that ends itself. */
static void wait_for_exits(void) {
    const struct timespec pause = {0, PAUSE};
    for (int n = 0; endings && *on && note_exits(); n++) {
        if (number > 0 && ending[number].thread)
            return;
        if (n == PAUSES) {
            give_up();
            return;
        }
        pthread_mutex_unlock(&lock);
        syscall(SYS_nanosleep, &pause, NULL);
        pthread_mutex_lock(&lock);
    }
}

/* Begins a recorded call: false where it isn't recorded, and the C library serves it alone. */
static bool begin(void) {
    if (inside) {
        if (mine)
            mine->nested++;
        return false;
    }
    inside = 1;
    pthread_mutex_lock(&lock);
    wait_for_exits();
    return true;
}

static void finish(int error) {
    if (*on && !trace_runs())
        *on_page = 0;
    pthread_mutex_unlock(&lock);
    inside = 0;
    errno = error;
}

/* Runs as a thread ends, again and again so that others' destructors come before the last round. */
static void thread_ends(void *round) {
    long at = (long)round;
    if (at < ROUNDS) {
        pthread_setspecific(key, (void *)(at + 1));
        return;
    }
    if (!*on || number < 1 || !begin())
        return;
    int *cleared = NULL;
    if (prctl(PR_GET_TID_ADDRESS, &cleared))
        cleared = NULL;
    ending[number].cleared = cleared;
    ending[number].late = false;
    ending[number].thread = (int)syscall(SYS_gettid);
    endings++;
    finish(errno);
}

/* The number of this thread; false where the trace ended, be it for want of one. */
static bool numbered(void) {
    if (!trace_runs())
        return false;
    if (number >= 0)
        return true;
    number = trace_thread(syscall(SYS_gettid) == syscall(SYS_getpid));
    if (number > 0)
        pthread_setspecific(key, (void *)1L);
    return number >= 0;
}

/* ---- the shared file and its slots */

static const char *base_of(const char *path) {
    const char *slash = strrchr(path, '/');
    return slash ? slash + 1 : path;
}

/* The value of a variable as the program was started with it. The C library may not know its environment yet. */
static bool first_value(const char *variable, char *value, size_t room) {
    static char part[4096];
    size_t wanted = strlen(variable), at = 0, used = 0;
    bool here = true, in_value = false;
    int fd = plain_open("/proc/self/environ", O_RDONLY, 0);
    if (fd < 0)
        return false;
    long got;
    for (uint64_t from = 0; (got = plain_read(fd, part, sizeof part, from)) > 0; from += (uint64_t)got)
        for (long i = 0; i < got; i++) {
            char c = part[i];
            if (in_value) {
                if (used < room)
                    value[used++] = c;
                if (!c) {
                    plain_close(fd);
                    return used < room;
                }
            } else if (!c) {
                here = true;
                at = 0;
            } else if (here && at == wanted && c == '=') {
                in_value = true;
            } else {
                here = here && at < wanted && c == variable[at];
                at++;
            }
        }
    plain_close(fd);
    return false;
}

static struct control *map_shared(void) {
    static char path[PATH_ROOM];
    if (!first_value(VARIABLE, path, sizeof path))
        return NULL;
    int fd = plain_open(path, O_RDWR, 0);
    if (fd < 0)
        return NULL;
    void *at = mmap(NULL, sizeof(struct control), PROT_READ | PROT_WRITE, MAP_SHARED, fd, 0);
    plain_close(fd);
    return at == MAP_FAILED ? NULL : at;
}

static struct slot *new_slot(void) {
    uint32_t n = atomic_fetch_add(&shared->used, 1);
    if (n >= SLOTS)
        return NULL;
    atomic_store(&shared->slots[n].process, getpid());
    return &shared->slots[n];
}

/* The slot for the program that starts here. Without --follow there is one; a program that the recorded process becomes
 * by exec has it again. */
static struct slot *slot_for(const char *name, const char *file) {
    bool wanted = !*shared->only || !strcmp(shared->only, name) || !strcmp(shared->only, file);
    int process = getpid(), none = 0;
    struct slot *first = &shared->slots[0];
    if (!wanted)
        return NULL;
    if (shared->follow)
        return new_slot();
    if (!*shared->only && process != shared->main_process) {
        atomic_fetch_add(&shared->others, 1);
        return NULL;
    }
    if (atomic_compare_exchange_strong(&first->process, &none, process)) {
        atomic_store(&shared->used, 1);
        return first;
    }
    return none == process ? first : NULL;
}

/* ---- forks */

static void before_fork(void) {
    if (!*on || !begin())
        return;
    fork_slot = *mine;
    inside = 2;
}

static void after_fork(void) {
    if (inside != 2)
        return;
    mine->children += !shared->follow;
    finish(errno);
}

/* The child has a copy of the heap, so its trace begins with what was recorded so far. */
static void in_child(void) {
    if (inside != 2)
        return;
    int error = errno;
    struct slot *slot = shared->follow && trace_runs() ? new_slot() : NULL;
    memset(ending, 0, sizeof ending);
    endings = 0;
    if (slot)
        *on_page = trace_branch(slot, &fork_slot);
    finish(error);
}

/* ---- start */

static bool new_on_page(void) {
    on_page = pages(PAGE);
    if (!on_page)
        return false;
    madvise(on_page, PAGE, MADV_WIPEONFORK);
    on = on_page;
    return true;
}

/* Comes with the first call or the constructor, before there is a second thread. The handlers of forks are best the first
 * that there are: the lock is then taken behind all others' handlers before a fork, which may call malloc. */
static void start(void) {
    static char file[PATH_ROOM];
    if (started)
        return;
    started = 1;
    inside = 1;
    int error = errno;
    const char *name = (const char *)getauxval(AT_EXECFN);
    long got = syscall(SYS_readlinkat, AT_FDCWD, "/proc/self/exe", file, sizeof file - 1);
    file[got > 0 ? got : 0] = 0;
    name = base_of(name ? name : file);
    shared = map_shared();
    struct slot *slot = shared ? slot_for(name, base_of(file)) : NULL;
    if (slot && new_on_page() && !pthread_key_create(&key, thread_ends) &&
        !pthread_atfork(before_fork, after_fork, in_child))
        *on_page = trace_begin(slot, name, (uintptr_t)sbrk(0));
    errno = error;
    inside = 0;
}

__attribute__((constructor)) static void loaded(void) { start(); }

__attribute__((destructor)) static void unloaded(void) {
    if (*on && endings && begin())
        finish(errno);
}

/* ---- the calls: what follows is seen by programs, and nothing before it */

static bool recorded(void) {
    if (!started)
        start();
    return *on && begin();
}

/* A product as calloc takes it; more than there is where it is too large. */
static uint64_t product(uint64_t count, uint64_t size) {
    uint64_t bytes;
    return __builtin_mul_overflow(count, size, &bytes) ? UINT64_MAX : bytes;
}

/* What was served, or refused; `by_rule` says that the rules refuse it whatever the system has. */
static void note_made(struct call call, void *at, uint64_t bytes, bool by_rule) {
    if (!numbered())
        return;
    if (at)
        trace_made(number, call, at, bytes);
    else if (by_rule)
        trace_null(number, call);
    else
        mine->refused++;
}

#pragma GCC visibility push(default)

void *malloc(size_t size) {
    if (!recorded())
        return __libc_malloc(size);
    void *at = __libc_malloc(size);
    int error = errno;
    note_made((struct call){MALLOC, 0, size}, at, size, size > BIG);
    finish(error);
    return at;
}

void *calloc(size_t count, size_t size) {
    if (!recorded())
        return __libc_calloc(count, size);
    void *at = __libc_calloc(count, size);
    int error = errno;
    uint64_t bytes = product(count, size);
    note_made((struct call){CALLOC, count, size}, at, bytes, bytes > BIG);
    finish(error);
    return at;
}

static void resize_known(void *at, size_t size, void *to) {
    if (to || !size || size > BIG)
        trace_resized(number, at, size, to);
    else
        mine->refused++;
}

void *realloc(void *at, size_t size) {
    if (!at)
        return malloc(size);
    if (!recorded())
        return __libc_realloc(at, size);
    void *to = __libc_realloc(at, size);
    int error = errno;
    if (numbered())
        resize_known(at, size, to);
    finish(error);
    return to;
}

void free(void *at) {
    if (!at)
        return;
    if (!recorded()) {
        __libc_free(at);
        return;
    }
    int error = errno;
    __libc_free(at);
    if (numbered())
        trace_freed(number, at);
    finish(error);
}

/* An aligned call as the rules have it: up to malloc's own alignment it is malloc, a power of two is taken as it is,
 * and anything else is rounded up to one. */
static struct call aligned_call(uint64_t align, uint64_t size) {
    uint64_t power = MIN_CHUNK;
    if (align <= MALLOC_ALIGNMENT)
        return (struct call){MALLOC, 0, size};
    while (power < align && power <= BIG)
        power *= 2;
    return (struct call){ALIGNED, power, size};
}

static bool aligned_too_big(uint64_t align, uint64_t size) {
    return size > BIG || (align > MALLOC_ALIGNMENT && size + align + 2 * MIN_CHUNK > BIG);
}

void *memalign(size_t align, size_t size) {
    if (!recorded())
        return __libc_memalign(align, size);
    void *at = __libc_memalign(align, size);
    int error = errno;
    note_made(aligned_call(align, size), at, size, aligned_too_big(align, size) && align <= BIG);
    finish(error);
    return at;
}

void *aligned_alloc(size_t align, size_t size) { return memalign(align, size); }

void *valloc(size_t size) { return memalign(PAGE, size); }

void *pvalloc(size_t size) { return memalign(PAGE, size > BIG ? size : (size + PAGE - 1) & ~(size_t)(PAGE - 1)); }

static bool is_alignment(uint64_t align) { return align && align % sizeof(void *) == 0 && !(align & (align - 1)); }

/* What posix_memalign answers for an alignment that is one. */
static int align_block(void **to, size_t align, size_t size) {
    void *at = __libc_memalign(align, size);
    if (at)
        *to = at;
    return at ? 0 : ENOMEM;
}

int posix_memalign(void **to, size_t align, size_t size) {
    int error = errno;
    bool good = is_alignment(align);
    if (!recorded())
        return good ? align_block(to, align, size) : EINVAL;
    int answer = good ? align_block(to, align, size) : EINVAL;
    note_made((struct call){ALIGNED, align, size}, answer ? NULL : *to, size, !good || aligned_too_big(align, size));
    finish(error);
    return answer;
}

/* A program that is linked with another allocator would else ask that one for the size of a block of the C library's. */
size_t malloc_usable_size(void *at) {
    if (!at)
        return 0;
    size_t word = ((const size_t *)at)[-1];
    return (word & ~(size_t)7) - (word & MAPPED ? 2 * sizeof word : sizeof word);
}

static void note_tuned(void) {
    if (*on && mine)
        mine->tuned++;
}

int mallopt(int parameter, int value) {
    note_tuned();
    return __libc_mallopt(parameter, value);
}

int malloc_trim(size_t pad) {
    static int (*real)(size_t);
    note_tuned();
    if (!real)
        *(void **)&real = dlsym(RTLD_NEXT, "malloc_trim");
    return real ? real(pad) : 0;
}

#pragma GCC visibility pop
