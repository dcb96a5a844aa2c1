#define _GNU_SOURCE
#include "sink.h"
#include <errno.h>
#include <fcntl.h>
#include <string.h>
#include <sys/mman.h>
#include <sys/resource.h>
#include <sys/stat.h>
#include <sys/syscall.h>
#include <unistd.h>

enum { WINDOW = 1 << 19, LEAST = 1 << 12, HIGHEST = 1024, ROOM_ABOVE = 16 };

int plain_open(const char *path, int flags, int mode) {
    return (int)syscall(SYS_openat, AT_FDCWD, path, flags | O_CLOEXEC, mode);
}

long plain_read(int fd, void *to, uint64_t length, uint64_t at) { return syscall(SYS_pread64, fd, to, length, at); }

void plain_close(int fd) { syscall(SYS_close, fd); }

void plain_remove(const char *path) { syscall(SYS_unlinkat, AT_FDCWD, path, 0); }

/* A growth past the limit of the process would be its death by a signal. */
static bool within_limit(uint64_t end) {
    struct rlimit limit;
    if (getrlimit(RLIMIT_FSIZE, &limit) || limit.rlim_cur == RLIM_INFINITY || end <= limit.rlim_cur)
        return true;
    errno = EFBIG;
    return false;
}

/* Reserves disk space for this part of the file. */
static bool reserve(int fd, uint64_t start, uint64_t length) {
    if (!within_limit(start + length))
        return false;
    if (!syscall(SYS_fallocate, fd, 0, start, length))
        return true;
    return (errno == EOPNOTSUPP || errno == ENOSYS) && !syscall(SYS_ftruncate, fd, start + length);
}

/* Maps the window from `start` on. Its disk space is reserved first, since a write into a mapping that has none would
 * be the death of the process too. Where there isn't room for all of it, it is shorter. */
static bool map_window(struct sink *sink, int fd, uint64_t start) {
    uint64_t length = WINDOW;
    while (!reserve(fd, start, length)) {
        if (length == LEAST || (errno != ENOSPC && errno != EDQUOT && errno != EFBIG))
            return false;
        length /= 2;
    }
    char *window = mmap(NULL, length, PROT_READ | PROT_WRITE, MAP_SHARED, fd, (off_t)start);
    if (window == MAP_FAILED)
        return false;
    if (sink->window)
        munmap(sink->window, sink->window_length);
    sink->window = window;
    sink->window_start = start;
    sink->window_length = length;
    return true;
}

static bool keep_identity(struct sink *sink, int fd) {
    struct stat s;
    if (fstat(fd, &s))
        return false;
    sink->device = s.st_dev;
    sink->file = s.st_ino;
    return true;
}

static bool is_same(const struct sink *sink, int fd) {
    struct stat s;
    if (fstat(fd, &s))
        return false;
    if (s.st_dev == sink->device && s.st_ino == sink->file)
        return true;
    errno = ESTALE;
    return false;
}

/* The descriptor stays open under a high number, since the program may give up the right to open the file again. What
 * it had below would be other numbers than it has without the recorder. */
static int move_up(int fd) {
    struct rlimit limit;
    uint64_t most = getrlimit(RLIMIT_NOFILE, &limit) || limit.rlim_cur > HIGHEST ? HIGHEST : limit.rlim_cur;
    int up = (int)syscall(SYS_fcntl, fd, F_DUPFD_CLOEXEC, most > ROOM_ABOVE ? most - ROOM_ABOVE : 0);
    plain_close(fd);
    return up;
}

/* The file's descriptor. Where the program closed it, or has another file under its number, it is opened anew. */
static bool have_fd(struct sink *sink) {
    if (sink->fd >= 0 && is_same(sink, sink->fd))
        return true;
    int fd = plain_open(sink->path, O_RDWR, 0);
    sink->fd = fd < 0 ? -1 : move_up(fd);
    return sink->fd >= 0 && is_same(sink, sink->fd);
}

static bool next_window(struct sink *sink, uint64_t start) { return have_fd(sink) && map_window(sink, sink->fd, start); }

bool sink_open(struct sink *sink, const char *path, _Atomic uint64_t *told) {
    memset(sink, 0, sizeof *sink);
    sink->path = path;
    sink->told = told;
    sink->fd = -1;
    atomic_store(told, 0);
    int fd = plain_open(path, O_RDWR | O_CREAT | O_TRUNC, 0666);
    if (fd >= 0)
        sink->fd = move_up(fd);
    return sink->fd >= 0 && keep_identity(sink, sink->fd) && map_window(sink, sink->fd, 0);
}

bool sink_write(struct sink *sink, const char *text, uint64_t length) {
    uint64_t end = sink->length;
    for (uint64_t done = 0; done < length;) {
        uint64_t at = end - sink->window_start;
        if (at == sink->window_length) {
            if (!next_window(sink, end))
                return false;
            continue;
        }
        uint64_t room = sink->window_length - at, part = length - done < room ? length - done : room;
        memcpy(sink->window + at, text + done, part);
        done += part;
        end += part;
    }
    sink->length = end;
    /* The length is told behind the bytes, so that a line that death cut short isn't counted. */
    atomic_store_explicit(sink->told, end, memory_order_release);
    return true;
}

bool sink_branch(struct sink *sink, const char *path, _Atomic uint64_t *told) {
    static char part[65536];
    struct sink from = *sink;
    bool done = have_fd(&from) && sink_open(sink, path, told);
    for (uint64_t at = 0; done && at < from.length;) {
        uint64_t rest = from.length - at;
        long got = plain_read(from.fd, part, rest < sizeof part ? rest : sizeof part, at);
        done = got > 0 && sink_write(sink, part, (uint64_t)got);
        at += done ? (uint64_t)got : 0;
    }
    int error = errno;
    if (from.fd >= 0)
        plain_close(from.fd);
    if (from.window)
        munmap(from.window, from.window_length);
    errno = error;
    return done;
}
