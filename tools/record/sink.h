/* A file that is written through a mapping: what was written is in the file, whatever ends the process. */
#ifndef SINK_H
#define SINK_H

#include <stdatomic.h>
#include <stdbool.h>
#include <stdint.h>

struct sink {
    const char *path;
    uint64_t length;             /* bytes that are whole lines */
    _Atomic uint64_t *told;      /* where the length is told to the driver */
    char *window;                /* the part of the file that is mapped */
    uint64_t window_start, window_length;
    int fd;                      /* of the file, while the program hasn't closed it; -1 where there is none */
    uint64_t device, file;       /* so that another file under that number or path is never written */
};

/* The three answer whether it was done; where not, errno says why. */
bool sink_open(struct sink *sink, const char *path, _Atomic uint64_t *told);
bool sink_write(struct sink *sink, const char *text, uint64_t length);
/* For a child: goes on in a new file, which begins with what there is so far; the parent's isn't written here any more. */
bool sink_branch(struct sink *sink, const char *path, _Atomic uint64_t *told);

/* System calls that are no points of cancellation and touch no file descriptor but the one given. */
int plain_open(const char *path, int flags, int mode);
long plain_read(int fd, void *to, uint64_t length, uint64_t at);
void plain_close(int fd);
void plain_remove(const char *path);

#endif
