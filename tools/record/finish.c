#define _GNU_SOURCE
#include "finish.h"
#include <errno.h>
#include <fcntl.h>
#include <stdlib.h>
#include <string.h>
#include <sys/mman.h>
#include <sys/stat.h>
#include <unistd.h>

enum { NOT_TAKEN = UINT32_MAX, NOT_POSTED = UINT32_MAX - 1 };

/* A line that hands over: its kind, and where the number of its tray begins. */
struct handing {
    char kind;
    const char *tray;
};

static struct handing handing_of(const char *line, const char *end) {
    const char *space = memchr(line, ' ', (size_t)(end - line));
    struct handing h = {0, NULL};
    if (!space || end - space < 4 || (space[1] != 'p' && space[1] != 't'))
        return h;
    h.kind = space[1];
    for (const char *at = space; at < end; at++)
        if (*at == ' ')
            h.tray = at + 1;
    return h;
}

static char *line_end(char *line, char *end) {
    char *newline = memchr(line, '\n', (size_t)(end - line));
    return newline ? newline + 1 : end;
}

/* Which trays are taken; `trays` has room for `count` of them. */
static void find_taken(char *text, char *end, uint32_t *trays, uint64_t count) {
    for (uint64_t i = 0; i < count; i++)
        trays[i] = NOT_TAKEN;
    for (char *line = text; line < end; line = line_end(line, end)) {
        struct handing h = handing_of(line, line_end(line, end));
        uint64_t tray = h.kind == 't' ? strtoull(h.tray, NULL, 10) : count;
        if (tray < count)
            trays[tray] = NOT_POSTED;
    }
}

/* A post gives its tray the next number. */
static uint32_t number_of(struct handing h, uint32_t *trays, uint64_t count, uint32_t *next) {
    uint64_t tray = strtoull(h.tray, NULL, 10);
    if (tray >= count)
        return NOT_TAKEN;
    if (h.kind == 'p' && trays[tray] == NOT_POSTED)
        trays[tray] = (*next)++;
    return trays[tray];
}

static char *put_number(char *to, uint32_t n) {
    char digits[12];
    int count = 0;
    do
        digits[count++] = (char)('0' + n % 10);
    while (n /= 10);
    while (count)
        *to++ = digits[--count];
    return to;
}

/* Writes the lines anew from the text's start on, which never overtakes what is read, since numbers get no longer. */
static char *renumber(char *text, char *end, uint32_t *trays, uint64_t count) {
    uint32_t next = 0;
    char *to = text;
    for (char *line = text, *behind; line < end; line = behind) {
        behind = line_end(line, end);
        struct handing h = handing_of(line, behind);
        uint64_t length = (uint64_t)((h.kind ? h.tray : behind) - line);
        uint32_t tray = h.kind ? number_of(h, trays, count, &next) : 0;
        if (h.kind && tray == NOT_TAKEN)
            continue;
        memmove(to, line, length);
        to += length;
        if (h.kind) {
            to = put_number(to, tray);
            *to++ = '\n';
        }
    }
    return to;
}

/* The length that is left; 0 where there is no memory. */
static uint64_t drop_posts(char *text, uint64_t length, uint64_t posts) {
    uint32_t *trays = malloc(posts * sizeof *trays);
    if (!trays)
        return 0;
    find_taken(text, text + length, trays, posts);
    length = (uint64_t)(renumber(text, text + length, trays, posts) - text);
    free(trays);
    return length;
}

static bool finish_file(const char *path, uint64_t length, uint64_t posts) {
    int fd = open(path, O_RDWR | O_CLOEXEC);
    struct stat file;
    if (fd < 0)
        return false;
    bool done = !fstat(fd, &file) && (uint64_t)file.st_size >= length;
    if (done && posts) {
        char *text = mmap(NULL, length, PROT_READ | PROT_WRITE, MAP_SHARED, fd, 0);
        done = text != MAP_FAILED;
        if (done) {
            uint64_t left = drop_posts(text, length, posts);
            munmap(text, length);
            done = left != 0;
            length = left;
        }
    }
    if (done && ftruncate(fd, (off_t)length))
        done = false;
    int error = errno;
    close(fd);
    errno = error;
    return done;
}

bool finish_trace(const struct slot *slot) {
    bool done = finish_file(slot->path, atomic_load(&slot->length), slot->lines[POST]);
    if (*slot->places && !finish_file(slot->places, atomic_load(&slot->places_length), 0))
        done = false;
    return done;
}
