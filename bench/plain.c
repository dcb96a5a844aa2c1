/* What a plain C program does with the same trace: it reads and checks every line, calls the machine's own malloc, calloc,
 * realloc, posix_memalign and free, and writes a record for each line in the form of a report. It keeps no list of chunks:
 * behind the records it writes the blocks that are left. With the word --summary it writes counts of the answers instead.
 * All threads of the trace are this one thread: a tray keeps a block for whoever takes it, and the end of a thread frees
 * nothing. */
#include <malloc.h>
#include <stdint.h>
#include <stdio.h>
#include <stdlib.h>
#include <string.h>

enum { THREADS = 64, TRAYS = 65536, LISTS = 64, FULL = 7 };

struct name {
    void *block;
    unsigned char held;
};

/* The first number that is no name: of version 2 names below 2^24 are read. */
static uint64_t names_end = 65536;
static struct name *names[THREADS];
static uint64_t largest[THREADS];
static unsigned char ended[THREADS];
static void *trays[TRAYS];
static unsigned cached[LISTS];

/* With --summary: what is counted in place of the records. */
static int summary;
static unsigned long got, null, missed, skip;

static void fail(unsigned long line, const char *why) {
    fprintf(stderr, "line %lu: %s\n", line, why);
    exit(3);
}

/* The whole of standard input. */
static char *read_all(size_t *length) {
    size_t room = 65536, used = 0, got;
    char *bytes = malloc(room);
    while (bytes && (got = fread(bytes + used, 1, room - used, stdin)) > 0) {
        used += got;
        if (used == room)
            bytes = realloc(bytes, room *= 2);
    }
    if (!bytes || ferror(stdin))
        exit(6);
    *length = used;
    return bytes;
}

/* The number at *at, which ends at a space or at the end of the line. */
static uint64_t number(const char **at, const char *end, unsigned long line) {
    const char *p = *at;
    uint64_t n = 0;
    if (p == end || *p < '0' || *p > '9' || (*p == '0' && p + 1 < end && p[1] != ' '))
        fail(line, "Number");
    while (p < end && *p != ' ') {
        if (*p < '0' || *p > '9' || n > (UINT64_MAX - (*p - '0')) / 10)
            fail(line, "Number");
        n = n * 10 + (uint64_t)(*p++ - '0');
    }
    *at = p < end ? p + 1 : p;
    return n;
}

static char *put_text(char *to, const char *text) {
    while (*text)
        *to++ = *text++;
    return to;
}

static char *put_number(char *to, uint64_t n) {
    char digits[20];
    int count = 0;
    do
        digits[count++] = (char)('0' + n % 10);
    while (n /= 10);
    while (count)
        *to++ = digits[--count];
    return to;
}

/* An address with 12 digits, and the size of the chunk there. */
static char *put_block(char *to, const void *block) {
    to = put_text(to, "0x");
    for (int shift = 44; shift >= 0; shift -= 4)
        *to++ = "0123456789abcdef"[(uintptr_t)block >> shift & 15];
    *to++ = ' ';
    return put_number(to, malloc_usable_size((void *)block) + 8);
}

static struct name *find(uint64_t thread, uint64_t n, unsigned long line) {
    if (n < 1 || n >= names_end)
        fail(line, "Name");
    if (!names[thread] && !(names[thread] = calloc(names_end, sizeof(struct name))))
        exit(8);
    if (n > largest[thread])
        largest[thread] = n;
    return &names[thread][n];
}

static size_t list_of(void *block) { return (malloc_usable_size(block) + 8 - 32 + 15) / 16; }

/* One chunk more in that list, where it has room. */
static void note_cached(size_t list) {
    if (list < LISTS && cached[list] < FULL)
        cached[list]++;
}

static void *take(char command, uint64_t first, uint64_t size) {
    void *block = NULL;
    if (command == 'm')
        return malloc(size);
    if (command == 'c')
        return calloc(first, size);
    return posix_memalign(&block, first, size) ? NULL : block;
}

static void free_block(struct name *name) {
    name->held = 0;
    if (name->block)
        note_cached(list_of(name->block));
    free(name->block);
    name->block = NULL;
}

/* A record's end; with --summary one is counted instead, where there is something to count. */
static void answer(const char *text, unsigned long *count) {
    if (!summary)
        fputs(text, stdout);
    else if (count)
        ++*count;
}

/* The same with a block, what stands before it, and where it is. */
static void answer_block(const char *front, void *block, const char *place, unsigned long *count) {
    char record[80];
    if (!summary)
        *put_text(put_block(put_text(record, front), block), place) = 0;
    answer(record, count);
}

static void run_line(const char *text, const char *end, unsigned long line) {
    const char *at = text;
    uint64_t thread = number(&at, end, line);
    if (thread >= THREADS)
        fail(line, "Thread");
    if (ended[thread])
        fail(line, "Ended");
    if (end - at == 1 && *at == 'x') {
        if (thread == 0)
            fail(line, "MainExit");
        ended[thread] = 1;
        if (!summary)
            fwrite(text, 1, (size_t)(end - text), stdout);
        answer(" -> ended\n", NULL);
        return;
    }
    if (end - at < 3 || at[1] != ' ')
        fail(line, "Fields");
    char command = *at;
    at += 2;
    struct name *name = find(thread, number(&at, end, line), line);
    if (!summary)
        fwrite(text, 1, (size_t)(end - text), stdout);
    if (command == 'm' || command == 'c' || command == 'a') {
        uint64_t first = command == 'm' ? 0 : number(&at, end, line);
        uint64_t size = number(&at, end, line);
        if (at != end)
            fail(line, "Fields");
        if (name->held)
            fail(line, "Held");
        name->held = 1;
        name->block = take(command, first, size);
        if (!name->block) {
            answer(" -> null big\n", &null);
            return;
        }
        size_t list = list_of(name->block);
        int from_cache = command == 'm' && list < LISTS && cached[list] > 0;
        if (from_cache)
            cached[list]--;
        answer_block(" -> ", name->block, from_cache ? " cached\n" : " arena 0\n", &got);
    } else if (command == 'r') {
        uint64_t size = number(&at, end, line);
        if (at != end)
            fail(line, "Fields");
        if (!name->held)
            fail(line, "NotHeld");
        if (size == 0) {
            free_block(name);
            answer(" -> freed cached\n", NULL);
            return;
        }
        if (!name->block) {
            answer(" -> skip\n", &skip);
            return;
        }
        uintptr_t old = (uintptr_t)name->block;
        size_t list = list_of(name->block);
        void *block = realloc(name->block, size);
        if (!block) {
            answer(" -> null big\n", &null);
            return;
        }
        name->block = block;
        if ((uintptr_t)block != old)
            note_cached(list);
        answer_block(" -> ", block, (uintptr_t)block == old ? " kept\n" : " moved arena 0\n", &got);
    } else if (command == 'f') {
        if (at != end)
            fail(line, "Fields");
        if (!name->held)
            fail(line, "NotHeld");
        int is_there = name->block != NULL;
        free_block(name);
        answer(is_there ? " -> cached\n" : " -> skip\n", is_there ? NULL : &skip);
    } else if (command == 'p' || command == 't') {
        uint64_t tray = number(&at, end, line);
        if (at != end)
            fail(line, "Fields");
        if (tray >= TRAYS)
            fail(line, "Tray");
        if (name->held != (command == 'p'))
            fail(line, command == 'p' ? "NotHeld" : "Held");
        name->held = command == 't';
        void **from = command == 'p' ? &name->block : &trays[tray], **to = command == 'p' ? &trays[tray] : &name->block;
        *to = *from;
        *from = NULL;
        if (command == 'p')
            answer(*to ? " -> posted\n" : " -> skip\n", *to ? NULL : &skip);
        else if (*to)
            answer_block(" -> taken ", *to, "\n", NULL);
        else
            answer(" -> missed empty\n", &missed);
    } else {
        fail(line, "Command");
    }
}

/* Where a block that is left is found: a text, and a number behind it. */
static void write_place(const void *block, const char *front, unsigned number) {
    char place[80], *to = put_number(put_text(put_block(place, block), front), number);
    *to++ = '\n';
    fwrite(place, 1, (size_t)(to - place), stdout);
}

int main(int words, char **word) {
    static const char header[] = "ptmtrace 1\n", header_2[] = "ptmtrace 2\n";
    summary = words > 1 && strcmp(word[1], "--summary") == 0;
    size_t length;
    char *bytes = read_all(&length), *end = bytes + length;
    if (length >= sizeof header - 1 && memcmp(bytes, header_2, sizeof header - 1) == 0)
        names_end = 1 << 24;
    else if (length < sizeof header - 1 || memcmp(bytes, header, sizeof header - 1))
        fail(1, "Header");
    if (!summary)
        puts("ptmreport 1 serial");
    unsigned long line = 2;
    for (char *at = bytes + sizeof header - 1; at < end; line++) {
        char *newline = memchr(at, '\n', (size_t)(end - at));
        if (!newline)
            fail(line, "Cut");
        run_line(at, newline, line);
        at = newline + 1;
    }
    if (summary)
        printf("ptmsummary 1\nlines %lu\ngot %lu\nnull %lu\nmissed %lu\nskip %lu\n", line - 2, got, null, missed, skip);
    for (unsigned thread = 0; !summary && thread < THREADS; thread++)
        for (uint64_t n = 1; names[thread] && n <= largest[thread]; n++)
            if (names[thread][n].block) {
                char front[32];
                *put_text(put_number(put_text(front, " live "), thread), " ") = 0;
                write_place(names[thread][n].block, front, n);
            }
    for (unsigned n = 0; !summary && n < TRAYS; n++)
        if (trays[n])
            write_place(trays[n], " tray ", n);
    return fflush(stdout) ? 7 : 0;
}
