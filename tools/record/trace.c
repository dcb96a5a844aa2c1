#define _GNU_SOURCE
#include "trace.h"
#include "../compare-libc/places.h"
#include "sink.h"
#include <errno.h>
#include <string.h>
#include <sys/mman.h>
#include <time.h>

struct control *shared;
struct slot *mine;

/* Names of a thread that are free again; the newest is given first, so that there are never more than live blocks. */
struct names {
    uint32_t *free;
    uint64_t count, room;
    uint32_t highest;
};

/* The lines of one call. They are written as a whole, or the trace ends before them. */
struct unit {
    char text[320];
    char *end;
    uint64_t lines[KINDS];
    uint64_t line_count;
    uint64_t loose_lines, loose_bytes;  /* posts from before, of which a take stands in this unit */
};

static struct names names[THREADS];
static struct sink trace, places_file;
static struct places places;
static unsigned next_thread;
static uint32_t next_tray;
static bool running;

bool trace_runs(void) { return running; }

uint64_t trace_clock(void) {
    struct timespec now;
    clock_gettime(CLOCK_MONOTONIC, &now);
    return (uint64_t)now.tv_sec * 1000000000u + (uint64_t)now.tv_nsec;
}

void trace_end(enum why why, int error) {
    running = false;
    mine->error = error;
    mine->ended = trace_clock();
    atomic_store(&mine->why, (int)why);
}

/* ---- lines */

static const char letter[KINDS] = {'m', 'c', 'r', 'a', 'f', 'p', 't', 'x'};

static char *put_start(char *to, int thread, enum kind kind) {
    to = put_decimal(to, (uint64_t)thread);
    *to++ = ' ';
    *to++ = letter[kind];
    return to;
}

static char *put_field(char *to, uint64_t n) {
    *to++ = ' ';
    return put_decimal(to, n);
}

static void unit_begin(struct unit *unit) {
    unit->end = unit->text;
    memset(unit->lines, 0, sizeof unit->lines);
    unit->line_count = unit->loose_lines = unit->loose_bytes = 0;
}

/* A line of up to three fields behind its letter. */
static void put_line(struct unit *unit, int thread, enum kind kind, int fields, uint64_t a, uint64_t b, uint64_t c) {
    char *to = put_start(unit->end, thread, kind);
    if (fields > 0)
        to = put_field(to, a);
    if (fields > 1)
        to = put_field(to, b);
    if (fields > 2)
        to = put_field(to, c);
    *to++ = '\n';
    unit->end = to;
    unit->lines[kind]++;
    unit->line_count++;
}

static uint64_t all_lines(const struct slot *of) {
    uint64_t sum = 0;
    for (int k = 0; k < KINDS; k++)
        sum += of->lines[k];
    return sum;
}

/* Where the trace has no room for the unit it ends before it. Posts that nobody took don't count, as they are dropped. */
static void unit_write(struct unit *unit) {
    if (!running)
        return;
    uint64_t length = (uint64_t)(unit->end - unit->text);
    uint64_t lines = all_lines(mine) - mine->loose_lines + unit->loose_lines + unit->line_count;
    uint64_t bytes = trace.length - mine->loose_bytes + unit->loose_bytes + length;
    if (lines > shared->max_lines)
        trace_end(AS_ASKED, 0);
    else if (bytes > TRACE_BYTES)
        trace_end(NO_BYTES, 0);
    else if (!sink_write(&trace, unit->text, length))
        trace_end(NO_FILE, errno);
    if (!running)
        return;
    mine->loose_lines -= unit->loose_lines;
    mine->loose_bytes -= unit->loose_bytes;
    for (int k = 0; k < KINDS; k++)
        mine->lines[k] += unit->lines[k];
}

static void write_place(void *at) {
    char text[PLACE_ROOM];
    if (!running || !places_file.path)
        return;
    char *end = put_place(&places, text, at);
    if (!sink_write(&places_file, text, (uint64_t)(end - text)))
        trace_end(NO_FILE, errno);
}

/* ---- names and threads */

static uint32_t take_name(int thread) {
    struct names *of = &names[thread];
    if (of->count)
        return of->free[--of->count];
    if (of->highest == (shared->version == 2 ? NAMES_2 : NAMES_1)) {
        trace_end(NO_NAME, 0);
        return 0;
    }
    return ++of->highest;
}

static void give_name(int thread, uint32_t name) {
    struct names *of = &names[thread];
    if (of->count == of->room) {
        uint64_t room = of->room ? of->room * 2 : 1024;
        uint32_t *more = pages(room * sizeof *more);
        if (!more) {
            trace_end(NO_MEMORY, ENOMEM);
            return;
        }
        if (of->free) {
            memcpy(more, of->free, of->count * sizeof *more);
            give_pages(of->free, of->room * sizeof *more);
        }
        of->free = more;
        of->room = room;
    }
    of->free[of->count++] = name;
}

int trace_thread(bool is_main) {
    int thread = is_main ? 0 : (int)next_thread;
    if (thread == THREADS) {
        trace_end(NO_THREAD, 0);
        return -1;
    }
    if (!is_main)
        next_thread++;
    mine->threads++;
    return thread;
}

/* ---- live blocks */

static void count_block(uint64_t bytes) {
    mine->blocks++;
    mine->bytes += bytes;
    if (mine->blocks > mine->peak_blocks)
        mine->peak_blocks = mine->blocks;
    if (mine->bytes > mine->peak_bytes)
        mine->peak_bytes = mine->bytes;
    if (bytes > mine->largest)
        mine->largest = bytes;
}

static void drop_block(struct block *block) {
    mine->blocks--;
    mine->bytes -= block->size;
    table_remove(block);
}

static void keep_block(int thread, uint32_t name, void *at, uint64_t bytes) {
    if (!running)
        return;
    struct block *block = table_add((uintptr_t)at);
    if (!block) {
        trace_end(NO_MEMORY, ENOMEM);
        return;
    }
    block->thread = (uint8_t)thread;
    block->name = name;
    block->tray = NO_POST;
    block->size = bytes;
    count_block(bytes);
}

/* The length of the line `T p N TRAY`. */
static uint64_t post_length(const struct block *block) {
    char text[64];
    char *end = put_field(put_field(put_start(text, block->thread, POST), block->name), block->tray);
    return (uint64_t)(end - text) + 1;
}

/* Hands the block of another thread to this one, under a name of this one: the owner posts it where it hasn't yet. The
 * block's entry stays as it is. */
static uint32_t hand_over(struct unit *unit, int thread, const struct block *block) {
    uint32_t name = take_name(thread), tray = block->tray;
    if (mine->taken == TRAYS) {
        trace_end(NO_TRAY, 0);
        return name;
    }
    if (tray == NO_POST) {
        tray = next_tray++;
        put_line(unit, block->thread, POST, 2, block->name, tray, 0);
        give_name(block->thread, block->name);
    } else {
        unit->loose_lines++;
        unit->loose_bytes += post_length(block);
    }
    put_line(unit, thread, TAKE, 2, name, tray, 0);
    mine->taken++;
    return name;
}

/* Who is written as the caller of a free or a realloc, and under which name the block stands there. */
static int caller(struct unit *unit, int thread, const struct block *block, uint32_t *name) {
    *name = block->name;
    if (block->thread == thread)
        return thread;
    if (shared->as_owner && block->tray == NO_POST) {
        mine->as_owner++;
        return block->thread;
    }
    *name = hand_over(unit, thread, block);
    return thread;
}

static void free_block(int thread, struct block *block) {
    struct unit unit;
    uint32_t name;
    unit_begin(&unit);
    int by = caller(&unit, thread, block, &name);
    put_line(&unit, by, FREE, 1, name, 0, 0);
    give_name(by, name);
    unit_write(&unit);
    drop_block(block);
}

/* A block that is there already was freed where it wasn't recorded; it is freed now. */
static void make_way(int thread, void *at) {
    struct block *old = table_find((uintptr_t)at);
    if (old)
        free_block(thread, old);
}

static void put_call(struct unit *unit, int thread, struct call call, uint32_t name) {
    if (call.kind == MALLOC)
        put_line(unit, thread, MALLOC, 2, name, call.size, 0);
    else
        put_line(unit, thread, call.kind, 3, name, call.first, call.size);
}

void trace_made(int thread, struct call call, void *at, uint64_t bytes) {
    struct unit unit;
    make_way(thread, at);
    uint32_t name = take_name(thread);
    unit_begin(&unit);
    put_call(&unit, thread, call, name);
    unit_write(&unit);
    write_place(at);
    keep_block(thread, name, at, bytes);
}

void trace_null(int thread, struct call call) {
    struct unit unit;
    uint32_t name = take_name(thread);
    unit_begin(&unit);
    put_call(&unit, thread, call, name);
    put_line(&unit, thread, FREE, 1, name, 0, 0);
    give_name(thread, name);
    unit_write(&unit);
    write_place(NULL);
}

void trace_freed(int thread, void *at) {
    struct block *block = table_find((uintptr_t)at);
    if (block)
        free_block(thread, block);
    else
        mine->unknown++;
}

void trace_resized(int thread, void *at, uint64_t size, void *to) {
    struct block *block = table_find((uintptr_t)at);
    struct unit unit;
    uint32_t name;
    if (!block) {
        /* What wasn't recorded becomes a block where it is made anew. */
        mine->unknown++;
        if (to)
            trace_made(thread, (struct call){MALLOC, 0, size}, to, size);
        return;
    }
    unit_begin(&unit);
    int by = caller(&unit, thread, block, &name);
    put_line(&unit, by, REALLOC, 2, name, size, 0);
    unit_write(&unit);
    uint64_t bytes = to ? size : block->size;
    drop_block(block);
    if (size == 0) {
        give_name(by, name);
        return;
    }
    if (to && to != at)
        make_way(thread, to);
    write_place(to);
    keep_block(by, name, to ? to : at, bytes);
}

/* The blocks that are left are posted, since others may free them later; posts that nobody took are dropped when the
 * trace is finished. */
static void post_rest(int thread) {
    struct unit unit;
    for (struct block *block = table_next(NULL); running && block; block = table_next(block)) {
        if (block->thread != thread)
            continue;
        block->tray = next_tray++;
        unit_begin(&unit);
        put_line(&unit, thread, POST, 2, block->name, block->tray, 0);
        uint64_t length = (uint64_t)(unit.end - unit.text);
        mine->loose_lines++;
        mine->loose_bytes += length;
        unit_write(&unit);
        if (!running) {
            mine->loose_lines--;
            mine->loose_bytes -= length;
        }
    }
}

void trace_exited(int thread) {
    struct unit unit;
    post_rest(thread);
    unit_begin(&unit);
    put_line(&unit, thread, EXIT, 0, 0, 0, 0);
    unit_write(&unit);
}

/* ---- beginning */

/* The name of a file: %e is the program's name, %p the number of the process. False where it is too long. */
static bool expand(char *to, const char *form, const char *program, int process) {
    char *end = to + PATH_ROOM - 32;
    for (; *form; form++) {
        if (to >= end - NAME_ROOM)
            return false;
        if (form[0] == '%' && form[1] == 'e')
            to = put_word(to, program);
        else if (form[0] == '%' && form[1] == 'p')
            to = put_decimal(to, (uint64_t)process);
        else {
            *to++ = *form;
            continue;
        }
        form++;
    }
    *to = 0;
    return true;
}

/* A file of this recording isn't written twice: a later one of the same name has the number of its slot behind it. */
static void make_different(char *path, const struct slot *slot) {
    for (const struct slot *other = shared->slots; other < slot; other++)
        if (!strcmp(other->path, path) || !strcmp(other->places, path)) {
            char *end = put_word(path + strlen(path), ".");
            *put_decimal(end, (uint64_t)(slot - shared->slots)) = 0;
            return;
        }
}

static bool name_files(struct slot *slot, int process) {
    if (!expand(slot->path, shared->output, slot->program, process) ||
        !expand(slot->places, shared->places, slot->program, process)) {
        errno = ENAMETOOLONG;
        return false;
    }
    make_different(slot->path, slot);
    if (*slot->places)
        make_different(slot->places, slot);
    return true;
}

static bool begin_places(struct slot *slot) {
    char first[PLACE_ROOM];
    uint64_t length = (uint64_t)(put_first_line(&places, first) - first);
    return sink_open(&places_file, slot->places, &slot->places_length) && sink_write(&places_file, first, length);
}

/* What this process recorded as another program, before an exec, under names that this one doesn't take: nobody would
 * finish it. A file that couldn't be begun isn't the recorder's. */
static void remove_left(const struct slot *left) {
    int error = errno;
    if (atomic_load(&left->length) && strcmp(left->path, mine->path))
        plain_remove(left->path);
    if (atomic_load(&left->places_length) && strcmp(left->places, mine->places))
        plain_remove(left->places);
    errno = error;
}

bool trace_begin(struct slot *slot, const char *program, uintptr_t heap_start) {
    static struct slot left;
    int process = atomic_load(&slot->process);
    left = *slot;
    memset((char *)slot + sizeof slot->process, 0, sizeof *slot - sizeof slot->process);
    mine = slot;
    places.start = heap_start;
    strncpy(slot->program, program, NAME_ROOM - 1);
    slot->replaced = all_lines(&left) - left.loose_lines + left.replaced;
    slot->began = trace_clock();
    next_thread = 1;
    running = true;
    const char *header = shared->version == 2 ? "ptmtrace 2\n" : "ptmtrace 1\n";
    bool named = name_files(slot, process);
    remove_left(&left);
    if (!named || !sink_open(&trace, slot->path, &slot->length) || !sink_write(&trace, header, strlen(header)) ||
        (*slot->places && !begin_places(slot)))
        trace_end(NO_FILE, errno);
    return running;
}

bool trace_branch(struct slot *slot, const struct slot *before) {
    int process = atomic_load(&slot->process);
    *slot = *before;
    atomic_store(&slot->process, process);
    mine = slot;
    if (!name_files(slot, process) || !sink_branch(&trace, slot->path, &slot->length) ||
        (*slot->places && !sink_branch(&places_file, slot->places, &slot->places_length)))
        trace_end(NO_FILE, errno);
    return running;
}
