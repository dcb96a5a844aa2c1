/* The trace: what was served becomes lines. The caller holds the lock of the recording, and asks `trace_runs` first. */
#ifndef TRACE_H
#define TRACE_H

#include "shared.h"
#include "table.h"
#include <stdbool.h>

extern struct control *shared;
extern struct slot *mine;

/* Begins a trace in that slot, for the program of that name; false where it can't be written. */
bool trace_begin(struct slot *slot, const char *program, uintptr_t heap_start);
/* The same lines in a slot of its own, for a child that has this heap. `before` is the slot of the parent as it was. */
bool trace_branch(struct slot *slot, const struct slot *before);
bool trace_runs(void);
void trace_end(enum why why, int error);
uint64_t trace_clock(void);

/* A number for a thread; -1 where there is none, which ends the trace. */
int trace_thread(bool is_main);

struct call {
    enum kind kind;
    uint64_t first;   /* calloc's count, or the alignment */
    uint64_t size;
};

/* A call that made a block of so many bytes. */
void trace_made(int thread, struct call call, void *at, uint64_t bytes);
/* A call that made none, since the rules refuse it whatever the system says. */
void trace_null(int thread, struct call call);
void trace_freed(int thread, void *at);
/* `to` is null where it was refused, by the rules. A size of 0 is a free. */
void trace_resized(int thread, void *at, uint64_t size, void *to);
void trace_exited(int thread);

#endif
