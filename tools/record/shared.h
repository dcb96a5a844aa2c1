/* What the driver and the library in the recorded processes share: one file that both map. Each recorded program has a
 * slot, which it alone writes, and which stands after its death, however it died. */
#ifndef SHARED_H
#define SHARED_H

#include <stdatomic.h>
#include <stdint.h>

enum { SLOTS = 4096, NAME_ROOM = 256, PATH_ROOM = 2048 };

/* The variable that names the shared file. */
#define VARIABLE "PTMRECORD"

/* What a trace may have. */
enum { THREADS = 64, NAMES_1 = 65535, TRAYS = 65536, TRACE_BYTES = 67108864 };
#define NAMES_2 4294967295u

/* Kinds of lines. */
enum kind { MALLOC, CALLOC, REALLOC, ALIGNED, FREE, POST, TAKE, EXIT, KINDS };

/* Why a trace ended before its program. */
enum why { RUNS, AS_ASKED, NO_THREAD, NO_NAME, NO_TRAY, NO_BYTES, NO_FILE, NO_MEMORY };

struct slot {
    _Atomic int process;       /* its number, or 0 where the slot is free */
    _Atomic int why;           /* an `enum why` */
    int error;                 /* the errno of NO_FILE and NO_MEMORY */
    char program[NAME_ROOM];
    char path[PATH_ROOM];      /* of the trace */
    char places[PATH_ROOM];    /* of the file of addresses, or empty */
    _Atomic uint64_t length;   /* bytes of the trace that are whole lines */
    _Atomic uint64_t places_length;
    uint64_t lines[KINDS];     /* lines of each kind */
    uint64_t loose_lines;      /* posts, counted in lines[POST], of which no take was written; they are dropped at the end */
    uint64_t loose_bytes;
    uint64_t taken;            /* trays that were taken */
    uint64_t threads;
    uint64_t blocks, bytes;    /* live now, in bytes as asked for */
    uint64_t peak_blocks, peak_bytes, largest;
    uint64_t as_owner;         /* frees and reallocs by another thread that are written as the owner's */
    uint64_t refused;          /* calls that the system refused, which no trace can say */
    uint64_t nested;           /* calls out of a signal's handler inside another call */
    uint64_t unknown;          /* frees and reallocs of blocks that weren't recorded */
    uint64_t tuned;            /* mallopt and malloc_trim */
    uint64_t late;             /* ends of threads that are written later than they were */
    uint64_t children;         /* that a fork made, and that aren't recorded */
    uint64_t replaced;         /* lines of what this program was before its last exec; they are gone */
    uint64_t began, ended;     /* nanoseconds */
};

struct control {
    int main_process;
    int follow, as_owner, version;
    uint64_t max_lines;
    char only[NAME_ROOM];      /* or empty */
    char output[PATH_ROOM];    /* absolute; with %e and %p */
    char places[PATH_ROOM];    /* the same, or empty */
    _Atomic uint32_t used;     /* slots that were given, with those that weren't there any more */
    _Atomic uint32_t others;   /* programs that children became, and that aren't recorded */
    struct slot slots[SLOTS];
};

#endif
