/* Where a block of the C library's malloc lies, relative to the start of its heap; for 64-bit machines. Each place is a
 * line of text:
 *
 *   main OFFSET SIZE          from where the break stood before the first call
 *   arena A HEAP OFFSET SIZE  from the start of the heap; arenas, and heaps of an arena, by order of first sight
 *   mapped OFFSET SIZE        from the start of the mapping
 *   piece SIZE                main's, and not from the break
 *   null                      no block
 *
 * The first line is `ptmplaces START`, with the address of main's heap. OFFSET is that of the user's address, in
 * hexadecimal; SIZE that of the chunk. Nothing here takes memory. */
#ifndef PLACES_H
#define PLACES_H

#include <stdint.h>
#include <unistd.h>

enum { PLACE_ROOM = 96, SEEN_ROOM = 4096, MAPPED_BIT = 2, OTHER_BIT = 4 };
#define HEAP_BYTES ((uintptr_t)64 << 20)

struct places {
    uintptr_t start;           /* of main's heap */
    uintptr_t arena[SEEN_ROOM];  /* of each heap that was seen: its arena */
    uintptr_t heap[SEEN_ROOM];
    unsigned seen;
};

static char *put_word(char *to, const char *word) {
    while (*word)
        *to++ = *word++;
    return to;
}

static char *put_decimal(char *to, uint64_t n) {
    char digits[20];
    int count = 0;
    do
        digits[count++] = (char)('0' + n % 10);
    while (n /= 10);
    while (count)
        *to++ = digits[--count];
    return to;
}

static char *put_offset(char *to, uint64_t n) {
    int shift = 60;
    while (shift && !(n >> shift & 15))
        shift -= 4;
    to = put_word(to, "0x");
    for (; shift >= 0; shift -= 4)
        *to++ = "0123456789abcdef"[n >> shift & 15];
    return to;
}

static char *put_first_line(const struct places *p, char *to) {
    return put_word(put_offset(put_word(to, "ptmplaces "), p->start), "\n");
}

/* The numbers of a heap: its arena's, and its own among those of that arena. A heap begins with its arena's address. A
 * heap that was dropped and came again under another arena is a new one. */
static void heap_numbers(struct places *p, uintptr_t heap, unsigned *arena, unsigned *number) {
    uintptr_t owner = *(const uintptr_t *)heap;
    unsigned arenas = 0;
    *arena = *number = 0;
    for (unsigned i = 0; i < p->seen; i++) {
        unsigned first = 0;
        while (p->arena[first] != p->arena[i])
            first++;
        arenas += first == i;
        if (p->arena[i] != owner)
            continue;
        if (first == i)
            *arena = arenas;
        if (p->heap[i] == heap)
            return;
        ++*number;
    }
    if (!*arena)
        *arena = arenas + 1;
    if (p->seen < SEEN_ROOM) {
        p->arena[p->seen] = owner;
        p->heap[p->seen++] = heap;
    }
}

/* Puts the line, with its newline, and gives its end. The block is live. */
static char *put_place(struct places *p, char *to, const void *block) {
    if (!block)
        return put_word(to, "null\n");
    uintptr_t at = (uintptr_t)block;
    const uint64_t *words = (const uint64_t *)at - 2;
    uint64_t size = words[1] & ~(uint64_t)7;
    if (words[1] & MAPPED_BIT) {
        to = put_offset(put_word(to, "mapped "), words[0] + 16);
    } else if (words[1] & OTHER_BIT) {
        uintptr_t heap = at & ~(HEAP_BYTES - 1);
        unsigned arena, number;
        heap_numbers(p, heap, &arena, &number);
        to = put_decimal(put_word(to, "arena "), arena);
        to = put_decimal(put_word(to, " "), number);
        to = put_offset(put_word(to, " "), at - heap);
    } else if (at >= p->start && at < (uintptr_t)sbrk(0)) {
        to = put_offset(put_word(to, "main "), at - p->start);
    } else {
        to = put_word(to, "piece");
    }
    to = put_decimal(put_word(to, " "), size);
    return put_word(to, "\n");
}

#endif
