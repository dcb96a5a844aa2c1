#define _GNU_SOURCE
#include "table.h"
#include <string.h>
#include <sys/mman.h>

/* An address goes to the first empty place behind its hash; the table is never fuller than a half. */
static struct block *places;
static uint64_t room, used;

void *pages(uint64_t bytes) {
    void *at = mmap(NULL, bytes, PROT_READ | PROT_WRITE, MAP_PRIVATE | MAP_ANONYMOUS, -1, 0);
    return at == MAP_FAILED ? NULL : at;
}

void give_pages(void *at, uint64_t bytes) { munmap(at, bytes); }

static uint64_t home(uintptr_t at) { return ((uint64_t)at >> 4) * 0x9e3779b97f4a7c15u >> 20 & (room - 1); }

static struct block *place_of(uintptr_t at) {
    uint64_t i = home(at);
    while (places[i].at && places[i].at != at)
        i = (i + 1) & (room - 1);
    return &places[i];
}

struct block *table_find(uintptr_t at) {
    if (!room)
        return NULL;
    struct block *block = place_of(at);
    return block->at ? block : NULL;
}

static bool grow(void) {
    uint64_t old_room = room, new_room = room ? room * 2 : 4096;
    struct block *old = places, *fresh = pages(new_room * sizeof *fresh);
    if (!fresh)
        return false;
    places = fresh;
    room = new_room;
    for (uint64_t i = 0; i < old_room; i++)
        if (old[i].at)
            *place_of(old[i].at) = old[i];
    if (old)
        give_pages(old, old_room * sizeof *old);
    return true;
}

struct block *table_add(uintptr_t at) {
    if (used * 2 >= room && !grow())
        return NULL;
    struct block *block = place_of(at);
    used++;
    block->at = at;
    return block;
}

/* Those behind the hole move up where it lies between their home and their place, so that no mark stays. */
void table_remove(struct block *block) {
    uint64_t hole = (uint64_t)(block - places), i = hole;
    for (;;) {
        i = (i + 1) & (room - 1);
        if (!places[i].at)
            break;
        uint64_t way = (i - home(places[i].at)) & (room - 1);
        if (way >= ((i - hole) & (room - 1))) {
            places[hole] = places[i];
            hole = i;
        }
    }
    memset(&places[hole], 0, sizeof places[hole]);
    used--;
}

struct block *table_next(struct block *block) {
    for (uint64_t i = block ? (uint64_t)(block - places) + 1 : 0; i < room; i++)
        if (places[i].at)
            return &places[i];
    return NULL;
}
