/* Live blocks by address, in memory of its own. */
#ifndef TABLE_H
#define TABLE_H

#include <stdbool.h>
#include <stdint.h>

enum { NO_POST = UINT32_MAX };

struct block {
    uintptr_t at;    /* 0 where the place is empty */
    uint64_t size;   /* as asked for */
    uint32_t name;
    uint32_t tray;   /* to which it was posted as its thread ended, or NO_POST */
    uint8_t thread;
};

struct block *table_find(uintptr_t at);
/* A place for that address, which isn't there yet; null where there is no memory. */
struct block *table_add(uintptr_t at);
void table_remove(struct block *block);
/* The place behind `block`, or the first one for null, that isn't empty; null behind the last. */
struct block *table_next(struct block *block);

/* Memory straight from the system, zeroed; null where there is none. */
void *pages(uint64_t bytes);
void give_pages(void *at, uint64_t bytes);

#endif
