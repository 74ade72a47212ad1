/* Memory to lend: every buffer that a call gets stands against a page that nobody may touch. */
#ifndef LENT_H
#define LENT_H

#include <stddef.h>
#include <stdint.h>

/* One piece of memory under two addresses, each with a forbidden page before and behind it. */
struct region {
    uint8_t *writable;
    uint8_t *readable; /* the same bytes, which cannot be written here */
    size_t size;
};

/* Against which forbidden page a buffer is put. */
enum side { AT_END, AT_BEGINNING, SIDES };

/* A region of at least so many bytes. */
struct region region_of(size_t bytes);

/*
 * Puts a copy of `length` bytes into the region, and gives the address to lend: one that can only be read, or one that can be
 * written. A buffer of no bytes is the forbidden page itself, or null.
 */
void *lend(const struct region *region, enum side side, const void *bytes, size_t length, int to_write);

/* Copies back what stands now in the buffer that was lent last. */
void take_back(const struct region *region, enum side side, void *bytes, size_t length);

#endif
