#define _GNU_SOURCE
#include "lent.h"

#include <stdio.h>
#include <stdlib.h>
#include <string.h>
#include <sys/mman.h>
#include <unistd.h>

static void stop(const char *what) {
    perror(what);
    exit(2);
}

/* The file's bytes between two forbidden pages. */
static uint8_t *between_guards(int file, size_t size, size_t page, int protection) {
    uint8_t *all = mmap(NULL, size + 2 * page, PROT_NONE, MAP_PRIVATE | MAP_ANONYMOUS, -1, 0);
    if (all == MAP_FAILED) {
        stop("mmap");
    }
    uint8_t *middle = mmap(all + page, size, protection, MAP_SHARED | MAP_FIXED, file, 0);
    if (middle == MAP_FAILED) {
        stop("mmap");
    }
    return middle;
}

struct region region_of(size_t bytes) {
    size_t page = (size_t)sysconf(_SC_PAGESIZE);
    struct region region = {.size = (bytes + page - 1) / page * page};
    int file = memfd_create("lent", 0);
    if (file < 0 || ftruncate(file, (off_t)region.size) != 0) {
        stop("memfd_create");
    }
    region.writable = between_guards(file, region.size, page, PROT_READ | PROT_WRITE);
    region.readable = between_guards(file, region.size, page, PROT_READ);
    close(file);
    return region;
}

static size_t place(const struct region *region, enum side side, size_t length) {
    if (length > region->size) {
        fprintf(stderr, "the harness lends more than it has\n");
        exit(2);
    }
    return side == AT_END ? region->size - length : 0;
}

void *lend(const struct region *region, enum side side, const void *bytes, size_t length, int to_write) {
    size_t at = place(region, side, length);
    if (length == 0 && side == AT_BEGINNING) {
        return NULL;
    }
    if (length != 0) {
        memcpy(region->writable + at, bytes, length);
    }
    return (to_write ? region->writable : region->readable) + at;
}

void take_back(const struct region *region, enum side side, void *bytes, size_t length) {
    if (length != 0) {
        memcpy(bytes, region->writable + place(region, side, length), length);
    }
}
