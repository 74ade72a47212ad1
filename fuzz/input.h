/* The fuzzer's bytes, read in turn, and the damage that they do. */
#ifndef INPUT_H
#define INPUT_H

#include <stddef.h>
#include <stdint.h>

struct input {
    const uint8_t *at;
    size_t left;
};

/* The next byte; 0 where there is none left. */
uint8_t take(struct input *in);

/* The next bytes as one number, the highest first. */
uint64_t take_number(struct input *in, int bytes);

/* A number at which something may change: around powers of two, limits, or any. */
uint64_t take_edge(struct input *in);

/* A length for a buffer that needs `exact`: just that, near it, or any up to `most`. */
size_t take_length(struct input *in, size_t exact, size_t most);

/* A number as so many bytes, the highest first. */
void put(uint8_t *at, uint64_t number, int bytes);
uint64_t get(const uint8_t *at, int bytes);

/* Damages bytes in one place, or makes them shorter or longer. The new length, at most `room`. */
size_t damage(struct input *in, uint8_t *bytes, size_t length, size_t room);

/* Damages a point: a word near one of its edges, or its length. */
size_t forge(struct input *in, uint64_t *point, size_t length, size_t room);

#endif
