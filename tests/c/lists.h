/* Lists of bytes for damaged.c, drawn from a seed. */
#ifndef LISTS_H
#define LISTS_H

#include <stddef.h>
#include <stdint.h>

/* splitmix64: the same seed gives the same lists everywhere. */
struct rng {
    uint64_t state;
};

uint64_t next(struct rng *rng);

/* 0 to n - 1; 0 for n = 0. */
size_t below(struct rng *rng, size_t n);

enum { MOST_TOKENS = 64, MOST_TEXT = 64 };

struct list {
    uint8_t tokens[MOST_TOKENS * 32];
    size_t tokens_len;
    uint8_t text[MOST_TEXT];
    size_t text_len;
};

/* Random bytes, random records, or a list that runs; then perhaps damage. */
void make_list(struct rng *rng, struct list *list);

#endif
