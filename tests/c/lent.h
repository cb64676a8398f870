/* What the C tests share: memory to lend with a page before and a page behind it that nobody may touch, so that the processor stops a
 * read or a write beside it; files; random numbers from a seed. */
#ifndef LENT_H
#define LENT_H

#include <stddef.h>
#include <stdint.h>

/* n bytes that end just before a forbidden page (or, where the low side is wanted, that begin just behind one). */
struct lent {
    unsigned char *bytes;
    void *map;
    size_t mapped;
};

struct lent lend(size_t n, int low);
void give_back(struct lent *l);

/* A file's bytes, or NULL; *n is their number. */
unsigned char *contents(const char *path, size_t *n);

/* Numbers that depend on the seed alone. */
struct random {
    uint64_t state;
};

uint32_t next_random(struct random *r);
uint32_t below(struct random *r, uint32_t n);

#endif
