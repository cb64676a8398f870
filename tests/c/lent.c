#define _DEFAULT_SOURCE
#include "lent.h"

#include <stdio.h>
#include <stdlib.h>
#include <sys/mman.h>
#include <unistd.h>

static void stop(const char *what) {
    perror(what);
    exit(2);
}

struct lent lend(size_t n, int low) {
    size_t page = (size_t)sysconf(_SC_PAGESIZE);
    size_t inside = (n + page - 1) / page * page;
    struct lent l;
    l.mapped = inside + 2 * page;
    l.map = mmap(NULL, l.mapped, PROT_NONE, MAP_PRIVATE | MAP_ANONYMOUS, -1, 0);
    if (l.map == MAP_FAILED) stop("mmap");
    unsigned char *first = (unsigned char *)l.map + page;
    if (inside > 0 && mprotect(first, inside, PROT_READ | PROT_WRITE) != 0) stop("mprotect");
    l.bytes = low ? first : first + inside - n;
    return l;
}

void give_back(struct lent *l) {
    if (munmap(l->map, l->mapped) != 0) stop("munmap");
}

unsigned char *contents(const char *path, size_t *n) {
    FILE *f = fopen(path, "rb");
    if (f == NULL) return NULL;
    unsigned char *all = NULL;
    size_t have = 0, room = 0;
    for (;;) {
        if (have == room) {
            room = room == 0 ? 65536 : 2 * room;
            all = realloc(all, room);
            if (all == NULL) stop("realloc");
        }
        size_t got = fread(all + have, 1, room - have, f);
        have += got;
        if (got == 0) break;
    }
    fclose(f);
    *n = have;
    return all;
}

uint32_t next_random(struct random *r) {
    r->state += 0x9e3779b97f4a7c15u;
    uint64_t z = r->state;
    z = (z ^ (z >> 30)) * 0xbf58476d1ce4e5b9u;
    z = (z ^ (z >> 27)) * 0x94d049bb133111ebu;
    return (uint32_t)((z ^ (z >> 31)) >> 16);
}

uint32_t below(struct random *r, uint32_t n) { return (uint32_t)(((uint64_t)next_random(r) * n) >> 32); }
