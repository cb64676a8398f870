/* The same kernel, written plainly in C, to measure against. State and rules as in document 01. */
#ifndef KERNEL_H
#define KERNEL_H

#include <stddef.h>
#include <stdint.h>

enum { DOMAINS = 16, SLOTS = 64, PLACES = DOMAINS * SLOTS + 64, FRAMES = 256, WORDS = 256, BOXES = 64, BELLS = 64, TURNS = 64 };

struct message {
    uint32_t full, badge, w[4];
};

/* Fields of a place that are used together stand together; sources have an array of their own, so that a sweep over them is vector code. */
struct capability {
    uint8_t kind, rights;
    uint16_t object, badge;
};

/* A source is 0 for none, else its place and 1. 16 bits are enough; with -DWIDE it has a word, as in the kernel's memory. */
#ifdef WIDE
typedef uint32_t source_number;
#else
typedef uint16_t source_number;
#endif

struct kernel {
    uint32_t domains, frames, turns, position;
    uint8_t turn[TURNS];
    struct capability place[PLACES];
    source_number source[PLACES];
    uint32_t bell[BELLS];
    struct message box[BOXES];
    uint32_t word[FRAMES][WORDS];
};

uint32_t plain_boot(struct kernel *k, const uint8_t *image, size_t n);
uint32_t plain_turn(struct kernel *k, const uint32_t *op, uint32_t *answer);
uint32_t plain_flow(const uint8_t *image, size_t n, uint8_t *matrix);

#endif
