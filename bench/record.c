/* Makes the recording, always the same one: usage: record OPERATIONS >FILE, or record largest >FILE for the largest image alone. The
 * format is that of a trace (docs of the vectors): image length, image, operations, numbers big-endian. A tenth of the operations are
 * refused and one in a thousand is a REVOKE; the others are as a gateway's domains would mix them. What an operation needs is looked up
 * in the state of the plain kernel, which runs along. */
#include <stdio.h>
#include <stdlib.h>
#include <string.h>

#include "kernel.h"

static uint64_t seed = 20260215;

static uint32_t any(uint32_t n) {
    seed = seed * 6364136223846793005u + 1442695040888963407u;
    return (uint32_t)(((seed >> 32) * n) >> 32);
}

static void put(uint32_t v) {
    putchar((int)(v >> 24));
    putchar((int)(v >> 16 & 255));
    putchar((int)(v >> 8 & 255));
    putchar((int)(v & 255));
}

static uint8_t image[12360];
static size_t size;

static void entry(uint32_t place, uint32_t kind, uint32_t rights, uint32_t object, uint32_t badge, uint32_t source) {
    uint8_t *e = image + size;
    uint8_t bytes[12] = { (uint8_t)(place / 64), (uint8_t)(place % 64), (uint8_t)kind, (uint8_t)rights, (uint8_t)(object >> 8), (uint8_t)object,
        (uint8_t)(badge >> 8), (uint8_t)badge, (uint8_t)(source == 0 ? 255 : (source - 1) / 64), (uint8_t)(source == 0 ? 0 : (source - 1) % 64), 0, 0 };
    memcpy(e, bytes, 12);
    size += 12;
    uint32_t c = (uint32_t)image[2] << 8 | image[3];
    c++;
    image[2] = (uint8_t)(c >> 8), image[3] = (uint8_t)c;
}

static void header(uint32_t domains, uint32_t turns, uint32_t frames) {
    memset(image, 0, sizeof image);
    image[0] = (uint8_t)domains, image[1] = (uint8_t)turns, image[4] = (uint8_t)(frames >> 8), image[5] = (uint8_t)frames;
    for (uint32_t i = 0; i < turns; i++) image[8 + i] = (uint8_t)(i % domains);
    size = 8 + (turns + 3) / 4 * 4;
}

/* Eight domains; each has two frames, a bell that it hears and one that it rings, a mailbox that it reads and one that it writes. */
static void gateway(void) {
    header(8, 32, 64);
    for (uint32_t d = 0; d < 8; d++) {
        entry(64 * d, 1, 3, d, 0, 0);
        entry(64 * d + 1, 1, 3, 8 + d, 0, 0);
        entry(64 * d + 2, 3, 1, d, 0, 0);
        entry(64 * d + 3, 3, 2, (d + 1) % 8, 1u << d, 0);
        entry(64 * d + 4, 2, 1, d, 0, 0);
        entry(64 * d + 5, 2, 6, (d + 1) % 8, d + 1, 0);
    }
}

/* 16 domains with 64 capabilities each, sources in long chains. */
static void largest(void) {
    header(16, 64, 256);
    for (uint32_t p = 0; p < 1024; p++) {
        uint32_t kind = 1 + p / 16 % 3;
        if (p % 16 == 0) entry(p, kind, kind == 2 ? 7 : 3, kind == 1 ? p / 8 : p / 16 % 64, 0, 0);
        else {
            const uint8_t *before = image + size - 12;
            entry(p, kind, before[3], (uint32_t)before[4] << 8 | before[5], 0, p);
        }
    }
}

static struct kernel k;

/* A slot of the domain with kind, right and, for a mailbox, a message or none; 64 where there is none. */
static uint32_t slot_with(uint32_t d, uint32_t kind, uint32_t right, int full) {
    uint32_t begin = any(64);
    for (uint32_t i = 0; i < 64; i++) {
        struct capability c = k.place[64 * d + (begin + i) % 64];
        if (c.kind == 0 || (kind != 0 && c.kind != kind) || (c.rights & right) != right) continue;
        if (full >= 0 && (int)k.box[c.object].full != full) continue;
        return (begin + i) % 64;
    }
    return 64;
}

/* One of the slots from 16 on, empty or not. */
static uint32_t own_slot(uint32_t d, int empty) {
    uint32_t begin = any(48);
    for (uint32_t i = 0; i < 48; i++) {
        uint32_t x = 16 + (begin + i) % 48;
        if ((k.place[64 * d + x].kind == 0) == empty) return x;
    }
    return 64;
}

/* An operation that is done; it falls back on IDLE where the domain has nothing for it. */
static void good(uint32_t d, uint32_t *op) {
    uint32_t pick = any(1000), s = 64, t = 64;
    if (pick < 61) op[0] = 3, s = slot_with(d, 0, 0, -1), t = own_slot(d, 1), op[3] = 7, op[4] = any(4);
    else if (pick < 111) op[0] = 4, s = own_slot(d, 0);
    else if (pick < 361) op[0] = 1, s = slot_with(d, 1, 1, -1), t = any(256);
    else if (pick < 561) op[0] = 2, s = slot_with(d, 1, 2, -1), t = any(256), op[3] = any(0xffffffff);
    else if (pick < 641) op[0] = 6, s = slot_with(d, 3, 2, -1);
    else if (pick < 721) op[0] = 7, s = slot_with(d, 3, 1, -1);
    else if (pick < 821) {
        op[0] = 8, s = slot_with(d, 2, 2, 0);
        if (s < 64 && any(4) == 0 && (k.place[64 * d + s].rights & 4)) t = own_slot(d, 0);
        op[3] = any(1000), op[4] = any(1000), op[5] = any(1000), op[6] = any(1000);
    } else if (pick < 921) op[0] = 9, s = slot_with(d, 2, 1, 1), t = any(2) ? own_slot(d, 1) : 64;
    else if (pick < 971) op[0] = 10, s = slot_with(d, 0, 0, -1);
    if (s == 64 || (op[0] == 3 && t == 64)) memset(op, 0, 8 * sizeof *op);
    else op[1] = s, op[2] = t;
}

/* An operation that is refused, in one of the ways. */
static void wrong(uint32_t d, uint32_t *op) {
    op[0] = 1 + any(10);
    switch (any(4)) {
    case 0: op[0] = 11 + any(1000); break;
    case 1: op[1] = 64 + any(1000); break;
    case 2: op[1] = own_slot(d, 1); break;
    default: op[0] = 1, op[1] = 4, op[2] = any(256); break;
    }
}

int main(int argc, char **argv) {
    if (argc != 2) {
        fprintf(stderr, "usage: record OPERATIONS | record largest\n");
        return 2;
    }
    if (strcmp(argv[1], "largest") == 0) {
        largest();
        fwrite(image, 1, size, stdout);
        return 0;
    }
    unsigned long n = strtoul(argv[1], NULL, 10), refused = 0, by_number[11] = { 0 };
    gateway();
    if (plain_boot(&k, image, size) != 0) return 1;
    put((uint32_t)size);
    fwrite(image, 1, size, stdout);
    for (unsigned long i = 0; i < n; i++) {
        uint32_t op[8] = { 0 }, answer[6], d = k.turn[k.position];
        if (i % 1000 == 999) op[0] = 5, op[1] = slot_with(d, 0, 0, -1);
        else if (i % 10 == 4) wrong(d, op);
        else good(d, op);
        for (int j = 0; j < 8; j++) put(op[j]);
        if (plain_turn(&k, op, answer) != 0) refused++;
        else by_number[op[0]]++;
    }
    fprintf(stderr, "%lu operations, %lu refused; done by number:", n, refused);
    for (int j = 0; j <= 10; j++) fprintf(stderr, " %d: %lu", j, by_number[j]);
    fprintf(stderr, "\n");
    return 0;
}
