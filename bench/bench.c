/* Runs the kernel and the same kernel in plain C over the same work. Usage:
 *   bench time RECORDING LARGEST       a line for each kind of work: name, nanoseconds of the kernel, of plain C, their ratio
 *   bench count KERNEL WORK N FILE     runs one of them N times and prints nothing, for counting instructions; KERNEL is rattle or plain
 *   bench names                        the kinds of work
 *   bench same RECORDING               compares all answers of the two
 * What is timed is taken in turns, and the least of several rounds counts. */
#define _POSIX_C_SOURCE 199309L
#include <stdio.h>
#include <stdlib.h>
#include <string.h>
#include <time.h>

#include "kernel.h"
#include "meterkernel.h"

static uint8_t *bytes;
static size_t size;

static void get(const char *path) {
    FILE *f = fopen(path, "rb");
    if (f == NULL) {
        perror(path);
        exit(2);
    }
    fseek(f, 0, SEEK_END);
    size = (size_t)ftell(f);
    rewind(f);
    bytes = malloc(size + 1);
    if (bytes == NULL || fread(bytes, 1, size, f) != size) exit(2);
    fclose(f);
}

static uint32_t number_at(const uint8_t *b) { return (uint32_t)b[0] << 24 | (uint32_t)b[1] << 16 | (uint32_t)b[2] << 8 | b[3]; }

/* ---- the two kernels */

static uint32_t memory[MK_WORDS_MOST];
static struct kernel plain;

enum { RATTLE, PLAIN };

static uint32_t boot(int which, const uint8_t *image, size_t n) {
    return which == RATTLE ? mk_boot(image, n, memory, MK_WORDS_MOST) : plain_boot(&plain, image, n);
}

/* n turns of the operations from op on, round and round after all of them; a sum of the answers, so that none is left out */
static uint32_t turns_rattle(const uint32_t *op, size_t all, size_t n) {
    uint32_t answer[6], sum = 0;
    for (size_t i = 0, j = 0; i < n; i++, j = j + 1 == all ? 0 : j + 1) {
        sum += mk_turn(memory, MK_WORDS_MOST, op + 8 * j, 8, answer, 6);
        sum = sum * 31 + answer[0] + answer[5];
    }
    return sum;
}

static uint32_t turns_plain(const uint32_t *op, size_t all, size_t n) {
    uint32_t answer[6], sum = 0;
    for (size_t i = 0, j = 0; i < n; i++, j = j + 1 == all ? 0 : j + 1) {
        sum += plain_turn(&plain, op + 8 * j, answer);
        sum = sum * 31 + answer[0] + answer[5];
    }
    return sum;
}

static uint32_t turns(int which, const uint32_t *op, size_t all, size_t n) { return which == RATTLE ? turns_rattle(op, all, n) : turns_plain(op, all, n); }

/* ---- the work */

/* One domain: slot 0 a frame, 1 a bell to hear, 2 a bell to ring, 3 a mailbox with all rights; 5 derived from 0. */
static const uint8_t small[] = {
    1, 1, 0, 5, 0, 1, 0, 0, 0, 0, 0, 0,
    0, 0, 1, 3, 0, 0, 0, 0, 255, 0, 0, 0, 0, 1, 3, 1, 0, 0, 0, 0, 255, 0, 0, 0, 0, 2, 3, 2, 0, 0, 0, 4, 255, 0, 0, 0,
    0, 3, 2, 7, 0, 0, 0, 9, 255, 0, 0, 0, 0, 5, 1, 1, 0, 0, 0, 0, 0, 0, 0, 0,
};

struct work {
    const char *name;
    size_t operations;
    uint32_t op[4][8];
};

static const struct work works[] = {
    { "IDLE", 1, { { 0 } } },
    { "LOAD", 1, { { 1, 0, 7 } } },
    { "STORE", 1, { { 2, 0, 7, 4711 } } },
    { "DERIVE, DELETE", 2, { { 3, 0, 10, 7 }, { 4, 10 } } },
    { "DERIVE, REVOKE", 2, { { 3, 3, 10, 7 }, { 5, 3 } } },
    { "RING", 1, { { 6, 2 } } },
    { "HEAR", 1, { { 7, 1 } } },
    { "SEND, RECEIVE", 2, { { 8, 3, 64, 1, 2, 3, 4 }, { 9, 3, 64 } } },
    { "SEND, RECEIVE of a capability, DELETE", 3, { { 8, 3, 0, 1, 2, 3, 4 }, { 9, 3, 10 }, { 4, 10 } } },
    { "LOOK", 1, { { 10, 0 } } },
    { "refusal 1", 1, { { 11 } } },
    { "refusal 2", 1, { { 1, 64 } } },
    { "refusal 3", 1, { { 8, 20, 64 } } },
    { "refusal 4", 1, { { 1, 1 } } },
    { "refusal 5", 1, { { 7, 2 } } },
    { "refusal 6", 1, { { 2, 0, 256 } } },
};
enum { WORKS = sizeof works / sizeof works[0] };

static double now(void) {
    struct timespec t;
    clock_gettime(CLOCK_MONOTONIC, &t);
    return 1e9 * (double)t.tv_sec + (double)t.tv_nsec;
}

static volatile uint32_t sink;

static uint32_t *operations;
static size_t recorded;

static void unpack(void) {
    size_t length = number_at(bytes);
    recorded = (size - 4 - length) / 32;
    operations = malloc(32 * recorded + 32);
    for (size_t i = 0; i < 8 * recorded; i++) operations[i] = number_at(bytes + 4 + length + 4 * i);
}

/* The kinds of work by number: those of the table, then the recording, the image, the flow. */
enum { RECORDING = WORKS, IMAGE, FLOW, KINDS };

static const char *name_of(int work) {
    return work < WORKS ? works[work].name : work == RECORDING ? "the recording" : work == IMAGE ? "reading the largest image" : "flow of the largest image";
}

static void prepare(int which, int work) {
    if (work < WORKS) boot(which, small, sizeof small);
    if (work == RECORDING) boot(which, bytes + 4, number_at(bytes));
}

static void perform(int which, int work, size_t n) {
    static uint8_t matrix[256];
    if (work < WORKS) sink += turns(which, works[work].op[0], works[work].operations, n * works[work].operations);
    else if (work == RECORDING) sink += turns(which, operations, recorded, n);
    else
        for (; n > 0; n--) {
            if (work == IMAGE) sink += boot(which, bytes, size);
            else sink += which == RATTLE ? mk_flow(bytes, size, matrix, 256) : plain_flow(bytes, size, matrix);
            sink += matrix[255];
        }
}

static double least(int which, int work, size_t n, double best) {
    prepare(which, work);
    double begin = now();
    perform(which, work, n);
    double took = (now() - begin) / (double)n;
    return took < best ? took : best;
}

static void timed(int work, size_t n) {
    double rattle = 1e30, c = 1e30;
    for (int round = 0; round < 9; round++) {
        rattle = least(RATTLE, work, n, rattle);
        c = least(PLAIN, work, n, c);
    }
    printf("%s|%.1f|%.1f|%.2f\n", name_of(work), rattle, c, rattle / c);
}

static int same(void) {
    uint32_t a[6], b[6];
    if (boot(RATTLE, bytes + 4, number_at(bytes)) != 0 || boot(PLAIN, bytes + 4, number_at(bytes)) != 0) return 1;
    for (size_t i = 0; i < recorded; i++) {
        uint32_t r = mk_turn(memory, MK_WORDS_MOST, operations + 8 * i, 8, a, 6), s = plain_turn(&plain, operations + 8 * i, b);
        if (r != s || memcmp(a, b, sizeof a) != 0) {
            printf("operation %zu differs: %u and %u\n", i, r, s);
            return 1;
        }
    }
    printf("the same answers to %zu operations\n", recorded);
    return 0;
}

int main(int argc, char **argv) {
    if (argc == 2 && strcmp(argv[1], "names") == 0) {
        for (int w = 0; w < KINDS; w++) puts(name_of(w));
        return 0;
    }
    if (argc == 4 && strcmp(argv[1], "time") == 0) {
        get(argv[2]);
        unpack();
        timed(RECORDING, recorded);
        for (int w = 0; w < WORKS; w++) timed(w, 200000);
        get(argv[3]);
        timed(IMAGE, 500);
        timed(FLOW, 500);
        return 0;
    }
    if (argc == 3 && strcmp(argv[1], "same") == 0) {
        get(argv[2]);
        unpack();
        return same();
    }
    if (argc == 6 && strcmp(argv[1], "count") == 0) {
        int which = strcmp(argv[2], "rattle") == 0 ? RATTLE : PLAIN, work = atoi(argv[3]);
        get(argv[5]);
        if (work == RECORDING) unpack();
        prepare(which, work);
        perform(which, work, strtoul(argv[4], NULL, 10));
        return 0;
    }
    fprintf(stderr, "usage: bench time RECORDING LARGEST | same RECORDING | names | count rattle|plain WORK N FILE\n");
    return 2;
}
