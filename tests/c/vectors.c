/* Runs every vector of a folder through the functions of meterkernel.h, as a firmware would, and prints a line for each: 'ok ..' or
 * 'not ok ..'. Usage: vectors FOLDER. All that is lent lies between forbidden pages. */
#define _DEFAULT_SOURCE
#include <dirent.h>
#include <stdio.h>
#include <stdlib.h>
#include <string.h>

#include "lent.h"
#include "meterkernel.h"

static const char *folder;
static int bad;

static uint32_t number_at(const unsigned char *b) {
    return (uint32_t)b[0] << 24 | (uint32_t)b[1] << 16 | (uint32_t)b[2] << 8 | b[3];
}

static void put_number(unsigned char *b, uint32_t v) {
    b[0] = (unsigned char)(v >> 24);
    b[1] = (unsigned char)(v >> 16);
    b[2] = (unsigned char)(v >> 8);
    b[3] = (unsigned char)v;
}

static unsigned char *part(const char *name, const char *suffix, size_t *n) {
    char path[4096];
    snprintf(path, sizeof path, "%s/%s.%s", folder, name, suffix);
    return contents(path, n);
}

static void told(const char *what, const char *name, int right) {
    printf("%s %s %s\n", right ? "ok" : "not ok", what, name);
    if (!right) bad = 1;
}

/* An image in memory that ends at a forbidden page, and memory for its frames. */
struct machine {
    struct lent image, memory;
    size_t n, words;
};

static struct machine made(const unsigned char *image, size_t n) {
    struct machine m;
    uint32_t frames = n >= 6 ? (uint32_t)image[4] << 8 | image[5] : 1;
    m.n = n;
    m.image = lend(n, 0);
    memcpy(m.image.bytes, image, n);
    m.words = mk_words(frames);
    if (m.words == 0) m.words = mk_words(1);
    m.memory = lend(4 * m.words, 0);
    memset(m.memory.bytes, 0xa5, 4 * m.words);
    return m;
}

static void unmade(struct machine *m) {
    give_back(&m->image);
    give_back(&m->memory);
}

static uint32_t *words_of(struct machine *m) { return (uint32_t *)(void *)m->memory.bytes; }

static uint32_t boot(struct machine *m) { return mk_boot(m->image.bytes, m->n, words_of(m), m->words); }

/* The operations of a trace from byte at on, run one after the other; out gets 32 bytes for each where it isn't NULL. */
static void run(struct machine *m, const unsigned char *trace, size_t n, size_t at, unsigned char *out) {
    struct lent op = lend(4 * MK_OPERATION_WORDS, 0), answer = lend(4 * MK_ANSWER_WORDS, 0);
    uint32_t *o = (uint32_t *)(void *)op.bytes, *a = (uint32_t *)(void *)answer.bytes;
    for (; at + 32 <= n; at += 32) {
        for (int i = 0; i < 8; i++) o[i] = number_at(trace + at + 4 * i);
        uint32_t who = mk_whose(words_of(m), m->words);
        uint32_t status = mk_turn(words_of(m), m->words, o, MK_OPERATION_WORDS, a, MK_ANSWER_WORDS);
        if (out == NULL) continue;
        put_number(out, who);
        put_number(out + 4, status);
        for (int i = 0; i < 6; i++) put_number(out + 8 + 4 * i, a[i]);
        out += 32;
    }
    give_back(&op);
    give_back(&answer);
}

static void answers(const char *name) {
    size_t n, en;
    unsigned char *trace = part(name, "trace", &n), *expected = part(name, "answers", &en);
    size_t length = number_at(trace);
    struct machine m = made(trace + 4, length);
    uint32_t refusal = boot(&m);
    size_t turns = refusal == 0 ? (n - 4 - length) / 32 : 0;
    unsigned char *out = malloc(4 + 32 * turns);
    put_number(out, refusal);
    if (refusal == 0) run(&m, trace, n, 4 + length, out + 4);
    told("C answers", name, en == 4 + 32 * turns && memcmp(out, expected, en) == 0);
    free(out);
    unmade(&m);
    free(trace);
    free(expected);
}

static void written(const char *name) {
    size_t n, en;
    unsigned char *trace = part(name, "trace", &n), *expected = part(name, "written", &en);
    size_t length = number_at(trace);
    struct machine m = made(trace + 4, length);
    uint32_t status = boot(&m), size = 0x5a5a5a5a;
    unsigned char first[4];
    int right = 1;
    if (status == 0) {
        struct lent buffer = lend(MK_IMAGE_MOST, 0);
        memset(buffer.bytes, 0x5a, MK_IMAGE_MOST);
        run(&m, trace, n, 4 + length, NULL);
        status = mk_write(words_of(&m), m.words, buffer.bytes, MK_IMAGE_MOST, &size);
        right = status == 0 ? size == en - 4 && memcmp(buffer.bytes, expected + 4, en - 4) == 0 : size == 0x5a5a5a5a;
        for (uint32_t i = status == 0 ? size : 0; i < MK_IMAGE_MOST; i++) right = right && buffer.bytes[i] == 0x5a;
        if (status == 0) {
            /* a buffer of just that length will do, one byte less won't, and what was written boots to the same memory */
            struct lent exact = lend(size, 0), small = lend(size - 1, 1);
            struct machine again;
            memset(small.bytes, 0x5a, size - 1);
            right = right && mk_write(words_of(&m), m.words, exact.bytes, size, &size) == 0 && memcmp(exact.bytes, buffer.bytes, size) == 0;
            right = right && mk_write(words_of(&m), m.words, small.bytes, size - 1, &size) == MK_BUFFER_SHORT && size == en - 4;
            for (uint32_t i = 0; i + 1 < size; i++) right = right && small.bytes[i] == 0x5a;
            again = made(exact.bytes, size);
            right = right && boot(&again) == 0 && again.words == m.words && memcmp(again.memory.bytes, m.memory.bytes, 4 * m.words) == 0;
            unmade(&again);
            give_back(&exact);
            give_back(&small);
        }
        give_back(&buffer);
    }
    put_number(first, status);
    told("C written", name, right && en == 4 + (status == 0 ? size : 0) && memcmp(first, expected, 4) == 0);
    unmade(&m);
    free(trace);
    free(expected);
}

static void flows(const char *name) {
    size_t n, en;
    unsigned char *image = part(name, "image", &n), *expected = part(name, "flow", &en);
    struct machine m = made(image, n);
    uint32_t d = n > 0 ? image[0] : 0;
    struct lent matrix = lend(d * d, 0);
    memset(matrix.bytes, 0x5a, d * d);
    uint32_t refusal = mk_flow(m.image.bytes, n, matrix.bytes, d * d);
    char out[4096];
    int have = 0, right = 1;
    if (refusal == 0) {
        have += sprintf(out + have, "accepted %u\n", d);
        for (uint32_t a = 0; a < d; a++) {
            for (uint32_t b = 0; b < d; b++) out[have++] = (char)('0' + matrix.bytes[a * d + b]);
            out[have++] = '\n';
        }
        /* one byte too few: 28, and nothing changed */
        struct lent small = lend(d * d - 1, 1);
        memset(small.bytes, 0x5a, d * d - 1);
        right = mk_flow(m.image.bytes, n, small.bytes, d * d - 1) == MK_BUFFER_SHORT;
        for (uint32_t i = 0; i + 1 < d * d; i++) right = right && small.bytes[i] == 0x5a;
        give_back(&small);
    } else {
        have += sprintf(out + have, "refused %u\n", refusal);
        for (uint32_t i = 0; i < d * d; i++) right = right && matrix.bytes[i] == 0x5a;
    }
    right = right && boot(&m) == refusal;
    told("C flow", name, right && (size_t)have == en && memcmp(out, expected, en) == 0);
    give_back(&matrix);
    unmade(&m);
    free(image);
    free(expected);
}

static int rising(const void *a, const void *b) {
    uint32_t x = *(const uint32_t *)a, y = *(const uint32_t *)b;
    return x < y ? -1 : x > y;
}

static void holds(const char *name) {
    size_t n, en;
    unsigned char *image = part(name, "image", &n), *expected = part(name, "hold", &en);
    struct machine m = made(image, n);
    uint32_t d = n > 0 ? image[0] : 0, c = n > 3 ? (uint32_t)image[2] << 8 | image[3] : 0;
    size_t size = (size_t)d * c;
    struct lent rows = lend(size, 0);
    memset(rows.bytes, 0x5a, size);
    uint32_t refusal = mk_could_hold(m.image.bytes, n, rows.bytes, size);
    char *out = malloc(64 + 64 * size);
    size_t have = 0;
    int right = 1;
    if (refusal == 0) {
        size_t first = 8 + (image[1] + 3u) / 4 * 4;
        uint32_t *triples = malloc(4 * (size + 1));
        size_t k = 0;
        for (uint32_t a = 0; a < d; a++)
            for (uint32_t e = 0; e < c; e++) {
                const unsigned char *b = image + first + 12 * e;
                if (rows.bytes[(size_t)a * c + e] > 1) right = 0;
                if (rows.bytes[(size_t)a * c + e] == 1)
                    triples[k++] = a << 24 | (uint32_t)b[2] << 20 | ((uint32_t)b[4] << 8 | b[5]) << 4 | b[3];
            }
        qsort(triples, k, 4, rising);
        have += (size_t)sprintf(out + have, "accepted %u\n", d);
        for (size_t i = 0; i < k; i++)
            if (i == 0 || triples[i] != triples[i - 1])
                have += (size_t)sprintf(out + have, "%u %u %u %u\n", triples[i] >> 24, triples[i] >> 20 & 15, triples[i] >> 4 & 65535, triples[i] & 15);
        free(triples);
        if (size > 0) {
            struct lent small = lend(size - 1, 1);
            memset(small.bytes, 0x5a, size - 1);
            right = right && mk_could_hold(m.image.bytes, n, small.bytes, size - 1) == MK_BUFFER_SHORT;
            for (size_t i = 0; i + 1 < size; i++) right = right && small.bytes[i] == 0x5a;
            give_back(&small);
        }
    } else {
        have += (size_t)sprintf(out + have, "refused %u\n", refusal);
        for (size_t i = 0; i < size; i++) right = right && rows.bytes[i] == 0x5a;
    }
    told("C could hold", name, right && have == en && memcmp(out, expected, en) == 0);
    free(out);
    give_back(&rows);
    unmade(&m);
    free(image);
    free(expected);
}

/* A sorted list of the folder, so that what is printed has one order. */
static int by_name(const struct dirent **a, const struct dirent **b) { return strcmp((*a)->d_name, (*b)->d_name); }

static void each(const char *suffix, void (*one)(const char *)) {
    struct dirent **names;
    int n = scandir(folder, &names, NULL, by_name);
    size_t s = strlen(suffix);
    if (n < 0) {
        perror(folder);
        exit(2);
    }
    for (int i = 0; i < n; i++) {
        size_t l = strlen(names[i]->d_name);
        if (l > s + 1 && names[i]->d_name[l - s - 1] == '.' && strcmp(names[i]->d_name + l - s, suffix) == 0) {
            names[i]->d_name[l - s - 1] = 0;
            one(names[i]->d_name);
        }
        free(names[i]);
    }
    free(names);
}

int main(int argc, char **argv) {
    if (argc != 2) {
        fprintf(stderr, "usage: vectors FOLDER\n");
        return 2;
    }
    folder = argv[1];
    each("answers", answers);
    each("written", written);
    each("flow", flows);
    each("hold", holds);
    return bad;
}
