/* Hands the kernel memory full of random words, and random bytes as images: whatever it is handed, a call returns, stays inside what it
 * was lent and keeps what isn't the state's own. Usage: wild SEED TURNS IMAGES. Prints the seed, a line for each kind of test, and where
 * one fails what it was. All that is lent lies between forbidden pages. */
#include <stdio.h>
#include <stdlib.h>
#include <string.h>

#include "lent.h"
#include "meterkernel.h"

enum { STATE = 5956, POSITION = 3, FRAMES = 1 };

static struct random chance;
static int bad;

static void told(const char *what, unsigned long n, unsigned long wrong) {
    printf("%s wild %s, %lu of them\n", wrong == 0 ? "ok" : "not ok", what, n);
    if (wrong != 0) bad = 1;
}

/* Words that mean something often enough: small numbers, places, the edges, and anything. */
static uint32_t some_word(void) {
    switch (below(&chance, 8)) {
    case 0: return 0;
    case 1: return below(&chance, 4);
    case 2: return below(&chance, 70);
    case 3: return below(&chance, 1100);
    case 4: return below(&chance, 65600);
    case 5: return 0xffffffffu - below(&chance, 3);
    default: return next_random(&chance);
    }
}

/* The words that the state in memory claims to take, or more than there can be. */
static uint64_t claimed(const uint32_t *mem, size_t words) {
    return words < STATE ? STATE : STATE + 256 * (uint64_t)mem[FRAMES];
}

/* Turns on memory full of random words. */
static void turns(unsigned long n) {
    unsigned long wrong = 0, done = 0, refused = 0, short_ones = 0;
    while (done + short_ones < n) {
        size_t words = STATE - 4 + below(&chance, 256 * 4 + 8);
        struct lent memory = lend(4 * words, (int)below(&chance, 2)), op = lend(32, 0), answer = lend(24, 0);
        uint32_t *mem = (uint32_t *)(void *)memory.bytes, *o = (uint32_t *)(void *)op.bytes, *a = (uint32_t *)(void *)answer.bytes;
        uint32_t *before = malloc(4 * words + 4);
        for (size_t i = 0; i < words; i++) mem[i] = some_word();
        mem[FRAMES] = below(&chance, 5);
        mem[2] = 1 + below(&chance, 64);
        mem[POSITION] = below(&chance, 2) ? below(&chance, mem[2]) : some_word();
        for (int k = 0; k < 64; k++) {
            uint64_t need = claimed(mem, words);
            memcpy(before, mem, 4 * words);
            for (int i = 0; i < 8; i++) o[i] = some_word();
            if (below(&chance, 8) != 0) o[0] = below(&chance, 11);
            for (int i = 0; i < 6; i++) a[i] = 0x5a5a5a5a;
            size_t lent_op = below(&chance, 32) == 0 ? below(&chance, 8) : 8, lent_answer = below(&chance, 32) == 0 ? below(&chance, 6) : 6;
            uint32_t who = mk_whose(mem, words);
            uint32_t status = mk_turn(mem, words, o + (8 - lent_op), lent_op, a + (6 - lent_answer), lent_answer);
            int right = 1;
            if (words < need || lent_op < 8 || lent_answer < 6) {
                short_ones++;
                right = status == MK_TOO_SHORT && memcmp(before, mem, 4 * words) == 0 && (words >= need || who == MK_TOO_SHORT);
                for (int i = 0; i < 6; i++) right = right && a[i] == 0x5a5a5a5a;
            } else {
                done++;
                right = status <= 9 && memcmp(before + need, mem + need, 4 * (words - (size_t)need)) == 0;
                if (status != 0) {
                    refused++;
                    before[POSITION] = mem[POSITION];
                    right = right && memcmp(before, mem, 4 * words) == 0;
                    for (int i = 0; i < 6; i++) right = right && a[i] == 0;
                }
            }
            if (!right && wrong++ == 0) printf("# operation %u on %zu words: status %u\n", o[0], words, status);
        }
        free(before);
        give_back(&memory);
        give_back(&op);
        give_back(&answer);
    }
    printf("# %lu turns, %lu of them refused, and %lu too short\n", done, refused, short_ones);
    told("turns", done + short_ones, wrong);
}

/* The writer on memory full of random words, and on memory that was booted: a number that it may give, a size within the buffer, and
 * nothing touched behind it or on a refusal. */
static void written(unsigned long n) {
    enum { ROOM = 600 };
    unsigned long wrong = 0, done = 0;
    size_t words = STATE + 256;
    struct lent memory = lend(4 * words, 0), image = lend(ROOM, 0);
    uint32_t *mem = (uint32_t *)(void *)memory.bytes;
    for (unsigned long k = 0; k < n; k++) {
        uint32_t size = 7, room = below(&chance, ROOM + 1), domains = 1 + below(&chance, 16);
        unsigned char *b = image.bytes + ROOM - room;
        memset(mem, 0, 4 * words);
        mem[0] = below(&chance, 16) ? domains : some_word();
        mem[FRAMES] = below(&chance, 16) ? 1 : some_word();
        mem[2] = below(&chance, 16) ? 1 + below(&chance, 64) : some_word();
        /* words here and there, wherever they fall: most of them among the places' fields */
        for (uint32_t i = below(&chance, 20); i > 0; i--) mem[4 + 64 + below(&chance, below(&chance, 8) ? 5 * 1088 : (uint32_t)words - 68)] = some_word();
        memset(b, 0x5a, room);
        uint32_t r = mk_write(mem, words, b, room, &size);
        int right = r == 0 ? size <= room : (r == MK_UNWRITABLE || r == MK_BUFFER_SHORT || r == MK_TOO_SHORT) && size == 7;
        for (uint32_t i = r == 0 ? size : 0; i < room; i++) right = right && b[i] == 0x5a;
        if (r == 0) done++;
        if (!right && wrong++ == 0) printf("# writing number %lu: %u\n", k, r);
    }
    printf("# %lu written\n", done);
    told("memory to write", n, wrong + (done == 0));
    give_back(&memory);
    give_back(&image);
}

/* Bytes that are an image more often than not, then perhaps damaged. */
static size_t some_image(unsigned char *b, size_t room) {
    uint32_t d = 1 + below(&chance, 16), t = 1 + below(&chance, 64), c = below(&chance, below(&chance, 8) == 0 ? 200 : 12);
    size_t at = 8 + (t + 3) / 4 * 4, n = at + 12 * c;
    uint32_t place = 0, places[200], entries = 0;
    if (below(&chance, 64) == 0) {
        n = below(&chance, (uint32_t)room);
        for (size_t i = 0; i < n; i++) b[i] = (unsigned char)next_random(&chance);
        return n;
    }
    memset(b, 0, n);
    b[0] = (unsigned char)d, b[1] = (unsigned char)t, b[5] = 1;
    for (uint32_t i = 0; i < t; i++) b[8 + i] = (unsigned char)below(&chance, d);
    for (uint32_t i = 0; i < c; i++) {
        unsigned char *e = b + at;
        place += i == 0 ? below(&chance, 20) : 1 + below(&chance, 40);
        if (place >= 64 * d) break;
        e[0] = (unsigned char)(place / 64), e[1] = (unsigned char)(place % 64);
        e[2] = (unsigned char)(1 + below(&chance, 3));
        e[3] = (unsigned char)below(&chance, e[2] == 2 ? 8 : 4);
        e[5] = (unsigned char)(e[2] == 1 ? 0 : below(&chance, 3));
        e[7] = (unsigned char)below(&chance, 2);
        e[8] = 255;
        if (i > 0 && below(&chance, 2) == 0) {
            uint32_t from = below(&chance, i);
            unsigned char *s = b + 8 + (t + 3) / 4 * 4 + 12 * from;
            e[8] = (unsigned char)(places[from] / 64), e[9] = (unsigned char)(places[from] % 64);
            e[2] = s[2], e[3] = s[3], e[5] = s[5], e[7] = s[7];
        }
        places[entries++] = place;
        at += 12;
    }
    b[2] = (unsigned char)(entries >> 8), b[3] = (unsigned char)entries;
    for (uint32_t k = below(&chance, 3); k > 0; k--) b[below(&chance, (uint32_t)at)] = (unsigned char)below(&chance, below(&chance, 2) ? 4 : 256);
    if (below(&chance, 16) == 0) at = below(&chance, (uint32_t)at + 1);
    return at;
}

/* Random bytes as images: 0 and a state whose turn it is, or a refusal, 20 to 26, that leaves the memory as it was. */
static void images(unsigned long n) {
    enum { ROOM = 4096 };
    unsigned long wrong = 0, accepted = 0, by_number[32] = { 0 };
    size_t words = mk_words(1);
    struct lent memory = lend(4 * words, 0), matrix = lend(256, 0), rows = lend(16 * 200, 0);
    uint32_t *mem = (uint32_t *)(void *)memory.bytes;
    unsigned char *bytes = malloc(ROOM);
    uint32_t *before = malloc(4 * words);
    struct lent image = lend(ROOM, 0);
    for (size_t i = 0; i < words; i++) mem[i] = some_word();
    memcpy(before, mem, 4 * words);
    for (unsigned long k = 0; k < n; k++) {
        size_t size = some_image(bytes, ROOM);
        unsigned char *at = image.bytes + ROOM - size;
        memcpy(at, bytes, size);
        uint32_t r = mk_boot(at, size, mem, words);
        int right = memcmp(at, bytes, size) == 0;
        by_number[r & 31]++;
        if (r == 0) {
            accepted++;
            right = right && mk_whose(mem, words) == at[8] && mk_flow(at, size, matrix.bytes, 256) == 0
                && mk_could_hold(at, size, rows.bytes, 16 * 200) == 0;
            for (uint32_t i = 0; i < at[0]; i++) right = right && matrix.bytes[i * at[0] + i] == 1;
            memcpy(before, mem, 4 * words);
        } else {
            right = right && ((r >= 20 && r <= 26) || r == MK_TOO_SHORT) && memcmp(before, mem, 4 * words) == 0;
            if (r != MK_TOO_SHORT) right = right && mk_flow(at, size, matrix.bytes, 256) == r && mk_could_hold(at, size, rows.bytes, 16 * 200) == r;
        }
        if (!right && wrong++ == 0) printf("# image number %lu: %u\n", k, r);
    }
    printf("# %lu accepted;", accepted);
    for (int r = 20; r <= 29; r++) printf(" %d: %lu", r, by_number[r]);
    printf("\n");
    /* a run that never saw one of them shows little */
    told("images", n, wrong + (accepted == 0));
    free(bytes);
    free(before);
    give_back(&memory);
    give_back(&matrix);
    give_back(&rows);
    give_back(&image);
}

int main(int argc, char **argv) {
    if (argc != 4) {
        fprintf(stderr, "usage: wild SEED TURNS IMAGES\n");
        return 2;
    }
    chance.state = strtoull(argv[1], NULL, 10);
    printf("# seed %s\n", argv[1]);
    turns(strtoul(argv[2], NULL, 10));
    written(strtoul(argv[2], NULL, 10));
    images(strtoul(argv[3], NULL, 10));
    return bad;
}
