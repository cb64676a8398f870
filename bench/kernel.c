#include "kernel.h"

#include <string.h>

enum { FRAME = 1, MAILBOX, BELL };
enum { READ = 1, WRITE = 2, GRANT = 4 };

static uint32_t two(const uint8_t *b) { return (uint32_t)b[0] << 8 | b[1]; }

/* ---- the image */

static int fits(const uint8_t *e, const uint8_t *s) {
    return e[2] == s[2] && two(e + 4) == two(s + 4) && (e[3] & ~s[3]) == 0 && (two(s + 6) == 0 || two(e + 6) == two(s + 6));
}

static uint32_t refusal(const uint8_t *b, size_t n) {
    if (n < 8) return 20;
    uint32_t d = b[0], t = b[1], c = two(b + 2), f = two(b + 4);
    if (d < 1 || d > DOMAINS || t < 1 || t > TURNS || c > 1024 || f < 1 || f > FRAMES || two(b + 6) != 0) return 21;
    size_t first = 8 + (t + 3) / 4 * 4;
    if (n != first + 12 * c) return 22;
    for (size_t i = 8; i < first; i++)
        if (i < 8 + t ? b[i] >= d : b[i] != 0) return 23;
    for (uint32_t i = 0; i < c; i++) {
        const uint8_t *e = b + first + 12 * i;
        uint32_t objects = e[2] == FRAME ? f : 64;
        if (e[0] >= d || e[1] >= SLOTS || e[2] < FRAME || e[2] > BELL || e[3] > 7 || ((e[3] & GRANT) && e[2] != MAILBOX) || two(e + 4) >= objects || two(e + 10) != 0)
            return 24;
    }
    for (uint32_t i = 1; i < c; i++) {
        const uint8_t *e = b + first + 12 * i;
        if (e[-12] * SLOTS + e[-11] >= e[0] * SLOTS + e[1]) return 25;
    }
    uint16_t entry[DOMAINS * SLOTS] = { 0 }, up[1025];
    for (uint32_t i = 0; i < c; i++) {
        const uint8_t *e = b + first + 12 * i;
        entry[e[0] * SLOTS + e[1]] = (uint16_t)(i + 1);
    }
    for (uint32_t i = 0; i < c; i++) {
        const uint8_t *e = b + first + 12 * i;
        up[i + 1] = 0;
        if (e[8] == 255 && e[9] == 0) continue;
        if (e[8] >= d || e[9] >= SLOTS) return 26;
        up[i + 1] = entry[e[8] * SLOTS + e[9]];
        if (up[i + 1] == 0 || !fits(e, b + first + 12 * (up[i + 1] - 1u))) return 26;
    }
    uint8_t mark[1025] = { 0 }; /* 1 on the way, 2 known to end */
    for (uint32_t i = 1; i <= c; i++) {
        uint32_t j = i;
        for (; j != 0 && mark[j] == 0; j = up[j]) mark[j] = 1;
        if (j != 0 && mark[j] == 1) return 26;
        for (j = i; j != 0 && mark[j] == 1; j = up[j]) mark[j] = 2;
    }
    return 0;
}

uint32_t plain_boot(struct kernel *k, const uint8_t *b, size_t n) {
    uint32_t r = refusal(b, n);
    if (r != 0) return r;
    uint32_t frames = two(b + 4);
    memset(k, 0, offsetof(struct kernel, word) + frames * sizeof k->word[0]);
    k->domains = b[0];
    k->turns = b[1];
    k->frames = frames;
    for (uint32_t i = 0; i < k->turns; i++) k->turn[i] = b[8 + i];
    const uint8_t *e = b + 8 + (k->turns + 3) / 4 * 4;
    for (uint32_t c = two(b + 2); c > 0; c--, e += 12) {
        uint32_t p = e[0] * SLOTS + e[1];
        k->place[p] = (struct capability){ e[2], e[3], (uint16_t)two(e + 4), (uint16_t)two(e + 6) };
        k->source[p] = (source_number)(e[8] == 255 ? 0 : e[8] * SLOTS + e[9] + 1);
    }
    return 0;
}

/* ---- the turn */

static void drop(struct kernel *k, uint32_t p) {
    source_number from = (source_number)(p + 1), to = k->source[p];
    for (uint32_t q = 0; q < PLACES; q++) k->source[q] = k->source[q] == from ? to : k->source[q];
    memset(&k->place[p], 0, sizeof k->place[p]);
    k->source[p] = 0;
}

static void prune(struct kernel *k, uint32_t p) {
    uint8_t marked[PLACES + 1] = { 0 };
    int more = 1;
    marked[p + 1] = 1;
    while (more) {
        more = 0;
        for (uint32_t q = 0; q < PLACES; q++)
            if (marked[k->source[q]] && !marked[q + 1]) marked[q + 1] = 1, more = 1;
    }
    for (uint32_t q = 0; q < PLACES; q++)
        if (marked[q + 1] && q != p) {
            memset(&k->place[q], 0, sizeof k->place[q]);
            k->source[q] = 0;
        }
}

static uint32_t done(struct kernel *k, const uint32_t *op, uint32_t *a) {
    uint32_t d = k->turn[k->position], s = op[1], t = op[2], mine = d * SLOTS;
    if (op[0] == 0) return 0;
    if (op[0] > 10) return 1;
    if (s >= SLOTS) return 2;
    struct capability c = k->place[mine + s];
    if (c.kind == 0) return 3;
    switch (op[0]) {
    case 1:
        if (c.kind != FRAME) return 4;
        if (!(c.rights & READ)) return 5;
        if (t >= WORDS) return 6;
        a[0] = k->word[c.object][t];
        return 0;
    case 2:
        if (c.kind != FRAME) return 4;
        if (!(c.rights & WRITE)) return 5;
        if (t >= WORDS) return 6;
        k->word[c.object][t] = op[3];
        return 0;
    case 3:
        if (t >= SLOTS) return 2;
        if (k->place[mine + t].kind != 0) return 7;
        if (op[4] > 65535) return 6;
        c.rights &= (uint8_t)op[3];
        if (c.badge == 0) c.badge = (uint16_t)op[4];
        k->place[mine + t] = c;
        k->source[mine + t] = (source_number)(mine + s + 1);
        return 0;
    case 4: drop(k, mine + s); return 0;
    case 5: prune(k, mine + s); return 0;
    case 6:
        if (c.kind != BELL) return 4;
        if (!(c.rights & WRITE)) return 5;
        k->bell[c.object] |= c.badge;
        return 0;
    case 7:
        if (c.kind != BELL) return 4;
        if (!(c.rights & READ)) return 5;
        a[0] = k->bell[c.object];
        k->bell[c.object] = 0;
        return 0;
    case 8: {
        if (c.kind != MAILBOX) return 4;
        if (!(c.rights & WRITE)) return 5;
        if (t > SLOTS) return 2;
        if (t < SLOTS) {
            if (!(c.rights & GRANT)) return 5;
            if (k->place[mine + t].kind == 0) return 3;
        }
        struct message *m = &k->box[c.object];
        if (m->full) return 8;
        *m = (struct message){ 1, c.badge, { op[3], op[4], op[5], op[6] } };
        if (t < SLOTS) {
            k->place[DOMAINS * SLOTS + c.object] = k->place[mine + t];
            k->source[DOMAINS * SLOTS + c.object] = (source_number)(mine + t + 1);
        }
        return 0;
    }
    case 9: {
        if (c.kind != MAILBOX) return 4;
        if (!(c.rights & READ)) return 5;
        if (t > SLOTS) return 2;
        struct message *m = &k->box[c.object];
        uint32_t room = DOMAINS * SLOTS + c.object;
        if (!m->full) return 9;
        a[0] = m->badge;
        memcpy(a + 1, m->w, sizeof m->w);
        if (k->place[room].kind != 0) {
            if (t < SLOTS && k->place[mine + t].kind == 0) {
                k->place[mine + t] = k->place[room];
                k->source[mine + t] = k->source[room];
                a[5] = 1;
            }
            memset(&k->place[room], 0, sizeof k->place[room]);
            k->source[room] = 0;
        }
        memset(m, 0, sizeof *m);
        return 0;
    }
    default:
        a[0] = c.kind;
        a[1] = c.rights;
        a[2] = c.object;
        a[3] = c.badge;
        return 0;
    }
}

uint32_t plain_turn(struct kernel *k, const uint32_t *op, uint32_t *answer) {
    for (int i = 0; i < 6; i++) answer[i] = 0;
    uint32_t r = done(k, op, answer);
    k->position = k->position + 1 == k->turns ? 0 : k->position + 1;
    return r;
}

/* ---- flow: what each domain could hold as masks of domains by object and rights, then direct flow, then its closure */

uint32_t plain_flow(const uint8_t *b, size_t n, uint8_t *matrix) {
    uint32_t r = refusal(b, n);
    if (r != 0) return r;
    uint32_t d = b[0], c = two(b + 2);
    const uint8_t *first = b + 8 + (b[1] + 3u) / 4 * 4;
    uint16_t readers[384] = { 0 }, writers[384] = { 0 }, granters[64] = { 0 }, gets[DOMAINS], to[DOMAINS];
    for (uint32_t i = 0; i < c; i++) {
        const uint8_t *e = first + 12 * i;
        uint32_t o = two(e + 4) + (e[2] == FRAME ? 0 : e[2] == MAILBOX ? 256 : 320);
        uint16_t me = (uint16_t)(1u << e[0]);
        if (e[3] & READ) readers[o] |= me;
        if (e[3] & WRITE) writers[o] |= me;
        if (e[2] == MAILBOX && (e[3] & 6) == 6) granters[o - 256] |= me;
    }
    /* gets[x]: the domains whose capabilities x could come to hold */
    for (uint32_t x = 0; x < DOMAINS; x++) gets[x] = to[x] = (uint16_t)(1u << x);
    for (int more = 1; more;) {
        more = 0;
        for (uint32_t m = 0; m < 64; m++) {
            uint16_t give = 0;
            if (granters[m] == 0 || readers[256 + m] == 0) continue;
            for (uint32_t x = 0; x < d; x++)
                if (gets[x] & granters[m]) give |= gets[x];
            for (uint32_t x = 0; x < d; x++)
                if ((gets[x] & readers[256 + m]) && (give & ~gets[x])) gets[x] |= give, more = 1;
        }
    }
    for (uint32_t o = 0; o < 384; o++) {
        uint16_t reads = 0, writes = 0;
        if ((readers[o] | writers[o]) == 0) continue;
        for (uint32_t x = 0; x < d; x++) {
            if (gets[x] & readers[o]) reads |= (uint16_t)(1u << x);
            if (gets[x] & writers[o]) writes |= (uint16_t)(1u << x);
        }
        uint16_t from = o < 256 ? writes : reads | writes, into = o >= 256 && o < 320 ? reads | writes : reads;
        for (uint32_t x = 0; x < d; x++)
            if (from >> x & 1) to[x] |= into;
    }
    for (uint32_t i = 0; i < c; i++) {
        const uint8_t *e = first + 12 * i;
        if (e[8] != 255) to[e[8]] |= (uint16_t)(1u << e[0]);
    }
    for (uint32_t k = 0; k < d; k++)
        for (uint32_t x = 0; x < d; x++)
            if (to[x] >> k & 1) to[x] |= to[k];
    for (uint32_t x = 0; x < d; x++)
        for (uint32_t y = 0; y < d; y++) matrix[x * d + y] = to[x] >> y & 1;
    return 0;
}
