/* Meterkernel: the core of a smart-meter gateway's kernel, for C99 and C++ on x86-64.
 *
 * The caller lends the memory that a state stands in, 32-bit words, and leaves it alone between calls. The library has no state of its
 * own, allocates nothing and calls nothing but memcpy and memset; calls on different memories may run side by side. A pointer must be
 * good for as many elements as the length beside it says, and memory, operation and answer must not overlap. Whatever the words are, a
 * call returns and touches nothing else. docs/EMBEDDING.md has a whole program.
 */
#ifndef METERKERNEL_H
#define METERKERNEL_H

#include <stddef.h>
#include <stdint.h>

#ifdef __cplusplus
extern "C" {
#endif

/* The sizes, fixed at boot. */
enum {
    MK_DOMAINS_MOST = 16,      /* domains D: 1 to 16 */
    MK_SLOTS = 64,             /* capability slots of a domain */
    MK_FRAMES_MOST = 256,      /* frames F: 1 to 256 */
    MK_FRAME_WORDS = 256,      /* 32-bit words of a frame */
    MK_MAILBOXES = 64,
    MK_BELLS = 64,
    MK_TURNS_MOST = 64,        /* turns in the table T: 1 to 64 */
    MK_ENTRIES_MOST = 1024,    /* entries of an image C: 0 to 1,024 */
    MK_BADGE_MOST = 65535,
    MK_IMAGE_MOST = 12360,     /* bytes of the longest image */
    MK_WORDS_MOST = 71492,     /* words of memory for 256 frames: 5,956 and 256 for each frame */
    MK_OPERATION_WORDS = 8,    /* an operation: its number and seven arguments */
    MK_ANSWER_WORDS = 6        /* the words of an answer, beside its status */
};

/* The operations. Arguments that an operation doesn't use are ignored; a slot is 0 to 63. */
enum {
    MK_IDLE = 0,
    MK_LOAD = 1,               /* slot, word: answers the word */
    MK_STORE = 2,              /* slot, word, value */
    MK_DERIVE = 3,             /* slot, empty slot, rights, badge */
    MK_DELETE = 4,             /* slot */
    MK_REVOKE = 5,             /* slot */
    MK_RING = 6,               /* slot */
    MK_HEAR = 7,               /* slot: answers the bell's number */
    MK_SEND = 8,               /* slot, slot of what goes along or 64 for nothing, four words */
    MK_RECEIVE = 9,            /* slot, empty slot or 64: answers badge, four words, 1 if a capability came along */
    MK_LOOK = 10               /* slot: answers kind, rights, object, badge */
};

/* The kinds of a capability, and its rights, which are a sum. */
enum { MK_FRAME = 1, MK_MAILBOX = 2, MK_BELL = 3 };
enum { MK_READ = 1, MK_WRITE = 2, MK_GRANT = 4 };

/* The numbers that a function can answer. 0 is done. A refused turn changes nothing but whose turn is next, and its words are all 0; any
 * other refusal changes nothing at all. */
enum {
    MK_DONE = 0,
    /* of a turn */
    MK_NO_OPERATION = 1,       /* there is no operation with this number */
    MK_NO_SLOT = 2,            /* a slot number is out of range */
    MK_EMPTY_SLOT = 3,
    MK_WRONG_KIND = 4,
    MK_NO_RIGHT = 5,
    MK_OUT_OF_RANGE = 6,       /* a word of a frame, or a badge */
    MK_TAKEN_SLOT = 7,
    MK_MAILBOX_FULL = 8,
    MK_MAILBOX_EMPTY = 9,
    /* of an image: the first that applies */
    MK_IMAGE_SHORT = 20,       /* shorter than 8 bytes */
    MK_IMAGE_SIZES = 21,       /* D, T, C or F out of range, or bytes 6 and 7 not 0 */
    MK_IMAGE_LENGTH = 22,      /* not the length that T and C give */
    MK_IMAGE_TURNS = 23,       /* a turn names no domain of the image, or the padding isn't 0 */
    MK_IMAGE_ENTRY = 24,       /* an entry out of range */
    MK_IMAGE_ORDER = 25,       /* entries not in strictly rising order of domain, then slot */
    MK_IMAGE_SOURCE = 26,      /* a source that no entry defines, that an entry doesn't fit, or that comes back to itself */
    MK_UNWRITABLE = 27,        /* the state isn't one that an image describes */
    /* of what the caller lends */
    MK_BUFFER_SHORT = 28,      /* a buffer for an image, a matrix or rows is too short */
    MK_TOO_SHORT = 29          /* memory, an operation or an answer is too short */
};

/* The words of memory that a state with so many frames takes; 0 where frames isn't 1 to 256. */
size_t mk_words(uint32_t frames);

/* Boots an image into memory, of which mk_words of its frames are needed. 0, or 20 to 26 for the image, or 29 for the memory, looked at
 * in this order. Words behind the state's own are left alone. */
uint32_t mk_boot(const uint8_t *image, size_t n, uint32_t *mem, size_t words);

/* The domain whose turn is next; 29, which is no domain, where the memory is too short for the state that it claims to hold. */
uint32_t mk_whose(const uint32_t *mem, size_t words);

/* One turn of that domain: op is the operation's number and seven arguments, the result is the status, 0 or 1 to 9, and the answer's six
 * words go to answer. 29 where memory, op or answer is too short: then nothing has changed, nor has the turn been taken. */
uint32_t mk_turn(uint32_t *mem, size_t words, const uint32_t *op, size_t op_words, uint32_t *answer, size_t answer_words);

/* Writes the image of the state in memory, and its number of bytes to *size. 0; or 29 where the memory is too short for the state that it
 * claims to hold; 27 unless its mailboxes are empty, its frames and bells all 0 and its position is 0; 28 where n is too small
 * (MK_IMAGE_MOST is enough for every state). Bytes behind the image are left alone, and a refusal changes neither buffer nor *size. */
uint32_t mk_write(const uint32_t *mem, size_t words, uint8_t *image, size_t n, uint32_t *size);

/* Who can reach whom in an image, by whatever its domains do: matrix[from * D + to] is 1 where there is a flow and 0 where there is
 * none, D being image[0]. 0, or 20 to 26 for the image, or 28 where m is less than D * D. */
uint32_t mk_flow(const uint8_t *image, size_t n, uint8_t *matrix, size_t m);

/* What each domain of an image could ever come to hold: rows[domain * C + entry] is 1 where the domain could hold a capability with the
 * kind, object and rights of that entry, C being the number of entries. 0, or 20 to 26 for the image, or 28 where m is less than D * C. */
uint32_t mk_could_hold(const uint8_t *image, size_t n, uint8_t *rows, size_t m);

#ifdef __cplusplus
}
#endif

#endif
