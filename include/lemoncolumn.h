/* Lemoncolumn: the proved operations of documents 01 and 02, for C.
 *
 * Link with liblemoncolumn.a, which `tools/build lemoncolumn` writes to target/staticlib/ (x86-64 Linux).
 *
 * Every call answers for any words and any lengths. What it needs is that each pointer is valid for the length beside
 * it (not null, aligned for its type, also where the length is 0), that what a call writes overlaps nothing else that
 * is lent to it, and that lent memory does not change during a call: no other thread writes to it, nor reads what the
 * call writes. Calls at the same time may share what they only read. A refused call leaves every lent buffer as it was.
 *
 * In C++ data() of an empty vector or span may be null. With length 0 too a call is lent another pointer then, to any
 * word or byte; the inline functions below take null with length 0. docs/LINKING.md, "Rules for callers", has all of
 * this, and the stack that a call takes.
 *
 * A word is an unsigned 64-bit number, canonical when below LEMONCOLUMN_P. k is a permitted batch count: 1, 2, 4, ..,
 * 262144; in the full edition of the board file 1, 2, 4, .., 1024. */
#ifndef LEMONCOLUMN_H
#define LEMONCOLUMN_H

#include <stddef.h>
#include <stdint.h>

#ifdef __cplusplus
extern "C" {
#endif

/* The number of this interface, raised where a call takes other parameters, or another length for the same k, than it
 * did. No linker notices that, so a caller compares the number with the library's at its start, and makes no other call
 * where they differ:
 *
 *     if (lemoncolumn_interface() != LEMONCOLUMN_INTERFACE)
 *         return 1;
 *
 * From 2 on lemoncolumn_hash writes twelve words; in 1 it wrote the first four of them. From 3 on lemoncolumn_check,
 * lemoncolumn_read_off and lemoncolumn_edit take c after the claim; a caller compiled for 2 would pass a tap number, a
 * pointer or nothing at all in its place. */
#define LEMONCOLUMN_INTERFACE 3

/* The number of the library that is linked. This call stays as it is, whatever the number. */
uint64_t lemoncolumn_interface(void);

/* The field's prime, 2^61 + 20 * 2^32 + 1. */
#define LEMONCOLUMN_P UINT64_C(2305843095113039873)

/* Lengths, in words; that of the board file in bytes. The trace of the largest k has 805306368 bytes, and its list of
 * taps 25165856. */
#define LEMONCOLUMN_RAW_WORDS 396                              /* M row by row, then K_0 to K_20 */
#define LEMONCOLUMN_TABLE_WORDS 540                            /* M, its inverse, then K_0 to K_20 */
#define LEMONCOLUMN_DIGEST_WORDS 4                             /* the output of a chain, or a claim */
#define LEMONCOLUMN_STATE_WORDS 12                             /* the final state of a hash */
#define LEMONCOLUMN_PAIR_WORDS 8                               /* two taps */
#define LEMONCOLUMN_TAP_WORDS(k) ((size_t)12 * (k) + 4)        /* 3k + 1 taps */
#define LEMONCOLUMN_TRACE_WORDS(k) ((size_t)384 * (k))         /* 32 rows of 12 cells a batch */
#define LEMONCOLUMN_FILE_BYTES(k) ((size_t)144 * (k) + 100)
#define LEMONCOLUMN_MOST_BATCHES 262144                        /* the largest k, 2^18 */
#define LEMONCOLUMN_MOST_FILE_BATCHES 1024                     /* the largest k of a board file in the full edition */

/* What a call returns: one word, read by the functions at the end of this file. */
typedef uint64_t lemoncolumn_code;

/* After the colon stand the refusals of a call, in the order in which they are tested. Each call that takes a prepared
 * table tests it first, and whole: 1, 2, 4, which below are the table's refusals. */

/* Writes the prepared table, which is another buffer than the raw one: it is not prepared in place: 1, 8, 2, 3. */
lemoncolumn_code lemoncolumn_prepare(const uint64_t *raw, size_t raw_words, uint64_t *table, size_t table_words);

/* Hashes the taps (w0 .. w3) and (w4 .. w7), and writes the final state, twelve words: the table's refusals, 8, 6. Its
 * first four are the hash, with which chain, build and edit go on. */
lemoncolumn_code lemoncolumn_hash(const uint64_t *table, size_t table_words, uint64_t w0, uint64_t w1, uint64_t w2,
                                  uint64_t w3, uint64_t w4, uint64_t w5, uint64_t w6, uint64_t w7, uint64_t *output,
                                  size_t output_words);

/* Writes the two taps for which lemoncolumn_hash writes the state (s0 .. s11), eight words, the first tap first: the
 * table's refusals, 8, 6, 16. There is at most one such pair, and it is found. The cells are tested as tap words: the
 * index of 6 is that of the cell, 0 to 11. */
lemoncolumn_code lemoncolumn_unhash(const uint64_t *table, size_t table_words, uint64_t s0, uint64_t s1, uint64_t s2,
                                    uint64_t s3, uint64_t s4, uint64_t s5, uint64_t s6, uint64_t s7, uint64_t s8,
                                    uint64_t s9, uint64_t s10, uint64_t s11, uint64_t *pair, size_t pair_words);

/* Writes the four words to which the taps chain: the table's refusals, 5, 8, 6. */
lemoncolumn_code lemoncolumn_chain(const uint64_t *table, size_t table_words, const uint64_t *taps, size_t tap_words,
                                   uint64_t *output, size_t output_words);

/* Writes the trace of the taps, and the four words to which they chain: the table's refusals, 5, 8, 6. */
lemoncolumn_code lemoncolumn_build(const uint64_t *table, size_t table_words, const uint64_t *taps, size_t tap_words,
                                   uint64_t *trace, size_t trace_words, uint64_t *output, size_t output_words);

/* Tests the trace against the claim (c0 .. c3); returns the tests walked: the table's refusals, 7, 17, 9, 10, 11. The
 * claim is the output of the first 3c + 1 taps, c from 1 to k, and is compared with row 31 of batch c - 1; c = k is the
 * whole trace. The batches after it are tested as the others are, and go on from there. */
lemoncolumn_code lemoncolumn_check(const uint64_t *table, size_t table_words, const uint64_t *trace, size_t trace_words,
                                   uint64_t c0, uint64_t c1, uint64_t c2, uint64_t c3, size_t c);

/* The same, and writes the taps of an accepted trace, all 3k + 1 whatever c is: the table's refusals, 7, 17, 8, 9, 10,
 * 11. */
lemoncolumn_code lemoncolumn_read_off(const uint64_t *table, size_t table_words, const uint64_t *trace,
                                      size_t trace_words, uint64_t c0, uint64_t c1, uint64_t c2, uint64_t c3, size_t c,
                                      uint64_t *taps, size_t tap_words);

/* Tests the trace against the claim (c0 .. c3) with its c, and replaces tap number `tap` of its list, 0 to 3k, by
 * (w0 .. w3). The trace is read and written: it becomes that of the altered list. Writes the four words to which the
 * first 3c + 1 taps of that list chain, which are the claim where `tap` is above 3c: the table's refusals, 7, 17, 15,
 * 8, 9, 10, 6, 11. c comes before `tap`, and no compiler tells the two apart. */
lemoncolumn_code lemoncolumn_edit(const uint64_t *table, size_t table_words, uint64_t *trace, size_t trace_words,
                                  uint64_t c0, uint64_t c1, uint64_t c2, uint64_t c3, size_t c, size_t tap, uint64_t w0,
                                  uint64_t w1, uint64_t w2, uint64_t w3, uint64_t *output, size_t output_words);

/* Writes the board file of taps and claim: 5, 8, 9, 6. The file has no c: its claim is about all of its taps, c = k.
 * Here 5 is also for a k above LEMONCOLUMN_MOST_FILE_BATCHES, whose list has a short file alone. */
lemoncolumn_code lemoncolumn_pack(const uint64_t *taps, size_t tap_words, uint64_t c0, uint64_t c1, uint64_t c2,
                                  uint64_t c3, uint8_t *file, size_t file_bytes);

/* Writes the taps and the claim of a board file: 12 (below 4 bytes), 13 and 14 of word 0, 12, 8, then 13 and 14 of each
 * element. A short file, and a k above LEMONCOLUMN_MOST_FILE_BATCHES, get 14 with index 0. */
lemoncolumn_code lemoncolumn_unpack(const uint8_t *file, size_t file_bytes, uint64_t *taps, size_t tap_words,
                                    uint64_t *claim, size_t claim_words);

/* The short edition of the board file (document 02, U7 and U9): an element below 2^30 is one 32-bit word, any other has
 * three as in the full edition, and word 0 has a mark beside k, which may be up to LEMONCOLUMN_MOST_BATCHES. The length
 * is what the elements need: this where all are below 2^30, and up to LEMONCOLUMN_FILE_BYTES(k), also for a k that has
 * no full file, where none is. */
#define LEMONCOLUMN_SHORTEST_FILE_BYTES(k) ((size_t)48 * (k) + 36)
#define LEMONCOLUMN_ONE_WORD_BITS 30
#define LEMONCOLUMN_SHORT_MARK (UINT32_C(1) << 29)

/* Bytes of the short file of taps and claim, the length that its writer asks for. It answers for any words and any
 * length; a word that is not canonical counts as three. */
static inline size_t lemoncolumn_short_file_bytes(const uint64_t *taps, size_t tap_words, uint64_t c0, uint64_t c1,
                                                  uint64_t c2, uint64_t c3)
{
    const uint64_t claim[LEMONCOLUMN_DIGEST_WORDS] = {c0, c1, c2, c3};
    size_t elements_of_three = 0;
    for (size_t i = 0; i < LEMONCOLUMN_DIGEST_WORDS; i++)
        elements_of_three += claim[i] >> LEMONCOLUMN_ONE_WORD_BITS != 0;
    for (size_t i = 0; i < tap_words; i++)
        elements_of_three += taps[i] >> LEMONCOLUMN_ONE_WORD_BITS != 0;
    return 4 * (1 + LEMONCOLUMN_DIGEST_WORDS + tap_words + 2 * elements_of_three);
}

/* The 32-bit word of a file that begins here. */
static inline uint32_t lemoncolumn_file_word(const uint8_t *bytes)
{
    return (uint32_t)bytes[3] << 24 | (uint32_t)bytes[2] << 16 | (uint32_t)bytes[1] << 8 | bytes[0];
}

/* The k in word 0 of a short file, bits 0 to 19, for whose taps its reader asks room. 0 where these bytes do not begin
 * as a short file does: the reader refuses them whatever the room. */
static inline size_t lemoncolumn_short_batches(const uint8_t *file, size_t file_bytes)
{
    if (file_bytes < 4)
        return 0;
    /* too large where the mark is not set, or any bit from 19 on */
    uint32_t k = lemoncolumn_file_word(file) ^ LEMONCOLUMN_SHORT_MARK;
    return (k & (k - 1)) == 0 && k <= LEMONCOLUMN_MOST_BATCHES ? k : 0;
}

/* Writes the short file of taps and claim: 5, 8, 9, 6. */
lemoncolumn_code lemoncolumn_pack_short(const uint64_t *taps, size_t tap_words, uint64_t c0, uint64_t c1, uint64_t c2,
                                        uint64_t c3, uint8_t *file, size_t file_bytes);

/* Writes the taps and the claim of a short file: 12 (below 4 bytes), 13 and 14 of word 0, 8, then word by word 12 where
 * the file ends, and 13; 14 and 18 after an element's words; 12 for bytes after the last element. A file of the full
 * edition gets 14 with index 0. */
lemoncolumn_code lemoncolumn_unpack_short(const uint8_t *file, size_t file_bytes, uint64_t *taps, size_t tap_words,
                                          uint64_t *claim, size_t claim_words);

/* The converters between the editions (document 02, U8 and U9), for cradles that read only full files, up to
 * LEMONCOLUMN_MOST_FILE_BATCHES. Bytes of the short file of a full one, the length that lemoncolumn_to_short asks for:
 * as in the short file of its taps and claim, by the payloads of its words. It answers for any bytes; 0 where a full
 * file of no k has this length: the converter refuses such bytes whatever the room. */
static inline size_t lemoncolumn_to_short_bytes(const uint8_t *file, size_t file_bytes)
{
    const size_t element_bytes = 12;
    size_t k = file_bytes / (LEMONCOLUMN_FILE_BYTES(1) - LEMONCOLUMN_FILE_BYTES(0));
    if (k == 0 || (k & (k - 1)) != 0 || k > LEMONCOLUMN_MOST_FILE_BATCHES || LEMONCOLUMN_FILE_BYTES(k) != file_bytes)
        return 0;
    size_t elements_of_three = 0;
    for (size_t i = 4; i < file_bytes; i += element_bytes) {
        uint32_t above_30_bits = lemoncolumn_file_word(file + i) | lemoncolumn_file_word(file + i + 4);
        elements_of_three += above_30_bits << 2 != 0; /* without the kinds */
    }
    return LEMONCOLUMN_SHORTEST_FILE_BYTES(k) + 8 * elements_of_three;
}

/* Bytes of the full file of a short one, the length that lemoncolumn_to_full asks for: that of the k in word 0. 0 where
 * these bytes do not begin as a short file does, or where k is above LEMONCOLUMN_MOST_FILE_BATCHES: the converter
 * refuses them whatever the room. */
static inline size_t lemoncolumn_to_full_bytes(const uint8_t *short_file, size_t short_file_bytes)
{
    size_t k = lemoncolumn_short_batches(short_file, short_file_bytes);
    return k == 0 || k > LEMONCOLUMN_MOST_FILE_BATCHES ? 0 : LEMONCOLUMN_FILE_BYTES(k);
}

/* Writes the short file of a full one, with the same claim and taps: 12 (below 4 bytes), 13 of word 0, 19 where it has
 * the mark of a short file, 14 of word 0, 12, then 13 and 14 of each element, and last 8. */
lemoncolumn_code lemoncolumn_to_short(const uint8_t *file, size_t file_bytes, uint8_t *short_file,
                                      size_t short_file_bytes);

/* Writes the full file of a short one, with the same claim and taps: 12 (below 4 bytes), 13 of word 0, 19 where it has
 * not the mark of a short file, 14 of word 0, also where k is above LEMONCOLUMN_MOST_FILE_BATCHES, then 12, 13, 14 and
 * 18 as lemoncolumn_unpack_short, and last 8. There and back gives the same bytes. */
lemoncolumn_code lemoncolumn_to_full(const uint8_t *short_file, size_t short_file_bytes, uint8_t *file,
                                     size_t file_bytes);

/* What is turned back (document 01, and document 02 from 15 on). */
enum lemoncolumn_refusal {
    LEMONCOLUMN_ACCEPTED = 0,           /* no refusal */
    LEMONCOLUMN_TABLE_LENGTH = 1,       /* table not 396 words raw, 540 prepared */
    LEMONCOLUMN_TABLE_WORD = 2,         /* table word not canonical: its lowest index */
    LEMONCOLUMN_NO_INVERSE = 3,         /* M has no inverse */
    LEMONCOLUMN_WRONG_INVERSE = 4,      /* M times the stored inverse unlike the identity: 12 * row + column of the
                                           first such cell */
    LEMONCOLUMN_TAP_LENGTH = 5,         /* tap list not 12k + 4 words with k permitted, for a full file k up to 1024 */
    LEMONCOLUMN_TAP_WORD = 6,           /* tap word, or cell lent to unhash, not canonical: its lowest index */
    LEMONCOLUMN_TRACE_LENGTH = 7,       /* trace not 384k words, k permitted */
    LEMONCOLUMN_DESTINATION_LENGTH = 8, /* a destination not of the exact length */
    LEMONCOLUMN_CLAIM_WORD = 9,         /* claim word not canonical: its lowest index */
    LEMONCOLUMN_TRACE_WORD = 10,        /* trace word not canonical: its lowest index */
    LEMONCOLUMN_CONSTRAINT = 11,        /* a constraint fails: the row in the whole trace, the constraint, the test's
                                           place in the order */
    LEMONCOLUMN_FILE_LENGTH = 12,       /* file below 4 bytes, or not 144k + 100; a short one cut off, or with bytes
                                           after its last element */
    LEMONCOLUMN_WRONG_KIND = 13,        /* wrong kind: index of the 32-bit word */
    LEMONCOLUMN_WRONG_VALUE = 14,       /* spare bits, the other edition's file, k not permitted, or above 1024 in or
                                           for a full file: index 0; element not canonical: index of its first 32-bit
                                           word */
    LEMONCOLUMN_NO_SUCH_TAP = 15,       /* tap number above 3k */
    LEMONCOLUMN_NO_PAIR = 16,           /* no pair of taps ends in that state */
    LEMONCOLUMN_CLAIM_BATCHES = 17,     /* c is 0 or above k */
    LEMONCOLUMN_LONG_ELEMENT = 18,      /* element below 2^30 in three words of a short file: index of the first */
    LEMONCOLUMN_SAME_EDITION = 19       /* the file to convert is already in the wanted edition */
};

/* Bits 0 to 5: the refusal, 0 for acceptance. */
static inline enum lemoncolumn_refusal lemoncolumn_number(lemoncolumn_code code)
{
    return (enum lemoncolumn_refusal)(code & 0x3f);
}

/* Bits 6 to 11: the constraint, of refusal 11. */
static inline uint64_t lemoncolumn_constraint(lemoncolumn_code code)
{
    return code >> 6 & 0x3f;
}

/* Bits 12 to 35: the row in the whole trace, of refusal 11. */
static inline uint64_t lemoncolumn_row(lemoncolumn_code code)
{
    return code >> 12 & 0xffffff;
}

/* Whether an index comes with the number. 11 has row, constraint and tests instead; any other number stands alone. */
static inline int lemoncolumn_has_index(lemoncolumn_code code)
{
    switch (lemoncolumn_number(code)) {
    case LEMONCOLUMN_TABLE_WORD:
    case LEMONCOLUMN_WRONG_INVERSE:
    case LEMONCOLUMN_TAP_WORD:
    case LEMONCOLUMN_CLAIM_WORD:
    case LEMONCOLUMN_TRACE_WORD:
    case LEMONCOLUMN_WRONG_KIND:
    case LEMONCOLUMN_WRONG_VALUE:
    case LEMONCOLUMN_LONG_ELEMENT:
        return 1;
    default:
        return 0;
    }
}

/* Bits 36 to 63: the index, where lemoncolumn_has_index says that there is one. */
static inline uint64_t lemoncolumn_index(lemoncolumn_code code)
{
    return code >> 36;
}

/* The same bits: the tests walked, of an accepted check or read-off, which are all; and of refusal 11, the failing one
 * included: its place in the order of the tests, counted from 1. All tests before it hold. */
static inline uint64_t lemoncolumn_tests(lemoncolumn_code code)
{
    return code >> 36;
}

#ifdef __cplusplus
}
#endif

#endif
