/* The known days of document 01, their hashes with all twelve cells, edits of them, the two taps found again from the
 * last row of a day, a day that closes before its rows end, a day in the short edition of the board file, converted to
 * the full one and back, and a season of 2048 batches, through the library for C. Prints one line for each;
 * known_days.expected has what they must be. */
#include "lemoncolumn.h"

#include <inttypes.h>
#include <stdio.h>
#include <string.h>

/* The refusal, then what is returned with it: for 11 row, constraint and the failing test's place in the order; else an
 * index, if there is one. */
static void show_refusal(lemoncolumn_code code)
{
    printf("refused %d", (int)lemoncolumn_number(code));
    if (lemoncolumn_number(code) == LEMONCOLUMN_CONSTRAINT)
        printf(" %" PRIu64 " %" PRIu64 ", test %" PRIu64, lemoncolumn_row(code), lemoncolumn_constraint(code),
               lemoncolumn_tests(code));
    else if (lemoncolumn_has_index(code))
        printf(" %" PRIu64, lemoncolumn_index(code));
    printf("\n");
}

/* The answer of a call that tests no trace. */
static void show(const char *day, lemoncolumn_code code)
{
    printf("%s: ", day);
    if (lemoncolumn_number(code) == LEMONCOLUMN_ACCEPTED)
        printf("accepted\n");
    else
        show_refusal(code);
}

/* The answer of check or read-off, which return the tests walked when they accept. */
static void show_tests(const char *day, lemoncolumn_code code)
{
    printf("%s: ", day);
    if (lemoncolumn_number(code) == LEMONCOLUMN_ACCEPTED)
        printf("accepted %" PRIu64 "\n", lemoncolumn_tests(code));
    else
        show_refusal(code);
}

static void show_line(const char *day, const uint64_t *words, int count)
{
    printf("%s:", day);
    for (int i = 0; i < count; i++)
        printf(" %" PRIu64, words[i]);
    printf("\n");
}

/* Four words: an output, or a tap. */
static void show_words(const char *day, const uint64_t *words)
{
    show_line(day, words, LEMONCOLUMN_DIGEST_WORDS);
}

/* The final state of a hash. */
static void show_state(const char *day, const uint64_t *state)
{
    show_line(day, state, LEMONCOLUMN_STATE_WORDS);
}

/* A table whose M has ones at column (i + shift) mod 12 of row i, and K_0[0] = first; all other constants are zero. */
static lemoncolumn_code prepare(int shift, uint64_t first, uint64_t *table)
{
    uint64_t raw[LEMONCOLUMN_RAW_WORDS] = {0};
    for (int i = 0; i < 12; i++)
        raw[12 * i + (i + shift) % 12] = 1;
    raw[144] = first;
    return lemoncolumn_prepare(raw, LEMONCOLUMN_RAW_WORDS, table, LEMONCOLUMN_TABLE_WORDS);
}

/* S moves each cell one up at every step, and there are twenty: (a, b, four zeros) ends as (b, four zeros, a). */
static void hashes(const uint64_t *z, const uint64_t *a, const uint64_t *s)
{
    uint64_t state[LEMONCOLUMN_STATE_WORDS] = {0};
    lemoncolumn_hash(z, LEMONCOLUMN_TABLE_WORDS, 8, 27, 1, 0, 0, 0, 0, 0, state, LEMONCOLUMN_STATE_WORDS);
    show_state("Z, (8,27,1,0) and zeros", state);
    lemoncolumn_hash(a, LEMONCOLUMN_TABLE_WORDS, 0, 0, 0, 0, 0, 0, 0, 0, state, LEMONCOLUMN_STATE_WORDS);
    show_state("A, zeros", state);
    lemoncolumn_hash(s, LEMONCOLUMN_TABLE_WORDS, 1, 2, 3, 4, 5, 6, 7, 9, state, LEMONCOLUMN_STATE_WORDS);
    show_state("S, (1,2,3,4) and (5,6,7,9)", state);
    show("p among the words", lemoncolumn_hash(z, LEMONCOLUMN_TABLE_WORDS, 0, 0, 0, 0, 0, LEMONCOLUMN_P, 0, 0, state,
                                               LEMONCOLUMN_STATE_WORDS));
    show("a hash into four words", lemoncolumn_hash(z, LEMONCOLUMN_TABLE_WORDS, 0, 0, 0, 0, 0, LEMONCOLUMN_P, 0, 0,
                                                    state, LEMONCOLUMN_DIGEST_WORDS));
}

/* A chain hands out cells 0 to 3 of its last final state. */
static void chains(const uint64_t *a)
{
    uint64_t out[LEMONCOLUMN_DIGEST_WORDS] = {0};
    uint64_t state[LEMONCOLUMN_STATE_WORDS];
    uint64_t taps[LEMONCOLUMN_TAP_WORDS(1)] = {0};
    show("a chain into four words",
         lemoncolumn_chain(a, LEMONCOLUMN_TABLE_WORDS, taps, LEMONCOLUMN_TAP_WORDS(1), out, LEMONCOLUMN_DIGEST_WORDS));
    show_words("A, four zero taps", out);
    show("a chain into twelve words",
         lemoncolumn_chain(a, LEMONCOLUMN_TABLE_WORDS, taps, LEMONCOLUMN_TAP_WORDS(1), state, LEMONCOLUMN_STATE_WORDS));
}

static lemoncolumn_code edit(const uint64_t *z, uint64_t *trace, size_t tap, uint64_t w0, uint64_t w1, uint64_t w2,
                             uint64_t w3, uint64_t *out)
{
    return lemoncolumn_edit(z, LEMONCOLUMN_TABLE_WORDS, trace, LEMONCOLUMN_TRACE_WORDS(1), 0, 0, 0, 0, 1, tap, w0, w1,
                            w2, w3, out, LEMONCOLUMN_DIGEST_WORDS);
}

/* Of the trace whose taps are zeros but w_2, under the claim (0,0,0,0). Under Z the final state of a hash is its input,
 * so that its first tap goes on, and its rows hold the roots of its input. */
static void edits(const uint64_t *z, uint64_t *trace)
{
    uint64_t out[LEMONCOLUMN_DIGEST_WORDS];
    show("w_2 edited to zeros", edit(z, trace, 2, 0, 0, 0, 0, out));
    show_words("row 11 columns 4 to 7", trace + 12 * 11 + 4);
    show("w_4 edited", edit(z, trace, 4, 0, 0, 0, 0, out));
    show("w_0 edited to (8,27,1,0)", edit(z, trace, 0, 8, 27, 1, 0, out));
    show_words("its output", out);
    show_words("row 1 columns 0 to 3", trace + 12);
    show("edited under the old claim", edit(z, trace, 0, 0, 0, 0, 0, out));
}

static void traces(const uint64_t *z)
{
    uint64_t trace[LEMONCOLUMN_TRACE_WORDS(1)];
    uint64_t taps[LEMONCOLUMN_TAP_WORDS(1)] = {0};
    uint64_t out[LEMONCOLUMN_DIGEST_WORDS];
    show("zero taps built", lemoncolumn_build(z, LEMONCOLUMN_TABLE_WORDS, taps, LEMONCOLUMN_TAP_WORDS(1), trace,
                                              LEMONCOLUMN_TRACE_WORDS(1), out, LEMONCOLUMN_DIGEST_WORDS));
    show_tests("checked",
               lemoncolumn_check(z, LEMONCOLUMN_TABLE_WORDS, trace, LEMONCOLUMN_TRACE_WORDS(1), 0, 0, 0, 0, 1));
    show_tests("claim (1,0,0,0)",
               lemoncolumn_check(z, LEMONCOLUMN_TABLE_WORDS, trace, LEMONCOLUMN_TRACE_WORDS(1), 1, 0, 0, 0, 1));
    trace[12 * 31 + 5] = 1;
    show_tests("row 31 column 5",
               lemoncolumn_check(z, LEMONCOLUMN_TABLE_WORDS, trace, LEMONCOLUMN_TRACE_WORDS(1), 0, 0, 0, 0, 1));
    trace[12 * 31 + 5] = 0;
    trace[12 * 11 + 5] = 1;
    show_tests("row 11 column 5",
               lemoncolumn_check(z, LEMONCOLUMN_TABLE_WORDS, trace, LEMONCOLUMN_TRACE_WORDS(1), 0, 0, 0, 0, 1));
    for (int row = 11; row <= 20; row++)
        trace[12 * row + 5] = 1;
    show_tests("column 5 of rows 11 to 20",
               lemoncolumn_read_off(z, LEMONCOLUMN_TABLE_WORDS, trace, LEMONCOLUMN_TRACE_WORDS(1), 0, 0, 0, 0, 1, taps,
                                    LEMONCOLUMN_TAP_WORDS(1)));
    show_words("its w_2", taps + 8);
    edits(z, trace);
}

static lemoncolumn_code unhash(const uint64_t *table, const uint64_t *s, uint64_t *pair, size_t pair_words)
{
    return lemoncolumn_unhash(table, LEMONCOLUMN_TABLE_WORDS, s[0], s[1], s[2], s[3], s[4], s[5], s[6], s[7], s[8],
                              s[9], s[10], s[11], pair, pair_words);
}

/* A depot that has kept row 31 of a day and lost the rest. Under A each hash adds 1 to cell 0 of its first tap, which
 * goes on. */
static void archive(const uint64_t *a)
{
    uint64_t trace[LEMONCOLUMN_TRACE_WORDS(1)] = {0};
    uint64_t taps[LEMONCOLUMN_TAP_WORDS(1)];
    uint64_t out[LEMONCOLUMN_DIGEST_WORDS];
    uint64_t pair[LEMONCOLUMN_PAIR_WORDS] = {0};
    for (uint64_t i = 0; i < LEMONCOLUMN_TAP_WORDS(1); i++)
        taps[i] = i + 1;
    lemoncolumn_build(a, LEMONCOLUMN_TABLE_WORDS, taps, LEMONCOLUMN_TAP_WORDS(1), trace, LEMONCOLUMN_TRACE_WORDS(1),
                      out, LEMONCOLUMN_DIGEST_WORDS);
    uint64_t *row_31 = trace + 12 * 31;
    show_state("row 31 of taps 1 to 16", row_31);
    show("unhashed", unhash(a, row_31, pair, LEMONCOLUMN_PAIR_WORDS));
    show_words("the output before the last tap", pair);
    show_words("the last tap", pair + 4);
    row_31[8] = 1;
    show("column 8 set to 1", unhash(a, row_31, pair, LEMONCOLUMN_PAIR_WORDS));
    row_31[11] = LEMONCOLUMN_P;
    show("column 11 set to p", unhash(a, row_31, pair, LEMONCOLUMN_PAIR_WORDS));
    show("unhashed into four words", unhash(a, row_31, pair, LEMONCOLUMN_DIGEST_WORDS));
}

/* Check of a trace of two batches. */
static lemoncolumn_code check_two(const uint64_t *table, const uint64_t *trace, const uint64_t *claim, size_t c)
{
    return lemoncolumn_check(table, LEMONCOLUMN_TABLE_WORDS, trace, LEMONCOLUMN_TRACE_WORDS(2), claim[0], claim[1],
                             claim[2], claim[3], c);
}

/* Edit of a trace of two batches under a claim about the first, which becomes that of the altered list. */
static lemoncolumn_code edit_two(const uint64_t *table, uint64_t *trace, uint64_t *claim, size_t tap, uint64_t w0,
                                 uint64_t w1, uint64_t w2, uint64_t w3)
{
    return lemoncolumn_edit(table, LEMONCOLUMN_TABLE_WORDS, trace, LEMONCOLUMN_TRACE_WORDS(2), claim[0], claim[1],
                            claim[2], claim[3], 1, tap, w0, w1, w2, w3, claim, LEMONCOLUMN_DIGEST_WORDS);
}

/* A day that closes after one batch and has a filler batch, so that its claim is about its first four taps: c is 1, and
 * k is 2. Under S the output is the last tap. */
static void closed_early(const uint64_t *s)
{
    uint64_t trace[LEMONCOLUMN_TRACE_WORDS(2)];
    uint64_t taps[LEMONCOLUMN_TAP_WORDS(2)];
    uint64_t all[LEMONCOLUMN_DIGEST_WORDS];
    for (uint64_t i = 0; i < LEMONCOLUMN_TAP_WORDS(2); i++)
        taps[i] = i + 1;
    lemoncolumn_build(s, LEMONCOLUMN_TABLE_WORDS, taps, LEMONCOLUMN_TAP_WORDS(2), trace, LEMONCOLUMN_TRACE_WORDS(2),
                      all, LEMONCOLUMN_DIGEST_WORDS);
    show_words("taps 1 to 28, output", all);
    /* cells 0 to 3 of row 31 of batch c - 1 */
    uint64_t claim[LEMONCOLUMN_DIGEST_WORDS] = {trace[12 * 31], trace[12 * 31 + 1], trace[12 * 31 + 2],
                                                trace[12 * 31 + 3]};
    show_words("of the first four taps", claim);
    show_tests("claimed after one batch", check_two(s, trace, claim, 1));
    show_tests("claimed after two", check_two(s, trace, claim, 2));
    show_tests("the output of all after one", check_two(s, trace, all, 1));
    show_tests("claimed after none", check_two(s, trace, claim, 0));
    show_tests("claimed after three", check_two(s, trace, claim, 3));
    show("a filler tap edited", edit_two(s, trace, claim, 6, 5, 6, 7, 9));
    show_words("the claim", claim);
    show("the day's last tap edited", edit_two(s, trace, claim, 3, 1, 1, 1, 1));
    show_words("the claim", claim);
    show_tests("read off", lemoncolumn_read_off(s, LEMONCOLUMN_TABLE_WORDS, trace, LEMONCOLUMN_TRACE_WORDS(2), claim[0],
                                                claim[1], claim[2], claim[3], 1, taps, LEMONCOLUMN_TAP_WORDS(2)));
    show_words("its w_3", taps + 12);
    show_words("its w_6", taps + 24);
}

static void show_first_bytes(const uint8_t *file, int count)
{
    printf("its first bytes:");
    for (int i = 0; i < count; i++)
        printf(" %02x", file[i]);
    printf("\n");
}

static void files(void)
{
    uint64_t taps[LEMONCOLUMN_TAP_WORDS(1)] = {0};
    uint64_t claim[LEMONCOLUMN_DIGEST_WORDS];
    uint8_t file[LEMONCOLUMN_FILE_BYTES(1)];
    show("packed", lemoncolumn_pack(taps, LEMONCOLUMN_TAP_WORDS(1), 0, 0, 0, 0, file, sizeof file));
    show_first_bytes(file, 16);
    show("unpacked",
         lemoncolumn_unpack(file, sizeof file, taps, LEMONCOLUMN_TAP_WORDS(1), claim, LEMONCOLUMN_DIGEST_WORDS));
    file[4 * 7 + 3] = 0;
    show("word 7 of kind 0",
         lemoncolumn_unpack(file, sizeof file, taps, LEMONCOLUMN_TAP_WORDS(1), claim, LEMONCOLUMN_DIGEST_WORDS));
}

/* Unpack of a short file into the taps of `k` batches. */
static lemoncolumn_code unpack_short(const uint8_t *file, size_t bytes, size_t k)
{
    uint64_t taps[LEMONCOLUMN_TAP_WORDS(2)];
    uint64_t claim[LEMONCOLUMN_DIGEST_WORDS];
    return lemoncolumn_unpack_short(file, bytes, taps, LEMONCOLUMN_TAP_WORDS(k), claim, LEMONCOLUMN_DIGEST_WORDS);
}

/* What is refused of the short file of `radio`, whose claim has its card in words 4 to 6, and of the full one. */
static void refused_on_the_radio_link(uint8_t *file, size_t bytes, const uint8_t *full)
{
    show("the full file read as a short one", unpack_short(full, LEMONCOLUMN_FILE_BYTES(1), 1));
    show("into the taps of two batches", unpack_short(file, bytes, 2));
    show("without its last byte", unpack_short(file, bytes - 1, 1));
    file[4 * 5] = 0; /* the card is 3, and 3 needs one word */
    show("a small card in three words", unpack_short(file, bytes, 1));
    file[4 * 6 + 3] = 0;
    show("word 6 of kind 0", unpack_short(file, bytes, 1));
}

/* What the office does for a depot with older cradles, which read only full files: it converts the short file of
 * `radio`, and back. `full` is the day as its depot would have packed it. */
static void converted(const uint8_t *file, size_t bytes, const uint8_t *full)
{
    uint8_t cradle[LEMONCOLUMN_FILE_BYTES(1)];
    uint8_t back[LEMONCOLUMN_FILE_BYTES(1)];
    size_t cradle_bytes = lemoncolumn_to_full_bytes(file, bytes);
    show("converted for an older cradle", lemoncolumn_to_full(file, bytes, cradle, cradle_bytes));
    size_t back_bytes = lemoncolumn_to_short_bytes(cradle, cradle_bytes);
    show("and back", lemoncolumn_to_short(cradle, cradle_bytes, back, back_bytes));
    printf("bytes there and back: %zu %zu\n", cradle_bytes, back_bytes);
    int same = memcmp(cradle, full, cradle_bytes) == 0 && memcmp(back, file, back_bytes) == 0;
    printf("the same files: %s\n", same ? "yes" : "no");
    show("a short file to short", lemoncolumn_to_short(file, bytes, back, bytes));
    show("a full file to full", lemoncolumn_to_full(cradle, cradle_bytes, back, cradle_bytes));
    show("into the room of a short file", lemoncolumn_to_full(file, bytes, cradle, bytes));
    cradle[4 * 60 + 3] = 0;
    show("word 60 of kind 0, into no room", lemoncolumn_to_short(cradle, cradle_bytes, back, 0));
}

/* The lengths of the short files of zeros in so many bytes, 0 where no full file has them, then of bytes without
 * a 0. */
static void show_converted_lengths(void)
{
    static const size_t lengths[] = {100, 243, 244, 245, 388, 532, 676, 147556, 295012};
    static uint8_t zeros[295012];
    uint8_t ones[LEMONCOLUMN_FILE_BYTES(1)];
    printf("bytes of short files:");
    for (size_t i = 0; i < sizeof lengths / sizeof *lengths; i++)
        printf(" %zu", lemoncolumn_to_short_bytes(zeros, lengths[i]));
    memset(ones, 0xff, sizeof ones);
    printf(" %zu\n", lemoncolumn_to_short_bytes(ones, sizeof ones));
    printf("bytes of full files: %zu", lemoncolumn_to_full_bytes(zeros, sizeof zeros));
    const uint8_t words[][4] = {{1, 0, 0, 0x20}, {0, 4, 0, 0x20}, {0, 8, 0, 0x20}, {0, 0, 4, 0x20}};
    for (size_t i = 0; i < sizeof words / sizeof *words; i++)
        printf(" %zu", lemoncolumn_to_full_bytes(words[i], sizeof *words));
    printf("\n");
}

/* What k is read in files that begin with these words, as short ones or not. */
static void show_batches(void)
{
    static const uint32_t words[] = {0x20000001, 0x20000400, 0x20000800, 0x20040000, 0x00000001, 0x20000000, 0x20000003,
                                     0x20010001, 0x20080000, 0x20100000, 0x60000001, 0xe0000001};
    printf("k of short files:");
    for (size_t i = 0; i < sizeof words / sizeof *words; i++) {
        const uint8_t file[] = {words[i] & 0xff, words[i] >> 8 & 0xff, words[i] >> 16 & 0xff, words[i] >> 24};
        printf(" %zu", lemoncolumn_short_batches(file, sizeof file));
        if (lemoncolumn_short_batches(file, sizeof file - 1) != 0)
            printf(" in three bytes");
    }
    printf("\n");
}

/* A day for the radio link: each tap has stop, fare, minute and card, and only the card, from 2^32 on, needs three
 * words. Its claim is the last tap, as under S. */
static void radio(void)
{
    uint64_t taps[LEMONCOLUMN_TAP_WORDS(1)];
    uint64_t read[LEMONCOLUMN_TAP_WORDS(1)] = {0};
    uint64_t claim[LEMONCOLUMN_DIGEST_WORDS] = {0};
    uint8_t full[LEMONCOLUMN_FILE_BYTES(1)];
    uint8_t file[LEMONCOLUMN_FILE_BYTES(1)]; /* the longest that a short file can be */
    for (uint64_t tap = 0; tap < 4; tap++) {
        uint64_t words[] = {101 + tap, 290, 480 + 5 * tap, (UINT64_C(1) << 32) + tap};
        for (int i = 0; i < 4; i++)
            taps[4 * tap + i] = words[i];
    }
    const uint64_t *last = taps + 12;
    size_t bytes = lemoncolumn_short_file_bytes(taps, LEMONCOLUMN_TAP_WORDS(1), last[0], last[1], last[2], last[3]);
    show("packed in the full edition",
         lemoncolumn_pack(taps, LEMONCOLUMN_TAP_WORDS(1), last[0], last[1], last[2], last[3], full, sizeof full));
    show("packed in the short edition",
         lemoncolumn_pack_short(taps, LEMONCOLUMN_TAP_WORDS(1), last[0], last[1], last[2], last[3], file, bytes));
    printf("bytes, full and short, and where all is small: %zu %zu %zu\n", sizeof full, bytes,
           LEMONCOLUMN_SHORTEST_FILE_BYTES(1));
    show_first_bytes(file, 28);
    size_t k = lemoncolumn_short_batches(file, bytes);
    printf("its k: %zu\n", k);
    show("unpacked",
         lemoncolumn_unpack_short(file, bytes, read, LEMONCOLUMN_TAP_WORDS(k), claim, LEMONCOLUMN_DIGEST_WORDS));
    show_words("its claim", claim);
    show_words("its w_0", read);
    show("read as a full file",
         lemoncolumn_unpack(file, bytes, read, LEMONCOLUMN_TAP_WORDS(1), claim, LEMONCOLUMN_DIGEST_WORDS));
    converted(file, bytes, full);
    refused_on_the_radio_link(file, bytes, full);
    show_batches();
    show_converted_lengths();
}

enum { SEASON = 2048 };

/* The files of a season: a short one alone, since the full edition has at most LEMONCOLUMN_MOST_FILE_BATCHES. */
static void files_of_a_season(const uint64_t *taps, const uint64_t *claim)
{
    static uint8_t full[LEMONCOLUMN_FILE_BYTES(SEASON)];
    static uint8_t file[LEMONCOLUMN_FILE_BYTES(SEASON)];
    static uint64_t read[LEMONCOLUMN_TAP_WORDS(SEASON)];
    uint64_t read_claim[LEMONCOLUMN_DIGEST_WORDS];
    size_t tap_words = LEMONCOLUMN_TAP_WORDS(SEASON);
    show("packed in the full edition",
         lemoncolumn_pack(taps, tap_words, claim[0], claim[1], claim[2], claim[3], full, sizeof full));
    size_t bytes = lemoncolumn_short_file_bytes(taps, tap_words, claim[0], claim[1], claim[2], claim[3]);
    show("packed in the short edition",
         lemoncolumn_pack_short(taps, tap_words, claim[0], claim[1], claim[2], claim[3], file, bytes));
    printf("its bytes and its k: %zu %zu\n", bytes, lemoncolumn_short_batches(file, bytes));
    show_first_bytes(file, 8);
    show("unpacked", lemoncolumn_unpack_short(file, bytes, read, tap_words, read_claim, LEMONCOLUMN_DIGEST_WORDS));
    int same = memcmp(read, taps, 8 * tap_words) == 0 && memcmp(read_claim, claim, sizeof read_claim) == 0;
    printf("the same taps and claim: %s\n", same ? "yes" : "no");
    printf("bytes of its full file: %zu\n", lemoncolumn_to_full_bytes(file, bytes));
    show("converted to the full edition", lemoncolumn_to_full(file, bytes, full, sizeof full));
}

/* A season in one chain: 2048 batches of zero taps. Under A each hash adds 1 to cell 0 of the first tap, and a batch
 * has three. */
static void season(const uint64_t *a)
{
    static uint64_t taps[LEMONCOLUMN_TAP_WORDS(SEASON)];
    static uint64_t trace[LEMONCOLUMN_TRACE_WORDS(SEASON)];
    uint64_t out[LEMONCOLUMN_DIGEST_WORDS];
    show("a season of 2048 batches built",
         lemoncolumn_build(a, LEMONCOLUMN_TABLE_WORDS, taps, LEMONCOLUMN_TAP_WORDS(SEASON), trace,
                           LEMONCOLUMN_TRACE_WORDS(SEASON), out, LEMONCOLUMN_DIGEST_WORDS));
    show_words("its output", out);
    show_tests("checked", lemoncolumn_check(a, LEMONCOLUMN_TABLE_WORDS, trace, LEMONCOLUMN_TRACE_WORDS(SEASON), out[0],
                                            out[1], out[2], out[3], SEASON));
    files_of_a_season(taps, out);
    const int most = LEMONCOLUMN_MOST_BATCHES;
    printf("words of the longest list and trace: %zu %zu\n", LEMONCOLUMN_TAP_WORDS(most),
           LEMONCOLUMN_TRACE_WORDS(most));
    printf("bytes of its short file: %zu to %zu\n", LEMONCOLUMN_SHORTEST_FILE_BYTES(most),
           LEMONCOLUMN_FILE_BYTES(most));
}

/* The refusals of documents 01 and 02, as the header decodes them. */
static void indices(void)
{
    printf("refusals with an index:");
    for (lemoncolumn_code number = LEMONCOLUMN_ACCEPTED; number <= LEMONCOLUMN_SAME_EDITION; number++)
        if (lemoncolumn_has_index(number))
            printf(" %" PRIu64, number);
    printf("\n");
}

int main(void)
{
    if (lemoncolumn_interface() != LEMONCOLUMN_INTERFACE) {
        fprintf(stderr, "compiled for interface %d, and the linked library has %" PRIu64 "\n", LEMONCOLUMN_INTERFACE,
                lemoncolumn_interface());
        return 1;
    }
    uint64_t z[LEMONCOLUMN_TABLE_WORDS], a[LEMONCOLUMN_TABLE_WORDS], s[LEMONCOLUMN_TABLE_WORDS];
    uint64_t nothing[LEMONCOLUMN_RAW_WORDS] = {0};
    show("Z", prepare(0, 0, z));
    show("A", prepare(0, 1, a));
    show("S", prepare(11, 0, s));
    show("zero M", lemoncolumn_prepare(nothing, LEMONCOLUMN_RAW_WORDS, z, LEMONCOLUMN_TABLE_WORDS));
    hashes(z, a, s);
    chains(a);
    traces(z);
    archive(a);
    closed_early(s);
    files();
    radio();
    season(a);
    indices();
    return 0;
}
