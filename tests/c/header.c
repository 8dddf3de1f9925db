/* What include/lemoncolumn.h says and computes by itself, without a call of the library: prints every constant, then
 * answers questions from standard input, one on a line: `word`, `count`, `list` or `file`, and numbers. Each is printed
 * again with its answers. tests/header.sh asks, and knows what must come. */
#include "lemoncolumn.h"

#include <inttypes.h>
#include <stdio.h>
#include <stdlib.h>
#include <string.h>

/* Twice and halved, so that a definition without its brackets gives another number. */
#define SHOW(name) printf(#name " = %" PRIu64 "\n", (uint64_t)(2 * name / 2))

static void constants(void)
{
    SHOW(LEMONCOLUMN_INTERFACE);
    SHOW(LEMONCOLUMN_P);
    SHOW(LEMONCOLUMN_RAW_WORDS);
    SHOW(LEMONCOLUMN_TABLE_WORDS);
    SHOW(LEMONCOLUMN_DIGEST_WORDS);
    SHOW(LEMONCOLUMN_STATE_WORDS);
    SHOW(LEMONCOLUMN_PAIR_WORDS);
    SHOW(LEMONCOLUMN_MOST_BATCHES);
    SHOW(LEMONCOLUMN_MOST_FILE_BATCHES);
    SHOW(LEMONCOLUMN_ONE_WORD_BITS);
    SHOW(LEMONCOLUMN_SHORT_MARK);
}

static void refusals(void)
{
    SHOW(LEMONCOLUMN_ACCEPTED);
    SHOW(LEMONCOLUMN_TABLE_LENGTH);
    SHOW(LEMONCOLUMN_TABLE_WORD);
    SHOW(LEMONCOLUMN_NO_INVERSE);
    SHOW(LEMONCOLUMN_WRONG_INVERSE);
    SHOW(LEMONCOLUMN_TAP_LENGTH);
    SHOW(LEMONCOLUMN_TAP_WORD);
    SHOW(LEMONCOLUMN_TRACE_LENGTH);
    SHOW(LEMONCOLUMN_DESTINATION_LENGTH);
    SHOW(LEMONCOLUMN_CLAIM_WORD);
    SHOW(LEMONCOLUMN_TRACE_WORD);
    SHOW(LEMONCOLUMN_CONSTRAINT);
    SHOW(LEMONCOLUMN_FILE_LENGTH);
    SHOW(LEMONCOLUMN_WRONG_KIND);
    SHOW(LEMONCOLUMN_WRONG_VALUE);
    SHOW(LEMONCOLUMN_NO_SUCH_TAP);
    SHOW(LEMONCOLUMN_NO_PAIR);
    SHOW(LEMONCOLUMN_CLAIM_BATCHES);
    SHOW(LEMONCOLUMN_LONG_ELEMENT);
    SHOW(LEMONCOLUMN_SAME_EDITION);
}

static void fail(const char *what)
{
    fprintf(stderr, "tests/c/header.c: %s\n", what);
    exit(1);
}

/* The next number of the question, printed again. */
static uint64_t next(void)
{
    uint64_t number;
    if (scanf("%" SCNu64, &number) != 1)
        fail("a number is missing");
    printf(" %" PRIu64, number);
    return number;
}

static void *room(size_t bytes)
{
    void *memory = malloc(bytes);
    if (memory == NULL)
        fail("no memory");
    return memory;
}

/* A word that a call returns. */
static void of_word(void)
{
    lemoncolumn_code code = next();
    printf(": number %d, constraint %" PRIu64 ", row %" PRIu64, (int)lemoncolumn_number(code),
           lemoncolumn_constraint(code), lemoncolumn_row(code));
    printf(", index? %d %" PRIu64 ", tests %" PRIu64 "\n", lemoncolumn_has_index(code) != 0, lemoncolumn_index(code),
           lemoncolumn_tests(code));
}

/* Of k batches, which are lent as a sum, since this is a macro, and in 32 bits where they fit; twice and halved as
 * above. */
#define OF(name) (k >> 32 == 0 ? 2 * name(0 + (uint32_t)k) / 2 : 2 * name(0 + k) / 2)

static void of_count(void)
{
    size_t k = next();
    printf(": taps %zu, trace %zu", OF(LEMONCOLUMN_TAP_WORDS), OF(LEMONCOLUMN_TRACE_WORDS));
    printf(", file %zu, shortest %zu\n", OF(LEMONCOLUMN_FILE_BYTES), OF(LEMONCOLUMN_SHORTEST_FILE_BYTES));
}

/* A claim, then a list of taps: its length, the word that it is full of, how many others it has, and place and word of
 * each. The word after its end would count too. */
static void of_list(void)
{
    uint64_t claim[4];
    for (int i = 0; i < 4; i++)
        claim[i] = next();
    size_t length = next();
    uint64_t fill = next();
    uint64_t *taps = room(8 * (length + 1));
    for (size_t i = 0; i < length; i++)
        taps[i] = fill;
    taps[length] = UINT64_MAX;
    for (uint64_t left = next(); left > 0; left--) {
        uint64_t *tap = taps + next();
        *tap = next();
    }
    printf(": short file %zu\n", lemoncolumn_short_file_bytes(taps, length, claim[0], claim[1], claim[2], claim[3]));
    free(taps);
}

/* A file: its length, the byte that it is full of, how many 32-bit words are others, and place and word of each. The
 * bytes after its end would count too, also those of such a word. */
static void of_file(void)
{
    size_t length = next();
    int fill = next();
    uint8_t *file = room(length + 12);
    memset(file, fill, length);
    memset(file + length, 0xff, 12);
    for (uint64_t left = next(); left > 0; left--) {
        uint8_t *bytes = file + 4 * next();
        uint64_t word = next();
        for (int i = 0; i < 4; i++)
            bytes[i] = word >> 8 * i & 0xff;
    }
    printf(": word 0 %" PRIu32 ", k %zu", length < 4 ? 0 : lemoncolumn_file_word(file),
           lemoncolumn_short_batches(file, length));
    printf(", to short %zu, to full %zu\n", lemoncolumn_to_short_bytes(file, length),
           lemoncolumn_to_full_bytes(file, length));
    free(file);
}

int main(void)
{
    char kind[8];
    constants();
    refusals();
    while (scanf("%7s", kind) == 1) {
        printf("%s", kind);
        if (strcmp(kind, "word") == 0)
            of_word();
        else if (strcmp(kind, "count") == 0)
            of_count();
        else if (strcmp(kind, "list") == 0)
            of_list();
        else if (strcmp(kind, "file") == 0)
            of_file();
        else
            fail("no such question");
    }
    return 0;
}
