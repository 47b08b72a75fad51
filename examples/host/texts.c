/*
 * Answers cases from standard input through the library, for the gate: a line of output for each case.
 *
 *     r WORDS BYTES          then BYTES raw bytes: a text, read into a row of WORDS words, each 0xAAAAAAAAAAAAAAAA
 *     w WORDS BYTES SEED     word i of a memory, SEED * 6364136223846793005 + (i + 1) * 1442695040888963407 mod 2^64,
 *                            written into a text row of BYTES bytes, each 0xAA
 *
 * The line of output has the answer and a checksum of what the call left: of each word of the row, of each byte of the
 * text row. Rows have exactly the size that the case says, so that a tool such as valgrind sees a step past them.
 * Exits 1, with a message, where standard input has something else, and where a call has changed what it only reads.
 */
#include <errno.h>
#include <inttypes.h>
#include <stdio.h>
#include <stdlib.h>
#include <string.h>

#include "nevrodde.h"

#define LINE_BYTES 80
#define NUMBERS_MAX 3
#define COUNT_MAX (UINT64_C(1) << 24) /* words or bytes of a case: more is a mistake in the cases */
#define FILLER 0xAA

/* Ends the program with a message. */
static void fail(const char *why)
{
    fprintf(stderr, "texts: %s\n", why);
    exit(EXIT_FAILURE);
}

/* A new row of exactly so many elements; one of none has an address too. */
static void *new_row(size_t count, size_t size)
{
    void *row = malloc(count * size);

    if (row == NULL) {
        fail("no memory");
    }
    memset(row, FILLER, count * size);
    return row;
}

/* The checksum after one more number. */
static uint64_t mix(uint64_t sum, uint64_t number)
{
    return (sum ^ number) * UINT64_C(1099511628211);
}

/* The checksum of words. */
static uint64_t sum_words(const uint64_t *words, size_t count)
{
    uint64_t sum = UINT64_C(14695981039346656037);
    size_t i;

    for (i = 0; i < count; i++) {
        sum = mix(sum, words[i]);
    }
    return sum;
}

/* The checksum of bytes. */
static uint64_t sum_bytes(const uint8_t *bytes, size_t count)
{
    uint64_t sum = UINT64_C(14695981039346656037);
    size_t i;

    for (i = 0; i < count; i++) {
        sum = mix(sum, bytes[i]);
    }
    return sum;
}

/* Prints the line for a case. */
static void answer(uint8_t number, uint64_t sum)
{
    if (printf("%u %" PRIu64 "\n", (unsigned)number, sum) < 0) {
        fail("writing failed");
    }
}

/* A case `r`: the text follows on standard input. */
static void do_read(size_t words, size_t bytes)
{
    uint8_t *text = new_row(bytes, sizeof *text);
    uint64_t *row = new_row(words, sizeof *row);
    uint64_t before;
    uint8_t number;

    if (fread(text, 1, bytes, stdin) != bytes) {
        fail("standard input ends inside a text");
    }
    before = sum_bytes(text, bytes);
    number = nevrodde_hex_read(text, bytes, row, words);
    answer(number, sum_words(row, words));
    if (sum_bytes(text, bytes) != before) {
        fail("a read has changed its text");
    }
    free(row);
    free(text);
}

/* A case `w`: the memory comes from the seed. */
static void do_write(size_t words, size_t bytes, uint64_t seed)
{
    uint64_t *memory = new_row(words, sizeof *memory);
    uint8_t *text = new_row(bytes, sizeof *text);
    uint64_t before;
    uint8_t number;
    size_t i;

    for (i = 0; i < words; i++) {
        memory[i] = seed * UINT64_C(6364136223846793005) + (i + 1) * UINT64_C(1442695040888963407);
    }
    before = sum_words(memory, words);
    number = nevrodde_hex_write(memory, words, text, bytes);
    answer(number, sum_bytes(text, bytes));
    if (sum_words(memory, words) != before) {
        fail("a write has changed its memory");
    }
    free(text);
    free(memory);
}

/* The numbers of a case's line, behind its letter: each after one blank, and how many there are. */
static size_t numbers_of(const char *at, uint64_t numbers[NUMBERS_MAX])
{
    size_t many = 0;
    char *end;

    while (*at == ' ' && many < NUMBERS_MAX) {
        if (at[1] < '0' || at[1] > '9') {
            fail("a case's line with something else than numbers");
        }
        errno = 0;
        numbers[many++] = strtoull(at + 1, &end, 10);
        if (errno != 0) {
            fail("a number past 2^64 - 1");
        }
        at = end;
    }
    if (*at != '\n') {
        fail("a case's line of another form");
    }
    return many;
}

/* One case. */
static void do_case(const char *line)
{
    uint64_t numbers[NUMBERS_MAX];
    size_t many = numbers_of(line + 1, numbers);

    if (many < 2 || numbers[0] > COUNT_MAX || numbers[1] > COUNT_MAX) {
        fail("a case without its counts, or with one past 2^24");
    }
    if (line[0] == 'r' && many == 2) {
        do_read((size_t)numbers[0], (size_t)numbers[1]);
    } else if (line[0] == 'w' && many == 3) {
        do_write((size_t)numbers[0], (size_t)numbers[1], numbers[2]);
    } else {
        fail("a case with another letter, or with too many or too few numbers");
    }
}

int main(void)
{
    char line[LINE_BYTES];

    while (fgets(line, sizeof line, stdin) != NULL) {
        do_case(line);
    }
    if (ferror(stdin)) {
        fail("reading failed");
    }
    if (fflush(stdout) != 0 || ferror(stdout)) {
        fail("writing failed");
    }
    return EXIT_SUCCESS;
}
