/*
 * A host in C: writes a board's memory as Intel HEX, prints the text, reads it back, and shows what is refused.
 *
 *     bin/library
 *     cc -std=c99 -I target/library examples/host/hex_host.c target/library/libnevrodde.a -o hex_host
 *     ./hex_host
 */
#include <stdio.h>
#include <stdlib.h>
#include <string.h>

#include "nevrodde.h"

#define WORDS NEVRODDE_MEMORY_WORDS(1)
#define BYTES NEVRODDE_HEX_BYTES(WORDS)
#define SPARE 4 /* bytes behind the text */

static const char END_RECORD[] = ":00000001FF\n";

/* The memory of a board with one cell line, one worker and epoch 2; its data cell holds a number of many digits. */
static const uint64_t board[WORDS] = {
    2, 1, 1, 0, 0, 0, 0, 0,
    3, 0, 1, UINT64_C(0x0123456789ABCDEF), 0, 1, 0, 0,
};

/* Rows and texts before a call, to be compared with what it leaves. */
static uint64_t row[WORDS + NEVRODDE_LINE_WORDS], row_before[WORDS + NEVRODDE_LINE_WORDS];
static uint8_t text[BYTES + SPARE], text_before[BYTES + SPARE];

/* Fills the row and the text row with something that no call would write. */
static void fill(void)
{
    memset(row, 0x55, sizeof row);
    memset(text, '#', sizeof text);
    memcpy(row_before, row, sizeof row);
    memcpy(text_before, text, sizeof text);
}

/* What a refused call did to rows and texts. */
static const char *left(void)
{
    if (memcmp(row, row_before, sizeof row) != 0 || memcmp(text, text_before, sizeof text) != 0) {
        return "SOMETHING CHANGED";
    }
    return "nothing changed";
}

/* Writes `words` words of the board's memory into a text row of `bytes` bytes, and tells the answer. */
static void show_write(const char *what, size_t words, size_t bytes)
{
    uint8_t answer;

    fill();
    answer = nevrodde_hex_write(board, words, text, bytes);
    printf("%2u, %s: write, %s\n", (unsigned)answer, left(), what);
}

/* Reads a text into a row of `words` words, and tells the answer. */
static void show_read(const char *what, const uint8_t *from, size_t bytes, size_t words)
{
    uint8_t answer;

    fill();
    answer = nevrodde_hex_read(from, bytes, row, words);
    printf("%2u, %s: read, %s\n", (unsigned)answer, left(), what);
}

/* Reads a text of the board's memory, and tells whether the row has the same words then. */
static void show_same(const char *what, const uint8_t *from)
{
    uint8_t answer;

    fill();
    answer = nevrodde_hex_read(from, BYTES, row, WORDS);
    printf("%2u, %s: read, %s\n", (unsigned)answer,
           memcmp(row, board, sizeof board) == 0 ? "the same words" : "OTHER WORDS", what);
}

/* The text with small letters for capital ones. */
static void small_letters(const uint8_t *from, uint8_t *to)
{
    size_t i;

    for (i = 0; i < BYTES; i++) {
        to[i] = from[i] >= 'A' && from[i] <= 'F' ? (uint8_t)(from[i] - 'A' + 'a') : from[i];
    }
}

/* What is written: the text, and the bytes behind it as they were. */
static void show_text(uint8_t *written)
{
    uint8_t answer;

    fill();
    answer = nevrodde_hex_write(board, WORDS, text, sizeof text);
    memcpy(written, text, BYTES);
    fwrite(written, 1, BYTES, stdout);
    printf("%2u, %d bytes: write, a memory of %d words; the bytes behind the text are %s\n", (unsigned)answer, BYTES,
           WORDS, memcmp(text + BYTES, text_before + BYTES, SPARE) == 0 ? "as they were" : "CHANGED");
}

/* What reading refuses, and in which order. */
static void show_refused_reads(const uint8_t *written)
{
    uint8_t wrong[BYTES];
    const uint8_t *end = (const uint8_t *)END_RECORD;

    memcpy(wrong, written, BYTES);
    wrong[42] ^= 1; /* the last digit of the first record's checksum */
    show_read("a wrong checksum", wrong, BYTES, WORDS);
    show_read("no line feed at the end", written, BYTES - 1, WORDS);
    show_read("an empty text", written, 0, WORDS);
    show_read("a wrong checksum and a row of another length: 19 is tested before 20", wrong, BYTES, WORDS + 8);
    show_read("a row of another length than the text", written, BYTES, WORDS + 8);
    show_read("the end record alone, into no words", end, sizeof END_RECORD - 1, 0);
}

/* What writing refuses, and in which order. */
static void show_refused_writes(void)
{
    show_write("15 words, a length that no board has", WORDS - 1, BYTES);
    show_write("15 words and a text row too short: 20 is tested before 12", WORDS - 1, 0);
    show_write("a text row that is one byte too short", WORDS, BYTES - 1);
}

int main(void)
{
    uint8_t written[BYTES], small[BYTES];

    show_text(written);
    show_same("that text", written);
    small_letters(written, small);
    show_same("that text in small letters", small);
    show_refused_reads(written);
    show_refused_writes();
    return fflush(stdout) == 0 && !ferror(stdout) ? EXIT_SUCCESS : EXIT_FAILURE;
}
