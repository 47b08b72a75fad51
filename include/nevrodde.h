/*
 * nevrodde.h: the photo kiosks' memory engine, from C (C99 or later) and C++.
 *
 * bin/library proves and builds the library for x86-64 and leaves it as target/library/libnevrodde.a, with a copy of
 * this file beside it. At the top of the repository:
 *
 *     cc -std=c99 -I target/library host.c target/library/libnevrodde.a -o host
 *
 * A whole host is examples/host/hex_host.c. What a board is, and what to do about each answer: docs/BOARD.md.
 *
 * Today the library has the memory's text, Intel HEX: writing a memory as text, and reading a text into a row.
 *
 * What every function keeps to
 *
 * - It returns NEVRODDE_TAKEN, 0, where the call was taken, else the number of the first cause that stands, in the
 *   order in which the function's comment lists them. It returns no other number.
 * - Refused, it has changed nothing: not a word of a row, not a byte of a text.
 * - It ends, whatever the rows and texts hold. It allocates nothing and keeps nothing between two calls.
 *
 * What every caller keeps to
 *
 * What is promised of a call stands on these. The library cannot test them; where one is broken anything may happen.
 *
 * - No pointer is null, even where its count is 0: the library may form a reference to what it points to, and there is
 *   no null reference. With a count of 0 any pointer will do that is not null and is aligned.
 * - The count behind a pointer is right: so many words (uint64_t) or bytes (uint8_t) are there, set to something, and
 *   may be read; where the pointer is not const they may be written too. Counts are in words or in bytes as named.
 * - A row of words is aligned as uint64_t is, on 8 bytes. A text may stand anywhere.
 * - What two pointers of one call point to does not overlap.
 * - From the call to its return nobody else writes what it was lent, and nobody else reads what it was lent to write:
 *   no other thread, no interrupt, no device. So one thread at a time on the same rows; calls on different rows may run
 *   side by side.
 */
#ifndef NEVRODDE_H
#define NEVRODDE_H

#include <stddef.h>
#include <stdint.h>

#ifdef __cplusplus
extern "C" {
#endif

/* The version of the engine that this header belongs to. */
#define NEVRODDE_VERSION "0.13.1"

/*
 * Sizes
 *
 * A board of L cell lines has two rows, memory and cache, of NEVRODDE_MEMORY_WORDS(L) words each: line 0, the header,
 * and lines 1 to L, of eight words each. A word is a uint64_t in the machine's own byte order.
 */
#define NEVRODDE_LINE_WORDS 8
#define NEVRODDE_LINES_MIN 1
#define NEVRODDE_LINES_MAX 511
#define NEVRODDE_WORKERS_MIN 1
#define NEVRODDE_WORKERS_MAX 8
#define NEVRODDE_MEMORY_WORDS(lines) (8 * ((lines) + 1))
#define NEVRODDE_MEMORY_WORDS_MIN 16
#define NEVRODDE_MEMORY_WORDS_MAX 4096

/*
 * Sizes of a memory's text, in bytes: of the text that is written, which has 44 bytes for two words and an end record
 * of 12, and of the longest text that can be read into so many words, which has a record for each byte.
 */
#define NEVRODDE_HEX_BYTES(words) (22 * (words) + 12)
#define NEVRODDE_HEX_BYTES_MAX 90124
#define NEVRODDE_HEX_READ_BYTES(words) (112 * (words) + 12)
#define NEVRODDE_HEX_READ_BYTES_MAX 458764

/*
 * The answers of all calls on a board, by their numbers. A function tests causes in the order of its own comment, which
 * need not be that of the numbers.
 */
enum nevrodde_answer {
    /* taken */
    NEVRODDE_TAKEN = 0,
    /* sizes: a board has 1 to 511 cell lines, 1 to 8 workers, and fewer workers than cells */
    NEVRODDE_LIMITS = 1,
    /* phase: the board is off, formatting or recovering */
    NEVRODDE_PHASE = 2,
    /* state record damaged */
    NEVRODDE_STATE = 3,
    /* rows of the wrong length */
    NEVRODDE_ROWS = 4,
    /* header: memory holds no board */
    NEVRODDE_HEADER = 5,
    /* worker: there is none with this number */
    NEVRODDE_WORKER = 6,
    /* cell or line: there is none with this number, or it is a restart cell */
    NEVRODDE_ADDRESS = 7,
    /* worker's condition: not free, nothing to advance, not away, or its update under the lock is unfinished */
    NEVRODDE_CONDITION = 8,
    /* cell in use by another worker */
    NEVRODDE_CONFLICT = 9,
    /* request or waiting: a request stands already, there is none, or a worker does not wait */
    NEVRODDE_CHECKPOINT = 10,
    /* last epoch: there is no next one */
    NEVRODDE_EPOCH = 11,
    /* text row too short for the page or the HEX text */
    NEVRODDE_TEXT = 12,
    /* coming back in the middle of a checkpoint */
    NEVRODDE_BEGUN = 13,
    /* memory with a mark later than its epoch */
    NEVRODDE_MARK = 14,
    /* lock's number: locks are 0 to 15 */
    NEVRODDE_LOCK = 15,
    /* lock not held or not free */
    NEVRODDE_HOLDER = 16,
    /* text is no Intel HEX file that this board reads */
    NEVRODDE_FILE = 19,
    /* length: no memory has it, or the row has another */
    NEVRODDE_LENGTH = 20
};

/*
 * Writes a memory as Intel HEX.
 *
 * Taken: the first NEVRODDE_HEX_BYTES(words) bytes of `text` are the memory's text; every byte past it is as it was, so
 * no zero byte ends it. The text has the words from the first on, each with its low byte first whatever the machine's
 * byte order is, in records of type 00 with 16 bytes of data, two words, at addresses that rise from 0; then the end
 * record, :00000001FF. Digits are 0 to 9 and A to F, and each record ends with one line feed. So a memory has one such
 * text, and nevrodde_hex_read reads it back to the same words.
 *
 * `memory` is only read; what its words mean does not matter, and it need not hold a board.
 *
 * Returns, tested in this order:
 *   NEVRODDE_LENGTH  20  words is not a multiple of 8 from 16 to 4,096: the lengths that a recovery's start takes
 *   NEVRODDE_TEXT    12  bytes is under NEVRODDE_HEX_BYTES(words); a longer text row is taken
 *   NEVRODDE_TAKEN    0  written
 */
uint8_t nevrodde_hex_write(const uint64_t *memory, size_t words, uint8_t *text, size_t bytes);

/*
 * Reads Intel HEX into a row of words, a board's memory or cache or any other.
 *
 * Taken: every word of `row` is the text's. `text` is only read, all of its `bytes`; a zero byte does not end it. The
 * whole text is looked through before the first word is stored.
 *
 * A text that is read has, from its first byte to its last, nothing but
 * - records of type 00 with 1 to 255 bytes of data, as many as it likes; the first at address 0, each other one at the
 *   address where the one before it ended, which never wraps: there is no record at an address past 65,535;
 * - then one end record: type 01, no data, address 0.
 * A record is a colon, two digits for each byte (count, address with its high byte first, type, data, checksum) and one
 * line feed, the end record too. Digits are 0 to 9, A to F and a to f; the bytes sum to a multiple of 256. So there is
 * no carriage return, no blank, no empty line and no other type. (Tools such as objcopy end lines with CR LF: take the
 * CRs out first.)
 *
 * Returns, tested in this order:
 *   NEVRODDE_FILE    19  the text is no such file; an empty text is none
 *   NEVRODDE_LENGTH  20  words is not a multiple of 8 from 16 to 4,096, or the text has not just 8 bytes of data for
 *                        each word of the row
 *   NEVRODDE_TAKEN    0  read
 *
 * Into the memory or the cache of a board: a taken read is no step of the engine's. It ends what was promised of that
 * board, what its cells read and what a cut brings back, until the end of a format that is begun afterwards, or until a
 * recovery's start that takes the memory (answers 0). A refused read changes nothing and ends nothing.
 */
uint8_t nevrodde_hex_read(const uint8_t *text, size_t bytes, uint64_t *row, size_t words);

#ifdef __cplusplus
}
#endif

#endif /* NEVRODDE_H */
