/*
 * Records for hosts and tests: masks built from blocks and taken apart, the largest book, and any record from hex.
 */
#ifndef RECORD_H
#define RECORD_H

#include "lent.h"

#include <stddef.h>
#include <stdint.h>

#define LETTER(c) (UINT64_C(1) << (c))

/* Where things stand in a book, in a mask, and in a block of it; the length and the kind stand first in both. */
enum { AT_KIND = 2, AT_STATES = 4, AT_LETTERS, AT_START, AT_ACCEPTING, AT_MOVES = 15 };
enum { AT_COUNT = 4, AT_BLOCKS = 6, AT_LOWER = 8, AT_UPPER = 10, BLOCK_SIZE = 12 };

/* The most blocks, uppers and letters of a code, and the most bytes that a length field can say. */
enum { MOST = 1024, LONGEST_RECORD = 65535 };

/* The signs of the 64 letters. */
extern const char signs[];

/* A block: at least lower and at most upper letters of set. */
struct block {
    uint64_t set;
    uint16_t lower, upper;
};

/* The bytes of a record. */
struct bytes {
    size_t len;
    uint8_t at[LONGEST];
};

/* Adds a number, little-endian. */
void add(struct bytes *to, uint64_t number, int width);

/* A number, and a number put, where the record is long enough: what lies behind its end is 0, and stays. */
uint64_t get(const struct bytes *from, size_t at, size_t width);
void put(struct bytes *to, size_t at, uint64_t number, size_t width);

/* A mask of these blocks. */
void mask_record(struct bytes *to, const struct block *blocks, unsigned count);

/* A block of a mask, from 0, where the record is long enough. */
struct block block_at(const struct bytes *mask, size_t block);

/* The blocks of a mask that is not refused, so at most 1,024; gives how many there are. */
unsigned mask_blocks(const struct bytes *mask, struct block *blocks);

/* A mask of the same block, again and again, or of two by turns. */
void mask_repeated(struct bytes *to, struct block even, struct block odd, unsigned count);

/* The largest book: q by letter q to q + 1, but 62 by letter 63 to 0; start 0 and state 62 accept. */
void largest_book(struct bytes *to);

/* Whether a slice still has these bytes. */
int unchanged(const uint8_t *slice, const struct bytes *bytes);

/* The bytes of a text in hex: two digits each, single blanks between them. */
void hex(struct bytes *to, const char *text);

#endif
