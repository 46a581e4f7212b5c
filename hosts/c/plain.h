/*
 * The four operations in plain C, written from document 01 alone: what the tests of the line program and the fuzzing compare
 * with, and what the product's speed is measured against. It shares no code with the product, only the struct of a block, and
 * nothing in it is proved.
 */
#ifndef PLAIN_H
#define PLAIN_H

#include "fekhvina.h"

#include <stddef.h>
#include <stdint.h>

/* The verdicts as numbers. */
enum { PLAIN_NONE = 1, PLAIN_ALL, PLAIN_ONE, PLAIN_SOME };

/* What narrow and tidy answer: verdict and bytes are 0 where refusal is not, and tidy has no verdict. */
struct plain_answer {
    unsigned refusal, verdict;
    size_t bytes;
};

/* What place answers: all but refusal is 0 where the verdict is none, or where refusal is not 0. */
struct plain_place {
    unsigned refusal;
    uint64_t set;
    unsigned lower, upper;
};

/* What try answers: both are 0 where refusal is not. */
struct plain_try {
    unsigned refusal, spells, accepts;
};

/* Narrows a mask by a book, and writes the answer over the first bytes of out, which has this much room. */
struct plain_answer plain_narrow(const uint8_t *book, size_t book_len, const uint8_t *mask, size_t mask_len, uint8_t *out,
                                 size_t room);

/* The same of a mask that is a list of blocks. */
struct plain_answer plain_narrow_list(const uint8_t *book, size_t book_len, const struct fekhvina_block *list, size_t count,
                                      uint8_t *out, size_t room);

/* The entry of the narrowed list for a block, from 1, and its place; place 0 is the optional part. */
struct plain_place plain_place(const uint8_t *book, size_t book_len, const uint8_t *mask, size_t mask_len, uint32_t block,
                               uint32_t place);

/* Writes the normal form of a mask over the first bytes of out, which has this much room. */
struct plain_answer plain_tidy(const uint8_t *mask, size_t mask_len, uint8_t *out, size_t room);

/* Whether the mask spells a code, one letter a byte, and whether the book accepts it. */
struct plain_try plain_try(const uint8_t *book, size_t book_len, const uint8_t *mask, size_t mask_len, const uint8_t *code,
                           size_t code_len);

#endif
