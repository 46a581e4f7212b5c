/*
 * Calls the entries of narrow for a test, those that take the record of a mask and those that take the list of its blocks.
 */
#ifndef NARROW_CALLS_H
#define NARROW_CALLS_H

#include "fekhvina.h"
#include "record.h"

#include <stddef.h>
#include <stdint.h>

enum { NONE = 1, ALL, ONE, SOME };

/* The book and the mask of a case, and what the answer buffer is to begin with. */
extern struct bytes book, in, answer;

/* Whether the three entries say so of `book` and `in`, with an answer buffer of this length, write this much of `answer` and no
   more, and change nothing that they only read. */
typedef int narrowing(size_t out_len, uint32_t refusal, uint32_t verdict, size_t written);

/* Of the entries that take the record, and of those that take the list of its blocks. */
narrowing record_is, list_is;

/* Whether they refuse, with no buffer and with one that would do. */
int refuses(narrowing *is, uint32_t refusal);

/* Lends the list of the blocks of `in`. Each time its padding changes by an odd number, so that 256 times give each byte of it
   all values, and so do 256 times list_is for each entry. */
const struct fekhvina_block *lend_list(size_t *count);

#endif
