/*
 * The line that the line program prints for a mask, as the plain narrow has it.
 */
#ifndef PLAIN_LINE_H
#define PLAIN_LINE_H

#include "stream.h"

#include <stddef.h>
#include <stdint.h>

/* The verdicts in words, by their numbers. */
extern const char *const verdict_words[5];

/* Adds the line of the mask of this number. */
void plain_line(struct stream *to, unsigned number, const uint8_t *book, size_t book_len, const uint8_t *mask,
                size_t mask_len);

#endif
