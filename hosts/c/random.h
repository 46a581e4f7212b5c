/*
 * Random records for tests. The same seed gives the same records.
 */
#ifndef RANDOM_H
#define RANDOM_H

#include "record.h"

#include <stdint.h>

void random_seed(uint64_t seed);

uint64_t random_number(void);

/* A number from 0 to n - 1; n is not 0. */
unsigned random_below(unsigned n);

/* Whether it is the one time in n. */
int one_in(unsigned n);

/* One of these numbers. */
unsigned one_of(const unsigned *numbers, size_t count);
#define ONE_OF(...) one_of((const unsigned[]){__VA_ARGS__}, sizeof((const unsigned[]){__VA_ARGS__}) / sizeof(unsigned))

/* A good book of this size, of whose moves so many in so many are missing. */
void random_book_of(struct bytes *to, unsigned states, unsigned letters, unsigned gaps, unsigned in);

/* A good book: small or large, with many moves or few. */
void random_book(struct bytes *to);

/* A good mask for a good book. */
void random_mask(struct bytes *to, const struct bytes *book);

/* Changes a record so that it is most often refused. Its length field is the number of its bytes, and at least 4. */
void random_damage(struct bytes *record);

#endif
