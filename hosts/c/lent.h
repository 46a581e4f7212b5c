/*
 * Slices for tests, lent so that nothing outside them goes unnoticed: each ends in front of a page that can't be touched, or
 * begins behind one, so that reading or writing there stops the program; what lies on a buffer's other side, and a buffer's own
 * bytes, are a pattern.
 */
#ifndef LENT_H
#define LENT_H

#include <stddef.h>
#include <stdint.h>

/* One place for each kind of slice. */
enum place { BOOK, MASK, LIST, CODE, OUT, PLACES };

/* How slices are lent: in front of such a page, behind one, or in memory that is allocated for each, with its exact size. */
enum way { BEFORE_PAGE, BEHIND_PAGE, ALLOCATED, WAYS };

/* The longest slice that can be lent. */
enum { LONGEST = 131072 };

/* Takes the memory. To be called once, first. */
void lent_open(void);

/* Lends so from now on; until then it is the first way. */
void lent_by(enum way chosen);

/* A copy of the bytes, as the slice of a place. */
const uint8_t *lent_copy(enum place place, const uint8_t *bytes, size_t len);

/* The slice of OUT, all of it pattern. */
uint8_t *lent_out(size_t len);

/* So many bytes of 0 to be read, which may be more than there is memory; NULL where they can't be had. */
const void *lent_zeros(size_t len);

/* Whether OUT, a slice of len bytes, now is the written bytes and behind them, and beside it, the pattern. */
int lent_out_is(size_t len, const uint8_t *written, size_t written_len);

#endif
