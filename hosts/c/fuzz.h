/*
 * Compares the fifteen C entries with the operations of plain.h, on good, damaged and random records. A run is one input, given
 * to every entry: its numbers, every byte of the answer buffer and of what was lent to be read are compared; at times it is
 * given again with a field changed, so that nothing kept between calls goes unnoticed. What a run does depends on the seed and
 * its number alone: it can be repeated by itself.
 */
#ifndef FUZZ_H
#define FUZZ_H

#include "record.h"

#include <stddef.h>
#include <stdint.h>

/* Where a slice is lent in memory of its own. */
#define APART SIZE_MAX

struct input {
    struct bytes book, mask, code;
    struct bytes list; /* the blocks of the mask, as list.h has them: made by compare */
    uint8_t padding;
    size_t mask_in_book, code_in_book; /* or where in the book's slice they lie */
    int null;                          /* empty slices are null pointers */
    enum way way;
    uint32_t block, place;
    size_t narrow_room, list_room, tidy_room; /* the lengths of the answer buffers */
};

/* Makes an input, but for the list and the lengths of the answer buffers. */
void random_input(struct input *in);

/* Changes a field of it; the lengths stay. */
void change_input(struct input *in);

/* The length of an answer buffer, where the answer has this many bytes. */
size_t random_room(size_t needed);

/* Changes one field, or one bit; the length stays. Here and below, what is left may still be good. */
void change_book(struct bytes *book);
void change_block(struct bytes *mask, unsigned letters);
void flip_bit(struct bytes *record);

/* Changes a book, or a mask for a book with so many letters, in one way of many. */
void damage_book(struct bytes *book);
void damage_mask(struct bytes *mask, unsigned letters);

/* Any bytes, at times with a right length and kind. */
void random_bytes(struct bytes *record, unsigned kind);

enum operation { NARROW, NARROW_LIST, TIDY, PLACE, TRY, OPERATIONS };

/* Ways for a call to end. A refusal 1 to 5 may be the book's or the mask's. */
enum {
    BOOK_REFUSED = 0, /* 1 to 6 */
    MASK_REFUSED = 6, /* 1 to 5 */
    REFUSED = 11,     /* 7 to 13 */
    VERDICT = 18,     /* none, all, one, some */
    TIDIED = 22,
    TRIED = 23, /* no and no, yes of the mask alone, yes of the book alone, yes and yes */
    OUTCOMES = 27
};

/* How often each came. */
extern unsigned long tally[OUTCOMES][OPERATIONS];

/* The entry that is being called. */
extern const char *entry;

/* Calls all entries on an input, and counts how they ended. */
void compare(struct input *in);

/* Counts a difference of the entry in hand, and shows the first, with this text as printf has it. */
void differs(const char *text, ...);

#endif
