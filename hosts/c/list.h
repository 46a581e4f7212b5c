/*
 * Masks as lists, as fekhvina.h has them, for tests.
 */
#ifndef LIST_H
#define LIST_H

#include "fekhvina.h"
#include "record.h"

/* The structs of a mask's blocks, as many as the record has bytes for behind its head, whatever the head says, and as there is
   room for. The bytes of padding count up from this number. */
void mask_list(struct bytes *to, const struct bytes *mask, uint8_t padding);

/* How many structs there are. */
size_t list_count(const struct bytes *list);

#endif
