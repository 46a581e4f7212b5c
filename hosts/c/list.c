/* Masks as lists: see list.h. */
#include "list.h"

#include <string.h>

enum { SIZE = sizeof(struct fekhvina_block), USED = offsetof(struct fekhvina_block, upper) + sizeof(uint16_t) };

/* By bytes: where a member is assigned to, padding may change. */
static void add_block(struct bytes *to, struct block block, uint8_t padding)
{
    uint8_t *at = to->at + to->len;
    memcpy(at + offsetof(struct fekhvina_block, set), &block.set, sizeof block.set);
    memcpy(at + offsetof(struct fekhvina_block, lower), &block.lower, sizeof block.lower);
    memcpy(at + offsetof(struct fekhvina_block, upper), &block.upper, sizeof block.upper);
    for (size_t i = USED; i < SIZE; i++) {
        at[i] = padding++;
    }
    to->len += SIZE;
}

void mask_list(struct bytes *to, const struct bytes *mask, uint8_t padding)
{
    to->len = 0;
    for (size_t i = 0; AT_BLOCKS + BLOCK_SIZE * (i + 1) <= mask->len && to->len + SIZE <= LONGEST; i++) {
        add_block(to, block_at(mask, i), (uint8_t)(padding + (SIZE - USED) * i));
    }
}

size_t list_count(const struct bytes *list)
{
    return list->len / SIZE;
}
