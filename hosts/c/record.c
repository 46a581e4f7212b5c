/* Records: see record.h. */
#include "record.h"

#include <stdio.h>
#include <string.h>

const char signs[] = "+-0123456789ABCDEFGHIJKLMNOPQRSTUVWXYZabcdefghijklmnopqrstuvwxyz";

void add(struct bytes *to, uint64_t number, int width)
{
    for (int i = 0; i < width; i++) {
        to->at[to->len++] = (uint8_t)(number >> (8 * i));
    }
}

uint64_t get(const struct bytes *from, size_t at, size_t width)
{
    uint64_t number = 0;
    for (size_t i = 0; i < width && at + i < from->len; i++) {
        number |= (uint64_t)from->at[at + i] << (8 * i);
    }
    return number;
}

void put(struct bytes *to, size_t at, uint64_t number, size_t width)
{
    for (size_t i = 0; i < width && at + i < to->len; i++) {
        to->at[at + i] = (uint8_t)(number >> (8 * i));
    }
}

static void mask_head(struct bytes *to, unsigned blocks)
{
    to->len = 0;
    add(to, 6 + 12 * blocks, 2);
    add(to, 2, 2);
    add(to, blocks, 2);
}

static void mask_block(struct bytes *to, struct block block)
{
    add(to, block.set, 8);
    add(to, block.lower, 2);
    add(to, block.upper, 2);
}

void mask_record(struct bytes *to, const struct block *blocks, unsigned count)
{
    mask_head(to, count);
    for (unsigned i = 0; i < count; i++) {
        mask_block(to, blocks[i]);
    }
}

struct block block_at(const struct bytes *mask, size_t block)
{
    size_t at = AT_BLOCKS + BLOCK_SIZE * block;
    struct block is = {get(mask, at, 8), (uint16_t)get(mask, at + AT_LOWER, 2), (uint16_t)get(mask, at + AT_UPPER, 2)};
    return is;
}

unsigned mask_blocks(const struct bytes *mask, struct block *blocks)
{
    unsigned count = (unsigned)get(mask, AT_COUNT, 2);
    for (unsigned i = 0; i < count; i++) {
        blocks[i] = block_at(mask, i);
    }
    return count;
}

void mask_repeated(struct bytes *to, struct block even, struct block odd, unsigned count)
{
    mask_head(to, count);
    for (unsigned i = 0; i < count; i++) {
        mask_block(to, i % 2 == 0 ? even : odd);
    }
}

int unchanged(const uint8_t *slice, const struct bytes *bytes)
{
    return bytes->len == 0 || memcmp(slice, bytes->at, bytes->len) == 0;
}

void hex(struct bytes *to, const char *text)
{
    unsigned byte;
    to->len = 0;
    for (; sscanf(text, "%2x", &byte) == 1; text += 3) {
        to->at[to->len++] = (uint8_t)byte;
        if (text[2] == '\0') {
            return;
        }
    }
}

void largest_book(struct bytes *to)
{
    enum { STATES = 63, LETTERS = 64 };
    to->len = 0;
    add(to, 15 + STATES * LETTERS, 2);
    add(to, 1, 2);
    add(to, STATES, 1);
    add(to, LETTERS, 1);
    add(to, 0, 1);
    add(to, LETTER(0) | LETTER(62), 8);
    for (unsigned q = 0; q < STATES; q++) {
        for (unsigned c = 0; c < LETTERS; c++) {
            add(to, q < 62 && c == q ? q + 1 : q == 62 && c == 63 ? 0 : 255, 1);
        }
    }
}
