/* Damage to records: see fuzz.h. */
#include "fuzz.h"

#include "random.h"

#include <string.h>

/* Makes the length field right, where two bytes can say it. */
static void put_length(struct bytes *record)
{
    put(record, 0, record->len, 2);
}

static size_t random_length(void)
{
    return random_below(one_in(100) ? LONGEST + 1 : one_in(50) ? LONGEST_RECORD + 2 : one_in(4) ? 600 : 40);
}

static void add_random(struct bytes *record, size_t count)
{
    int same = one_in(2);
    uint8_t byte = (uint8_t)random_number();
    for (; count > 0 && record->len < LONGEST; count--) {
        record->at[record->len++] = same ? byte : (uint8_t)(random_number() >> 32);
    }
}

/* The length, the kind, a cut, bytes behind, or any byte. */
static void damage_frame(struct bytes *record)
{
    unsigned len = (unsigned)record->len, at = random_below(len + 1);
    unsigned cut = one_in(2) ? at : ONE_OF(0, 3, 4, 5, 6, 14, 15, len - 1);
    switch (random_below(5)) {
    case 0:
        put(record, 0, ONE_OF(0, 1, 3, 4, len - 1, len + 1, len ^ 256, len << 8, LONGEST_RECORD), 2);
        return;
    case 1:
        put(record, AT_KIND, ONE_OF(0, 1, 2, 3, 257, 258, 512, LONGEST_RECORD), 2);
        return;
    case 2:
        record->len = cut < len ? cut : len;
        break;
    case 3:
        add_random(record, 1 + random_length());
        break;
    case 4:
        put(record, at, random_number(), 1);
        return;
    }
    if (!one_in(3)) {
        put_length(record);
    }
}

void flip_bit(struct bytes *record)
{
    unsigned bit = 1u << random_below(8), at = random_below((unsigned)record->len + 1);
    put(record, at, get(record, at, 1) ^ bit, 1);
}

void change_book(struct bytes *book)
{
    unsigned n = get(book, AT_STATES, 1), m = get(book, AT_LETTERS, 1), move = random_below(n * m + 1);
    unsigned bit = ONE_OF(0, n - 1, n, 62, 63) % 64;
    switch (random_below(5)) {
    case 0:
        put(book, AT_STATES, ONE_OF(0, 1, n - 1, n + 1, 63, 64, 255), 1);
        break;
    case 1:
        put(book, AT_LETTERS, ONE_OF(0, 1, m - 1, m + 1, 64, 65, 255), 1);
        break;
    case 2:
        put(book, AT_START, ONE_OF(0, n - 1, n, 62, 63, 254, 255), 1);
        break;
    case 3:
        put(book, AT_ACCEPTING, get(book, AT_ACCEPTING, 8) ^ LETTER(bit), 8);
        break;
    case 4:
        put(book, AT_MOVES + move, ONE_OF(0, n - 1, n, 63, 254, 255), 1);
        break;
    }
}

/* Another number of states and letters, and a length that goes with it. */
static void resize_book(struct bytes *book)
{
    unsigned n = ONE_OF(0, 1, 2, 62, 63, 64, 255), m = ONE_OF(0, 1, 2, 63, 64, 65, 255);
    put(book, AT_STATES, n, 1);
    put(book, AT_LETTERS, m, 1);
    put(book, AT_START, random_below(n + 1), 1);
    if (book->len > AT_MOVES) {
        book->len = AT_MOVES;
        while (book->len < AT_MOVES + n * m) {
            book->at[book->len++] = (uint8_t)(one_in(5) || n == 0 ? 255 : random_below(n));
        }
    }
    put_length(book);
}

static unsigned uppers(const struct bytes *mask)
{
    unsigned sum = 0;
    for (size_t at = AT_BLOCKS; at < mask->len; at += BLOCK_SIZE) {
        sum += get(mask, at + AT_UPPER, 2);
    }
    return sum;
}

void change_block(struct bytes *mask, unsigned letters)
{
    size_t at = AT_BLOCKS + BLOCK_SIZE * random_below(get(mask, AT_COUNT, 2) + 1);
    unsigned bound = ONE_OF(0, 1, 1023, 1024, 1025, 65535), l = get(mask, at + AT_LOWER, 2), u = get(mask, at + AT_UPPER, 2);
    unsigned others = uppers(mask) - u, total = ONE_OF(1024, 1024, 1025, 65536, 65537);
    switch (random_below(6)) {
    case 0:
        put(mask, at + AT_LOWER, bound, 2);
        break;
    case 1:
        put(mask, at + AT_UPPER, bound, 2);
        break;
    case 2:
        put(mask, at + AT_LOWER, ONE_OF(u, u + 1, l + 256, 0), 2);
        break;
    case 3: /* uppers that sum to a given number, where that is possible */
        put(mask, at + AT_UPPER, total - others, 2);
        break;
    case 4:
        put(mask, at, 0, 8);
        break;
    case 5:
        put(mask, at, LETTER(ONE_OF(0, letters - 1, letters, 63) % 64), 8);
        break;
    }
}

/* Another number of blocks, and most often a length that goes with it. */
static void resize_mask(struct bytes *mask)
{
    unsigned count = get(mask, AT_COUNT, 2), to = ONE_OF(0, 1, count - 1, count + 1, 1023, 1024, 1025, 5460, 65535) % 65536;
    put(mask, AT_COUNT, to, 2);
    if (to <= 5460 && mask->len >= AT_BLOCKS && !one_in(3)) {
        size_t len = AT_BLOCKS + BLOCK_SIZE * to, old = mask->len;
        mask->len = len;
        if (len > old) {
            memset(mask->at + old, 0, len - old);
        }
        put_length(mask);
    }
}

void damage_book(struct bytes *book)
{
    switch (random_below(8)) {
    case 0:
    case 1:
        damage_frame(book);
        break;
    case 2:
        flip_bit(book);
        break;
    case 3:
        resize_book(book);
        break;
    default:
        change_book(book);
    }
}

void damage_mask(struct bytes *mask, unsigned letters)
{
    switch (random_below(8)) {
    case 0:
    case 1:
        damage_frame(mask);
        break;
    case 2:
        flip_bit(mask);
        break;
    case 3:
        resize_mask(mask);
        break;
    default:
        change_block(mask, letters);
    }
}

void random_bytes(struct bytes *record, unsigned kind)
{
    record->len = 0;
    add_random(record, random_length());
    if (one_in(2)) {
        put_length(record);
        put(record, AT_KIND, one_in(4) ? 3 - kind : kind, 2);
    }
}
