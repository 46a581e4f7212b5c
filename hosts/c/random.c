/* Random records for tests: see random.h. */
#include "random.h"

#include <string.h>

/* The bytes of the length and the kind. */
enum { HEAD = 4 };

static uint64_t state = 1;

void random_seed(uint64_t seed)
{
    state = seed * 2 + 1;
}

uint64_t random_number(void)
{
    state ^= state << 13;
    state ^= state >> 7;
    state ^= state << 17;
    return state * UINT64_C(0x9E3779B97F4A7C15);
}

unsigned random_below(unsigned n)
{
    return (unsigned)((random_number() >> 32) % n);
}

int one_in(unsigned n)
{
    return random_below(n) == 0;
}

unsigned one_of(const unsigned *numbers, size_t count)
{
    return numbers[random_below((unsigned)count)];
}

void random_book_of(struct bytes *to, unsigned states, unsigned letters, unsigned gaps, unsigned in)
{
    to->len = 0;
    add(to, 15 + states * letters, 2);
    add(to, 1, 2);
    add(to, states, 1);
    add(to, letters, 1);
    add(to, random_below(states), 1);
    add(to, (one_in(3) ? UINT64_MAX : random_number()) & (LETTER(states) - 1), 8);
    for (unsigned i = 0; i < states * letters; i++) {
        add(to, random_below(in) < gaps ? 255 : random_below(states), 1);
    }
}

void random_book(struct bytes *to)
{
    unsigned states = 1 + random_below(one_in(4) ? 63 : 6), letters = 1 + random_below(one_in(4) ? 64 : 6);
    unsigned gaps = random_below(4);
    random_book_of(to, states, letters, gaps, 5);
}

/* A set of the book's letters: all, one, or any. */
static uint64_t random_set(unsigned letters)
{
    uint64_t all = letters == 64 ? UINT64_MAX : LETTER(letters) - 1;
    return one_in(3) ? all : one_in(2) ? LETTER(random_below(letters)) : random_number() & all;
}

void random_mask(struct bytes *to, const struct bytes *book)
{
    static struct block blocks[1024];
    unsigned count = random_below(one_in(50) ? 1025 : one_in(4) ? 40 : 5), left = 1024;
    unsigned longest = one_in(20) ? 1025 : one_in(3) ? 20 : 4;
    for (unsigned i = 0; i < count; i++) {
        unsigned upper = random_below(longest);
        upper = upper < left ? upper : left;
        left -= upper;
        blocks[i].set = random_set(book->at[AT_LETTERS]);
        blocks[i].upper = (uint16_t)upper;
        blocks[i].lower = (uint16_t)(one_in(2) ? upper : random_below(upper + 1));
    }
    mask_record(to, blocks, count);
}

void random_damage(struct bytes *record)
{
    size_t len = record->len;
    switch (random_below(5)) {
    case 0:
        record->at[AT_KIND + random_below(2)] ^= (uint8_t)(1 + random_below(255));
        break;
    case 1:
        record->at[AT_COUNT + random_below(2)] ^= (uint8_t)(1 + random_below(255));
        break;
    case 2:
        record->at[HEAD + random_below((unsigned)len - HEAD)] = (uint8_t)random_below(256);
        break;
    case 3:
        len = HEAD + random_below((unsigned)len - HEAD);
        break;
    case 4:
        len += 1 + random_below(one_in(10) ? (unsigned)(LONGEST_RECORD - len) : 20);
        memset(record->at + record->len, (int)random_below(256), len - record->len);
    }
    record->len = len;
    put(record, 0, len, 2);
}
