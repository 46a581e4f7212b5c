/* Inputs for the comparison: see fuzz.h. */
#include "fuzz.h"

#include "random.h"

#include <string.h>

/* ---- good records */

/* A book of 63 states and 64 letters: the one of record.h, or one of random moves. */
static void large_book(struct bytes *book)
{
    largest_book(book);
    int any = one_in(2);
    for (size_t at = AT_MOVES; at < book->len && any; at++) {
        book->at[at] = (uint8_t)(one_in(3) ? 255 : random_below(63));
    }
}

/* A mask of 1,024 blocks 0-1 or 1-1, or of one or two blocks, whose uppers sum to 1,024. */
static void large_mask(struct bytes *mask, unsigned letters)
{
    uint64_t all = letters == 64 ? UINT64_MAX : LETTER(letters) - 1, some = one_in(2) ? all : all & random_number();
    unsigned lower = random_below(2), other_lower = random_below(2), first = one_in(2) ? MOST : random_below(MOST + 1);
    struct block once = {all, (uint16_t)lower, 1}, other = {some, (uint16_t)other_lower, 1};
    struct block whole = {all, (uint16_t)(lower * first), (uint16_t)first}, rest = {some, 0, (uint16_t)(MOST - first)};
    if (one_in(2)) {
        mask_repeated(mask, once, other, MOST);
    } else {
        mask_repeated(mask, whole, rest, first == MOST ? 1 : 2);
    }
}

static unsigned next_state(const struct bytes *book, unsigned state, unsigned letter)
{
    return state == 255 ? 255 : book->at[AT_MOVES + state * book->at[AT_LETTERS] + letter];
}

/* Makes the code one that the book accepts, where a walk of at most so many letters meets an accepting state. */
static void walk(struct input *in, unsigned longest)
{
    unsigned state = in->book.at[AT_START], m = in->book.at[AT_LETTERS];
    size_t accepted = 0;
    in->code.len = 0;
    for (unsigned attempts = longest; attempts > 0; attempts--) {
        unsigned letter = random_below(m), next = next_state(&in->book, state, letter);
        if (next != 255) {
            state = next;
            add(&in->code, letter, 1);
            accepted = get(&in->book, AT_ACCEPTING, 8) >> state & 1 ? in->code.len : accepted;
        }
    }
    in->code.len = accepted;
}

/* A mask that spells the code, which has at most 1,024 letters: its pieces, with more letters and wider bounds. */
static void mask_around(struct input *in)
{
    static struct block blocks[MOST];
    unsigned count = 0, left = MOST, m = in->book.at[AT_LETTERS], wide = random_below(3), longest = 1 + random_below(6);
    for (size_t at = 0; at < in->code.len || (count < MOST && one_in(3));) {
        uint64_t set = one_in(4) ? LETTER(random_below(m)) : 0;
        unsigned rest = (unsigned)(in->code.len - at), letters = random_below(longest + 1);
        letters = count + rest >= MOST ? 1 : letters < rest ? letters : rest;
        for (unsigned i = 0; i < letters; i++, at++) {
            set |= LETTER(in->code.at[at]);
        }
        unsigned more = random_below(wide + 1), fewer = random_below(wide + 1);
        more = more < left - rest ? more : left - rest;
        left -= letters + more;
        blocks[count].set = set;
        blocks[count].lower = (uint16_t)(letters - (fewer < letters ? fewer : letters));
        blocks[count++].upper = (uint16_t)(letters + more);
    }
    mask_record(&in->mask, blocks, count);
}

static void good_records(struct input *in)
{
    if (one_in(60)) {
        large_book(&in->book);
    } else {
        random_book(&in->book);
    }
    walk(in, one_in(60) ? MOST : one_in(4) ? 60 : 8);
    if (one_in(60)) {
        large_mask(&in->mask, in->book.at[AT_LETTERS]);
    } else if (one_in(2)) {
        random_mask(&in->mask, &in->book);
    } else {
        mask_around(in);
    }
}

/* ---- codes */

/* A letter of the set, which is not empty; where there is one, with a move from the state. */
static unsigned letter_of(const struct bytes *book, uint64_t set, unsigned state)
{
    unsigned m = book->at[AT_LETTERS], letter = random_below(m);
    for (unsigned attempts = 0; attempts < 2 * m; attempts++) {
        letter = (letter + 1) % m;
        if (set >> letter & 1 && (attempts >= m || next_state(book, state, letter) != 255)) {
            break;
        }
    }
    return letter;
}

/* A code that the good mask spells, where it spells one; the good book has moves for it, as far as they can be followed. */
static void spelled_code(struct input *in)
{
    unsigned state = in->book.at[AT_START], style = random_below(3);
    in->code.len = 0;
    for (size_t at = AT_BLOCKS; at < in->mask.len; at += BLOCK_SIZE) {
        uint64_t set = get(&in->mask, at, 8);
        unsigned l = get(&in->mask, at + AT_LOWER, 2), u = get(&in->mask, at + AT_UPPER, 2);
        unsigned letters = set == 0 || style == 0 ? l : style == 1 ? u : l + random_below(u - l + 1);
        for (; letters > 0 && set != 0; letters--) {
            unsigned letter = letter_of(&in->book, set, state);
            state = next_state(&in->book, state, letter);
            add(&in->code, letter, 1);
        }
    }
}

/* Any letters of the good book. */
static void any_code(struct input *in, size_t len)
{
    unsigned letters = one_in(4) ? 1 : in->book.at[AT_LETTERS];
    in->code.len = 0;
    while (in->code.len < len) {
        add(&in->code, random_below(letters), 1);
    }
}

/* The code of the walk, or another. */
static void random_code(struct input *in)
{
    unsigned m = in->book.at[AT_LETTERS];
    if (one_in(20)) {
        any_code(in, one_in(50) ? LONGEST : ONE_OF(1023, 1024, 1024, 1025, 1026, 2048));
    } else if (one_in(4)) {
        any_code(in, random_below(one_in(4) ? 200 : 6));
    } else if (one_in(2)) {
        spelled_code(in);
    }
    if (one_in(4) && in->code.len < LONGEST) {
        add(&in->code, random_below(m), 1);
    }
    if (one_in(4) && in->code.len > 0) {
        unsigned at = random_below((unsigned)in->code.len);
        put(&in->code, at, ONE_OF(0, m - 1, m - 1, m, 64, 255), 1);
    }
    if (one_in(10) && in->code.len > 0) {
        in->code.len -= 1 + random_below((unsigned)in->code.len);
    }
}

/* ---- inputs */

/* A mask that lies in the moves of a book: most of its bytes name a state. */
static void mask_in_book(struct input *in)
{
    unsigned letters = in->book.at[AT_LETTERS], n = 63;
    size_t need = in->mask.len;
    in->book.len = AT_MOVES;
    put(&in->book, AT_STATES, n, 1);
    while (in->book.len < AT_MOVES + n * letters) {
        add(&in->book, random_below(n), 1);
    }
    put(&in->book, 0, in->book.len, 2);
    if (need <= n * letters) {
        in->mask_in_book = AT_MOVES + random_below((unsigned)(n * letters - need) + 1);
        memcpy(in->book.at + in->mask_in_book, in->mask.at, need);
    }
}

/* A code that lies in the book's slice, most often in its moves. */
static void code_in_book(struct input *in)
{
    unsigned len = (unsigned)in->book.len, from = one_in(4) ? 0 : AT_MOVES;
    in->code_in_book = from + random_below(len - from + 1);
    in->code.len = random_below((unsigned)(len - in->code_in_book) + 1);
    memcpy(in->code.at, in->book.at + in->code_in_book, in->code.len);
}

/* One record as both, in the same memory or not; both exchanged; or empty ones. */
static void exchange(struct input *in)
{
    static struct bytes kept;
    switch (random_below(4)) {
    case 0:
        in->mask_in_book = 0;
        in->mask = in->book;
        break;
    case 1:
        in->book = in->mask;
        break;
    case 2:
        kept = in->book;
        in->book = in->mask;
        in->mask = kept;
        break;
    case 3:
        in->mask.len = one_in(2) ? in->mask.len : 0;
        in->book.len = one_in(2) ? in->book.len : 0;
        break;
    }
}

/* Spoils the records of an input, three times in four. */
static void spoil(struct input *in)
{
    unsigned letters = in->book.at[AT_LETTERS], kind = random_below(16), in_book = one_in(3);
    if (kind == 0) {
        exchange(in);
    } else if (kind == 1) {
        random_bytes(in_book ? &in->book : &in->mask, in_book ? 1 : 2);
    } else if (kind == 2) {
        random_damage(in_book ? &in->book : &in->mask);
    } else if (kind == 3) {
        mask_in_book(in);
    } else if (kind == 4) {
        code_in_book(in);
    } else if (kind <= 11) {
        for (unsigned faults = 1 + random_below(3); faults > 0; faults--) {
            if (in_book) {
                damage_book(&in->book);
            } else {
                damage_mask(&in->mask, letters);
            }
            in_book ^= one_in(4);
        }
    }
}

/* A block number and a place, beside what the mask has. */
static void random_place(struct input *in)
{
    unsigned count = get(&in->mask, AT_COUNT, 2), any = (unsigned)random_number();
    int odd = one_in(4) || count == 0;
    in->block = odd ? ONE_OF(0, 1, count, count + 1, 65536, 65537, UINT32_MAX, any) : 1 + random_below(count);
    unsigned l = in->block - 1 < count ? get(&in->mask, AT_BLOCKS + BLOCK_SIZE * (size_t)(in->block - 1) + AT_LOWER, 2) : 0;
    in->place = one_in(3) ? ONE_OF(0, 0, 1, l, l + 1, 65536, 65536 + l, UINT32_MAX, any) : random_below(l + 1);
}

void random_input(struct input *in)
{
    in->mask_in_book = in->code_in_book = APART;
    in->null = one_in(2);
    in->way = (enum way)random_below(WAYS);
    good_records(in);
    random_code(in);
    spoil(in);
    random_place(in);
    in->padding = (uint8_t)random_below(256);
}

void change_input(struct input *in)
{
    if (in->mask_in_book != APART || in->code_in_book != APART) {
        return;
    }
    switch (random_below(4)) {
    case 0:
        change_book(&in->book);
        break;
    case 1:
        change_block(&in->mask, get(&in->book, AT_LETTERS, 1));
        break;
    case 2:
        flip_bit(one_in(2) ? &in->book : &in->mask);
        break;
    case 3:
        flip_bit(&in->code);
        break;
    }
}

size_t random_room(size_t needed)
{
    unsigned need = (unsigned)needed, less = random_below(need + 1), more = need + random_below(40);
    unsigned most = AT_BLOCKS + BLOCK_SIZE * MOST;
    return ONE_OF(0, need, need, need, need, need, need + 1, need - (need > 0), less, more, 5, 6, most);
}
