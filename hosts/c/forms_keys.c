/* Tries which keys are lit, by an enumeration of all codes of small masks, and on the longest masks: see forms.h. */
#include "forms.h"

#include "books.h"
#include "count.h"
#include "fekhvina.h"
#include "keys.h"
#include "random.h"

#include <stdio.h>

enum { CASES = 2000, OFTEN = 500, LONGEST_CODE = 6, START = 6, ACCEPTING = 7, MOVES = 15, NO_MOVE = 255 };

static struct bytes book, mask;
static struct form form;

/* ---- small books and masks, by the meaning alone */

static unsigned letters, longest; /* of the book; of the mask's codes, in letters */
static struct block blocks[4];
static unsigned block_count;

static void small_book(void)
{
    unsigned states = 1 + random_below(4), gaps = random_below(3); /* in five moves */
    letters = 1 + random_below(3);
    book.len = 0;
    add(&book, MOVES + states * letters, 2);
    add(&book, 1, 2);
    add(&book, states, 1);
    add(&book, letters, 1);
    add(&book, random_below(states), 1);
    add(&book, random_below(1u << states), 8);
    for (unsigned i = 0; i < states * letters; i++) {
        add(&book, random_below(5) < gaps ? NO_MOVE : random_below(states), 1);
    }
}

static void small_mask(void)
{
    unsigned left = LONGEST_CODE;
    block_count = random_below(5);
    for (unsigned i = 0; i < block_count; i++) {
        unsigned upper = random_below(left + 1 < 4 ? left + 1 : 4);
        left -= upper;
        blocks[i].set = random_below(1u << letters);
        if (random_below(3) > 0) {
            blocks[i].set |= LETTER(random_below(letters));
        }
        blocks[i].upper = (uint16_t)upper;
        blocks[i].lower = (uint16_t)random_below(upper + 1);
    }
    longest = LONGEST_CODE - left;
    mask_record(&mask, blocks, block_count);
}

/* Whether the blocks from this one on spell these letters, in some cut. */
static int spells(unsigned block, const uint8_t *word, unsigned len)
{
    if (block == block_count) {
        return len == 0;
    }
    for (unsigned piece = 0; piece <= blocks[block].upper && piece <= len; piece++) {
        if (piece >= blocks[block].lower && spells(block + 1, word + piece, len - piece)) {
            return 1;
        }
        if (piece < len && (blocks[block].set >> word[piece] & 1) == 0) {
            return 0;
        }
    }
    return 0;
}

static int accepts(const uint8_t *word, unsigned len)
{
    unsigned state = book.at[START];
    for (unsigned i = 0; i < len && state != NO_MOVE; i++) {
        state = book.at[MOVES + state * letters + word[i]];
    }
    return state != NO_MOVE && book.at[ACCEPTING] >> state & 1; /* fewer than 8 states */
}

/* ---- what the form shows, against the codes themselves */

/* The codes of the mask that begin with some letters. */
struct codes {
    unsigned all, legal;
};

static unsigned shown[SOME + 1]; /* how often each verdict was */

static int verdict_fits(enum verdict verdict, struct codes codes)
{
    shown[verdict]++;
    switch (verdict) {
    case NONE:
        return codes.legal == 0;
    case ALL:
        return codes.legal > 0 && codes.legal == codes.all;
    case ONE:
        return codes.legal == 1 && codes.all > 1;
    default:
        return codes.legal > 0 && codes.legal < codes.all;
    }
}

/* Counts the codes that begin with the typed letters, and clears `right` where the form shows anything else, also with more
   letters typed. */
static struct codes compare(int *right)
{
    struct codes codes = {0, 0};
    struct keys keys;
    unsigned len = form.len;
    uint64_t lit = 0;
    int legal = 0;
    if (spells(0, form.typed, len)) {
        legal = accepts(form.typed, len);
        codes.all = 1;
        codes.legal = (unsigned)legal;
    }
    for (unsigned letter = 0; letter < letters && len < longest; letter++) {
        form.typed[len] = (uint8_t)letter;
        form.len = len + 1;
        struct codes more = compare(right);
        codes.all += more.all;
        codes.legal += more.legal;
        lit |= more.legal > 0 ? LETTER(letter) : 0;
    }
    form.len = len;
    form_keys(&form, &keys);
    *right = *right && keys.lit == lit && keys.legal == legal && verdict_fits(keys.verdict, codes);
    return codes;
}

static void enumerated(void)
{
    char name[32];
    random_seed(7);
    for (int i = 1; i <= CASES; i++) {
        int right = 1;
        struct keys keys;
        small_book();
        small_mask();
        form_open(&form, &book, &mask);
        compare(&right);
        form_keys(&form, &keys);
        right = right && keys.verdict == fekhvina_narrow_verdict(book.at, book.len, mask.at, mask.len, mask.at + mask.len,
                                                                 sizeof mask.at - mask.len);
        snprintf(name, sizeof name, "random form %d", i);
        count("keys", name, right);
    }
    for (int verdict = NONE; verdict <= SOME; verdict++) {
        snprintf(name, sizeof name, "verdict %d was shown often", verdict);
        count("keys", name, shown[verdict] > OFTEN);
    }
}

/* ---- the longest masks */

/* What is shown when so many letters of 0 are typed. */
static void shows(const char *name, unsigned len, uint64_t lit, enum verdict verdict, int legal)
{
    struct keys keys;
    form_open(&form, &book, &mask);
    for (; form.len < len; form.len++) {
        form.typed[form.len] = 0;
    }
    form_keys(&form, &keys);
    count("keys", name, keys.lit == lit && keys.verdict == verdict && keys.legal == legal);
}

static void longest_masks(void)
{
    static struct block many[1024];
    struct block most = {1, 0, 1024}, zero = {1, 1, 1}, either = {3, 1, 1}, zeros = {1, 0, 512}, any = {3, 0, 512};
    hex(&book, BOOK_C);
    mask_record(&mask, &most, 1);
    shows("{0} 0-1024, nothing typed", 0, 1, ALL, 1);
    shows("{0} 0-1024, 1,023 letters", 1023, 1, ALL, 1);
    shows("{0} 0-1024, 1,024 letters", 1024, 0, ALL, 1);
    mask_repeated(&mask, zero, either, 1024);
    shows("1,024 places, nothing typed", 0, 1, ALL, 0);
    shows("1,024 places, 511 letters", 511, 3, ALL, 0);
    shows("1,024 places, 1,023 letters", 1023, 3, ALL, 0);
    mask_repeated(&mask, zeros, any, 2);
    shows("two blocks 0-512, 512 letters", 512, 3, ALL, 1);
    shows("two blocks 0-512, 513 letters", 513, 3, ALL, 1);
    shows("two blocks 0-512, 1,023 letters", 1023, 3, ALL, 1);
    many[0].set = 1;
    many[0].upper = 1000;
    for (int i = 1; i < 1024; i++) {
        many[i].set = 2;
        many[i].upper = i % 42 == 0;
    }
    mask_record(&mask, many, 1024);
    shows("1,024 blocks, many without letters, 1,000 letters", 1000, 2, ALL, 1);
}

void test_keys(void)
{
    enumerated();
    longest_masks();
}
