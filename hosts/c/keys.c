/* Which keys are lit: see keys.h. */
#include "keys.h"

#include "fekhvina.h"

#include <string.h>

/*
 * How typing changes the mask. The typed letters can often be cut into the blocks in more than one way: in {+-} 0-2, {-} 1-1 a
 * first '-' may stand in either block. So every cut is followed, as far as it matters: a remainder is the block where a cut of
 * the typed letters ends, and how many letters of it are used. Its mask is the typed letters, each a block 1-1, then this block
 * with its bounds lowered by what is used, then the blocks behind it. The masks of the remainders together spell just those
 * codes of the mask that begin with the typed letters.
 *
 * Which keys are lit. Where a legal code has c behind the typed letters, a cut puts c in some block, behind the letters used of
 * it: in a remainder. There one letter of the block is split off, as a block 1-1, which is a mandatory place that c stands in.
 * By demand 3 the set that place returns for it is exactly the letters that a legal code of this mask, in some cut, has there.
 * So the union of these sets is exactly the keys that lead to a legal code: none of those is grey, and no other is lit.
 *
 * No mask made here is refused: each of its blocks has u > 0, and its uppers sum to no more than those of the mask, so to at
 * most 1,024.
 */
struct remainder {
    unsigned block, used;
};

void form_open(struct form *form, const struct bytes *book, const struct bytes *mask)
{
    static const struct block end = {0, 0, 0};
    unsigned count = mask_blocks(mask, form->blocks);
    form->book = book;
    form->mask = mask;
    form->count = 0;
    form->len = 0;
    for (unsigned i = 0; i < count; i++) {
        if (form->blocks[i].upper > 0) {
            form->blocks[form->count++] = form->blocks[i];
        }
    }
    form->blocks[form->count] = end;
}

/* How many of the letters from this one on a block can spell. */
static unsigned run(const struct form *form, unsigned from, const struct block *block)
{
    unsigned letters = 0;
    while (from + letters < form->len && letters < block->upper && block->set >> form->typed[from + letters] & 1) {
        letters++;
    }
    return letters;
}

/* The remainders, block by block up to the end; gives how many. Each block has at most u + 1. */
static unsigned find_remainders(const struct form *form, struct remainder *to)
{
    uint8_t before[MOST + 1] = {1}, behind[MOST + 1]; /* whether the blocks before, with this one, spell so many letters */
    unsigned count = 0;
    for (unsigned i = 0; i <= form->count; i++) {
        memset(behind, 0, sizeof behind);
        for (unsigned from = 0; from <= form->len; from++) {
            if (!before[from]) {
                continue;
            }
            unsigned most = run(form, from, &form->blocks[i]);
            if (from + most == form->len) {
                to[count].block = i;
                to[count++].used = most;
            }
            for (unsigned used = form->blocks[i].lower; used <= most; used++) {
                behind[from + used] = 1;
            }
        }
        memcpy(before, behind, sizeof before);
    }
    return count;
}

/* The mask of a remainder, with the next letter split off its block or not. */
static void remainder_mask(struct bytes *to, const struct form *form, struct remainder remainder, int split)
{
    static struct block blocks[MOST];
    struct block rest = form->blocks[remainder.block];
    unsigned count = 0, used = remainder.used;
    for (; count < form->len; count++) {
        struct block letter = {LETTER(form->typed[count]), 1, 1};
        blocks[count] = letter;
    }
    if (split) {
        struct block next = {rest.set, 1, 1};
        blocks[count++] = next;
        used++;
    }
    rest.lower = (uint16_t)(rest.lower > used ? rest.lower - used : 0);
    rest.upper = (uint16_t)(rest.upper - used);
    if (rest.upper > 0) {
        blocks[count++] = rest;
    }
    for (unsigned i = remainder.block + 1; i < form->count; i++) {
        blocks[count++] = form->blocks[i];
    }
    mask_record(to, blocks, count);
}

/* ---- the verdict */

/* What narrow answered for the masks of the remainders so far. */
struct narrowed {
    unsigned masks, all;     /* how many masks, and how many with the verdict all */
    unsigned answers, alike; /* how many with an answer, so not none, and how many of these equal the first */
    struct bytes first;
};

static void narrow(struct narrowed *narrowed, const struct bytes *book, const struct bytes *mask)
{
    static struct bytes answer;
    const size_t room = 6 + 12 * MOST;
    unsigned verdict = fekhvina_narrow_verdict(book->at, book->len, mask->at, mask->len, answer.at, room);
    answer.len = fekhvina_narrow_bytes(book->at, book->len, mask->at, mask->len, answer.at, room);
    narrowed->masks++;
    narrowed->all += verdict == ALL;
    if (verdict == NONE) {
        return;
    }
    if (narrowed->answers++ == 0) {
        narrowed->first.len = answer.len;
        memcpy(narrowed->first.at, answer.at, answer.len);
    }
    narrowed->alike += answer.len == narrowed->first.len && memcmp(answer.at, narrowed->first.at, answer.len) == 0;
}

/* Whether a mask has one letter and l = u in each block. */
static int is_one_code(const struct bytes *mask)
{
    static struct block blocks[MOST];
    unsigned count = mask_blocks(mask, blocks), fixed = 0;
    for (unsigned i = 0; i < count; i++) {
        uint64_t set = blocks[i].set;
        fixed += set != 0 && (set & (set - 1)) == 0 && blocks[i].lower == blocks[i].upper;
    }
    return fixed == count;
}

/* 01's verdicts, the first that fits, of the masks together. */
static enum verdict verdict_of(const struct narrowed *narrowed)
{
    if (narrowed->answers == 0) {
        return NONE;
    }
    if (narrowed->all == narrowed->masks) {
        return ALL;
    }
    return narrowed->alike == narrowed->answers && is_one_code(&narrowed->first) ? ONE : SOME;
}

/* ---- the form */

static int is_legal(const struct form *form)
{
    const struct bytes *book = form->book, *mask = form->mask;
    return fekhvina_try_mask(book->at, book->len, mask->at, mask->len, form->typed, form->len)
        && fekhvina_try_book(book->at, book->len, mask->at, mask->len, form->typed, form->len);
}

void form_keys(const struct form *form, struct keys *keys)
{
    static struct remainder remainders[2 * MOST + 1];
    static struct narrowed narrowed;
    static struct bytes mask;
    const struct bytes *book = form->book;
    unsigned count = find_remainders(form, remainders);
    narrowed.masks = narrowed.all = narrowed.answers = narrowed.alike = 0;
    keys->lit = 0;
    for (unsigned i = 0; i < count; i++) {
        struct remainder remainder = remainders[i];
        const struct block *block = &form->blocks[remainder.block];
        int holds_last = remainder.used > 0 || remainder.block == 0; /* the last letter, or nothing is typed */
        if (holds_last && verdict_of(&narrowed) != SOME) { /* some stays some */
            remainder_mask(&mask, form, remainder, 0);
            narrow(&narrowed, book, &mask);
        }
        if (remainder.used < block->upper && (block->set & ~keys->lit) != 0) {
            remainder_mask(&mask, form, remainder, 1);
            keys->lit |= fekhvina_place_set(book->at, book->len, mask.at, mask.len, form->len + 1, 1);
        }
    }
    keys->verdict = verdict_of(&narrowed);
    keys->legal = is_legal(form);
}
