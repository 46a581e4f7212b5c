/*
 * Fekhvina, a mask narrower that is proved right: the operations of document 01 on numbers and byte slices, and narrow on a list
 * of blocks too.
 *
 * Link with target/staticlib/libfekhvina.a, which `make lib` writes once every function in it is proved.
 *
 * What holds of every function here:
 * - It is total: any bytes, any lengths, any numbers. It keeps nothing between calls and takes no memory but its stack.
 * - Each number of an answer comes from a call of its own, and each call does the whole operation, its writing included.
 * - A refused call touches no byte of the answer buffer, and its other numbers are 0. The refusal is the first check that
 *   fails, in the order that is given; README.md says what each number means.
 * - Bytes of the answer buffer behind what was written keep their contents.
 * - A slice is a pointer and a length. An empty slice may be a null pointer. The answer buffer may not overlap the other
 *   slices.
 */
#ifndef FEKHVINA_H
#define FEKHVINA_H

#include <stddef.h>
#include <stdint.h>

#ifdef __cplusplus
extern "C" {
#endif

/*
 * Narrow: writes the narrowed mask, as a mask record, over the first bytes of the answer buffer, and gives the verdict. A code
 * is legal where the mask spells it and the book accepts it. The narrowed mask spells every legal code and nothing that the
 * mask does not spell, and what it keeps in a mandatory place of the mask some legal code has there.
 *
 * Verdicts, the first that fits: 1 none (no code is legal), 2 all (the mask has a code, and all its codes are legal), 3 one
 * (each block of the narrowed mask has one letter, and equal bounds), 4 some.
 * Refusals, in order: 1 to 6 (the book), 1, 2, 3, 4, 5, 7, 8 (the mask), 9 (a set with a letter that the book lacks), 10 (the
 * answer buffer is shorter than the answer).
 * Touches: the first 6 + 12 * blocks bytes of out, where nothing is refused and the verdict is not none. None writes nothing,
 * and is never refused by 10: no buffer is needed to find it. An answer may be longer than the mask; an answer buffer of
 * 6 + 12 * 1024 bytes always suffices.
 * Cost: linear in the bytes of the records, and for each block and each mandatory place at most about one look at each move of
 * the book, most often far fewer: what letters do is worked out once (README.md, "Speed"). An optional part takes up to two
 * more for each letter it may have, or for each state where these are fewer.
 * Stack: under 43 kB.
 */

/* The refusal number, 0 for none. */
uint32_t fekhvina_narrow_refusal(const uint8_t *book, size_t book_len, const uint8_t *mask, size_t mask_len, uint8_t *out,
                                 size_t out_len);

/* The verdict: 1 none, 2 all, 3 one, 4 some; 0 where refused. */
uint32_t fekhvina_narrow_verdict(const uint8_t *book, size_t book_len, const uint8_t *mask, size_t mask_len, uint8_t *out,
                                 size_t out_len);

/* The number of bytes written, 0 where the verdict is none or the call is refused. */
uint32_t fekhvina_narrow_bytes(const uint8_t *book, size_t book_len, const uint8_t *mask, size_t mask_len, uint8_t *out,
                               size_t out_len);

/* A block of a mask: every row of at least lower and at most upper letters of set, which has bit c for letter c. It takes 16
   bytes: set at 0, lower at 8, upper at 10, and 4 bytes of padding, which are never looked at. */
struct fekhvina_block {
    uint64_t set;
    uint16_t lower;
    uint16_t upper;
};

/*
 * Narrow, with the mask lent as a list of its blocks: a pointer and their number. Where the list is not refused, it gives and
 * writes what the three functions above do for the mask record of these blocks. The answer is a mask record too.
 *
 * Refusals, in order: 1 to 6 (the book), 4 (more than 1,024 blocks), 7 (a lower above its upper), 8 (uppers that sum to more
 * than 1,024), 9 (a set with a letter that the book lacks), 10 (the answer buffer is shorter than the answer).
 * Touches: as narrow; of the list nothing. A list of no blocks may be a null pointer; others are aligned as the struct is.
 * Cost: as narrow, and copying the list. Stack: under 68 kB.
 */

/* The refusal number, 0 for none. */
uint32_t fekhvina_narrow_list_refusal(const uint8_t *book, size_t book_len, const struct fekhvina_block *blocks, size_t count,
                                      uint8_t *out, size_t out_len);

/* The verdict: 1 none, 2 all, 3 one, 4 some; 0 where refused. */
uint32_t fekhvina_narrow_list_verdict(const uint8_t *book, size_t book_len, const struct fekhvina_block *blocks, size_t count,
                                      uint8_t *out, size_t out_len);

/* The number of bytes written, 0 where the verdict is none or the call is refused. */
uint32_t fekhvina_narrow_list_bytes(const uint8_t *book, size_t book_len, const struct fekhvina_block *blocks, size_t count,
                                    uint8_t *out, size_t out_len);

/*
 * Tidy: writes the normal form of a mask, as a mask record, over the first bytes of the answer buffer. It drops blocks that
 * spell only the empty row, then joins neighbours with equal sets; it spells exactly what the mask spells.
 *
 * Refusals, in order: 1, 2, 3, 4, 5, 7, 8 (the mask), 10 (the answer buffer is shorter than the answer).
 * Touches: the first 6 + 12 * blocks bytes of out, where nothing is refused. An answer is never longer than the mask.
 * Cost: linear in the bytes of the mask. Stack: under 13 kB.
 */

/* The refusal number, 0 for none. */
uint32_t fekhvina_tidy_refusal(const uint8_t *mask, size_t mask_len, uint8_t *out, size_t out_len);

/* The number of bytes written, 0 where refused. */
uint32_t fekhvina_tidy_bytes(const uint8_t *mask, size_t mask_len, uint8_t *out, size_t out_len);

/*
 * Place: what narrow leaves of one place of one block of the mask, before it drops or joins blocks: its letters and bounds.
 * Blocks are numbered from 1. Places 1 to l of a block are the mandatory ones, with bounds 1, 1; place 0 is its optional part.
 * Where the verdict is none, the set is empty and the bounds are 0, 0.
 *
 * Refusals, in order: 1 to 6 (the book), 1, 2, 3, 4, 5, 7, 8 (the mask), 9 (a set with a letter that the book lacks), 11 (a
 * block number of 0 or above the number of blocks, or a place above the block's lower bound).
 * Touches: nothing.
 * Cost: as narrow. Stack: under 43 kB.
 */

/* The refusal number, 0 for none. */
uint32_t fekhvina_place_refusal(const uint8_t *book, size_t book_len, const uint8_t *mask, size_t mask_len, uint32_t block,
                                uint32_t place);

/* The set, bit c for letter c; 0 where the verdict is none or the call is refused. */
uint64_t fekhvina_place_set(const uint8_t *book, size_t book_len, const uint8_t *mask, size_t mask_len, uint32_t block,
                            uint32_t place);

/* The lower bound; 0 where the verdict is none or the call is refused. */
uint32_t fekhvina_place_lower(const uint8_t *book, size_t book_len, const uint8_t *mask, size_t mask_len, uint32_t block,
                              uint32_t place);

/* The upper bound; 0 where the verdict is none or the call is refused. */
uint32_t fekhvina_place_upper(const uint8_t *book, size_t book_len, const uint8_t *mask, size_t mask_len, uint32_t block,
                              uint32_t place);

/*
 * Try: whether the mask spells a code, and whether the book accepts it. A code has one letter number a byte. The two answers
 * do not depend on each other.
 *
 * Refusals, in order: 1 to 6 (the book), 1, 2, 3, 4, 5, 7, 8 (the mask), 9 (a set with a letter that the book lacks), 12 (a
 * code over 1,024 letters), 13 (a letter that the book lacks).
 * Touches: nothing.
 * Cost: linear in the bytes of the records, and one step for each pair of a block and a position of the code, of which there
 * is one more than letters. Stack: under 3 kB.
 */

/* The refusal number, 0 for none. */
uint32_t fekhvina_try_refusal(const uint8_t *book, size_t book_len, const uint8_t *mask, size_t mask_len,
                              const uint8_t *code, size_t code_len);

/* 1 where the mask spells the code, 0 where it does not or the call is refused. */
uint32_t fekhvina_try_mask(const uint8_t *book, size_t book_len, const uint8_t *mask, size_t mask_len,
                           const uint8_t *code, size_t code_len);

/* 1 where the book accepts the code, 0 where it does not or the call is refused. */
uint32_t fekhvina_try_book(const uint8_t *book, size_t book_len, const uint8_t *mask, size_t mask_len,
                           const uint8_t *code, size_t code_len);

#ifdef __cplusplus
}
#endif

#endif
