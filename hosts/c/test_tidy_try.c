/* Tries the C entries of tidy and try: see test.h. */
#include "books.h"
#include "faults.h"
#include "fekhvina.h"
#include "lent.h"
#include "record.h"
#include "stack.h"
#include "test.h"

#include <stdio.h>
#include <string.h>

/* ---- tidy */

/* Whether both entries say what is expected, and do it, with an answer buffer of this length. */
static int tidy_is(const uint8_t *mask, size_t mask_len, size_t out_len, uint32_t refusal, const struct bytes *answer)
{
    size_t written = refusal == 0 ? answer->len : 0;
    uint32_t got = fekhvina_tidy_refusal(mask, mask_len, lent_out(out_len), out_len);
    int holds = got == refusal && lent_out_is(out_len, answer->at, written);
    got = fekhvina_tidy_bytes(mask, mask_len, lent_out(out_len), out_len);
    return holds && got == written && lent_out_is(out_len, answer->at, written);
}

static struct bytes in, answer;

/* A mask, in `in`, and its normal form, in `answer`: buffers of the needed size, of one byte more, of many more, of one less,
   and of none. What was written is its own normal form. */
static void tidies(const char *name)
{
    const uint8_t *mask = lent_copy(MASK, in.at, in.len);
    size_t need = answer.len;
    int holds = tidy_is(mask, in.len, need, 0, &answer) && tidy_is(mask, in.len, need + 1, 0, &answer)
        && tidy_is(mask, in.len, need + 1000, 0, &answer) && tidy_is(mask, in.len, need - 1, 10, &answer)
        && tidy_is(mask, in.len, 0, 10, &answer);
    holds = holds && unchanged(mask, &in);
    mask = lent_copy(MASK, answer.at, answer.len);
    count("tidy", name, holds && tidy_is(mask, need, need, 0, &answer));
}

struct tidy_case {
    const char *name;
    unsigned count;
    struct block mask[6];
    unsigned answer_count;
    struct block answer[6];
};

static const struct tidy_case tidy_cases[] = {
    {"no blocks", 0, {{0, 0, 0}}, 0, {{0, 0, 0}}},
    {"one block stays", 1, {{7, 0, 2}}, 1, {{7, 0, 2}}},
    {"u = 0 is dropped", 1, {{7, 0, 0}}, 0, {{0, 0, 0}}},
    {"an empty set with l = 0 is dropped", 1, {{0, 0, 5}}, 0, {{0, 0, 0}}},
    {"an empty set with l > 0 stays", 1, {{0, 1, 1}}, 1, {{0, 1, 1}}},
    {"an empty set with l > 0 stays between others", 3, {{1, 0, 1}, {0, 2, 3}, {1, 0, 1}}, 3, {{1, 0, 1}, {0, 2, 3}, {1, 0, 1}}},
    {"two empty sets with l > 0 are joined", 2, {{0, 1, 1}, {0, 2, 3}}, 1, {{0, 3, 4}}},
    {"an empty set with l = 0 is not joined", 2, {{0, 1, 1}, {0, 0, 3}}, 1, {{0, 1, 1}}},
    {"equal neighbours are joined", 2, {{1, 1, 2}, {1, 0, 3}}, 1, {{1, 1, 5}}},
    {"other neighbours are not", 2, {{1, 1, 2}, {3, 0, 3}}, 2, {{1, 1, 2}, {3, 0, 3}}},
    {"equal blocks apart are not", 3, {{1, 1, 1}, {2, 1, 1}, {1, 1, 1}}, 3, {{1, 1, 1}, {2, 1, 1}, {1, 1, 1}}},
    {"joining comes after dropping", 3, {{1, 0, 1}, {2, 0, 0}, {1, 0, 1}}, 1, {{1, 0, 2}}},
    {"joining comes after dropping, an empty set", 3, {{1, 0, 1}, {0, 0, 9}, {1, 1, 1}}, 1, {{1, 1, 2}}},
    {"bounds add up over many", 5, {{1, 1, 2}, {1, 3, 5}, {1, 7, 11}, {1, 13, 17}, {1, 19, 23}}, 1, {{1, 43, 58}}},
    {"every second one is dropped", 6, {{1, 1, 1}, {2, 0, 0}, {1, 0, 1}, {0, 0, 1}, {4, 1, 1}, {4, 0, 0}}, 2, {{1, 1, 2}, {4, 1, 1}}},
    {"letter 63", 2, {{LETTER(63), 1, 1}, {LETTER(63), 1, 1}}, 1, {{LETTER(63), 2, 2}}},
    {"sets that differ in letter 63 alone", 2, {{LETTER(63) | 1, 1, 1}, {1, 1, 1}}, 2, {{LETTER(63) | 1, 1, 1}, {1, 1, 1}}},
    {"all letters, 1,024 of them", 1, {{UINT64_MAX, 1024, 1024}}, 1, {{UINT64_MAX, 1024, 1024}}},
    {"bounds of both bytes", 2, {{1, 255, 256}, {1, 2, 300}}, 1, {{1, 257, 556}}},
};

static void tidy_tables(void)
{
    for (size_t i = 0; i < sizeof tidy_cases / sizeof tidy_cases[0]; i++) {
        const struct tidy_case *c = &tidy_cases[i];
        mask_record(&in, c->mask, c->count);
        mask_record(&answer, c->answer, c->answer_count);
        tidies(c->name);
    }
    struct block none = {1, 0, 0}, once = {1, 0, 1}, other = {2, 0, 1}, many = {1, 0, 1024};
    mask_repeated(&in, none, none, 1024);
    mask_record(&answer, NULL, 0);
    tidies("1,024 blocks with u = 0");
    mask_repeated(&in, once, once, 1024);
    mask_record(&answer, &many, 1);
    tidies("1,024 equal blocks");
    mask_repeated(&in, once, other, 1024);
    mask_repeated(&answer, once, other, 1024);
    tidies("1,024 blocks, neighbours differ");
}

/* A mask, in `in`, that is refused: with no buffer, and with one that would do. */
static void tidy_refuses(const char *name, uint32_t refusal)
{
    const uint8_t *mask = lent_copy(MASK, in.at, in.len);
    count("tidy", name, tidy_is(mask, in.len, 0, refusal, &answer) && tidy_is(mask, in.len, 20000, refusal, &answer)
        && unchanged(mask, &in));
}

/* ---- try */

static struct bytes book, code;

/* Whether the three entries say so of `book`, `in` and `code`. */
static int try_is(uint32_t refusal, uint32_t spells, uint32_t accepts)
{
    const uint8_t *b = lent_copy(BOOK, book.at, book.len), *m = lent_copy(MASK, in.at, in.len);
    const uint8_t *c = lent_copy(CODE, code.at, code.len);
    return fekhvina_try_refusal(b, book.len, m, in.len, c, code.len) == refusal
        && fekhvina_try_mask(b, book.len, m, in.len, c, code.len) == spells
        && fekhvina_try_book(b, book.len, m, in.len, c, code.len) == accepts
        && unchanged(b, &book) && unchanged(m, &in) && unchanged(c, &code);
}

struct try_case {
    const char *name;
    const char *book;
    unsigned count;
    struct block mask[4];
    const char *code; /* letter numbers, in hex */
    uint32_t spells, accepts;
};

static const struct try_case try_cases[] = {
    {"A, a legal code of one letter", BOOK_A, 1, {{7, 0, 2}}, "00", 1, 1},
    {"A, a code of the mask that the book refuses", BOOK_A, 1, {{7, 0, 2}}, "00 01", 1, 0},
    {"A, a code of the book that the mask lacks", BOOK_A, 1, {{7, 0, 2}}, "00 01 02", 0, 1},
    {"A, neither", BOOK_A, 1, {{7, 0, 2}}, "01 01 01", 0, 0},
    {"A, no move: the dead state stays", BOOK_A, 1, {{7, 0, 9}}, "01 00", 1, 0},
    {"A, round the loop", BOOK_A, 1, {{7, 0, 9}}, "00 01 02 01 02", 1, 1},
    {"B, +", BOOK_B, 1, {{7, 2, 2}}, "00 02", 1, 1},
    {"B, -", BOOK_B, 1, {{7, 2, 2}}, "01 02", 1, 1},
    {"B, two blocks", BOOK_B, 2, {{3, 1, 1}, {4, 1, 1}}, "01 02", 1, 1},
    {"B, two blocks the other way round", BOOK_B, 2, {{4, 1, 1}, {3, 1, 1}}, "01 02", 0, 1},
    {"B, the empty code, no blocks", BOOK_B, 0, {{0, 0, 0}}, "", 1, 0},
    {"C, the empty code, no blocks", BOOK_C, 0, {{0, 0, 0}}, "", 1, 1},
    {"C, a letter, no blocks", BOOK_C, 0, {{0, 0, 0}}, "00", 0, 1},
    {"C, the empty code, {} 0-5", BOOK_C, 1, {{0, 0, 5}}, "", 1, 1},
    {"C, the empty code, {} 1-1", BOOK_C, 1, {{0, 1, 1}}, "", 0, 1},
    {"C, a letter, {} 1-1", BOOK_C, 1, {{0, 1, 1}}, "00", 0, 1},
    {"C, greedy: {0} 0-2, {0} 1-1 spells 0 0", BOOK_C, 2, {{1, 0, 2}, {1, 1, 1}}, "00 00", 1, 1},
    {"C, lazy: {0} 1-2, {1} 1-1 spells 0 0 1", BOOK_C, 2, {{1, 1, 2}, {2, 1, 1}}, "00 00 01", 1, 1},
    {"C, greedy over three: {0} 0-2, {0,1} 0-2, {0} 2-2 spells 0 0 0", BOOK_C, 3, {{1, 0, 2}, {3, 0, 2}, {1, 2, 2}}, "00 00 00", 1, 1},
    {"C, lower bound met", BOOK_C, 1, {{1, 2, 3}}, "00 00", 1, 1},
    {"C, lower bound missed", BOOK_C, 1, {{1, 2, 3}}, "00", 0, 1},
    {"C, upper bound met", BOOK_C, 1, {{1, 2, 3}}, "00 00 00", 1, 1},
    {"C, upper bound passed", BOOK_C, 1, {{1, 2, 3}}, "00 00 00 00", 0, 1},
    {"C, a letter of another set in the middle", BOOK_C, 1, {{1, 0, 5}}, "00 01 00", 0, 1},
    {"C, a letter of another set at the end", BOOK_C, 1, {{1, 0, 5}}, "00 00 01", 0, 1},
    {"C, lower bounds that cross pieces: {0} 0-1, {1} 1-1, {0} 1-1", BOOK_C, 3, {{1, 0, 1}, {2, 1, 1}, {1, 1, 1}}, "00 01 00", 1, 1},
    {"C, u = 0 spells the empty row", BOOK_C, 3, {{1, 1, 1}, {2, 0, 0}, {1, 1, 1}}, "00 00", 1, 1},
};

static void try_tables(void)
{
    for (size_t i = 0; i < sizeof try_cases / sizeof try_cases[0]; i++) {
        const struct try_case *c = &try_cases[i];
        hex(&book, c->book);
        mask_record(&in, c->mask, c->count);
        hex(&code, c->code);
        count("try", c->name, try_is(0, c->spells, c->accepts));
    }
}

/* Codes of n equal letters, with the largest masks. */
static void try_long(const char *name, struct block even, struct block odd, unsigned blocks, size_t letters, uint32_t spells)
{
    hex(&book, BOOK_C);
    mask_repeated(&in, even, odd, blocks);
    code.len = letters;
    memset(code.at, 0, letters);
    count("try", name, try_is(0, spells, 1));
}

static void try_largest(void)
{
    struct block once = {1, 0, 1}, none = {1, 0, 0}, exact = {1, 1024, 1024}, most = {1, 0, 1024}, two = {3, 0, 1};
    try_long("1,024 blocks 0-1, 1,024 letters", once, once, 1024, 1024, 1);
    try_long("1,024 blocks 0-1 of two sets, 1,023 letters", once, two, 1024, 1023, 1);
    try_long("1,023 blocks 0-1, 1,024 letters", once, once, 1023, 1024, 0);
    try_long("1,024 blocks 0-0, no letter", none, none, 1024, 0, 1);
    try_long("1,024 blocks 0-0, one letter", none, none, 1024, 1, 0);
    try_long("one block 1024-1024, 1,024 letters", exact, exact, 1, 1024, 1);
    try_long("one block 1024-1024, 1,023 letters", exact, exact, 1, 1023, 0);
    try_long("one block 0-1024, 1,024 letters", most, most, 1, 1024, 1);
    try_long("one block 0-1024, no letter", most, most, 1, 0, 1);
}

/* ---- refusals */

static const struct block block_0 = {1, 0, 2}, block_2 = {4, 0, 2};

/* A good book, mask and code, of which a case spoils some. */
static void good(void)
{
    hex(&book, BOOK_C);
    mask_record(&in, &block_0, 1);
    hex(&code, "00 00");
}

static void refusals(void)
{
    for (const struct fault *f = mask_faults; f->name != NULL; f++) {
        good();
        hex(&in, f->bytes);
        tidy_refuses(f->name, f->refusal);
        count("try", f->name, try_is(f->refusal, 0, 0));
    }
    for (const struct fault *f = book_faults; f->name != NULL; f++) {
        good();
        hex(&book, f->bytes);
        count("try", f->name, try_is(f->refusal, 0, 0));
    }
}

/* A mask, and a book, of more bytes than a length field can say. */
static void too_long(void)
{
    good();
    memset(in.at + in.len, 0, 65536);
    in.len += 65536;
    tidy_refuses("65,554 bytes and a length field of 18", 1);
    count("try", "65,554 bytes and a length field of 18", try_is(1, 0, 0));
    good();
    memset(book.at + book.len, 0, 65536);
    book.len += 65536;
    count("try", "65,553 bytes and a length field of 17", try_is(1, 0, 0));
}

/* 9, 12 and 13, and the order of all. */
static void try_refusals(void)
{
    good();
    mask_record(&in, &block_2, 1);
    count("try", "a set with letter m", try_is(9, 0, 0));
    code.len = 1025;
    memset(code.at, 0, code.len);
    count("try", "a set with letter m and a code of 1,025 letters", try_is(9, 0, 0));
    good();
    code.len = 1025;
    memset(code.at, 0, code.len);
    count("try", "a code of 1,025 letters", try_is(12, 0, 0));
    memset(code.at, 2, code.len);
    count("try", "a code of 1,025 letters m", try_is(12, 0, 0));
    good();
    hex(&code, "02");
    count("try", "letter m", try_is(13, 0, 0));
    hex(&code, "00 00 00 FF");
    count("try", "letter 255 at the end", try_is(13, 0, 0));
    hex(&book, "01");
    hex(&in, "04 00 01 00");
    count("try", "a bad book, a bad mask and a bad code", try_is(1, 0, 0));
    hex(&book, BOOK_C);
    count("try", "a bad mask and a bad code", try_is(2, 0, 0));
    mask_record(&in, &block_2, 1);
    count("try", "a set with letter m and a bad code", try_is(9, 0, 0));
}

/* Empty slices may be null pointers. */
static void null_slices(void)
{
    good();
    mask_record(&in, NULL, 0);
    const uint8_t *b = book.at, *m = in.at;
    count("tidy", "a null mask and a null buffer", fekhvina_tidy_refusal(NULL, 0, NULL, 0) == 1 && fekhvina_tidy_bytes(NULL, 0, NULL, 0) == 0);
    count("tidy", "a null buffer", fekhvina_tidy_refusal(m, in.len, NULL, 0) == 10 && fekhvina_tidy_bytes(m, in.len, NULL, 0) == 0);
    count("try", "three null slices", fekhvina_try_refusal(NULL, 0, NULL, 0, NULL, 0) == 1 && fekhvina_try_mask(NULL, 0, NULL, 0, NULL, 0) == 0);
    count("try", "a null mask", fekhvina_try_refusal(b, book.len, NULL, 0, NULL, 0) == 1 && fekhvina_try_book(b, book.len, NULL, 0, NULL, 0) == 0);
    count("try", "a null code is the empty code", fekhvina_try_refusal(b, book.len, m, in.len, NULL, 0) == 0
        && fekhvina_try_mask(b, book.len, m, in.len, NULL, 0) == 1 && fekhvina_try_book(b, book.len, m, in.len, NULL, 0) == 1);
}

/* What is only read may overlap: the mask lies in the book's moves, and the code in the mask. */
static void overlaps(void)
{
    hex(&book, OVERLAP);
    const uint8_t *b = lent_copy(BOOK, book.at, book.len), *m = b + OVERLAP_MASK, *c = m + 1;
    count("try", "the mask in the book, the code in the mask", fekhvina_try_refusal(b, book.len, m, 18, c, 1) == 0
        && fekhvina_try_mask(b, book.len, m, 18, c, 1) == 1 && fekhvina_try_book(b, book.len, m, 18, c, 1) == 1
        && unchanged(b, &book));
    count("try", "the code is the mask", fekhvina_try_refusal(b, book.len, m, 18, m, 18) == 13);
}

/* The largest mask and code, with what the header says of the stack. */
static void largest_tidy(void)
{
    fekhvina_tidy_bytes(in.at, in.len, answer.at, in.len);
}

static void largest_try(void)
{
    fekhvina_try_mask(book.at, book.len, in.at, in.len, code.at, code.len);
}

static void stacks(void)
{
    struct block once = {1, 0, 1}, other = {2, 0, 1};
    hex(&book, BOOK_C);
    mask_repeated(&in, once, other, 1024);
    code.len = 1024;
    memset(code.at, 0, code.len);
    size_t tidy = stack_used(largest_tidy), try = stack_used(largest_try);
    printf("stack: tidy %zu bytes, try %zu bytes\n", tidy, try);
    count("tidy", "stack under 13 kB", tidy < 13000);
    count("try", "stack under 3 kB", try < 3000);
}

void test_tidy_try(void)
{
    tidy_tables();
    try_tables();
    try_largest();
    refusals();
    too_long();
    try_refusals();
    overlaps();
}

void test_tidy_try_once(void)
{
    null_slices();
    stacks();
}
