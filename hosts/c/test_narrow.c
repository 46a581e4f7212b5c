/* Tries the C entries of narrow and place: see test.h. Those of narrow that take a list are given the same masks. */
#include "books.h"
#include "faults.h"
#include "fekhvina.h"
#include "lent.h"
#include "narrow_calls.h"
#include "record.h"
#include "stack.h"
#include "test.h"

#include <stdio.h>
#include <string.h>

/* ---- heights */

#define PLUS LETTER(0)
#define MINUS LETTER(1)
#define SIGNS (PLUS | MINUS)
#define DIGIT(d) LETTER((d) + 2)
#define DIGITS UINT64_C(0xFFC)
#define UP_TO_1 (DIGIT(0) | DIGIT(1))
#define UP_TO_2 (UP_TO_1 | DIGIT(2))

/* ---- narrow */

/* Counts a case of the entries that take a record, and one of those that take a list. */
static void count_both(const char *name, int record, int list)
{
    count("narrow", name, record);
    count("narrow, list", name, list);
}

static int both_are(size_t out_len, uint32_t refusal, uint32_t verdict, size_t written)
{
    return record_is(out_len, refusal, verdict, written) && list_is(out_len, refusal, verdict, written);
}

/* With no buffer, one too short for any record, and one that would do. */
static int finds_none(narrowing *is)
{
    return is(0, 0, NONE, 0) && is(5, 0, NONE, 0) && is(20000, 0, NONE, 0);
}

/* `book` and `in` have no legal code. */
static void narrows_to_none(const char *name)
{
    count_both(name, finds_none(record_is), finds_none(list_is));
}

/* With buffers of the needed size, of one byte more, of many more, of one less, and of none. */
static int finds(narrowing *is, uint32_t verdict)
{
    size_t need = answer.len;
    return is(need, 0, verdict, need) && is(need + 1, 0, verdict, need) && is(need + 1000, 0, verdict, need)
        && is(need - 1, 10, 0, 0) && is(0, 10, 0, 0);
}

/* The narrowed mask of `book` and `in` is in `answer`. Where `again` is not 0, narrowing the answer gives that verdict and the
   answer itself. */
static void narrows(const char *name, uint32_t verdict, uint32_t again)
{
    int record = finds(record_is, verdict), list = finds(list_is, verdict);
    if (again != 0) {
        size_t need = in.len = answer.len;
        memcpy(in.at, answer.at, need);
        record = record && record_is(need, 0, again, need);
        list = list && list_is(need, 0, again, need);
    }
    count_both(name, record, list);
}

struct narrow_case {
    const char *name;
    const char *book;
    unsigned count;
    struct block mask[5];
    uint32_t verdict;
    unsigned answer_count;
    struct block answer[5];
    uint32_t again; /* the verdict on the answer, which then stays as it is; 0 where there is none, or it narrows on */
};

static const struct narrow_case narrow_cases[] = {
    /* 01's trials; the last is with the refusals */
    {"A, {0,1,2} 0-2", BOOK_A, 1, {{7, 0, 2}}, SOME, 1, {{7, 1, 2}}, 0},
    {"A, {0,1,2} 1-1: the dead state counts", BOOK_A, 1, {{7, 1, 1}}, ONE, 1, {{1, 1, 1}}, ALL},
    {"B, {0,1,2} 2-2: + and - stay", BOOK_B, 1, {{7, 2, 2}}, SOME, 2, {{3, 1, 1}, {4, 1, 1}}, ALL},
    {"B, {0,1} 1-1, {2} 1-1", BOOK_B, 2, {{3, 1, 1}, {4, 1, 1}}, ALL, 2, {{3, 1, 1}, {4, 1, 1}}, ALL},
    {"B, {1} 1-1, {0,2} 1-1", BOOK_B, 2, {{2, 1, 1}, {5, 1, 1}}, ONE, 2, {{2, 1, 1}, {4, 1, 1}}, ALL},
    {"B, {2} 1-3", BOOK_B, 1, {{4, 1, 3}}, NONE, 0, {{0, 0, 0}}, 0},
    {"B, no blocks", BOOK_B, 0, {{0, 0, 0}}, NONE, 0, {{0, 0, 0}}, 0},
    {"C, no blocks", BOOK_C, 0, {{0, 0, 0}}, ALL, 0, {{0, 0, 0}}, ALL},
    {"C, {} 1-1: no code is not all codes", BOOK_C, 1, {{0, 1, 1}}, NONE, 0, {{0, 0, 0}}, 0},
    {"C, {0} 1-2, {0} 0-3", BOOK_C, 2, {{1, 1, 2}, {1, 0, 3}}, ALL, 1, {{1, 1, 5}}, ALL},
    {"C, {0} 0-1024", BOOK_C, 1, {{1, 0, 1024}}, ALL, 1, {{1, 0, 1024}}, ALL},
    /* narrowing the first of them on and on */
    {"A, {0,1,2} 1-2", BOOK_A, 1, {{7, 1, 2}}, SOME, 2, {{1, 1, 1}, {4, 0, 1}}, 0},
    {"A, {0} 1-1, {2} 0-1", BOOK_A, 2, {{1, 1, 1}, {4, 0, 1}}, ONE, 1, {{1, 1, 1}}, ALL},
    /* mandatory places */
    {"a second block is narrowed", BOOK_B, 2, {{3, 1, 1}, {7, 1, 1}}, SOME, 2, {{3, 1, 1}, {4, 1, 1}}, ALL},
    {"three places of a block", BOOK_A, 1, {{7, 3, 3}}, ONE, 3, {{1, 1, 1}, {2, 1, 1}, {4, 1, 1}}, ALL},
    {"three places and an optional part", BOOK_A, 1, {{7, 3, 5}}, SOME, 4, {{1, 1, 1}, {2, 1, 1}, {4, 1, 1}, {6, 0, 2}}, SOME},
    {"places and optional part are joined", BOOK_C, 1, {{1, 2, 5}}, ALL, 1, {{1, 2, 5}}, ALL},
    {"a place without letters", BOOK_C, 2, {{1, 1, 1}, {0, 1, 1}}, NONE, 0, {{0, 0, 0}}, 0},
    {"the dead state stays over a block", BOOK_A, 2, {{3, 1, 1}, {4, 0, 0}}, ONE, 1, {{1, 1, 1}}, ALL},
    {"the dead state comes from the last state alone", GAP, 1, {{3, 2, 2}}, SOME, 2, {{1, 1, 1}, {3, 1, 1}}, ALL},
    {"the states kept repeat, the states before do not", LOOP, 1, {{3, 3, 3}}, ONE, 2, {{1, 1, 1}, {2, 2, 2}}, ALL},
    {"the states before repeat, the states kept do not", FORK, 1, {{3, 4, 4}}, ONE, 3, {{2, 2, 2}, {1, 1, 1}, {2, 1, 1}}, ALL},
    /* optional parts */
    {"the dead state comes from the last state alone", GAP, 1, {{3, 0, 2}}, SOME, 1, {{3, 0, 2}}, SOME},
    {"lower bounds rise", BOOK_B, 2, {{3, 0, 2}, {4, 0, 2}}, SOME, 2, {{3, 1, 2}, {4, 1, 2}}, 0},
    {"what no code uses goes", BOOK_B, 2, {{3, 1, 2}, {4, 1, 2}}, SOME, 2, {{3, 1, 1}, {4, 1, 1}}, ALL},
    {"greedy: {0,1} 0-3, {1}, {2} has 0 1 2", BOOK_A, 3, {{3, 0, 3}, {2, 1, 1}, {4, 1, 1}}, SOME, 3, {{1, 1, 3}, {2, 1, 1}, {4, 1, 1}}, 0},
    {"greedy, narrowed on", BOOK_A, 3, {{1, 1, 3}, {2, 1, 1}, {4, 1, 1}}, ONE, 3, {{1, 1, 1}, {2, 1, 1}, {4, 1, 1}}, ALL},
    {"a letter with b(q) + 1 = u - l stays", BOOK_A, 2, {{3, 0, 2}, {7, 0, 2}}, SOME, 2, {{3, 0, 2}, {7, 0, 2}}, SOME},
    {"a letter with b(q) + 1 = u - l + 1 goes", BOOK_A, 2, {{3, 0, 2}, {7, 0, 1}}, SOME, 2, {{3, 0, 2}, {5, 0, 1}}, SOME},
    {"a lower bound that is the upper", RING, 1, {{1, 1, 5}}, ONE, 1, {{1, 5, 5}}, ALL},
    {"b passes only states of R", RING, 1, {{1, 0, 3}}, ONE, 0, {{0, 0, 0}}, ALL},
    {"one letter, but l < u", RING, 1, {{1, 0, 4}}, SOME, 1, {{1, 0, 4}}, SOME},
    {"0 and 0 1 2, but 0 1 too", BOOK_A, 3, {{1, 1, 1}, {2, 0, 1}, {4, 0, 1}}, SOME, 3, {{1, 1, 1}, {2, 0, 1}, {4, 0, 1}}, SOME},
    {"an optional part that no code uses", BOOK_A, 2, {{1, 1, 1}, {1, 0, 1}}, ONE, 1, {{1, 1, 1}}, ALL},
    /* the normal form and the verdict */
    {"joining comes after dropping", BOOK_C, 3, {{1, 0, 1}, {2, 0, 0}, {1, 0, 1}}, ALL, 1, {{1, 0, 2}}, ALL},
    {"joining comes after dropping, an empty set", BOOK_C, 3, {{1, 1, 1}, {0, 0, 3}, {1, 1, 1}}, ALL, 1, {{1, 2, 2}}, ALL},
    {"{} 0-5 has the empty code", BOOK_C, 1, {{0, 0, 5}}, ALL, 0, {{0, 0, 0}}, ALL},
    {"all comes before one", BOOK_C, 1, {{1, 1, 1}}, ALL, 1, {{1, 1, 1}}, ALL},
    {"A from state 1", "18 00 01 00 03 03 01 02 00 00 00 00 00 00 00 01 FF FF FF 02 FF FF FF 01", 1, {{6, 2, 2}}, ONE, 2, {{2, 1, 1}, {4, 1, 1}}, ALL},
    {"C without an accepting state", "11 00 01 00 01 02 00 00 00 00 00 00 00 00 00 00 00", 1, {{1, 0, 2}}, NONE, 0, {{0, 0, 0}}, 0},
    /* the height field: the minus sign stays where a height below zero is legal */
    {"heights", HEIGHTS, 2, {{SIGNS, 1, 1}, {DIGITS, 4, 4}}, SOME, 3, {{SIGNS, 1, 1}, {UP_TO_1, 1, 1}, {DIGITS, 3, 3}}, SOME},
    {"heights below zero", HEIGHTS, 2, {{MINUS, 1, 1}, {DIGITS, 4, 4}}, SOME, 4, {{MINUS, 1, 1}, {DIGIT(0), 1, 1}, {UP_TO_2, 1, 1}, {DIGITS, 2, 2}}, SOME},
    {"heights of 1,000 and more", HEIGHTS, 3, {{SIGNS, 1, 1}, {DIGIT(1), 1, 1}, {DIGITS, 3, 3}}, SOME, 4, {{PLUS, 1, 1}, {DIGIT(1), 1, 1}, {UP_TO_2, 1, 1}, {DIGITS, 2, 2}}, SOME},
    {"a height half filled in", HEIGHTS, 2, {{SIGNS, 0, 1}, {DIGITS, 0, 4}}, SOME, 2, {{SIGNS, 1, 1}, {DIGITS, 4, 4}}, 0},
    {"+0250 and -0250", HEIGHTS, 5, {{SIGNS, 1, 1}, {DIGIT(0), 1, 1}, {DIGIT(2), 1, 1}, {DIGIT(5), 1, 1}, {DIGIT(0), 1, 1}},
        ALL, 5, {{SIGNS, 1, 1}, {DIGIT(0), 1, 1}, {DIGIT(2), 1, 1}, {DIGIT(5), 1, 1}, {DIGIT(0), 1, 1}}, ALL},
    {"+0251 and not -0251", HEIGHTS, 5, {{SIGNS, 1, 1}, {DIGIT(0), 1, 1}, {DIGIT(2), 1, 1}, {DIGIT(5), 1, 1}, {DIGIT(1), 1, 1}},
        ONE, 5, {{PLUS, 1, 1}, {DIGIT(0), 1, 1}, {DIGIT(2), 1, 1}, {DIGIT(5), 1, 1}, {DIGIT(1), 1, 1}}, ALL},
    {"+0000 and not -0000", HEIGHTS, 2, {{SIGNS, 1, 1}, {DIGIT(0), 4, 4}}, ONE, 2, {{PLUS, 1, 1}, {DIGIT(0), 4, 4}}, ALL},
    {"the last digit is open", HEIGHTS, 3, {{SIGNS, 1, 1}, {DIGIT(0), 3, 3}, {DIGITS, 1, 1}}, SOME, 3, {{SIGNS, 1, 1}, {DIGIT(0), 3, 3}, {DIGITS, 1, 1}}, SOME},
    {"no height", HEIGHTS, 2, {{MINUS, 1, 1}, {DIGITS & ~DIGIT(0), 4, 4}}, NONE, 0, {{0, 0, 0}}, 0},
};

static void narrow_tables(void)
{
    for (size_t i = 0; i < sizeof narrow_cases / sizeof narrow_cases[0]; i++) {
        const struct narrow_case *c = &narrow_cases[i];
        hex(&book, c->book);
        mask_record(&in, c->mask, c->count);
        mask_record(&answer, c->answer, c->answer_count);
        if (c->verdict == NONE) {
            narrows_to_none(c->name);
        } else {
            narrows(c->name, c->verdict, c->again);
        }
    }
}

/* The longest masks and answers, and the largest book. */
static void narrow_largest(void)
{
    struct block none = {1, 0, 0}, once = {1, 1, 1}, other = {2, 1, 1}, both = {3, 1, 1};
    struct block maybe = {1, 0, 1}, other_maybe = {2, 0, 1}, exact = {3, 1024, 1024}, odd = {3, 1023, 1023};
    struct block most = {3, 0, 1024}, zeros = {1, 1024, 1024}, up_to = {1, 0, 1024}, from_one[] = {{3, 1, 1024}, {1, 1, 1}, {3, 1, 1023}};

    hex(&book, BOOK_C);
    mask_repeated(&in, once, other, 1024);
    mask_repeated(&answer, once, other, 1024);
    narrows("1,024 blocks, neighbours differ, all stay", ALL, ALL);
    mask_repeated(&in, once, once, 1024);
    mask_record(&answer, &zeros, 1);
    narrows("1,024 equal blocks 1-1", ALL, ALL);
    mask_repeated(&in, maybe, maybe, 1024);
    mask_record(&answer, &up_to, 1);
    narrows("1,024 equal blocks 0-1", ALL, ALL);
    mask_repeated(&in, none, none, 1024);
    mask_record(&answer, NULL, 0);
    narrows("1,024 blocks with u = 0", ALL, ALL);
    mask_record(&in, &exact, 1);
    mask_record(&answer, &exact, 1);
    narrows("1,024 places, all stay", ALL, ALL);

    hex(&book, BOOK_B);
    mask_repeated(&in, none, none, 1024);
    narrows_to_none("1,024 blocks with u = 0, the empty code not legal");

    hex(&book, TURNS);
    mask_repeated(&answer, once, other, 1024);
    mask_repeated(&in, both, both, 1024);
    narrows("1,024 blocks 1-1 to 1,024 blocks", ONE, ALL);
    mask_record(&in, &exact, 1);
    narrows("one block 1024-1024 to 1,024 blocks", ONE, ALL);
    mask_record(&in, &odd, 1);
    narrows_to_none("one block 1023-1023");
    mask_record(&in, &most, 1);
    mask_record(&answer, &most, 1);
    narrows("one block 0-1024", SOME, SOME);
    mask_record(&in, from_one, 1);
    mask_record(&answer, from_one + 1, 2);
    narrows("one block 1-1024", SOME, 0);
    mask_repeated(&in, maybe, other_maybe, 1024);
    mask_repeated(&answer, maybe, other_maybe, 1024);
    narrows("1,024 blocks 0-1, neighbours differ", SOME, SOME);

    struct block all = {UINT64_MAX, 63, 63}, fewer = {UINT64_MAX, 62, 63}, any = {UINT64_MAX, 0, 1024};
    struct block round[63], used = {~LETTER(62), 0, 1024};
    for (unsigned i = 0; i < 63; i++) {
        struct block letter = {LETTER(i < 62 ? i : 63), 1, 1};
        round[i] = letter;
    }
    largest_book(&book);
    mask_record(&in, &all, 1);
    mask_record(&answer, round, 63);
    narrows("63 states and 64 letters, round once", ONE, ALL);
    round[62].lower = 0;
    mask_record(&in, &fewer, 1);
    mask_record(&answer, round, 63);
    narrows("63 states and 64 letters, round or all but", SOME, ALL);
    mask_record(&in, &any, 1);
    mask_record(&answer, &used, 1);
    narrows("63 states and 64 letters, 0-1024", SOME, SOME);
}

/* ---- place */

/* Whether the four entries say so of `book`, `in`, a block and a place. */
static int place_is(uint32_t block, uint32_t place, uint32_t refusal, struct block entry)
{
    const uint8_t *b = lent_copy(BOOK, book.at, book.len), *m = lent_copy(MASK, in.at, in.len);
    return fekhvina_place_refusal(b, book.len, m, in.len, block, place) == refusal
        && fekhvina_place_set(b, book.len, m, in.len, block, place) == entry.set
        && fekhvina_place_lower(b, book.len, m, in.len, block, place) == entry.lower
        && fekhvina_place_upper(b, book.len, m, in.len, block, place) == entry.upper
        && unchanged(b, &book) && unchanged(m, &in);
}

static const struct block nothing = {0, 0, 0};

static int lacks(uint32_t block, uint32_t place)
{
    return place_is(block, place, 11, nothing);
}

struct place_case {
    const char *name;
    const char *book;
    unsigned count;
    struct block mask[3];
    struct block list[8]; /* block by block, its places 1 to l and then its optional part; all zero for none */
};

static const struct place_case place_cases[] = {
    {"A, {0,1,2} 0-2", BOOK_A, 1, {{7, 0, 2}}, {{7, 1, 2}}},
    {"A, {0,1,2} 1-1", BOOK_A, 1, {{7, 1, 1}}, {{1, 1, 1}, {0, 0, 0}}},
    {"A, {0,1,2} 1-2", BOOK_A, 1, {{7, 1, 2}}, {{1, 1, 1}, {4, 0, 1}}},
    {"A, {0,1,2} 3-5", BOOK_A, 1, {{7, 3, 5}}, {{1, 1, 1}, {2, 1, 1}, {4, 1, 1}, {6, 0, 2}}},
    {"A, {0,1} 0-3, {1} 1-1, {2} 1-1", BOOK_A, 3, {{3, 0, 3}, {2, 1, 1}, {4, 1, 1}}, {{1, 1, 3}, {2, 1, 1}, {0, 0, 0}, {4, 1, 1}, {0, 0, 0}}},
    {"A, {0,1} 0-2, {0,1,2} 0-1", BOOK_A, 2, {{3, 0, 2}, {7, 0, 1}}, {{3, 0, 2}, {5, 0, 1}}},
    {"B, {0,1,2} 2-2", BOOK_B, 1, {{7, 2, 2}}, {{3, 1, 1}, {4, 1, 1}, {0, 0, 0}}},
    {"B, {1} 1-1, {0,2} 1-1", BOOK_B, 2, {{2, 1, 1}, {5, 1, 1}}, {{2, 1, 1}, {0, 0, 0}, {4, 1, 1}, {0, 0, 0}}},
    {"B, {0,1} 0-2, {2} 0-2", BOOK_B, 2, {{3, 0, 2}, {4, 0, 2}}, {{3, 1, 2}, {4, 1, 2}}},
    {"B, {2} 1-3: none", BOOK_B, 1, {{4, 1, 3}}, {{0, 0, 0}}},
    {"C, {} 1-1: none", BOOK_C, 1, {{0, 1, 1}}, {{0, 0, 0}}},
    {"C, {0} 2-3, {} 1-1: none", BOOK_C, 2, {{1, 2, 3}, {0, 1, 1}}, {{0, 0, 0}}},
    {"C, {} 0-5", BOOK_C, 1, {{0, 0, 5}}, {{0, 0, 5}}},
    {"C, {0} 1-2, {0} 0-3: nothing is joined", BOOK_C, 2, {{1, 1, 2}, {1, 0, 3}}, {{1, 1, 1}, {1, 0, 1}, {1, 0, 3}}},
    {"C, {0} 0-1, {1} 0-0, {0} 0-1: nothing is dropped", BOOK_C, 3, {{1, 0, 1}, {2, 0, 0}, {1, 0, 1}}, {{1, 0, 1}, {0, 0, 0}, {1, 0, 1}}},
    {"C, no blocks: no place", BOOK_C, 0, {{0, 0, 0}}, {{0, 0, 0}}},
    {"B, no blocks: no place", BOOK_B, 0, {{0, 0, 0}}, {{0, 0, 0}}},
    {"ring, {0} 1-5", RING, 1, {{1, 1, 5}}, {{1, 1, 1}, {1, 4, 4}}},
    {"ring, {0} 0-3", RING, 1, {{1, 0, 3}}, {{0, 0, 3}}},
    {"heights", HEIGHTS, 2, {{SIGNS, 1, 1}, {DIGITS, 4, 4}},
        {{SIGNS, 1, 1}, {0, 0, 0}, {UP_TO_1, 1, 1}, {DIGITS, 1, 1}, {DIGITS, 1, 1}, {DIGITS, 1, 1}, {0, 0, 0}}},
    {"heights below zero", HEIGHTS, 2, {{MINUS, 1, 1}, {DIGITS, 4, 4}},
        {{MINUS, 1, 1}, {0, 0, 0}, {DIGIT(0), 1, 1}, {UP_TO_2, 1, 1}, {DIGITS, 1, 1}, {DIGITS, 1, 1}, {0, 0, 0}}},
};

/* Every place of every block, and what is no place: also where only the low 16 bits of a number would name one. */
static void place_tables(void)
{
    for (size_t i = 0; i < sizeof place_cases / sizeof place_cases[0]; i++) {
        const struct place_case *c = &place_cases[i];
        hex(&book, c->book);
        mask_record(&in, c->mask, c->count);
        const struct block *entry = c->list;
        int holds = 1;
        int refused = lacks(0, 0) && lacks(0, 1) && lacks(c->count + 1, 0) && lacks(c->count + 1, 1) && lacks(65536, 0)
            && lacks(65537, 0) && lacks(UINT32_MAX, 0) && lacks(UINT32_MAX, UINT32_MAX);
        for (uint32_t block = 1; block <= c->count; block++) {
            uint32_t lower = c->mask[block - 1].lower;
            for (uint32_t place = 1; place <= lower; place++) {
                holds = holds && place_is(block, place, 0, *entry++);
            }
            holds = holds && place_is(block, 0, 0, *entry++);
            refused = refused && lacks(block, lower + 1) && lacks(block, 65536) && lacks(block, 65536 + lower)
                && lacks(block, UINT32_MAX);
        }
        count("place", c->name, holds);
        count("place, 11", c->name, refused);
    }
}

/* The longest masks. */
static void place_largest(void)
{
    struct block both = {3, 1, 1}, exact = {3, 1024, 1024}, most = {3, 0, 1024}, none = {1, 0, 0};
    struct block zero = {1, 1, 1}, one = {2, 1, 1};
    struct block all = {UINT64_MAX, 63, 1024}, last = {LETTER(63), 1, 1}, used = {~LETTER(62), 0, 961};
    int holds = 1;
    hex(&book, TURNS);
    mask_repeated(&in, both, both, 1024);
    for (uint32_t i = 1; i <= 1024; i++) {
        holds = holds && place_is(i, 1, 0, i % 2 == 1 ? zero : one) && place_is(i, 0, 0, nothing) && lacks(i, 2);
    }
    count("place", "1,024 blocks 1-1", holds && lacks(1025, 1));
    holds = 1;
    mask_record(&in, &exact, 1);
    for (uint32_t j = 1; j <= 1024; j++) {
        holds = holds && place_is(1, j, 0, j % 2 == 1 ? zero : one);
    }
    count("place", "one block 1024-1024", holds && place_is(1, 0, 0, nothing) && lacks(1, 1025));
    mask_record(&in, &most, 1);
    count("place", "one block 0-1024", place_is(1, 0, 0, most) && lacks(1, 1) && lacks(1, 1024));
    mask_repeated(&in, none, none, 1024);
    count("place", "1,024 blocks with u = 0", place_is(1, 0, 0, nothing) && place_is(1024, 0, 0, nothing) && lacks(1025, 0));
    largest_book(&book);
    mask_record(&in, &all, 1);
    count("place", "63 states and 64 letters", place_is(1, 63, 0, last) && place_is(1, 0, 0, used) && lacks(1, 64));
}

/* Masks of every size. Book FORK has one code of each length: the last letter is 1, back from it 0 and 1 take turns to the
   second, and the first is the second again; that of one letter is 0. */
static void every_size(void)
{
    static struct block list[1024];
    struct block both = {3, 1, 1}, zero = {1, 0, 1}, one = {2, 0, 1};
    int in_one = 1, in_many = 1, optional = 1;
    for (unsigned size = 1; size <= 1024; size++) {
        struct block exact = {3, (uint16_t)size, (uint16_t)size};
        unsigned joined = 0;
        for (unsigned j = 1; j <= size; j++) {
            struct block letter = {(size - j) % 2 == (j > 1) ? 1 : 2, 1, 1};
            list[j - 1] = letter;
        }
        struct block first = list[0], last = list[size - 1];
        if (size > 1) {
            joined = 1;
            list[1].lower = list[1].upper = 2;
        }
        hex(&book, FORK);
        mask_record(&answer, list + joined, size - joined);
        mask_record(&in, &exact, 1);
        in_one = in_one && both_are(answer.len, 0, ONE, answer.len) && both_are(answer.len - 1, 10, 0, 0)
            && place_is(1, 1, 0, first) && place_is(1, size, 0, last) && place_is(1, 0, 0, nothing) && lacks(1, size + 1);
        mask_repeated(&in, both, both, size);
        in_many = in_many && both_are(answer.len, 0, ONE, answer.len) && both_are(answer.len - 1, 10, 0, 0)
            && place_is(1, 1, 0, first) && place_is(size, 1, 0, last) && place_is(size, 0, 0, nothing) && lacks(size + 1, 0);
        hex(&book, BOOK_C);
        mask_repeated(&answer, zero, one, size);
        mask_repeated(&in, zero, one, size);
        optional = optional && both_are(answer.len, 0, ALL, answer.len) && place_is(size, 0, 0, size % 2 == 1 ? zero : one);
    }
    count("narrow, list and place", "one block l-l, of every size", in_one);
    count("narrow, list and place", "blocks 1-1, of every number", in_many);
    count("narrow, list and place", "blocks 0-1, of every number", optional);
}

/* ---- refusals */

static const struct block block_0 = {1, 0, 2}, block_2 = {4, 0, 2};

/* A good book and mask, of which a case spoils some; its block 1 has a place 0 and no place 1. */
static void good(void)
{
    hex(&book, BOOK_C);
    mask_record(&in, &block_0, 1);
}

/* Place with a place that is there, and with what would be 11. */
static void record_refused(const char *name, uint32_t refusal)
{
    count("narrow", name, refuses(record_is, refusal));
    count("place", name, place_is(1, 0, refusal, nothing) && place_is(1, 1, refusal, nothing) && place_is(0, 0, refusal, nothing));
}

/* Where it is not the head of the mask's record that is refused. */
static void both_refused(const char *name, uint32_t refusal)
{
    record_refused(name, refusal);
    count("narrow, list", name, refuses(list_is, refusal));
}

static void bad_records(void)
{
    for (const struct fault *f = mask_faults; f->name != NULL; f++) {
        good();
        hex(&in, f->bytes);
        (f->refusal < 7 ? record_refused : both_refused)(f->name, f->refusal);
    }
    for (const struct fault *f = book_faults; f->name != NULL; f++) {
        good();
        hex(&book, f->bytes);
        both_refused(f->name, f->refusal);
        hex(&in, "04 00 01 00");
        record_refused("a bad mask besides: the book's fault decides", f->refusal);
    }
    good();
    memset(in.at + in.len, 0, 65536);
    in.len += 65536;
    record_refused("65,554 bytes and a length field of 18", 1);
    good();
    memset(book.at + book.len, 0, 65536);
    book.len += 65536;
    both_refused("65,553 bytes and a length field of 17", 1);
}

struct mask_case {
    const char *name;
    uint32_t refusal;
    unsigned count;
    struct block mask[2];
};

/* With book C, which has letters 0 and 1. */
static const struct mask_case mask_cases[] = {
    {"01's trial: {0} 0-1024, {1} 0-1", 8, 2, {{1, 0, 1024}, {2, 0, 1}}},
    {"a set with letter m", 9, 1, {{4, 0, 2}}},
    {"a set with letter 63", 9, 1, {{LETTER(63) | 1, 0, 2}}},
    {"a set with letter m in the last block", 9, 2, {{1, 0, 2}, {5, 1, 1}}},
    {"a set with letter m in a block with u = 0", 9, 2, {{4, 0, 0}, {1, 0, 1}}},
    {"a set with letter m, no legal code", 9, 2, {{4, 0, 2}, {0, 1, 1}}},
    {"letter m and bounds", 7, 1, {{4, 3, 2}}},
    {"letter m in the first block, bounds in the last", 7, 2, {{4, 0, 2}, {1, 1, 0}}},
    {"letter m and a sum", 8, 1, {{4, 0, 1025}}},
    {"letter m in the first block, a sum over both", 8, 2, {{4, 0, 1024}, {1, 0, 1}}},
};

static void order(void)
{
    for (size_t i = 0; i < sizeof mask_cases / sizeof mask_cases[0]; i++) {
        hex(&book, BOOK_C);
        mask_record(&in, mask_cases[i].mask, mask_cases[i].count);
        both_refused(mask_cases[i].name, mask_cases[i].refusal);
    }
    hex(&book, "11 00 01 00 01 02 01 01 00 00 00 00 00 00 00 00 00");
    mask_record(&in, &block_2, 1);
    both_refused("a start that is no state and a set with letter m", 6);
}

/* Empty slices may be null pointers; none needs no buffer. */
static void null_slices(void)
{
    good();
    const uint8_t *b = book.at, *m = in.at;
    count("narrow", "three null slices", fekhvina_narrow_refusal(NULL, 0, NULL, 0, NULL, 0) == 1
        && fekhvina_narrow_verdict(NULL, 0, NULL, 0, NULL, 0) == 0 && fekhvina_narrow_bytes(NULL, 0, NULL, 0, NULL, 0) == 0);
    count("narrow", "a null mask", fekhvina_narrow_refusal(b, book.len, NULL, 0, NULL, 0) == 1
        && fekhvina_narrow_verdict(b, book.len, NULL, 0, NULL, 0) == 0);
    count("narrow", "a null buffer", fekhvina_narrow_refusal(b, book.len, m, in.len, NULL, 0) == 10
        && fekhvina_narrow_verdict(b, book.len, m, in.len, NULL, 0) == 0 && fekhvina_narrow_bytes(b, book.len, m, in.len, NULL, 0) == 0);
    count("place", "two null slices", fekhvina_place_refusal(NULL, 0, NULL, 0, 1, 0) == 1 && fekhvina_place_set(NULL, 0, NULL, 0, 1, 0) == 0);
    count("place", "a null mask", fekhvina_place_refusal(b, book.len, NULL, 0, 1, 0) == 1 && fekhvina_place_upper(b, book.len, NULL, 0, 1, 0) == 0);
    hex(&book, BOOK_B);
    count("narrow", "none with a null buffer", fekhvina_narrow_refusal(b, book.len, m, in.len, NULL, 0) == 0
        && fekhvina_narrow_verdict(b, book.len, m, in.len, NULL, 0) == NONE && fekhvina_narrow_bytes(b, book.len, m, in.len, NULL, 0) == 0);
}

/* What is only read may overlap: the mask is the book, or lies in the book's moves. */
static void overlaps(void)
{
    hex(&book, OVERLAP);
    const uint8_t *b = lent_copy(BOOK, book.at, book.len), *m = b + OVERLAP_MASK;
    struct block entry = {1, 1, 2};
    mask_record(&answer, &entry, 1);
    count("narrow", "the mask is the book", fekhvina_narrow_refusal(b, book.len, b, book.len, NULL, 0) == 2);
    count("narrow", "the mask in the book", fekhvina_narrow_verdict(b, book.len, m, 18, lent_out(18), 18) == SOME
        && lent_out_is(18, answer.at, 18) && unchanged(b, &book));
    count("place", "the mask in the book", fekhvina_place_refusal(b, book.len, m, 18, 1, 0) == 0
        && fekhvina_place_set(b, book.len, m, 18, 1, 0) == 1 && fekhvina_place_lower(b, book.len, m, 18, 1, 0) == 1);
}

/* ---- stack */

static void one_narrow(void)
{
    fekhvina_narrow_verdict(book.at, book.len, in.at, in.len, answer.at, sizeof answer.at);
}

static const struct fekhvina_block *blocks;
static size_t block_count;

static void one_list(void)
{
    fekhvina_narrow_list_verdict(book.at, book.len, blocks, block_count, answer.at, sizeof answer.at);
}

static void one_place(void)
{
    fekhvina_place_set(book.at, book.len, in.at, in.len, 1, 1);
}

/* The stack of the entries for a book and mask, in `book` and `in`. */
static void stack_of(const char *name)
{
    blocks = lend_list(&block_count);
    size_t narrow = stack_used(one_narrow), list = stack_used(one_list), place = stack_used(one_place);
    printf("stack, %s: narrow %zu bytes, from a list %zu bytes, place %zu bytes\n", name, narrow, list, place);
    count("narrow, stack under 43 kB", name, narrow < 43000);
    count("narrow, list, stack under 68 kB", name, list < 68000);
    count("place, stack under 43 kB", name, place < 43000);
}

static void stacks(void)
{
    struct block height[] = {{SIGNS, 1, 1}, {DIGITS, 4, 4}}, exact = {3, 1024, 1024}, once = {3, 1, 1};
    hex(&book, HEIGHTS);
    mask_record(&in, height, 2);
    stack_of("a height field");
    hex(&book, TURNS);
    mask_record(&in, &exact, 1);
    stack_of("one block 1024-1024");
    mask_repeated(&in, once, once, 1024);
    stack_of("1,024 blocks 1-1");
}

void test_narrow_place(void)
{
    narrow_tables();
    narrow_largest();
    place_tables();
    place_largest();
    every_size();
    bad_records();
    order();
    overlaps();
}

void test_narrow_place_once(void)
{
    null_slices();
    stacks();
}
