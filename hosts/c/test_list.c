/* Tries the C entries of narrow that take a list: see test.h. test_narrow.c gives them its masks too. */
#include "books.h"
#include "faults.h"
#include "fekhvina.h"
#include "lent.h"
#include "narrow_calls.h"
#include "random.h"
#include "record.h"
#include "test.h"

#include <inttypes.h>
#include <stdio.h>

enum { ROOM = 6 + 12 * 1024 };

/* ---- the struct */

static void layout(void)
{
    struct aligned {
        char first;
        struct fekhvina_block block;
    };
    count("block", "16 bytes, aligned by 8", sizeof(struct fekhvina_block) == 16 && offsetof(struct aligned, block) == 8);
    count("block", "set at 0, lower at 8, upper at 10", offsetof(struct fekhvina_block, set) == 0
        && offsetof(struct fekhvina_block, lower) == 8 && offsetof(struct fekhvina_block, upper) == 10);
}

/* Whether each entry does so, whatever value a byte of padding has. */
static int with_every_padding_is(size_t out_len, uint32_t refusal, uint32_t verdict, size_t written)
{
    int holds = 1;
    for (int i = 0; i < 256; i++) {
        holds = holds && list_is(out_len, refusal, verdict, written);
    }
    return holds;
}

static void paddings(void)
{
    struct block height[] = {{3, 0, 1}, {0xFFC, 0, 4}}, narrowed[] = {{3, 1, 1}, {0xFFC, 4, 4}}, crossed = {1, 1, 0};
    hex(&book, HEIGHTS);
    mask_record(&answer, narrowed, 2);
    mask_record(&in, height, 2);
    count("narrow, list", "every padding, accepted", with_every_padding_is(answer.len, 0, SOME, answer.len));
    mask_record(&in, &crossed, 1);
    count("narrow, list", "every padding, refused", with_every_padding_is(answer.len, 7, 0, 0));
}

/* ---- refusals */

#define IDLE {1, 0, 0}
#define CROSSED {1, 1, 0}

/* A list with the first block, the last, and between them others that are IDLE. */
struct list_case {
    const char *name;
    uint32_t refusal;
    unsigned count;
    struct block first, last;
};

/* With book C, which has letters 0 and 1. Each is tried without room too: 10 is last. */
static const struct list_case list_cases[] = {
    {"1,025 blocks", 4, 1025, IDLE, IDLE},
    {"1,026 blocks", 4, 1026, IDLE, IDLE},
    {"2,048 blocks", 4, 2048, IDLE, IDLE},
    {"8,192 blocks", 4, 8192, IDLE, IDLE},
    {"l above u in the last of 1,024 blocks", 7, 1024, IDLE, CROSSED},
    {"a sum over the first and the last of 1,024 blocks", 8, 1024, {1, 0, 1000}, {1, 0, 25}},
    {"letter m in the last of 1,024 blocks", 9, 1024, IDLE, {4, 0, 0}},
    /* two faults: the first check decides */
    {"1,025 blocks, l above u in the first", 4, 1025, CROSSED, IDLE},
    {"1,025 blocks, l above u in the last", 4, 1025, IDLE, CROSSED},
    {"1,025 blocks and a sum", 4, 1025, {1, 0, 1025}, IDLE},
    {"1,025 blocks and letter m", 4, 1025, {4, 0, 0}, IDLE},
    {"l above u and a sum in one block", 7, 2, {1, 1026, 1025}, IDLE},
    {"l above u in the last block, a sum before it", 7, 1024, {1, 0, 1025}, CROSSED},
    {"l above u in the last block, letter m in the first", 7, 1024, {4, 0, 0}, CROSSED},
    {"a sum, letter m in the first block", 8, 1024, {4, 0, 1024}, {1, 0, 1}},
    {"a sum, letter m in the last block", 8, 1024, {1, 0, 1024}, {4, 0, 1}},
};

static void put_block(unsigned at, struct block block)
{
    put(&in, AT_BLOCKS + BLOCK_SIZE * at, block.set, 8);
    put(&in, AT_BLOCKS + BLOCK_SIZE * at + AT_LOWER, block.lower, 2);
    put(&in, AT_BLOCKS + BLOCK_SIZE * at + AT_UPPER, block.upper, 2);
}

static void make_list(const struct list_case *c)
{
    const struct block idle = IDLE;
    mask_repeated(&in, idle, idle, c->count);
    put_block(c->count - 1, c->last);
    put_block(0, c->first);
}

static int refuses_list(const struct list_case *c, uint32_t refusal)
{
    make_list(c);
    return refuses(list_is, refusal);
}

static void refusals(void)
{
    static const struct list_case *const end = list_cases + sizeof list_cases / sizeof list_cases[0];
    static const struct list_case most = {"1,024 blocks", 0, 1024, IDLE, IDLE};
    hex(&book, BOOK_C);
    for (const struct list_case *c = list_cases; c < end; c++) {
        count("narrow, list", c->name, refuses_list(c, c->refusal));
    }
    make_list(&most);
    mask_record(&answer, NULL, 0);
    count("narrow, list", most.name, list_is(6, 0, ALL, 6) && list_is(5, 10, 0, 0));
    for (const struct fault *f = book_faults; f->name != NULL; f++) {
        int holds = 1;
        hex(&book, f->bytes);
        for (const struct list_case *c = list_cases; c < end; c++) {
            holds = holds && refuses_list(c, f->refusal);
        }
        count("narrow, list, a bad list besides: the book's fault decides", f->name, holds);
    }
}

/* ---- as the record */

/* How often each refusal came, and each verdict. */
static unsigned refused[11], said[5];

/* Whether the entries that take the list answer as those that take the record, with a buffer of this length. */
static int answers_as_record(size_t out_len)
{
    uint32_t refusal = fekhvina_narrow_refusal(book.at, book.len, in.at, in.len, answer.at, out_len);
    uint32_t verdict = fekhvina_narrow_verdict(book.at, book.len, in.at, in.len, answer.at, out_len);
    answer.len = fekhvina_narrow_bytes(book.at, book.len, in.at, in.len, answer.at, out_len);
    refused[refusal]++;
    said[verdict]++;
    return list_is(out_len, refusal, verdict, answer.len);
}

/* A good mask and a good book, one in four with a byte of a block changed, one in eight with a damaged book. */
static void random_pair(void)
{
    random_book(&book);
    random_mask(&in, &book);
    if (one_in(4) && in.len > AT_BLOCKS) {
        put(&in, AT_BLOCKS + random_below((unsigned)in.len - AT_BLOCKS), random_below(256), 1);
    }
    if (one_in(8)) {
        random_damage(&book);
    }
}

static void random_lists(void)
{
    enum { PAIRS = 3000 };
    int holds = 1, all_came = 1, pairs = 0;
    char name[40];
    random_seed(1);
    for (; pairs < PAIRS && holds; pairs++) {
        random_pair();
        holds = answers_as_record(ROOM);
        size_t need = answer.len;
        holds = holds && answers_as_record(need) && (need == 0 || (answers_as_record(need - 1) && answers_as_record(0)));
    }
    for (int refusal = 2; refusal <= 10; refusal++) {
        all_came = all_came && refused[refusal] > 0;
    }
    snprintf(name, sizeof name, "%d random books and masks", pairs);
    count("narrow, list", name, holds);
    count("narrow, list", "of these every refusal from 2 on, and every verdict", all_came && said[NONE] > 0 && said[ALL] > 0
        && said[ONE] > 0 && said[SOME] > 0);
}

/* What is only read may overlap: the list lies in the book's moves. */
static void overlap(void)
{
    hex(&book, OVERLAP_LIST);
    struct block entry = {1, 1, 2};
    mask_record(&answer, &entry, 1);
    const uint8_t *b = lent_copy(BOOK, book.at, book.len);
    const void *blocks = b + OVERLAP_BLOCK;
    count("narrow, list", "the list in the book", fekhvina_narrow_list_refusal(b, book.len, blocks, 1, lent_out(18), 18) == 0
        && fekhvina_narrow_list_verdict(b, book.len, blocks, 1, lent_out(18), 18) == SOME && lent_out_is(18, answer.at, 18)
        && unchanged(b, &book));
}

/* ---- once */

/* Whether the entries say so of `book` and a list of no blocks that is a null pointer. */
static int null_is(uint32_t refusal, uint32_t verdict, uint32_t bytes, uint8_t *out, size_t out_len)
{
    return fekhvina_narrow_list_refusal(book.at, book.len, NULL, 0, out, out_len) == refusal
        && fekhvina_narrow_list_verdict(book.at, book.len, NULL, 0, out, out_len) == verdict
        && fekhvina_narrow_list_bytes(book.at, book.len, NULL, 0, out, out_len) == bytes;
}

static void null_lists(void)
{
    hex(&book, BOOK_C);
    mask_record(&answer, NULL, 0);
    count("narrow, list", "a null list", null_is(0, ALL, 6, lent_out(7), 7) && lent_out_is(7, answer.at, 6));
    count("narrow, list", "a null list, no room", null_is(10, 0, 0, lent_out(5), 5) && lent_out_is(5, NULL, 0));
    count("narrow, list", "a null list and a null buffer", null_is(10, 0, 0, NULL, 0));
    hex(&book, BOOK_B);
    count("narrow, list", "a null list and a null buffer, none", null_is(0, NONE, 0, NULL, 0));
    count("narrow, list", "three null slices", fekhvina_narrow_list_refusal(NULL, 0, NULL, 0, NULL, 0) == 1
        && fekhvina_narrow_list_verdict(NULL, 0, NULL, 0, NULL, 0) == 0
        && fekhvina_narrow_list_bytes(NULL, 0, NULL, 0, NULL, 0) == 0);
    for (const struct fault *f = book_faults; f->name != NULL; f++) {
        hex(&book, f->bytes);
        count("narrow, list, a null list", f->name, null_is(f->refusal, 0, 0, lent_out(7), 7) && lent_out_is(7, NULL, 0));
    }
}

/* Whether so many blocks, all zero, are refused by 4. */
static int too_many(const struct fekhvina_block *zeros, size_t blocks)
{
    uint8_t *out = lent_out(ROOM);
    return fekhvina_narrow_list_refusal(book.at, book.len, zeros, blocks, out, ROOM) == 4
        && fekhvina_narrow_list_verdict(book.at, book.len, zeros, blocks, out, ROOM) == 0
        && fekhvina_narrow_list_bytes(book.at, book.len, zeros, blocks, out, ROOM) == 0 && lent_out_is(ROOM, NULL, 0);
}

/* More blocks than 16 bits, or 32, can count. */
static void large_counts(void)
{
    const uint64_t counts[] = {1025, 65535, 65536, 65537, 66560, UINT32_MAX, LETTER(32), LETTER(32) + 1, LETTER(32) + 1024};
    hex(&book, BOOK_C);
    for (size_t i = 0; i < sizeof counts / sizeof counts[0]; i++) {
        char name[40];
        snprintf(name, sizeof name, "%" PRIu64 " blocks", counts[i]);
        const void *zeros = counts[i] > SIZE_MAX / 16 ? NULL : lent_zeros((size_t)counts[i] * 16);
        if (zeros == NULL) {
            printf("left out, as they can't be had: %s\n", name);
        } else {
            count("narrow, list", name, too_many(zeros, (size_t)counts[i]));
        }
    }
}

void test_list(void)
{
    paddings();
    refusals();
    random_lists();
    overlap();
}

void test_list_once(void)
{
    layout();
    null_lists();
    large_counts();
}
