/* Feeds the line program streams of many masks, whole and in pieces: see lines.h. */
#include "books.h"
#include "lines.h"
#include "plain.h"
#include "plain_line.h"
#include "random.h"

#include <stdio.h>

static struct bytes book, mask;

/* The line of `mask` by `book`, as the plain narrow has it. */
static void expect_plain(unsigned number)
{
    plain_line(&expected, number, book.at, book.len, mask.at, mask.len);
}

/* Begins a case: `book`, and random masks for it, one in ten damaged, at most so many and until there are so many
   bytes of them. */
static void random_masks(unsigned masks, size_t bytes)
{
    unsigned number = 1;
    begin();
    feed(&book);
    for (; number <= masks && fed.len - book.len < bytes; number++) {
        random_mask(&mask, &book);
        if (random_below(10) == 0) {
            random_damage(&mask);
        }
        feed(&mask);
        expect_plain(number);
    }
    if (random_below(2) == 0) {
        random_mask(&mask, &book);
        stream_add(&fed, mask.at, 1 + random_below((unsigned)mask.len - 1));
        stream_print(&expected, "%u refused 1 0 0\n", number);
    }
}

static void random_streams(void)
{
    enum { STREAMS = 40, MASKS = 250 };
    for (unsigned seed = 1; seed <= STREAMS; seed++) {
        char name[64];
        snprintf(name, sizeof name, "random masks, seed %u", seed);
        random_seed(seed);
        random_book(&book);
        random_masks(MASKS, SIZE_MAX);
        prints(name);
    }
}

/* Damaged books: where a mask of no blocks is refused with one, it is the book that is refused. */
static void random_books(void)
{
    enum { BOOKS = 60 };
    for (unsigned seed = 1; seed <= BOOKS; seed++) {
        char name[64];
        snprintf(name, sizeof name, "a damaged book, seed %u", seed);
        random_seed(1000 + seed);
        random_book(&book);
        random_damage(&book);
        mask_record(&mask, NULL, 0);
        uint8_t out[6];
        unsigned refusal = plain_narrow(book.at, book.len, mask.at, mask.len, out, sizeof out).refusal;
        begin();
        feed(&book);
        feed(&mask);
        if (refusal != 0) {
            stream_print(&expected, "book refused %u\n", refusal);
        } else {
            expect_plain(1);
        }
        prints(name);
    }
}

/* Numbers of one to six digits. */
static void many_masks(void)
{
    begin();
    feed_hex(BOOK_C);
    mask_record(&mask, NULL, 0);
    for (unsigned number = 1; number <= 100001; number++) {
        feed(&mask);
        stream_print(&expected, "%u all 0 0 0\n", number);
    }
    prints("100,001 masks");
}

/* The same streams whole and in pieces; small pieces with a shorter one. */
static void pieces(void)
{
    static const size_t sizes[] = {0, 1, 2, 3, 7, 4095, 4096, 65536};
    for (size_t i = 0; i < sizeof sizes / sizeof sizes[0]; i++) {
        for (unsigned seed = 1; seed <= 3; seed++) {
            char name[64];
            snprintf(name, sizeof name, "pieces of %zu bytes, seed %u", sizes[i], seed);
            random_seed(2000 + seed);
            random_book(&book);
            random_masks(1000, sizes[i] > 0 && sizes[i] < 100 ? 3000 : 300000);
            prints_fed_by(name, sizes[i]);
        }
    }
}

void test_streams(void)
{
    random_streams();
    random_books();
    many_masks();
    pieces();
}
