/* Tries the line program with records, good, refused and cut off: see lines.h. */
#include "books.h"
#include "faults.h"
#include "lines.h"

#include <stdio.h>
#include <string.h>

/* ---- named cases, in hex */

struct line_case {
    const char *name, *fed, *expected;
};

#define BOOK_REFUSED(r) "book refused " #r "\n"
#define REFUSED(n, r) #n " refused " #r " 0 0\n"
#define GOOD(n) #n " some 1 1 2\n"

/* Book A without its length field. */
#define BOOK_A_REST " 01 00 03 03 00 02 00 00 00 00 00 00 00 01 FF FF FF 02 FF FF FF 01 "

static const struct line_case line_cases[] = {
    {"01's sample", BOOK_A " " MASK_A, GOOD(1)},
    {"empty input", "", BOOK_REFUSED(1)},
    {"a book and no mask", BOOK_A, ""},
    {"two masks", BOOK_A " " MASK_A " " MASK_A, GOOD(1) GOOD(2)},
    {"a second book is a mask of kind 1", BOOK_A " " BOOK_A " " MASK_A, REFUSED(1, 2) GOOD(2)},
    {"a mask first", MASK_A " " BOOK_A " " MASK_A, BOOK_REFUSED(2)},
    /* one byte */
    {"one byte, 00", "00", BOOK_REFUSED(1)},
    {"one byte, 01", "01", BOOK_REFUSED(1)},
    {"one byte, 04", "04", BOOK_REFUSED(1)},
    {"one byte, 18", "18", BOOK_REFUSED(1)},
    {"one byte, 0A", "0A", BOOK_REFUSED(1)},
    {"one byte, FF", "FF", BOOK_REFUSED(1)},
    {"one byte behind the book, 00", BOOK_A " 00", REFUSED(1, 1)},
    {"one byte behind the book, 04", BOOK_A " 04", REFUSED(1, 1)},
    {"one byte behind the book, 0A", BOOK_A " 0A", REFUSED(1, 1)},
    {"one byte behind the book, FF", BOOK_A " FF", REFUSED(1, 1)},
    {"one byte behind a mask", BOOK_A " " MASK_A " 12", GOOD(1) REFUSED(2, 1)},
    /* the book's length field */
    {"a book's length field of 0", "00 00" BOOK_A_REST MASK_A, BOOK_REFUSED(1)},
    {"a book's length field of 1", "01 00" BOOK_A_REST MASK_A, BOOK_REFUSED(1)},
    {"a book's length field of 2", "02 00" BOOK_A_REST MASK_A, BOOK_REFUSED(1)},
    {"a book's length field of 3", "03 00" BOOK_A_REST MASK_A, BOOK_REFUSED(1)},
    {"a book's length field of 4", "04 00" BOOK_A_REST MASK_A, BOOK_REFUSED(3)},
    {"a book's length field of 5", "05 00" BOOK_A_REST MASK_A, BOOK_REFUSED(3)},
    {"a book's length field of 0 and no more", "00 00", BOOK_REFUSED(1)},
    {"a book's length field of 2 and no more", "02 00", BOOK_REFUSED(1)},
    {"a book's length field of 3 and a byte", "03 00 01", BOOK_REFUSED(1)},
    {"a book's length field of 4 and no more", "04 00", BOOK_REFUSED(1)},
    {"a book's length field of 4 and a kind", "04 00 01 00", BOOK_REFUSED(3)},
    {"a book's length field of 4 and a mask's kind", "04 00 02 00", BOOK_REFUSED(2)},
    {"a book's length field of 4, then a good book and mask", "04 00 01 00 " BOOK_A " " MASK_A, BOOK_REFUSED(3)},
    {"a book's length field of 5 and five bytes", "05 00 01 00 03", BOOK_REFUSED(3)},
    {"a book's length field of 5 and a kind of 3", "05 00 03 00 03", BOOK_REFUSED(2)},
    /* a mask's length field: under 4 it ends the program; else the record is passed over */
    {"a mask's length field of 0, a mask", BOOK_A " 00 00 " MASK_A, REFUSED(1, 1)},
    {"a mask's length field of 1, a mask", BOOK_A " 01 00 " MASK_A, REFUSED(1, 1)},
    {"a mask's length field of 2, a mask", BOOK_A " 02 00 " MASK_A, REFUSED(1, 1)},
    {"a mask's length field of 3, a byte, a mask", BOOK_A " 03 00 02 " MASK_A, REFUSED(1, 1)},
    {"a mask's length field of 0, kind, a mask", BOOK_A " 00 00 02 00 " MASK_A, REFUSED(1, 1)},
    {"a mask's length field of 3, kind, a mask", BOOK_A " 03 00 02 00 " MASK_A, REFUSED(1, 1)},
    {"a mask's length field of 3, kind and blocks, a mask", BOOK_A " 03 00 02 00 00 00 " MASK_A, REFUSED(1, 1)},
    {"a mask's length field of 4, kind, a mask", BOOK_A " 04 00 02 00 " MASK_A, REFUSED(1, 3) GOOD(2)},
    {"a mask's length field of 4, a kind of 1, a mask", BOOK_A " 04 00 01 00 " MASK_A, REFUSED(1, 2) GOOD(2)},
    {"a mask's length field of 5, kind, a byte, a mask", BOOK_A " 05 00 02 00 12 " MASK_A, REFUSED(1, 3) GOOD(2)},
    {"a mask's length field of 5, a kind of 0, a byte, a mask", BOOK_A " 05 00 00 00 00 " MASK_A, REFUSED(1, 2) GOOD(2)},
    {"a mask's length field of 0 and no more", BOOK_A " 00 00", REFUSED(1, 1)},
    {"a mask's length field of 3 and no more", BOOK_A " 03 00", REFUSED(1, 1)},
    {"a mask's length field of 4 and no more", BOOK_A " 04 00", REFUSED(1, 1)},
    {"a mask's length field of 4 and no mask behind", BOOK_A " 04 00 02 00", REFUSED(1, 3)},
    {"a length field of 0 behind a mask, a mask", BOOK_A " " MASK_A " 00 00 " MASK_A, GOOD(1) REFUSED(2, 1)},
    {"a length field of 3 behind a refused mask", BOOK_A " 04 00 02 00 03 00 02 " MASK_A, REFUSED(1, 3) REFUSED(2, 1)},
    /* cut off comes before all else */
    {"a book of kind 2 cut off", "18 00 02 00", BOOK_REFUSED(1)},
    {"a book of 65,535 bytes cut off", "FF FF 01 00 03 03", BOOK_REFUSED(1)},
    {"a mask of kind 3 cut off", BOOK_A " 12 00 03 00", REFUSED(1, 1)},
    {"a mask of 5 bytes cut off", BOOK_A " 05 00 02 00", REFUSED(1, 1)},
    {"a mask of 65,535 bytes cut off", BOOK_A " FF FF 02 00 00 00", REFUSED(1, 1)},
    {"a mask cut off that masks fill", BOOK_A " 40 00 02 00 " MASK_A " " MASK_A, REFUSED(1, 1)},
};

static void named(void)
{
    for (size_t i = 0; i < sizeof line_cases / sizeof line_cases[0]; i++) {
        begin();
        feed_hex(line_cases[i].fed);
        stream_print(&expected, "%s", line_cases[i].expected);
        prints(line_cases[i].name);
    }
}

/* ---- 01's trials, and more verdicts */

struct trial {
    const char *name, *book;
    unsigned count;
    struct block mask[4];
    const char *line; /* without the mask's number */
};

static const struct trial trials[] = {
    {"A, {0,1,2} 0-2", BOOK_A, 1, {{7, 0, 2}}, "some 1 1 2"},
    {"A, {0,1,2} 1-1", BOOK_A, 1, {{7, 1, 1}}, "one 1 1 1"},
    {"A, {0,1,2} 3-5", BOOK_A, 1, {{7, 3, 5}}, "some 4 3 5"},
    {"B, {0,1,2} 2-2", BOOK_B, 1, {{7, 2, 2}}, "some 2 2 2"},
    {"B, {0,1} 1-1, {2} 1-1", BOOK_B, 2, {{3, 1, 1}, {4, 1, 1}}, "all 2 2 2"},
    {"B, {1} 1-1, {0,2} 1-1", BOOK_B, 2, {{2, 1, 1}, {5, 1, 1}}, "one 2 2 2"},
    {"B, {2} 1-3", BOOK_B, 1, {{4, 1, 3}}, "none 0 0 0"},
    {"B, no blocks", BOOK_B, 0, {{0, 0, 0}}, "none 0 0 0"},
    {"C, no blocks", BOOK_C, 0, {{0, 0, 0}}, "all 0 0 0"},
    {"C, {} 1-1", BOOK_C, 1, {{0, 1, 1}}, "none 0 0 0"},
    {"C, {0} 1-2, {0} 0-3", BOOK_C, 2, {{1, 1, 2}, {1, 0, 3}}, "all 1 1 5"},
    {"C, {0} 0-1024", BOOK_C, 1, {{1, 0, 1024}}, "all 1 0 1024"},
    {"C, {0} 0-1024, {1} 0-1", BOOK_C, 2, {{1, 0, 1024}, {2, 0, 1}}, "refused 8 0 0"},
    {"C, {0} 0-1, {1} 0-0, {0} 0-1", BOOK_C, 3, {{1, 0, 1}, {2, 0, 0}, {1, 0, 1}}, "all 1 0 2"},
    {"C, a set with letter 2", BOOK_C, 1, {{4, 0, 2}}, "refused 9 0 0"},
    {"C, a set with letter 63", BOOK_C, 1, {{LETTER(63), 0, 2}}, "refused 9 0 0"},
    {"ring, {0} 0-3: one, no blocks", RING, 1, {{1, 0, 3}}, "one 0 0 0"},
    {"heights", HEIGHTS, 2, {{3, 1, 1}, {0xFFC, 4, 4}}, "some 3 5 5"},
};

/* Each by itself, and again behind itself. */
static void verdicts(void)
{
    static struct bytes mask;
    for (size_t i = 0; i < sizeof trials / sizeof trials[0]; i++) {
        const struct trial *t = &trials[i];
        begin();
        feed_hex(t->book);
        mask_record(&mask, t->mask, t->count);
        feed(&mask);
        feed(&mask);
        stream_print(&expected, "1 %s\n2 %s\n", t->line, t->line);
        prints(t->name);
    }
}

/* ---- every refusal, between good masks */

/* A good mask for book C, and its line. */
static const struct block zeros = {1, 0, 2};
#define ZEROS "all 1 0 2\n"

/* The case: book C, a good mask, this one, which has this line, and a good mask. */
static void between(const char *name, const struct bytes *record, const char *line)
{
    static struct bytes good;
    mask_record(&good, &zeros, 1);
    begin();
    feed_hex(BOOK_C);
    feed(&good);
    feed(record);
    feed(&good);
    stream_print(&expected, "1 " ZEROS "2 %s\n3 " ZEROS, line);
    prints(name);
}

static void refusals(void)
{
    static struct bytes record;
    char line[32];
    for (const struct fault *f = mask_faults; f->name != NULL; f++) {
        if (f->refusal != 1) {
            hex(&record, f->bytes);
            snprintf(line, sizeof line, "refused %u 0 0", (unsigned)f->refusal);
            between(f->name, &record, line);
        }
    }
    for (const struct fault *f = book_faults; f->name != NULL; f++) {
        if (f->refusal != 1) {
            begin();
            feed_hex(f->bytes);
            feed_hex(BOOK_C " " MASK_A);
            stream_print(&expected, "book refused %u\n", (unsigned)f->refusal);
            prints(f->name);
        }
    }
}

/* ---- long records */

/* A record of this many bytes, filled with good masks that are not to be read; the first bytes are its own. */
static void long_record(struct bytes *to, unsigned len, unsigned kind, unsigned two_bytes)
{
    static struct bytes filling;
    mask_record(&filling, &zeros, 1);
    to->len = 0;
    add(to, len, 2);
    add(to, kind, 2);
    add(to, two_bytes, 2);
    for (size_t i = 0; to->len < len; i++) {
        add(to, filling.at[i % filling.len], 1);
    }
}

static void long_records(void)
{
    static struct bytes record;
    struct block zero = {1, 1, 1}, one = {2, 1, 1}, zero_or_not = {1, 0, 1}, one_or_not = {2, 0, 1};
    mask_repeated(&record, zero, one, 1024);
    between("1,024 blocks 1-1", &record, "all 1024 1024 1024");
    mask_repeated(&record, zero_or_not, one_or_not, 1024);
    between("1,024 blocks 0-1", &record, "all 1024 0 1024");
    mask_repeated(&record, zero, zero, 1024);
    between("1,024 equal blocks", &record, "all 1 1024 1024");
    mask_repeated(&record, zero, one, 1025);
    between("1,025 blocks", &record, "refused 4 0 0");
    long_record(&record, 12295, 2, 1024);
    between("a byte more than the longest mask", &record, "refused 5 0 0");
    long_record(&record, 65534, 2, 0);
    between("a mask of 65,534 bytes", &record, "refused 5 0 0");
    long_record(&record, 65535, 2, 1);
    between("a mask of 65,535 bytes", &record, "refused 5 0 0");
    long_record(&record, 65535, 2, 5460);
    between("a mask of 65,535 bytes and 5,460 blocks", &record, "refused 4 0 0");
    long_record(&record, 65535, 3, 0);
    between("a mask of 65,535 bytes and a kind of 3", &record, "refused 2 0 0");

    begin();
    feed_hex(TURNS);
    struct block both = {3, 1024, 1024};
    mask_record(&record, &both, 1);
    feed(&record);
    stream_print(&expected, "1 one 1024 1024 1024\n");
    prints("a block 1024-1024 to 1,024 blocks");
}

/* A book of 65,535 bytes is refused; masks behind it are not read. */
static void long_books(void)
{
    static struct bytes record;
    static const unsigned sizes[] = {4048, 65534, 65535};
    for (size_t i = 0; i < sizeof sizes / sizeof sizes[0]; i++) {
        char name[64];
        snprintf(name, sizeof name, "a book of %u bytes", sizes[i]);
        begin();
        long_record(&record, sizes[i], 1, 63 + 256 * 64);
        feed(&record);
        feed_hex(MASK_A);
        stream_print(&expected, "book refused 5\n");
        prints(name);
    }
    begin();
    largest_book(&record);
    feed(&record);
    feed_hex("12 00 02 00 01 00 FF FF FF FF FF FF FF FF 3F 00 3F 00");
    stream_print(&expected, "1 one 63 63 63\n");
    prints("the largest book");
}

/* ---- records cut off */

/* Feeds what was begun and then the first bytes of a record, which is cut off. */
static void cut(const char *what, const struct bytes *record, size_t len)
{
    char name[96];
    snprintf(name, sizeof name, "%s cut off after %zu bytes", what, len);
    stream_add(&fed, record->at, len);
    prints(name);
}

static void cut_book(const char *name, const struct bytes *book, size_t len)
{
    begin();
    stream_print(&expected, BOOK_REFUSED(1));
    cut(name, book, len);
}

/* Behind book A and as many of its masks. With no byte left there is no mask, and no line. */
static void cut_mask(const char *name, unsigned masks, const struct bytes *mask, size_t len)
{
    begin();
    feed_hex(BOOK_A);
    for (unsigned i = 1; i <= masks; i++) {
        feed_hex(MASK_A);
        stream_print(&expected, "%u some 1 1 2\n", i);
    }
    if (len > 0) {
        stream_print(&expected, "%u refused 1 0 0\n", masks + 1);
    }
    cut(name, mask, len);
}

static void cuts(void)
{
    static struct bytes record;
    static const size_t book_cuts[] = {1, 2, 3, 4, 14, 15, 16, 255, 256, 2048, 4045, 4046};
    static const size_t mask_cuts[] = {1, 2, 3, 4, 6, 4072, 4095, 4096, 4097, 8192, 12293};
    static const size_t refused_cuts[] = {1, 2, 3, 6, 12294, 12295, 32768, 65534};
    struct block zero = {1, 1, 1}, one = {2, 1, 1};
    hex(&record, BOOK_A);
    for (size_t len = 0; len < record.len; len++) {
        cut_book("book A", &record, len);
    }
    largest_book(&record);
    for (size_t i = 0; i < sizeof book_cuts / sizeof book_cuts[0]; i++) {
        cut_book("the largest book", &record, book_cuts[i]);
    }
    hex(&record, MASK_A);
    for (size_t len = 0; len < record.len; len++) {
        cut_mask("the first mask", 0, &record, len);
        cut_mask("the second mask", 1, &record, len);
    }
    mask_repeated(&record, zero, one, 1024);
    for (size_t i = 0; i < sizeof mask_cuts / sizeof mask_cuts[0]; i++) {
        cut_mask("a mask of 1,024 blocks", 1, &record, mask_cuts[i]);
    }
    long_record(&record, 65535, 2, 1);
    for (size_t i = 0; i < sizeof refused_cuts / sizeof refused_cuts[0]; i++) {
        cut_mask("a mask of 65,535 bytes", 2, &record, refused_cuts[i]);
    }
}

void test_records(void)
{
    named();
    verdicts();
    refusals();
    long_records();
    long_books();
    cuts();
}
