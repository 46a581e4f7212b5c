/*
 * Tries the tool that makes records from a text, as a program: the bytes that it writes, and what it refuses with the line and
 * the reason, writing nothing.
 */
#define _POSIX_C_SOURCE 200809L
#include "books.h"
#include "count.h"
#include "process.h"
#include "record.h"

#include <stdio.h>
#include <string.h>
#include <sys/wait.h>

static const char *tool;

/* Runs the tool; a text of NULL leaves its input to `start`. Counts whether it writes, complains and ends so. */
static void run(const char *name, struct start start, const struct stream *text, const struct stream *written,
                const char *complaint)
{
    struct process process;
    process_start(&process, &start);
    if (text != NULL) {
        process_feed(&process, text->at, text->len, 0);
    }
    int status = process_end(&process);
    int holds = WIFEXITED(status) && WEXITSTATUS(status) == (*complaint != '\0') && !process.late
        && stream_equal(&process.printed, written) && process.complained.len == strlen(complaint)
        && strncmp(complaint, process.complained.len > 0 ? process.complained.at : "", strlen(complaint)) == 0;
    count("records", name, holds);
    if (!holds) {
        printf("  status %d, %zu bytes written; standard error: '%.*s'\n", status, process.printed.len,
               (int)process.complained.len, process.complained.len > 0 ? process.complained.at : "");
    }
    process_free(&process);
}

static const struct stream nothing = {NULL, 0, 0};

static void writes_stream(const char *name, const struct stream *text, const struct stream *written)
{
    struct start start = {tool, NULL, NULL, 0, NULL};
    run(name, start, text, written, "");
}

static void refuses_stream(const char *name, const struct stream *text, const char *complaint)
{
    struct start start = {tool, NULL, NULL, 0, NULL};
    run(name, start, text, &nothing, complaint);
}

struct text_case {
    const char *name, *text, *answer; /* the bytes in hex, or the complaint without its first word */
};

/* ---- what is written */

#define BOOK_1 "book 1 1\nstart 0\n"

static const struct text_case written_cases[] = {
    {"no text", "", ""},
    {"comments and blank lines", "# nothing\n\n  \t # here\n\r\n", ""},
    {"book A", "book 3 3\nstart 0\naccept 1\n0 + 1\n1 - 2\n2 0 1\n", BOOK_A},
    {"book A, its lines in another order, other blanks", "book\t3  3 \r\n 2 0 1\n1 - 2\n\n0 + 1#x\naccept 1\nstart 0", BOOK_A},
    {"book B", "book 3 3\nstart 0\naccept 2\n0 + 1\n0 - 1\n1 0 2\n", BOOK_B},
    {"book C", "book 1 2\nstart 0\naccept 0\n0 + 0\n0 - 0\n", BOOK_C},
    {"moves by sets", "book 3 3\nstart 0\naccept 2\n0 {+-} 1\n1 {0..0} 2\n2 {} 0\n", BOOK_B},
    {"no accepting state", "book 1 1\nstart 0\naccept\n", "10 00 01 00 01 01 00 00 00 00 00 00 00 00 00 FF"},
    {"accepting states on two lines", "book 3 1\nstart 2\naccept 0 2\naccept 1\n", "12 00 01 00 03 01 02 07 00 00 00 00 00 00 00 FF FF FF"},
    {"a mask of no blocks", "mask\n", "06 00 02 00 00 00"},
    {"the empty set", "mask\n{} 0-5\n", "12 00 02 00 01 00 00 00 00 00 00 00 00 00 00 00 05 00"},
    {"the first signs", "mask\n{+-} 1-1\n", "12 00 02 00 01 00 03 00 00 00 00 00 00 00 01 00 01 00"},
    {"a sign twice", "mask\n{0+0} 1-1\n", "12 00 02 00 01 00 05 00 00 00 00 00 00 00 01 00 01 00"},
    {"ranges", "mask\n{0..9A..F} 0-1\n", "12 00 02 00 01 00 FC FF 03 00 00 00 00 00 00 00 01 00"},
    {"ranges and signs", "mask\n{-Z..az} 0-1\n", "12 00 02 00 01 00 02 00 00 00 60 00 00 80 00 00 01 00"},
    {"a range of one", "mask\n{z..z} 0-1\n", "12 00 02 00 01 00 00 00 00 00 00 00 00 80 00 00 01 00"},
    {"every sign, one by one", "mask\n{+-0123456789ABCDEFGHIJKLMNOPQRSTUVWXYZabcdefghijklmnopqrstuvwxyz} 0-1\n",
        "12 00 02 00 01 00 FF FF FF FF FF FF FF FF 00 00 01 00"},
    {"every sign, as a range", "mask\n{+..z} 0-1\n", "12 00 02 00 01 00 FF FF FF FF FF FF FF FF 00 00 01 00"},
    {"three masks", "mask\nmask\n{+} 0-1\n{-} 2-258\nmask\n",
        "06 00 02 00 00 00 1E 00 02 00 02 00 01 00 00 00 00 00 00 00 00 00 01 00 02 00 00 00 00 00 00 00 02 00 02 01 06 00 02 00 00 00"},
    {"two books", "book 2 1\nstart 0\naccept 0\nbook 2 1\nstart 1\naccept 1\n",
        "11 00 01 00 02 01 00 01 00 00 00 00 00 00 00 FF FF 11 00 01 00 02 01 01 02 00 00 00 00 00 00 00 FF FF"},
    {"a mask and a book", "mask\n" BOOK_1, "06 00 02 00 00 00 10 00 01 00 01 01 00 00 00 00 00 00 00 00 00 FF"},
    /* what the product refuses */
    {"l above u", "mask\n{+} 3-2\n", "12 00 02 00 01 00 01 00 00 00 00 00 00 00 03 00 02 00"},
    {"the longest lengths", "mask\n{+} 65535-65535\n", "12 00 02 00 01 00 01 00 00 00 00 00 00 00 FF FF FF FF"},
    {"a letter that the book lacks", BOOK_1 "mask\n{z} 0-1\n",
        "10 00 01 00 01 01 00 00 00 00 00 00 00 00 00 FF 12 00 02 00 01 00 00 00 00 00 00 00 00 80 00 00 01 00"},
    {"no letters", "book 1 0\nstart 0\n", "0F 00 01 00 01 00 00 00 00 00 00 00 00 00 00"},
};

/* ---- what is refused */

static const struct text_case refused_cases[] = {
    {"an unknown word", "# x\nboo 3 3\n", "line 2: 'boo' begins no line"},
    {"a sign alone", "book 1 1\n+ 0 0\n", "line 2: '+' begins no line"},
    {"no number of states", "book\n", "line 1: the number of states is missing"},
    {"no number of letters", "book 3 # 3\n", "line 1: the number of letters is missing"},
    {"a number too many", "book 3 3 3\n", "line 1: '3' is too much"},
    {"a number with a sign", "book -3 3\n", "line 1: '-3' is no number"},
    {"a number in hex", "book 0x3 3\n", "line 1: '0x3' is no number"},
    {"256 states", "book 256 3\n", "line 1: '256' is above 255"},
    {"256 letters", "book 3 256\n", "line 1: '256' is above 255"},
    {"a number of many digits", "book 99999999999999999999 3\n", "line 1: '99999999999999999999' is above 255"},
    {"no start", "\nbook 1 1\naccept 0\n\n", "line 2: the book has no start"},
    {"no start, a mask behind", "book 1 1\n0 + 0\nmask\n{+} 0-1\n", "line 1: the book has no start"},
    {"no start, a book behind", "book 1 1\n" BOOK_1, "line 1: the book has no start"},
    {"no start, for a second book", BOOK_1 "book 1 1\n", "line 3: the book has no start"},
    {"two starts", BOOK_1 "start 0\n", "line 3: the book has its start already"},
    {"a start without a state", "book 1 1\nstart\n", "line 2: the start is missing"},
    {"a start that is no state", "book 3 3\nstart 3\n", "line 2: '3' is no state of the book"},
    {"a book without states", "book 0 3\nstart 0\n", "line 2: '0' is no state of the book"},
    {"an accepting state that is none", BOOK_1 "accept 0 1\n", "line 3: '1' is no state of the book"},
    {"an accepting state that is no number", BOOK_1 "accept +\n", "line 3: '+' is no number"},
    {"accepting state 64", "book 65 1\nstart 64\naccept 63 64\n", "line 3: '64' is above 63, the last state that a record can accept"},
    {"a move from no state", BOOK_1 "1 + 0\n", "line 3: '1' is no state of the book"},
    {"a move to no state", BOOK_1 "0 + 1\n", "line 3: '1' is no state of the book"},
    {"a move to 255", "book 255 1\nstart 0\n0 + 254\n1 + 255\n", "line 4: '255' is no state of the book"},
    {"a move by what is no sign", BOOK_1 "0 _ 0\n", "line 3: '_' is no sign"},
    {"a move by two signs", BOOK_1 "0 ++ 0\n", "line 3: '++' is no sign"},
    {"a move by a letter that the book lacks", BOOK_1 "0 - 0\n", "line 3: '-' is none of the book's 1 letters"},
    {"a move by a set with what is no sign", BOOK_1 "0 {+_} 0\n", "line 3: '_' is no sign"},
    {"a move by a set that does not end", BOOK_1 "0 {+ 0\n", "line 3: '{+' is no set"},
    {"a move by a set with a letter that the book lacks", BOOK_1 "0 {+-} 0\n", "line 3: '-' is none of the book's 1 letters"},
    {"a move by a set, one of it a second time", "book 1 3\nstart 0\n0 - 0\n0 {+..0} 0\n", "line 4: state 0 has its move by '-' already"},
    {"a move by a set without its next state", BOOK_1 "0 {+}\n", "line 3: the next state is missing"},
    {"a move without a letter", BOOK_1 "0\n", "line 3: the letter is missing"},
    {"a move without its next state", BOOK_1 "0 +\n", "line 3: the next state is missing"},
    {"a move with two next states", BOOK_1 "0 + 0 0\n", "line 3: '0' is too much"},
    {"a move twice", "book 2 1\nstart 0\n0 + 1\n1 + 0\n0 + 0\n", "line 5: state 0 has its move by '+' already"},
    {"the same move twice", BOOK_1 "0 + 0\n0 + 0\n", "line 4: state 0 has its move by '+' already"},
    {"a start outside a book", "start 0\n", "line 1: this belongs in a book"},
    {"an accepting state in a mask", BOOK_1 "mask\naccept 0\n", "line 4: this belongs in a book"},
    {"a move in a mask", BOOK_1 "mask\n0 + 0\n", "line 4: this belongs in a book"},
    {"a block outside a mask", "{+} 0-1\n", "line 1: this belongs in a mask"},
    {"a block in a book", BOOK_1 "{+} 0-1\n", "line 3: this belongs in a mask"},
    {"a word behind mask", "mask 1\n", "line 1: '1' is too much"},
    {"a set with what is no sign", "mask\n{+_} 0-1\n", "line 2: '_' is no sign"},
    {"a set with a brace in it", "mask\n{{} 0-1\n", "line 2: '{' is no sign"},
    {"a set that does not end", "mask\n{+- 0-1\n", "line 2: '{+-' is no set"},
    {"a set with more behind it", "mask\n{+}- 0-1\n", "line 2: '{+}-' is no set"},
    {"a set with blanks", "mask\n{+ -} 0-1\n", "line 2: '{+' is no set"},
    {"a range without an end", "mask\n{0..} 0-1\n", "line 2: '}' is no sign"},
    {"a range without a beginning", "mask\n{..9} 0-1\n", "line 2: '.' is no sign"},
    {"a range backwards", "mask\n{9..0} 0-1\n", "line 2: '9..0' runs backwards"},
    {"a block without lengths", "mask\n{+}\n", "line 2: the block's length is missing"},
    {"a block with one length", "mask\n{+} 2\n", "line 2: '2' is no least and greatest length, as 0-2"},
    {"a block without a least length", "mask\n{+} -2\n", "line 2: '' is no number"},
    {"a block without a greatest length", "mask\n{+} 0-\n", "line 2: '' is no number"},
    {"a block with three lengths", "mask\n{+} 0-1-2\n", "line 2: '1-2' is no number"},
    {"a block with more behind it", "mask\n{+} 0-1 {-} 0-1\n", "line 2: '{-}' is too much"},
    {"a least length of 65,536", "mask\n{+} 65536-65535\n", "line 2: '65536' is above 65535"},
    {"a greatest length of 65,536", "mask\n{+} 0-65536\n", "line 2: '65536' is above 65535"},
    {"a fault on the last line, which does not end", "mask\nmask\nmask\nx", "line 4: 'x' begins no line"},
};

static void tables(void)
{
    static struct stream text, written;
    static struct bytes bytes;
    for (size_t i = 0; i < sizeof written_cases / sizeof written_cases[0]; i++) {
        stream_clear(&text);
        stream_clear(&written);
        stream_print(&text, "%s", written_cases[i].text);
        hex(&bytes, written_cases[i].answer);
        stream_add(&written, bytes.at, bytes.len);
        writes_stream(written_cases[i].name, &text, &written);
    }
    for (size_t i = 0; i < sizeof refused_cases / sizeof refused_cases[0]; i++) {
        char complaint[128];
        snprintf(complaint, sizeof complaint, "records: %s\n", refused_cases[i].answer);
        stream_clear(&text);
        stream_print(&text, "%s", refused_cases[i].text);
        refuses_stream(refused_cases[i].name, &text, complaint);
    }
}

/* ---- what no table holds */

/* The longest mask that a record can hold, of 5,460 blocks, and one block more. */
static void longest(void)
{
    enum { BLOCKS = 5460 };
    static struct stream text, written;
    static struct bytes bytes;
    struct block block = {1, 0, 1};
    stream_print(&text, "mask\n");
    for (int i = 0; i < BLOCKS; i++) {
        stream_print(&text, "{+} 0-1\n");
    }
    mask_repeated(&bytes, block, block, BLOCKS);
    stream_add(&written, bytes.at, bytes.len);
    writes_stream("5,460 blocks", &text, &written);
    stream_print(&text, "{+} 0-1\n");
    refuses_stream("5,461 blocks", &text, "records: line 5462: the record is above 65535 bytes\n");
}

static void largest(void)
{
    static struct stream text, written;
    static struct bytes bytes;
    stream_print(&text, "book 63 64\nstart 0\naccept 0 62\n62 z 0\n");
    for (int q = 0; q < 62; q++) {
        stream_print(&text, "%d %c %d\n", q, signs[q], q + 1);
    }
    largest_book(&bytes);
    stream_add(&written, bytes.at, bytes.len);
    writes_stream("the largest book", &text, &written);
}

static void files(const char *sample)
{
    static struct stream text, written;
    static struct bytes bytes;
    struct start from_file = {tool, sample, NULL, 0, NULL}, from_folder = {tool, "/", NULL, 0, NULL};
    struct start to_full = {tool, sample, "/dev/full", 0, NULL};
    hex(&bytes, BOOK_A " 12 00 02 00 01 00 07 00 00 00 00 00 00 00 00 00 02 00");
    stream_add(&written, bytes.at, bytes.len);
    run("the sample", from_file, NULL, &written, "");
    run("an input that can't be read", from_folder, NULL, &nothing, "records: standard input can't be read\n");
    run("an output that is full", to_full, NULL, &nothing, "records: standard output can't be written\n");
    stream_add(&text, "mask\n{+} 0-1\0\n", 14);
    refuses_stream("a zero byte", &text, "records: line 2: a zero byte\n");
}

int main(int argc, char **argv)
{
    if (argc != 3) {
        fprintf(stderr, "usage: tools RECORDS SAMPLE\n");
        return 2;
    }
    tool = argv[1];
    tables();
    longest();
    largest();
    files(argv[2]);
    return count_end();
}
