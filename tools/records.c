/*
 * records: makes book and mask records, as the line program reads them, from a text.
 *
 *     records < text > records
 *
 * Words are parted by blanks, '#' begins a comment, and blank lines are free. The records come in the text's order:
 *
 *     book 3 3        # a book of 3 states, 0 to 2, and 3 letters, the first 3 signs; its lines follow in any order
 *     start 0         # where it starts
 *     accept 1        # any number of accepting states, also none
 *     0 + 1           # a move: from state 0 by the letter + to state 1
 *     1 {-0} 2        # the same move by each of these letters
 *     mask            # a mask; its blocks follow in their order, or none
 *     {+-0} 0-2       # a block: its letters, its least and its greatest length
 *
 * Signs: letter 0 is +, 1 is -, 2 to 11 are 0 to 9, 12 to 37 are A to Z, 38 to 63 are a to z. {} is the empty set, and
 * {0..9A..F} has ranges.
 *
 * Where the text can't be read, or no record can hold what it says, the line and the reason are printed on standard error,
 * nothing is written, and the exit status is 1. What a record can hold is written, also where the product refuses it: the
 * refusal number tells why.
 */
#include <stdarg.h>
#include <stdint.h>
#include <stdio.h>
#include <stdlib.h>
#include <string.h>

enum { BOOK = 1, MASK = 2, BOOK_HEAD = 15, MASK_HEAD = 6, BLOCK = 12, NO_MOVE = 255, LONGEST = 65535 };

static const char signs[] = "+-0123456789ABCDEFGHIJKLMNOPQRSTUVWXYZabcdefghijklmnopqrstuvwxyz";

struct buffer {
    char *at;
    size_t len, room;
};

static struct buffer text, out;

static size_t line; /* the number of the line in hand */
static char *rest;  /* what is not yet read of it */

/* The record in hand, the last in `out`. */
static struct {
    int kind;    /* 0 before the first */
    size_t from; /* where it begins */
    size_t line; /* where its text does */
    unsigned states, letters;
    uint64_t accepting;
    int has_start;
} record;

static void fail(const char *format, ...)
{
    va_list values;
    va_start(values, format);
    fprintf(stderr, "records: line %zu: ", line);
    vfprintf(stderr, format, values);
    fprintf(stderr, "\n");
    va_end(values);
    exit(1);
}

static void fail_outside(const char *what)
{
    fprintf(stderr, "records: %s\n", what);
    exit(1);
}

/* Makes room for so many bytes behind the buffer's, and gives where they are. */
static char *more(struct buffer *buffer, size_t len)
{
    if (buffer->room - buffer->len < len) {
        buffer->room = 2 * (buffer->len + len);
        buffer->at = realloc(buffer->at, buffer->room);
        if (buffer->at == NULL) {
            fail_outside("not enough memory");
        }
    }
    return buffer->at + buffer->len;
}

/* ---- words */

/* The next word of the line, or NULL. */
static char *next_word(void)
{
    char *word = rest + strspn(rest, " \t\r");
    rest = word + strcspn(word, " \t\r");
    if (*word == '\0') {
        return NULL;
    }
    if (*rest != '\0') {
        *rest++ = '\0';
    }
    return word;
}

static char *need(const char *what)
{
    char *word = next_word();
    if (word == NULL) {
        fail("%s is missing", what);
    }
    return word;
}

static unsigned number(const char *word, unsigned most)
{
    unsigned value = 0;
    if (*word == '\0' || word[strspn(word, "0123456789")] != '\0') {
        fail("'%s' is no number", word);
    }
    for (const char *digit = word; *digit != '\0'; digit++) {
        value = 10 * value + (unsigned)(*digit - '0');
        if (value > most) {
            fail("'%s' is above %u", word, most);
        }
    }
    return value;
}

static unsigned state(const char *word)
{
    unsigned value = number(word, LONGEST);
    if (value >= record.states) {
        fail("'%s' is no state of the book", word);
    }
    return value;
}

static unsigned letter(char sign)
{
    const char *at = sign != '\0' ? strchr(signs, sign) : NULL;
    if (at == NULL) {
        fail("'%c' is no sign", sign);
    }
    return (unsigned)(at - signs);
}

/* The letters between braces. */
static uint64_t set(const char *word)
{
    uint64_t letters = 0;
    const char *end = strchr(word, '}'), *at = word + 1;
    if (end == NULL || end[1] != '\0') {
        fail("'%s' is no set", word);
    }
    while (at < end) {
        unsigned first = letter(*at), last = first;
        at++;
        if (strncmp(at, "..", 2) == 0) {
            last = letter(at[2]);
            at += 3;
        }
        if (last < first) {
            fail("'%c..%c' runs backwards", signs[first], signs[last]);
        }
        for (; first <= last; first++) {
            letters |= UINT64_C(1) << first;
        }
    }
    return letters;
}

/* ---- records */

/* Puts a number at a place of the record in hand. */
static void put(size_t place, uint64_t value, int width)
{
    for (int i = 0; i < width; i++) {
        out.at[record.from + place + (size_t)i] = (char)(value >> (8 * i));
    }
}

/* Makes the record in hand so much longer. */
static void lengthen(size_t len, int fill)
{
    if (out.len - record.from + len > LONGEST) {
        fail("the record is above %d bytes", LONGEST);
    }
    memset(more(&out, len), fill, len);
    out.len += len;
    put(0, out.len - record.from, 2);
}

static void end_record(void)
{
    if (record.kind == BOOK && !record.has_start) {
        line = record.line;
        fail("the book has no start");
    }
}

static void begin_record(int kind, size_t head)
{
    end_record();
    record.kind = kind;
    record.from = out.len;
    record.line = line;
    lengthen(head, 0);
    put(2, (uint64_t)kind, 2);
}

static void demand_kind(int kind)
{
    if (record.kind != kind) {
        fail("this belongs in a %s", kind == BOOK ? "book" : "mask");
    }
}

static void read_book(void)
{
    begin_record(BOOK, BOOK_HEAD);
    record.states = number(need("the number of states"), 255);
    record.letters = number(need("the number of letters"), 255);
    record.accepting = 0;
    record.has_start = 0;
    put(4, record.states, 1);
    put(5, record.letters, 1);
    lengthen(record.states * record.letters, NO_MOVE);
}

static void read_start(void)
{
    demand_kind(BOOK);
    if (record.has_start) {
        fail("the book has its start already");
    }
    record.has_start = 1;
    put(6, state(need("the start")), 1);
}

static void read_accept(void)
{
    demand_kind(BOOK);
    for (char *word = next_word(); word != NULL; word = next_word()) {
        unsigned accepting = state(word);
        if (accepting > 63) {
            fail("'%s' is above 63, the last state that a record can accept", word);
        }
        record.accepting |= UINT64_C(1) << accepting;
    }
    put(7, record.accepting, 8);
}

/* The letters of a move: a sign, or a set. */
static uint64_t move_letters(const char *word)
{
    if (*word == '{') {
        return set(word);
    }
    if (word[1] != '\0') {
        fail("'%s' is no sign", word);
    }
    return UINT64_C(1) << letter(*word);
}

static void put_move(unsigned from, unsigned by, unsigned to)
{
    size_t place = BOOK_HEAD + from * record.letters + by;
    if (by >= record.letters) {
        fail("'%c' is none of the book's %u letters", signs[by], record.letters);
    }
    if ((unsigned char)out.at[record.from + place] != NO_MOVE) {
        fail("state %u has its move by '%c' already", from, signs[by]);
    }
    put(place, to, 1);
}

static void read_move(const char *word)
{
    demand_kind(BOOK);
    unsigned from = state(word);
    uint64_t letters = move_letters(need("the letter"));
    unsigned to = state(need("the next state"));
    for (unsigned by = 0; by < 64; by++) {
        if (letters >> by & 1) {
            put_move(from, by, to);
        }
    }
}

static void read_block(const char *word)
{
    demand_kind(MASK);
    size_t place = out.len - record.from;
    char *lower = need("the block's length"), *dash = strchr(lower, '-');
    if (dash == NULL) {
        fail("'%s' is no least and greatest length, as 0-2", lower);
    }
    *dash = '\0';
    lengthen(BLOCK, 0);
    put(4, (place - MASK_HEAD) / BLOCK + 1, 2);
    put(place, set(word), 8);
    put(place + 8, number(lower, 65535), 2);
    put(place + 10, number(dash + 1, 65535), 2);
}

/* ---- the text */

static void read_line(void)
{
    char *word = next_word();
    if (word == NULL) {
        return;
    }
    if (strcmp(word, "book") == 0) {
        read_book();
    } else if (strcmp(word, "start") == 0) {
        read_start();
    } else if (strcmp(word, "accept") == 0) {
        read_accept();
    } else if (strcmp(word, "mask") == 0) {
        begin_record(MASK, MASK_HEAD);
    } else if (*word == '{') {
        read_block(word);
    } else if (strchr("0123456789", *word) != NULL) {
        read_move(word);
    } else {
        fail("'%s' begins no line", word);
    }
    word = next_word();
    if (word != NULL) {
        fail("'%s' is too much", word);
    }
}

/* Reads all of standard input, and ends it with a zero byte. */
static void read_text(void)
{
    enum { PIECE = 65536 };
    size_t len;
    do {
        len = fread(more(&text, PIECE), 1, PIECE, stdin);
        text.len += len;
    } while (len > 0);
    if (ferror(stdin)) {
        fail_outside("standard input can't be read");
    }
    *more(&text, 1) = '\0';
}

int main(void)
{
    read_text();
    char *end = text.at + text.len;
    for (char *at = text.at, *next; at < end; at = next) {
        size_t len = strcspn(at, "\n");
        line++;
        if (at[len] == '\0' && at + len < end) {
            fail("a zero byte");
        }
        next = at + len + 1;
        at[len] = '\0';
        at[strcspn(at, "#")] = '\0';
        rest = at;
        read_line();
    }
    end_record();
    if ((out.len > 0 && fwrite(out.at, 1, out.len, stdout) != out.len) || fflush(stdout) != 0) {
        fail_outside("standard output can't be written");
    }
    return 0;
}
