/* The test of the form: see forms.h. */
#define _POSIX_C_SOURCE 200809L
#include "forms.h"

#include "books.h"
#include "count.h"
#include "faults.h"
#include "temporary.h"

#include <stdio.h>
#include <stdlib.h>
#include <string.h>
#include <sys/wait.h>

const char *form_path, *book_path, *mask_path;

/* ---- what is shown */

void step_text(struct stream *to, const struct step *step, int how)
{
    static const int rows[] = {0, 12, 38, 64};
    stream_print(to, "%s", how & STYLED ? "\033[H\033[J" : "");
    stream_print(to, "%s%sform     ", step->message, *step->message != '\0' ? "\n" : "");
    stream_add(to, step->form, strlen(step->form));
    for (int row = 0; row < 3; row++) {
        stream_print(to, row == 0 ? "\nkeys    " : "\n        ");
        for (int letter = rows[row]; letter < rows[row + 1]; letter++) {
            int lit = strchr(step->lit, signs[letter]) != NULL;
            if (how & STYLED) {
                stream_print(to, lit ? " \033[1m%c\033[0m" : " \033[2m%c\033[0m", signs[letter]);
            } else {
                stream_print(to, " %c", lit ? signs[letter] : '.');
            }
        }
    }
    stream_print(to, "\nlit     %s", *step->lit == '\0' ? " no key" : "");
    for (const char *sign = step->lit; *sign != '\0'; sign++) {
        stream_print(to, " %c", *sign);
    }
    stream_print(to, "\nverdict  %s\ncode     %s\n", step->verdict, step->code);
    stream_print(to, "%s\n",
                 how & KEYBOARD ? "Backspace takes the last letter back, Enter ends with a legal code, Ctrl-D leaves." : "");
}

/* ---- running it */

void write_records(const char *book, const struct block *blocks, unsigned count)
{
    static struct bytes bytes;
    hex(&bytes, book);
    write_file(book_path, bytes.at, bytes.len);
    mask_record(&bytes, blocks, count);
    write_file(mask_path, bytes.at, bytes.len);
}

int ended_so(const struct process *process, int status, int wanted, const struct stream *printed, const char *complained)
{
    int holds = WIFEXITED(status) && WEXITSTATUS(status) == wanted && !process->late && stream_equal(&process->printed, printed)
        && process->complained.len == strlen(complained)
        && (*complained == '\0' || memcmp(process->complained.at, complained, process->complained.len) == 0);
    if (!holds) {
        printf("  status %d%s; standard error: '%.*s'; printed:\n%.*s\n  expected: '%s';\n%.*s\n", status,
               process->late ? ", did not end by itself" : "", (int)process->complained.len,
               process->complained.len > 0 ? process->complained.at : "", (int)process->printed.len,
               process->printed.len > 0 ? process->printed.at : "", complained, (int)printed->len,
               printed->len > 0 ? printed->at : "");
    }
    return holds;
}

/* Runs the form, feeds it these keys, and counts whether it prints, complains and ends so. */
static void run(const char *name, struct start start, const char *keys, int wanted, const struct stream *printed,
                const char *complained)
{
    struct process process;
    process_start(&process, &start);
    process_feed(&process, keys, strlen(keys), 0);
    int status = process_end(&process);
    count("form", name, ended_so(&process, status, wanted, printed, complained));
    process_free(&process);
}

/* The same with the files in hand, once with the keys as an argument and once on standard input. */
static void run_both_ways(const char *name, const char *keys, const struct stream *printed)
{
    const char *typed[] = {book_path, mask_path, keys, NULL}, *fed[] = {book_path, mask_path, NULL};
    struct start by_argument = {form_path, "/dev/null", NULL, 0, typed}, by_pipe = {form_path, NULL, NULL, 0, fed};
    run(name, by_argument, "", 0, printed, "");
    run(name, by_pipe, keys, 0, printed, "");
}

/* ---- keys typed */

enum { SIGN_SET = 3, DIGITS = 0xFFC };

#define HEIGHT_FIELD 2, {{SIGN_SET, 1, 1}, {DIGITS, 4, 4}}

struct typed_case {
    const char *name, *book;
    unsigned count;
    struct block blocks[3];
    const char *keys;
    struct step steps[12]; /* the last has a form of NULL */
    const char *code;      /* printed by Enter, or NULL */
};

static const struct typed_case typed_cases[] = {
    {"heights: the lowest", HEIGHTS, HEIGHT_FIELD, "-50250",
        {{"", "_", "+-", SOME_TEXT, NOT_YET}, {"key -", "-_", "0", SOME_TEXT, NOT_YET},
         {"key 5: grey, and refused", "-_", "0", SOME_TEXT, NOT_YET}, {"key 0", "-0_", "012", SOME_TEXT, NOT_YET},
         {"key 2", "-02_", "012345", SOME_TEXT, NOT_YET}, {"key 5", "-025_", "0", ONE_TEXT, NOT_YET},
         {"key 0", "-0250", "", ALL_TEXT, COMPLETE}}, NULL},
    {"heights: the highest, with Enter", HEIGHTS, HEIGHT_FIELD, "+12\n00\n",
        {{"", "_", "+-", SOME_TEXT, NOT_YET}, {"key +", "+_", "01", SOME_TEXT, NOT_YET},
         {"key 1", "+1_", "012", SOME_TEXT, NOT_YET}, {"key 2", "+12_", "0", ONE_TEXT, NOT_YET},
         {"Enter: not legal", "+12_", "0", ONE_TEXT, NOT_YET}, {"key 0", "+120_", "0", ONE_TEXT, NOT_YET},
         {"key 0", "+1200", "", ALL_TEXT, COMPLETE}}, "+1200"},
    {"heights: there is no -0000", HEIGHTS, HEIGHT_FIELD, "-00007",
        {{"", "_", "+-", SOME_TEXT, NOT_YET}, {"key -", "-_", "0", SOME_TEXT, NOT_YET},
         {"key 0", "-0_", "012", SOME_TEXT, NOT_YET}, {"key 0", "-00_", "0123456789", SOME_TEXT, NOT_YET},
         {"key 0", "-000_", "123456789", SOME_TEXT, NOT_YET},
         {"key 0: grey, and refused", "-000_", "123456789", SOME_TEXT, NOT_YET},
         {"key 7", "-0007", "", ALL_TEXT, COMPLETE}}, NULL},
    {"heights: zero", HEIGHTS, HEIGHT_FIELD, "+0000",
        {{"", "_", "+-", SOME_TEXT, NOT_YET}, {"key +", "+_", "01", SOME_TEXT, NOT_YET},
         {"key 0", "+0_", "0123456789", ALL_TEXT, NOT_YET}, {"key 0", "+00_", "0123456789", ALL_TEXT, NOT_YET},
         {"key 0", "+000_", "0123456789", ALL_TEXT, NOT_YET}, {"key 0", "+0000", "", ALL_TEXT, COMPLETE}}, NULL},
    {"heights: letters taken back", HEIGHTS, HEIGHT_FIELD, "\177+1\177\b\b-\r",
        {{"", "_", "+-", SOME_TEXT, NOT_YET}, {"Backspace: no letter to take back", "_", "+-", SOME_TEXT, NOT_YET},
         {"key +", "+_", "01", SOME_TEXT, NOT_YET}, {"key 1", "+1_", "012", SOME_TEXT, NOT_YET},
         {"Backspace", "+_", "01", SOME_TEXT, NOT_YET}, {"Backspace", "_", "+-", SOME_TEXT, NOT_YET},
         {"Backspace: no letter to take back", "_", "+-", SOME_TEXT, NOT_YET}, {"key -", "-_", "0", SOME_TEXT, NOT_YET},
         {"Enter: not legal", "-_", "0", SOME_TEXT, NOT_YET}}, NULL},
    {"heights: keys that are no signs, or no letters of the book", HEIGHTS, HEIGHT_FIELD, "_ \033\377~A",
        {{"", "_", "+-", SOME_TEXT, NOT_YET}, {"key _: no sign", "_", "+-", SOME_TEXT, NOT_YET},
         {"key 20: no sign", "_", "+-", SOME_TEXT, NOT_YET}, {"key 1B: no sign", "_", "+-", SOME_TEXT, NOT_YET},
         {"key FF: no sign", "_", "+-", SOME_TEXT, NOT_YET}, {"key ~: no sign", "_", "+-", SOME_TEXT, NOT_YET},
         {"key A: grey, and refused", "_", "+-", SOME_TEXT, NOT_YET}}, NULL},
    {"heights: Ctrl-D leaves", HEIGHTS, HEIGHT_FIELD, "-\0040",
        {{"", "_", "+-", SOME_TEXT, NOT_YET}, {"key -", "-_", "0", SOME_TEXT, NOT_YET}}, NULL},
    {"heights: Ctrl-C leaves", HEIGHTS, HEIGHT_FIELD, "-\0030",
        {{"", "_", "+-", SOME_TEXT, NOT_YET}, {"key -", "-_", "0", SOME_TEXT, NOT_YET}}, NULL},
    {"heights: no sign in the mask", HEIGHTS, 1, {{DIGITS, 4, 4}}, "0",
        {{"", "", "", NONE_TEXT, HOPELESS}, {"key 0: grey, and refused", "", "", NONE_TEXT, HOPELESS}}, NULL},
    {"A, {0,1,2} 0-2: narrow keeps more than + behind +", BOOK_A, 1, {{7, 0, 2}}, "-+0",
        {{"", "_", "+", SOME_TEXT, NOT_YET}, {"key -: grey, and refused", "_", "+", SOME_TEXT, NOT_YET},
         {"key +", "+", "", SOME_TEXT, COMPLETE}, {"key 0: grey, and refused", "+", "", SOME_TEXT, COMPLETE}}, NULL},
    {"A, {0,1,2} 1-1", BOOK_A, 1, {{7, 1, 1}}, "+",
        {{"", "_", "+", ONE_TEXT, NOT_YET}, {"key +", "+", "", ALL_TEXT, COMPLETE}}, NULL},
    {"A, {0,1} 0-3, {1}, {2}: - is the second block's", BOOK_A, 3, {{3, 0, 3}, {2, 1, 1}, {4, 1, 1}}, "+-0",
        {{"", "_", "+", SOME_TEXT, NOT_YET}, {"key +", "+_", "-", ONE_TEXT, NOT_YET}, {"key -", "+-_", "0", ONE_TEXT, NOT_YET},
         {"key 0", "+-0", "", ALL_TEXT, COMPLETE}}, NULL},
    {"B, {0,1,2} 2-2", BOOK_B, 1, {{7, 2, 2}}, "-0",
        {{"", "_", "+-", SOME_TEXT, NOT_YET}, {"key -", "-_", "0", ONE_TEXT, NOT_YET},
         {"key 0", "-0", "", ALL_TEXT, COMPLETE}}, NULL},
    {"B, {0,1}, {2}", BOOK_B, 2, {{3, 1, 1}, {4, 1, 1}}, "+",
        {{"", "_", "+-", ALL_TEXT, NOT_YET}, {"key +", "+_", "0", ALL_TEXT, NOT_YET}}, NULL},
    {"B, no blocks", BOOK_B, 0, {{0, 0, 0}}, "\n",
        {{"", "", "", NONE_TEXT, HOPELESS}, {"Enter: not legal", "", "", NONE_TEXT, HOPELESS}}, NULL},
    {"C, no blocks", BOOK_C, 0, {{0, 0, 0}}, "+\n",
        {{"", "", "", ALL_TEXT, COMPLETE}, {"key +: grey, and refused", "", "", ALL_TEXT, COMPLETE}}, ""},
    {"C, {} 1-1", BOOK_C, 1, {{0, 1, 1}}, "+",
        {{"", "", "", NONE_TEXT, HOPELESS}, {"key +: grey, and refused", "", "", NONE_TEXT, HOPELESS}}, NULL},
    {"C, {0,1} 0-2, {1}: cut in two ways", BOOK_C, 2, {{3, 0, 2}, {2, 1, 1}}, "-+-",
        {{"", "_", "+-", ALL_TEXT, NOT_YET}, {"key -", "-_", "+-", ALL_TEXT, STANDS}, {"key +", "-+_", "-", ALL_TEXT, NOT_YET},
         {"key -", "-+-", "", ALL_TEXT, COMPLETE}}, NULL},
    {"C, {0} 0-2, {0}", BOOK_C, 2, {{1, 0, 2}, {1, 1, 1}}, "++++",
        {{"", "_", "+", ALL_TEXT, NOT_YET}, {"key +", "+_", "+", ALL_TEXT, STANDS}, {"key +", "++_", "+", ALL_TEXT, STANDS},
         {"key +", "+++", "", ALL_TEXT, COMPLETE}, {"key +: grey, and refused", "+++", "", ALL_TEXT, COMPLETE}}, NULL},
    {"RING, {0} 0-5", RING, 1, {{1, 0, 5}}, "+++++\n",
        {{"", "_", "+", SOME_TEXT, STANDS}, {"key +", "+_", "+", ONE_TEXT, NOT_YET}, {"key +", "++_", "+", ONE_TEXT, NOT_YET},
         {"key +", "+++_", "+", ONE_TEXT, NOT_YET}, {"key +", "++++_", "+", ONE_TEXT, NOT_YET},
         {"key +", "+++++", "", ALL_TEXT, COMPLETE}}, "+++++"},
    {"TURNS, {0,1} 0-3", TURNS, 1, {{3, 0, 3}}, "+-",
        {{"", "_", "+", SOME_TEXT, STANDS}, {"key +", "+_", "-", SOME_TEXT, NOT_YET},
         {"key -", "+-", "", SOME_TEXT, COMPLETE}}, NULL},
    {"LOOP, {0,1} 1-3", LOOP, 1, {{3, 1, 3}}, "+--",
        {{"", "_", "+", SOME_TEXT, NOT_YET}, {"key +", "+_", "-", SOME_TEXT, STANDS}, {"key -", "+-_", "-", SOME_TEXT, STANDS},
         {"key -", "+--", "", ALL_TEXT, COMPLETE}}, NULL},
    {"FORK, {0,1} 1-3", FORK, 1, {{3, 1, 3}}, "++-",
        {{"", "_", "+-", SOME_TEXT, NOT_YET}, {"key +", "+_", "+", SOME_TEXT, STANDS}, {"key +", "++_", "-", ONE_TEXT, NOT_YET},
         {"key -", "++-", "", ALL_TEXT, COMPLETE}}, NULL},
    {"GAP, {0,1} 0-2", GAP, 1, {{3, 0, 2}}, "-\n",
        {{"", "_", "+-", SOME_TEXT, STANDS}, {"key -", "-", "", ONE_TEXT, COMPLETE}}, "-"},
};

static void keys_typed(void)
{
    static struct stream printed;
    for (size_t i = 0; i < sizeof typed_cases / sizeof typed_cases[0]; i++) {
        const struct typed_case *row = &typed_cases[i];
        stream_clear(&printed);
        for (const struct step *step = row->steps; step->form != NULL; step++) {
            step_text(&printed, step, PLAIN);
        }
        if (row->code != NULL) {
            stream_print(&printed, "%s\n", row->code);
        }
        write_records(row->book, row->blocks, row->count);
        run_both_ways(row->name, row->keys, &printed);
    }
}

/* The largest book has one code of 62 letters and one of 63: every key but one is lit in its turn. */
static void every_key(void)
{
    static struct stream printed;
    static struct bytes bytes;
    struct block block = {UINT64_MAX, 0, 63};
    char keys[64] = "", form[65] = "_", message[8] = "", lit[2] = "";
    largest_book(&bytes);
    write_file(book_path, bytes.at, bytes.len);
    mask_record(&bytes, &block, 1);
    write_file(mask_path, bytes.at, bytes.len);
    for (int typed = 0; typed <= 63; typed++) {
        struct step step = {message, form, lit, typed < 63 ? SOME_TEXT : ALL_TEXT, NOT_YET};
        snprintf(lit, sizeof lit, "%.1s", typed < 62 ? signs + typed : typed == 62 ? "z" : "");
        snprintf(form, sizeof form, "%s%s", keys, typed < 63 ? "_" : "");
        step.code = typed == 0 || typed == 62 ? STANDS : typed == 63 ? COMPLETE : NOT_YET;
        step_text(&printed, &step, PLAIN);
        snprintf(message, sizeof message, "key %s", lit);
        strcat(keys, lit);
    }
    run_both_ways("every key", keys, &printed);
}

/* Letters in several arguments; and each step is shown while the input stays open. */
static void keys_in_pieces(void)
{
    const struct typed_case *row = &typed_cases[0];
    const char *apart[] = {book_path, mask_path, "-5", "", "025", "0", NULL}, *fed[] = {book_path, mask_path, NULL};
    struct start by_arguments = {form_path, NULL, NULL, 0, apart}, by_pipe = {form_path, NULL, NULL, 0, fed};
    struct stream printed = {NULL, 0, 0};
    struct process process;
    write_records(row->book, row->blocks, row->count);
    process_start(&process, &by_pipe);
    for (int i = 0; row->steps[i].form != NULL; i++) {
        process_feed(&process, row->keys + i - 1, i > 0, 0);
        step_text(&printed, &row->steps[i], PLAIN);
        process_await(&process, printed.len);
    }
    count("form", "each step while the input stays open", stream_equal(&process.printed, &printed));
    count("form", "the end of the input", ended_so(&process, process_end(&process), 0, &printed, ""));
    process_free(&process);
    run("letters in several arguments", by_arguments, "", 0, &printed, "");
    free(printed.at);
}

/* The records that make writes from the texts beside the tool. */
static void sample(const char *book, const char *mask)
{
    const struct typed_case *row = &typed_cases[0];
    const char *arguments[] = {book, mask, row->keys, NULL};
    struct start start = {form_path, "/dev/null", NULL, 0, arguments};
    struct stream printed = {NULL, 0, 0};
    for (const struct step *step = row->steps; step->form != NULL; step++) {
        step_text(&printed, step, PLAIN);
    }
    run("the height field of the tool's texts", start, "", 0, &printed, "");
    free(printed.at);
}

/* ---- what is refused */

static const struct stream nothing = {NULL, 0, 0};

/* Runs the form on two files, which it must refuse with this complaint behind the path of the one that is at fault. */
static void refuses(const char *name, const char *book, const char *mask, const char *at_fault, const char *reason)
{
    char complaint[256];
    const char *arguments[] = {book, mask, "+", NULL};
    struct start start = {form_path, "/dev/null", NULL, 0, arguments};
    snprintf(complaint, sizeof complaint, "form: %s: %s\n", at_fault, reason);
    run(name, start, "", 1, &nothing, complaint);
}

static const char *const book_reasons[] = {
    "",
    "1: fewer than 4 bytes, or a length field that isn't the number of bytes",
    "2: a kind other than 1",
    "3: a length under 15",
    "4: no 1 to 63 states, or no 1 to 64 letters",
    "5: a length that isn't 15 + states x letters",
    "6: a start, an accepting bit or a move that names no state",
};

static const char *const mask_reasons[] = {
    "",
    "1: fewer than 4 bytes, or a length field that isn't the number of bytes",
    "2: a kind other than 2",
    "3: a length under 6",
    "4: more than 1,024 blocks",
    "5: a length that isn't 6 + 12 x blocks",
    "",
    "7: a block whose lower bound is above its upper",
    "8: upper bounds that sum to more than 1,024",
    "9: a set with a letter that the book lacks",
};

static void records_refused(void)
{
    static struct bytes bytes;
    struct block good = {1, 0, 1}, foreign = {LETTER(2), 0, 0};
    char reason[128];
    for (const struct fault *fault = book_faults; fault->name != NULL; fault++) {
        write_records(fault->bytes, &good, 1);
        snprintf(reason, sizeof reason, "the book is refused, number %s", book_reasons[fault->refusal]);
        refuses(fault->name, book_path, mask_path, book_path, reason);
    }
    for (const struct fault *fault = mask_faults; fault->name != NULL; fault++) {
        write_records(BOOK_C, &good, 1);
        hex(&bytes, fault->bytes);
        write_file(mask_path, bytes.at, bytes.len);
        snprintf(reason, sizeof reason, "the mask is refused, number %s", mask_reasons[fault->refusal]);
        refuses(fault->name, book_path, mask_path, mask_path, reason);
    }
    write_records(BOOK_C, &foreign, 1);
    snprintf(reason, sizeof reason, "the mask is refused, number %s", mask_reasons[9]);
    refuses("a letter that the book lacks", book_path, mask_path, mask_path, reason);
}

static void files_refused(void)
{
    static const char zeros[65536];
    struct block good = {1, 0, 1};
    write_records(BOOK_C, &good, 1);
    refuses("no book", "/nowhere/book", mask_path, "/nowhere/book", "No such file or directory");
    refuses("no mask", book_path, "/nowhere/mask", "/nowhere/mask", "No such file or directory");
    refuses("a folder as book", "/", mask_path, "/", "Is a directory");
    refuses("a folder as mask", book_path, "/", "/", "Is a directory");
    refuses("a book without an end", "/dev/zero", mask_path, "/dev/zero", "more than 65535 bytes, so no record");
    write_file(mask_path, zeros, 65536);
    refuses("a mask of 65,536 bytes", book_path, mask_path, mask_path, "more than 65535 bytes, so no record");
    write_file(mask_path, zeros, 65535);
    refuses("a mask of 65,535 bytes", book_path, mask_path, mask_path,
            "the mask is refused, number 1: fewer than 4 bytes, or a length field that isn't the number of bytes");
    refuses("book and mask exchanged", book_path, book_path, book_path, "the mask is refused, number 2: a kind other than 2");
}

static void streams_refused(void)
{
    static const char usage[] = "form: usage: form BOOK MASK [LETTERS..]\n";
    const char *none[] = {NULL}, *one[] = {book_path, NULL}, *both[] = {book_path, mask_path, NULL};
    struct start without = {form_path, NULL, NULL, 0, none}, with_one = {form_path, NULL, NULL, 0, one};
    struct start from_folder = {form_path, "/", NULL, 0, both}, to_full = {form_path, NULL, "/dev/full", 0, both};
    const struct typed_case *row = &typed_cases[0];
    struct stream printed = {NULL, 0, 0};
    write_records(row->book, row->blocks, row->count);
    run("no arguments", without, "", 1, &nothing, usage);
    run("one argument", with_one, "", 1, &nothing, usage);
    step_text(&printed, &row->steps[0], PLAIN);
    run("an input that can't be read", from_folder, "", 1, &printed, "form: standard input: Is a directory\n");
    run("an output that is full", to_full, "", 1, &nothing, "form: standard output: No space left on device\n");
    free(printed.at);
}

int main(int argc, char **argv)
{
    if (argc != 4) {
        fprintf(stderr, "usage: forms FORM BOOK MASK\n");
        return 2;
    }
    book_path = temporary_file();
    mask_path = temporary_file();
    form_path = argv[1];
    test_keys();
    keys_typed();
    every_key();
    keys_in_pieces();
    sample(argv[2], argv[3]);
    records_refused();
    files_refused();
    streams_refused();
    test_terminal();
    return count_end();
}
