/* Tries the line program with pipes that stay open, outputs that are closed or full, and an input that can't be read: see
   lines.h. */
#include "books.h"
#include "lines.h"

/* ---- the input stays open */

/* Begins a case in which the program is fed while it runs. */
static void begin_running(struct process *process, const char *in, const char *out, int ignores_sigpipe)
{
    struct start start = {program, in, out, ignores_sigpipe, NULL};
    begin();
    process_start(process, &start);
}

/* Feeds these bytes, and waits for these lines. */
static void exchange(struct process *process, const char *bytes, const char *lines)
{
    stream_clear(&fed);
    feed_hex(bytes);
    process_feed(process, fed.at, fed.len, 0);
    stream_print(&expected, "%s", lines);
    process_await(process, expected.len);
}

static void lines_at_once(void)
{
    struct process process;
    begin_running(&process, NULL, NULL, 0);
    exchange(&process, BOOK_A " " MASK_A, "1 some 1 1 2\n");
    ends("a line while the input stays open", &process, 0);

    begin_running(&process, NULL, NULL, 0);
    exchange(&process, BOOK_A, "");
    exchange(&process, MASK_A, "1 some 1 1 2\n");
    exchange(&process, MASK_A " " MASK_A, "2 some 1 1 2\n3 some 1 1 2\n");
    exchange(&process, MASK_A " 12", "4 some 1 1 2\n");
    exchange(&process, "00 02 00 01 00 07 00 00 00 00 00 00 00 00 00 02 00 " MASK_A " 12 00 02 00 01 00 07",
             "5 some 1 1 2\n6 some 1 1 2\n");
    exchange(&process, "00 00 00 00 00 00 00 00 00 02 00 04 00 02 00", "7 some 1 1 2\n8 refused 3 0 0\n");
    exchange(&process, "12 00", "");
    stream_print(&expected, "9 refused 1 0 0\n");
    ends("each line while the input stays open", &process, 0);
}

/* The program must end although its input stays open. */
static void ends_by_itself(const char *name, const char *bytes, const char *lines)
{
    struct process process;
    begin_running(&process, NULL, NULL, 0);
    exchange(&process, bytes, lines);
    process_await(&process, SIZE_MAX);
    ends(name, &process, 0);
}

/* ---- the output fails */

/* Feeds masks for ever, or to what is more than any program reads that ends as soon as it can't write. */
static void feed_for_ever(struct process *process)
{
    enum { MASKS = 1000, ENOUGH = 4000000 };
    stream_clear(&fed);
    for (int i = 0; i < MASKS; i++) {
        feed_hex(MASK_A);
    }
    for (size_t all = 0; all < ENOUGH && !process_ended(process); all += fed.len) {
        process_feed(process, fed.at, fed.len, 0);
    }
    if (!process_ended(process)) {
        process->late = 1;
    }
}

static void output_closed(const char *name, const char *first, const char *line, int ignores_sigpipe)
{
    struct process process;
    begin_running(&process, NULL, NULL, ignores_sigpipe);
    exchange(&process, first, line);
    process_close_out(&process);
    feed_for_ever(&process);
    ends(name, &process, !ignores_sigpipe);
}

static void output_full(const char *name, const char *first)
{
    struct process process;
    begin_running(&process, NULL, "/dev/full", 0);
    exchange(&process, first, "");
    feed_for_ever(&process);
    ends(name, &process, 0);
}

static void input_unreadable(void)
{
    struct process process;
    begin_running(&process, "/", NULL, 0);
    stream_print(&expected, "book refused 1\n");
    ends("a failed read is the end of input", &process, 0);
}

void test_pipes(void)
{
    lines_at_once();
    ends_by_itself("a refused book ends it while the input stays open", MASK_A " " MASK_A, "book refused 2\n");
    ends_by_itself("a length field of 0 ends it while the input stays open", BOOK_A " 00 00 02 00 00 00 " MASK_A,
                   "1 refused 1 0 0\n");
    output_closed("output closed behind a line", BOOK_A " " MASK_A, "1 some 1 1 2\n", 0);
    output_closed("output closed behind a line, SIGPIPE ignored", BOOK_A " " MASK_A, "1 some 1 1 2\n", 1);
    output_closed("output closed behind the book", BOOK_A, "", 0);
    output_closed("output closed behind the book, SIGPIPE ignored", BOOK_A, "", 1);
    output_full("output full", BOOK_A);
    output_full("output full, a refused book", "04 00 02 00");
    input_unreadable();
}
