/* The test of the line program: see lines.h. */
#define _POSIX_C_SOURCE 200809L
#include "lines.h"

#include "count.h"

#include <signal.h>
#include <stdio.h>
#include <sys/wait.h>

const char *program;

struct stream fed, expected;

void begin(void)
{
    stream_clear(&fed);
    stream_clear(&expected);
}

void feed(const struct bytes *record)
{
    stream_add(&fed, record->at, record->len);
}

void feed_hex(const char *text)
{
    static struct bytes record;
    hex(&record, text);
    feed(&record);
}

/* Shows a stream from a place on, to the end of the line. */
static void show(const char *what, const struct stream *stream, size_t from)
{
    size_t to = from;
    while (to < stream->len && stream->at[to] != '\n' && to - from < 100) {
        to++;
    }
    printf("  %s, from byte %zu on: '%.*s'\n", what, from, (int)(to - from), to > from ? stream->at + from : "");
}

/* Shows the first line where what was printed is not what was expected. */
static void show_difference(const struct stream *printed)
{
    size_t line = 0, i = 0;
    for (; i < printed->len && i < expected.len && printed->at[i] == expected.at[i]; i++) {
        line = printed->at[i] == '\n' ? i + 1 : line;
    }
    show("expected", &expected, line);
    show("printed", printed, line);
}

void ends(const char *name, struct process *process, int may_die)
{
    int status = process_end(process), same = stream_equal(&process->printed, &expected);
    int dies_well = may_die && WIFSIGNALED(status) && WTERMSIG(status) == SIGPIPE;
    int holds = same && (status == 0 || dies_well) && process->complained.len == 0 && !process->late;
    count("lines", name, holds);
    if (!same) {
        show_difference(&process->printed);
    }
    if (!holds) {
        show("standard error", &process->complained, 0);
        printf("  status %d%s\n", status, process->late ? ", did not end by itself" : "");
    }
    process_free(process);
}

void prints_fed_by(const char *name, size_t piece)
{
    struct start start = {program, NULL, NULL, 0, NULL};
    struct process process;
    process_start(&process, &start);
    process_feed(&process, fed.at, fed.len, piece);
    ends(name, &process, 0);
}

void prints(const char *name)
{
    prints_fed_by(name, 0);
}

int main(int argc, char **argv)
{
    if (argc != 2) {
        fprintf(stderr, "usage: lines PROGRAM\n");
        return 2;
    }
    program = argv[1];
    test_records();
    test_streams();
    test_pipes();
    return count_end();
}
