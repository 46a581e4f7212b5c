/*
 * The line program by the plain narrow, to be timed beside it: standard input is a good book and masks, whole records. Usage:
 * plain_lines < STREAM.
 */
#include "plain_line.h"
#include "stream.h"

#include <stdint.h>
#include <stdio.h>

static size_t record_len(const uint8_t *record)
{
    return record[0] + 256u * record[1];
}

int main(void)
{
    static char piece[65536];
    static struct stream in, lines;
    for (size_t len; (len = fread(piece, 1, sizeof piece, stdin)) > 0;) {
        stream_add(&in, piece, len);
    }
    if (in.len < 2) {
        return 2;
    }
    const uint8_t *book = (const uint8_t *)in.at, *end = book + in.len, *mask = book + record_len(book);
    for (unsigned number = 1; mask < end; number++) {
        plain_line(&lines, number, book, record_len(book), mask, record_len(mask));
        mask += record_len(mask);
    }
    return fwrite(lines.at, 1, lines.len, stdout) == lines.len ? 0 : 2;
}
