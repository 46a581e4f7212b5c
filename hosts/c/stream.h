/*
 * Bytes or text of any length, for tests.
 */
#ifndef STREAM_H
#define STREAM_H

#include <stddef.h>

/* All zero at first. */
struct stream {
    char *at;
    size_t len, room;
};

void stream_clear(struct stream *stream);

void stream_add(struct stream *stream, const void *bytes, size_t len);

/* Adds a text, as printf prints it. */
void stream_print(struct stream *stream, const char *format, ...);

int stream_equal(const struct stream *a, const struct stream *b);

#endif
