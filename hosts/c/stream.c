/* Bytes or text of any length: see stream.h. */
#include "stream.h"

#include <stdarg.h>
#include <stdio.h>
#include <stdlib.h>
#include <string.h>

void stream_clear(struct stream *stream)
{
    stream->len = 0;
}

void stream_add(struct stream *stream, const void *bytes, size_t len)
{
    if (stream->room - stream->len < len) {
        stream->room = 2 * (stream->len + len);
        stream->at = realloc(stream->at, stream->room);
        if (stream->at == NULL) {
            perror("stream_add");
            exit(2);
        }
    }
    if (len > 0) {
        memcpy(stream->at + stream->len, bytes, len);
    }
    stream->len += len;
}

void stream_print(struct stream *stream, const char *format, ...)
{
    char text[256];
    va_list values;
    va_start(values, format);
    int len = vsnprintf(text, sizeof text, format, values);
    va_end(values);
    if (len < 0 || (size_t)len >= sizeof text) {
        fprintf(stderr, "stream_print: '%s' is too long\n", format);
        exit(2);
    }
    stream_add(stream, text, (size_t)len);
}

int stream_equal(const struct stream *a, const struct stream *b)
{
    return a->len == b->len && (a->len == 0 || memcmp(a->at, b->at, a->len) == 0);
}
