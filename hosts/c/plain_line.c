/* The line of a mask as the plain narrow has it: see plain_line.h. */
#include "plain_line.h"

#include "plain.h"

const char *const verdict_words[5] = {"", "none", "all", "one", "some"};

/* The sum of a block's bound, at this place in the block, over a written mask. */
static unsigned sum(const uint8_t *record, size_t bytes, size_t place)
{
    unsigned total = 0;
    for (size_t at = 6; at < bytes; at += 12) {
        total += record[at + place] + 256u * record[at + place + 1];
    }
    return total;
}

void plain_line(struct stream *to, unsigned number, const uint8_t *book, size_t book_len, const uint8_t *mask,
                size_t mask_len)
{
    static uint8_t out[6 + 12 * 1024];
    struct plain_answer answer = plain_narrow(book, book_len, mask, mask_len, out, sizeof out);
    if (answer.refusal != 0) {
        stream_print(to, "%u refused %u 0 0\n", number, answer.refusal);
    } else {
        stream_print(to, "%u %s %u %u %u\n", number, verdict_words[answer.verdict],
                     (unsigned)(answer.bytes > 0 ? (answer.bytes - 6) / 12 : 0), sum(out, answer.bytes, 8),
                     sum(out, answer.bytes, 10));
    }
}
