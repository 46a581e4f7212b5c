/* Calls the entries of narrow: see narrow_calls.h. */
#include "narrow_calls.h"

#include "lent.h"
#include "list.h"

struct bytes book, in, answer;

static struct bytes list;

typedef uint32_t record_entry(const uint8_t *, size_t, const uint8_t *, size_t, uint8_t *, size_t);
typedef uint32_t list_entry(const uint8_t *, size_t, const struct fekhvina_block *, size_t, uint8_t *, size_t);

/* Whether this much of `answer` was written and no more, and the book and the mask, as they were lent, are unchanged. */
static int leaves(size_t out_len, size_t written, const void *lent_book, const void *lent_mask, const struct bytes *mask)
{
    return lent_out_is(out_len, answer.at, written) && unchanged(lent_book, &book) && unchanged(lent_mask, mask);
}

/* Whether one entry that takes the record does what is expected. */
static int record_entry_is(record_entry *entry, uint32_t expected, size_t out_len, size_t written)
{
    const uint8_t *b = lent_copy(BOOK, book.at, book.len), *m = lent_copy(MASK, in.at, in.len);
    uint32_t got = entry(b, book.len, m, in.len, lent_out(out_len), out_len);
    return got == expected && leaves(out_len, written, b, m, &in);
}

int record_is(size_t out_len, uint32_t refusal, uint32_t verdict, size_t written)
{
    return record_entry_is(fekhvina_narrow_refusal, refusal, out_len, written)
        && record_entry_is(fekhvina_narrow_verdict, verdict, out_len, written)
        && record_entry_is(fekhvina_narrow_bytes, (uint32_t)written, out_len, written);
}

const struct fekhvina_block *lend_list(size_t *count)
{
    static uint8_t padding;
    padding += 37;
    mask_list(&list, &in, padding);
    *count = list_count(&list);
    return (const void *)lent_copy(LIST, list.at, list.len);
}

/* Whether one entry that takes the list does. */
static int list_entry_is(list_entry *entry, uint32_t expected, size_t out_len, size_t written)
{
    size_t count;
    const uint8_t *b = lent_copy(BOOK, book.at, book.len);
    const struct fekhvina_block *blocks = lend_list(&count);
    uint32_t got = entry(b, book.len, blocks, count, lent_out(out_len), out_len);
    return got == expected && leaves(out_len, written, b, blocks, &list);
}

int list_is(size_t out_len, uint32_t refusal, uint32_t verdict, size_t written)
{
    return list_entry_is(fekhvina_narrow_list_refusal, refusal, out_len, written)
        && list_entry_is(fekhvina_narrow_list_verdict, verdict, out_len, written)
        && list_entry_is(fekhvina_narrow_list_bytes, (uint32_t)written, out_len, written);
}

int refuses(narrowing *is, uint32_t refusal)
{
    return is(0, refusal, 0, 0) && is(20000, refusal, 0, 0);
}
