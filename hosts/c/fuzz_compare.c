/* Calls the entries, and compares: see fuzz.h. */
#include "fuzz.h"

#include "fekhvina.h"
#include "list.h"
#include "plain.h"

#include <inttypes.h>

unsigned long tally[OUTCOMES][OPERATIONS];

const char *entry = "no entry";

/* The input in hand, and its slices as they are lent, to the entries and to the plain version. */
static const struct input *in;
static const uint8_t *book, *mask, *code;
static const void *list;

/* What the answer buffer is to begin with. */
static uint8_t answer[6 + 12 * 1024];

#define PAIR book, in->book.len, mask, in->mask.len
#define LISTED book, in->book.len, list, list_count(&in->list)

/* ---- lending and comparing */

static const uint8_t *lend(enum place place, const struct bytes *bytes, size_t in_book)
{
    if (bytes->len == 0 && in->null) {
        return NULL;
    }
    return in_book != APART ? book + in_book : lent_copy(place, bytes->at, bytes->len);
}

static uint8_t *lend_out(size_t room)
{
    uint8_t *out = lent_out(room);
    return room == 0 && in->null ? NULL : out;
}

/* Compares a number that an entry gave, and what was lent to be read. */
static void same(uint64_t got, uint64_t expected)
{
    if (got != expected) {
        differs("gives %" PRIu64 " where the plain version has %" PRIu64, got, expected);
    }
    if (!unchanged(book, &in->book) || !unchanged(mask, &in->mask) || !unchanged(list, &in->list) ||
        !unchanged(code, &in->code)) {
        differs("has changed bytes that were lent to be read");
    }
}

/* And the answer buffer. */
static void same_buffer(uint64_t got, uint64_t expected, size_t room, size_t written)
{
    same(got, expected);
    if (!lent_out_is(room, answer, written)) {
        differs("leaves another answer buffer than the plain version");
    }
}

/* ---- how a call ended */

/* Whether it is the book that is refused: a mask of no blocks is never refused. */
static int is_of_book(void)
{
    static const uint8_t no_blocks[] = {6, 0, 2, 0, 0, 0};
    return plain_narrow(book, in->book.len, no_blocks, sizeof no_blocks, answer, sizeof answer).refusal != 0;
}

/* Counts a refusal, or else this outcome. */
static void ended(enum operation operation, unsigned refusal, unsigned outcome)
{
    if (refusal != 0) {
        unsigned by_book = operation != TIDY && refusal <= 6 && is_of_book();
        outcome = (by_book ? BOOK_REFUSED - 1 : refusal <= 5 ? MASK_REFUSED - 1 : REFUSED - 7) + refusal;
    }
    tally[outcome][operation]++;
}

/* ---- the operations */

/* Gives the verdict that narrow has where there is room, 0 where it is refused. */
static unsigned compare_narrow(struct input *input)
{
    struct plain_answer most = plain_narrow(PAIR, answer, sizeof answer);
    size_t room = input->narrow_room = random_room(most.bytes);
    struct plain_answer plain = plain_narrow(PAIR, answer, room);
    entry = "narrow_refusal";
    same_buffer(fekhvina_narrow_refusal(PAIR, lend_out(room), room), plain.refusal, room, plain.bytes);
    entry = "narrow_verdict";
    same_buffer(fekhvina_narrow_verdict(PAIR, lend_out(room), room), plain.verdict, room, plain.bytes);
    entry = "narrow_bytes";
    same_buffer(fekhvina_narrow_bytes(PAIR, lend_out(room), room), plain.bytes, room, plain.bytes);
    ended(NARROW, plain.refusal, VERDICT - 1 + plain.verdict);
    return most.verdict;
}

static void compare_list(struct input *input)
{
    size_t room = input->list_room = random_room(plain_narrow_list(LISTED, answer, sizeof answer).bytes);
    struct plain_answer plain = plain_narrow_list(LISTED, answer, room);
    entry = "narrow_list_refusal";
    same_buffer(fekhvina_narrow_list_refusal(LISTED, lend_out(room), room), plain.refusal, room, plain.bytes);
    entry = "narrow_list_verdict";
    same_buffer(fekhvina_narrow_list_verdict(LISTED, lend_out(room), room), plain.verdict, room, plain.bytes);
    entry = "narrow_list_bytes";
    same_buffer(fekhvina_narrow_list_bytes(LISTED, lend_out(room), room), plain.bytes, room, plain.bytes);
    ended(NARROW_LIST, plain.refusal, VERDICT - 1 + plain.verdict);
}

static void compare_tidy(struct input *input)
{
    size_t room = input->tidy_room = random_room(plain_tidy(mask, in->mask.len, answer, sizeof answer).bytes);
    struct plain_answer plain = plain_tidy(mask, in->mask.len, answer, room);
    entry = "tidy_refusal";
    same_buffer(fekhvina_tidy_refusal(mask, in->mask.len, lend_out(room), room), plain.refusal, room, plain.bytes);
    entry = "tidy_bytes";
    same_buffer(fekhvina_tidy_bytes(mask, in->mask.len, lend_out(room), room), plain.bytes, room, plain.bytes);
    ended(TIDY, plain.refusal, TIDIED);
}

static void compare_place(unsigned verdict)
{
    struct plain_place plain = plain_place(PAIR, in->block, in->place);
    entry = "place_refusal";
    same(fekhvina_place_refusal(PAIR, in->block, in->place), plain.refusal);
    entry = "place_set";
    same(fekhvina_place_set(PAIR, in->block, in->place), plain.set);
    entry = "place_lower";
    same(fekhvina_place_lower(PAIR, in->block, in->place), plain.lower);
    entry = "place_upper";
    same(fekhvina_place_upper(PAIR, in->block, in->place), plain.upper);
    ended(PLACE, plain.refusal, VERDICT - 1 + verdict);
}

static void compare_try(void)
{
    struct plain_try plain = plain_try(PAIR, code, in->code.len);
    entry = "try_refusal";
    same(fekhvina_try_refusal(PAIR, code, in->code.len), plain.refusal);
    entry = "try_mask";
    same(fekhvina_try_mask(PAIR, code, in->code.len), plain.spells);
    entry = "try_book";
    same(fekhvina_try_book(PAIR, code, in->code.len), plain.accepts);
    ended(TRY, plain.refusal, TRIED + plain.spells + 2 * plain.accepts);
}

void compare(struct input *input)
{
    in = input;
    mask_list(&input->list, &in->mask, in->padding);
    lent_by(in->way);
    book = lend(BOOK, &in->book, APART);
    mask = lend(MASK, &in->mask, in->mask_in_book);
    list = lend(LIST, &in->list, APART);
    code = lend(CODE, &in->code, in->code_in_book);
    unsigned verdict = compare_narrow(input);
    compare_list(input);
    compare_tidy(input);
    compare_place(verdict);
    compare_try();
}
