/* The operations in plain C: see plain.h. Names and numbers of steps are those of document 01. */
#include "plain.h"

#include <string.h>

enum { MOST = 1024, NO_MOVE = 255, DEAD = 63, STATES = 64, FAR = 65535 };

/* A set of states is a u64 as a set of letters is; the dead state is its bit 63, as a book has at most 63 states. */
#define BIT(i) (UINT64_C(1) << (i))

struct book {
    unsigned states, letters, start;
    uint64_t accepting;
    const uint8_t *moves;
};

struct block {
    uint64_t set;
    unsigned lower, upper;
};

/* A mask and what the passes find of it. Block i, from 0, has its l + 1 sets and its l + 1 entries from first[i] on. */
static struct {
    struct book book;
    unsigned count;
    struct block blocks[MOST];
    unsigned first[MOST];
    uint64_t q[2 * MOST];        /* Q0 to Ql of each block */
    uint64_t r[MOST];            /* R of each block */
    uint64_t next[MOST][STATES]; /* of each block, for each state the states after one letter */
    struct block list[2 * MOST]; /* the narrowed list: places 1 to l of each block, then its optional part */
    unsigned entries;
} work;

/* ---- records */

static uint64_t number(const uint8_t *at, int width)
{
    uint64_t value = 0;
    for (int i = 0; i < width; i++) {
        value |= (uint64_t)at[i] << (8 * i);
    }
    return value;
}

static void put(uint8_t *at, uint64_t value, int width)
{
    for (int i = 0; i < width; i++) {
        at[i] = (uint8_t)(value >> (8 * i));
    }
}

/* Checks 1, 2 and 3. */
static unsigned check_head(const uint8_t *record, size_t len, unsigned kind, size_t least)
{
    if (len < 4 || number(record, 2) != len) {
        return 1;
    }
    if (number(record + 2, 2) != kind) {
        return 2;
    }
    return len < least ? 3 : 0;
}

/* Check 6. */
static int names_only_states(const struct book *book)
{
    if (book->start >= book->states || book->accepting >> book->states != 0) {
        return 0;
    }
    for (unsigned i = 0; i < book->states * book->letters; i++) {
        if (book->moves[i] >= book->states && book->moves[i] != NO_MOVE) {
            return 0;
        }
    }
    return 1;
}

static unsigned read_book(const uint8_t *record, size_t len)
{
    struct book *book = &work.book;
    unsigned refusal = check_head(record, len, 1, 15);
    if (refusal != 0) {
        return refusal;
    }
    book->states = record[4];
    book->letters = record[5];
    book->start = record[6];
    book->accepting = number(record + 7, 8);
    book->moves = record + 15;
    if (book->states < 1 || book->states > 63 || book->letters < 1 || book->letters > 64) {
        return 4;
    }
    if (len != 15 + book->states * book->letters) {
        return 5;
    }
    return names_only_states(book) ? 0 : 6;
}

/* Checks 7, 8 and 9, each over all blocks before the next. */
static unsigned check_blocks(void)
{
    unsigned sum = 0;
    for (unsigned i = 0; i < work.count; i++) {
        if (work.blocks[i].lower > work.blocks[i].upper) {
            return 7;
        }
        sum += work.blocks[i].upper;
    }
    if (sum > MOST) {
        return 8;
    }
    for (unsigned i = 0; i < work.count && work.book.letters < 64; i++) {
        if (work.blocks[i].set >> work.book.letters != 0) {
            return 9;
        }
    }
    return 0;
}

/* To be called when the book is read. */
static unsigned read_mask(const uint8_t *record, size_t len)
{
    unsigned refusal = check_head(record, len, 2, 6);
    if (refusal != 0) {
        return refusal;
    }
    work.count = (unsigned)number(record + 4, 2);
    if (work.count > MOST) {
        return 4;
    }
    if (len != 6 + 12 * work.count) {
        return 5;
    }
    for (unsigned i = 0; i < work.count; i++) {
        const uint8_t *at = record + 6 + 12 * i;
        work.blocks[i].set = number(at, 8);
        work.blocks[i].lower = (unsigned)number(at + 8, 2);
        work.blocks[i].upper = (unsigned)number(at + 10, 2);
    }
    return check_blocks();
}

/* The same of a list. */
static unsigned read_list(const struct fekhvina_block *list, size_t count)
{
    if (count > MOST) {
        return 4;
    }
    work.count = (unsigned)count;
    for (unsigned i = 0; i < work.count; i++) {
        work.blocks[i].set = list[i].set;
        work.blocks[i].lower = list[i].lower;
        work.blocks[i].upper = list[i].upper;
    }
    return check_blocks();
}

static size_t write_mask(uint8_t *out, const struct block *blocks, unsigned count)
{
    size_t len = 6 + 12 * count;
    put(out, len, 2);
    put(out + 2, 2, 2);
    put(out + 4, count, 2);
    for (unsigned i = 0; i < count; i++) {
        put(out + 6 + 12 * i, blocks[i].set, 8);
        put(out + 6 + 12 * i + 8, blocks[i].lower, 2);
        put(out + 6 + 12 * i + 10, blocks[i].upper, 2);
    }
    return len;
}

/* ---- forward */

static unsigned move(unsigned state, unsigned letter)
{
    unsigned to = work.book.moves[state * work.book.letters + letter];
    return to == NO_MOVE ? DEAD : to;
}

/* For every state, the states after one letter of the set. */
static void successors(uint64_t set, uint64_t next[STATES])
{
    for (unsigned state = 0; state < work.book.states; state++) {
        next[state] = 0;
        for (unsigned letter = 0; letter < work.book.letters; letter++) {
            if (set >> letter & 1) {
                next[state] |= BIT(move(state, letter));
            }
        }
    }
    next[DEAD] = set != 0 ? BIT(DEAD) : 0;
}

/* The states after one letter from any of these. */
static uint64_t step(const uint64_t next[STATES], uint64_t from)
{
    uint64_t to = from >> DEAD & 1 ? next[DEAD] : 0;
    for (unsigned state = 0; state < work.book.states; state++) {
        if (from >> state & 1) {
            to |= next[state];
        }
    }
    return to;
}

/* Step 1 for block i, from its Q0: gives its R. */
static uint64_t forward(unsigned i, uint64_t before)
{
    const struct block *block = &work.blocks[i];
    uint64_t *next = work.next[i], *q = work.q + work.first[i];
    successors(block->set, next);
    q[0] = before;
    for (unsigned j = 1; j <= block->lower; j++) {
        q[j] = step(next, q[j - 1]);
    }
    uint64_t r = q[block->lower];
    for (unsigned more = block->upper - block->lower; more > 0; more--) {
        uint64_t wider = r | step(next, r);
        if (wider == r) {
            break;
        }
        r = wider;
    }
    work.r[i] = r;
    return r;
}

/* ---- backward */

/* Step 3: b(q) for every state of the book, FAR where there is none. */
static void distances(const uint64_t next[STATES], uint64_t r, uint64_t e, unsigned b[STATES])
{
    uint64_t reached = 0, wider = e;
    for (unsigned state = 0; state < work.book.states; state++) {
        b[state] = e >> state & 1 ? 0 : FAR;
    }
    for (unsigned letters = 1; wider != reached; letters++) {
        reached = wider;
        for (unsigned state = 0; state < work.book.states; state++) {
            if ((r & ~reached) >> state & 1 && (next[state] & reached) != 0) {
                b[state] = letters;
                wider |= BIT(state);
            }
        }
    }
}

/* The letters of the set that lead from a state of `from` to one of `to`; `former` becomes those states of `from`. */
static uint64_t leading(const uint64_t next[STATES], uint64_t set, uint64_t from, uint64_t to, uint64_t *former)
{
    uint64_t stay = 0, states = 0;
    for (unsigned state = 0; state < work.book.states; state++) {
        if ((from >> state & 1) == 0 || (next[state] & to) == 0) {
            continue;
        }
        states |= BIT(state);
        uint64_t open = set & ~stay;
        for (unsigned letter = 0; open != 0; letter++, open >>= 1) {
            if (open & 1 && to >> move(state, letter) & 1) {
                stay |= BIT(letter);
            }
        }
    }
    *former = states;
    return stay;
}

/* Steps 3 to 5 for block i, from its E: makes its entries and gives its M0. */
static uint64_t backward(unsigned i, uint64_t e)
{
    const struct block *block = &work.blocks[i];
    struct block *entry = work.list + work.first[i];
    const uint64_t *next = work.next[i], *q = work.q + work.first[i];
    uint64_t near = 0, m = 0, former;
    unsigned b[STATES], room = block->upper - block->lower, least = FAR;
    distances(next, work.r[i], e, b);
    for (unsigned state = 0; state < work.book.states; state++) {
        if (b[state] + 1 <= room) {
            near |= BIT(state);
        }
        if (q[block->lower] >> state & 1 && b[state] <= room) {
            m |= BIT(state);
            least = b[state] < least ? b[state] : least;
        }
    }
    entry[block->lower].set = leading(next, block->set, work.r[i], near, &former);
    entry[block->lower].lower = least;
    entry[block->lower].upper = room;
    for (unsigned j = block->lower; j >= 1; j--) {
        entry[j - 1].set = leading(next, block->set, q[j - 1], m, &former);
        entry[j - 1].lower = entry[j - 1].upper = 1;
        m = former;
    }
    return m;
}

/* ---- the operations */

/* Book checks, mask checks and 9, in order. */
static unsigned read_both(const uint8_t *book, size_t book_len, const uint8_t *mask, size_t mask_len)
{
    unsigned refusal = read_book(book, book_len);
    return refusal != 0 ? refusal : read_mask(mask, mask_len);
}

/* Makes the narrowed list of the mask that was read, and says none, all or some. */
static unsigned passes(void)
{
    uint64_t r = BIT(work.book.start), e;
    work.entries = 0;
    for (unsigned i = 0; i < work.count; i++) {
        work.first[i] = work.entries;
        work.entries += work.blocks[i].lower + 1;
        r = forward(i, r);
    }
    e = r & work.book.accepting;
    if (e == 0) {
        return PLAIN_NONE;
    }
    unsigned verdict = e == r ? PLAIN_ALL : PLAIN_SOME;
    for (unsigned i = work.count; i > 0; i--) {
        e = backward(i - 1, e);
    }
    return verdict;
}

/* Puts the narrowed list in normal form, where it stands; gives the number of blocks. */
static unsigned normal_form(void)
{
    unsigned count = 0;
    for (unsigned i = 0; i < work.entries; i++) {
        struct block entry = work.list[i];
        if (entry.upper == 0 || (entry.set == 0 && entry.lower == 0)) {
            continue;
        }
        if (count > 0 && work.list[count - 1].set == entry.set) {
            work.list[count - 1].lower += entry.lower;
            work.list[count - 1].upper += entry.upper;
        } else {
            work.list[count++] = entry;
        }
    }
    return count;
}

/* Whether each of the first blocks of the list has one letter and equal bounds. */
static int is_one(unsigned count)
{
    for (unsigned i = 0; i < count; i++) {
        uint64_t set = work.list[i].set;
        if (set == 0 || (set & (set - 1)) != 0 || work.list[i].lower != work.list[i].upper) {
            return 0;
        }
    }
    return 1;
}

/* Narrows the mask that was read, where nothing is refused so far. */
static struct plain_answer narrow(unsigned refusal, uint8_t *out, size_t room)
{
    struct plain_answer answer = {refusal, 0, 0};
    if (refusal != 0) {
        return answer;
    }
    unsigned verdict = passes();
    if (verdict != PLAIN_NONE) {
        unsigned count = normal_form();
        if (room < 6 + 12 * count) {
            answer.refusal = 10;
            return answer;
        }
        if (verdict == PLAIN_SOME && is_one(count)) {
            verdict = PLAIN_ONE;
        }
        answer.bytes = write_mask(out, work.list, count);
    }
    answer.verdict = verdict;
    return answer;
}

struct plain_answer plain_narrow(const uint8_t *book, size_t book_len, const uint8_t *mask, size_t mask_len, uint8_t *out,
                                 size_t room)
{
    return narrow(read_both(book, book_len, mask, mask_len), out, room);
}

struct plain_answer plain_narrow_list(const uint8_t *book, size_t book_len, const struct fekhvina_block *list, size_t count,
                                      uint8_t *out, size_t room)
{
    unsigned refusal = read_book(book, book_len);
    return narrow(refusal != 0 ? refusal : read_list(list, count), out, room);
}

struct plain_place plain_place(const uint8_t *book, size_t book_len, const uint8_t *mask, size_t mask_len, uint32_t block,
                               uint32_t place)
{
    struct plain_place answer = {0, 0, 0, 0};
    answer.refusal = read_both(book, book_len, mask, mask_len);
    if (answer.refusal != 0) {
        return answer;
    }
    if (block == 0 || block > work.count || place > work.blocks[block - 1].lower) {
        answer.refusal = 11;
        return answer;
    }
    if (passes() != PLAIN_NONE) {
        unsigned at = work.first[block - 1] + (place == 0 ? work.blocks[block - 1].lower : place - 1);
        answer.set = work.list[at].set;
        answer.lower = work.list[at].lower;
        answer.upper = work.list[at].upper;
    }
    return answer;
}

/* Without a book no letter is foreign: check 9 finds nothing with 64 letters. */
struct plain_answer plain_tidy(const uint8_t *mask, size_t mask_len, uint8_t *out, size_t room)
{
    struct plain_answer answer = {0, 0, 0};
    work.book.letters = 64;
    answer.refusal = read_mask(mask, mask_len);
    if (answer.refusal != 0) {
        return answer;
    }
    work.entries = work.count;
    memcpy(work.list, work.blocks, work.count * sizeof work.blocks[0]);
    unsigned count = normal_form();
    if (room < 6 + 12 * count) {
        answer.refusal = 10;
    } else {
        answer.bytes = write_mask(out, work.list, count);
    }
    return answer;
}

/* ---- try */

/* Whether the blocks that were read spell the code; ends[i] says whether those so far spell its first i letters. */
static unsigned spells(const uint8_t *code, size_t len)
{
    static uint8_t begins[MOST + 1], ends[MOST + 1];
    memset(ends, 0, sizeof ends);
    ends[0] = 1;
    for (const struct block *block = work.blocks; block < work.blocks + work.count; block++) {
        memcpy(begins, ends, sizeof ends);
        memset(ends, 0, sizeof ends);
        for (size_t begin = 0; begin <= len; begin++) {
            for (size_t end = begin; begins[begin] && end - begin <= block->upper; end++) {
                if (end - begin >= block->lower) {
                    ends[end] = 1;
                }
                if (end == len || (block->set >> code[end] & 1) == 0) {
                    break;
                }
            }
        }
    }
    return ends[len];
}

/* Whether the book that was read accepts the code. */
static unsigned accepts(const uint8_t *code, size_t len)
{
    unsigned state = work.book.start;
    for (size_t i = 0; i < len && state != DEAD; i++) {
        state = move(state, code[i]);
    }
    return work.book.accepting >> state & 1;
}

struct plain_try plain_try(const uint8_t *book, size_t book_len, const uint8_t *mask, size_t mask_len, const uint8_t *code,
                           size_t code_len)
{
    struct plain_try answer = {0, 0, 0};
    answer.refusal = read_both(book, book_len, mask, mask_len);
    if (answer.refusal == 0 && code_len > MOST) {
        answer.refusal = 12;
    }
    for (size_t i = 0; i < code_len && answer.refusal == 0; i++) {
        answer.refusal = code[i] >= work.book.letters ? 13 : 0;
    }
    if (answer.refusal == 0) {
        answer.spells = spells(code, code_len);
        answer.accepts = accepts(code, code_len);
    }
    return answer;
}
