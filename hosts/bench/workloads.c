/* The books and masks that are timed: see workloads.h. */
#include "workloads.h"

#include "books.h"
#include "list.h"
#include "random.h"

#include <string.h>

/* Heights from -250 to +1,200: a sign, and four digits. */
static void make_height(struct workload *height)
{
    static const struct block blocks[] = {{0x003, 1, 1}, {0xFFC, 4, 4}};
    hex(&height->book, HEIGHTS);
    mask_record(&height->mask, blocks, 2);
}

/* A long form: 120 blocks of 103 different sets, every seventh with the set of the third before it; lowers sum to 497, uppers
   to 1,024. A third of the moves are missing. */
static void make_utility(struct workload *utility)
{
    enum { BLOCKS = 120, LOWERS = 497 };
    static struct block blocks[BLOCKS];
    random_seed(1);
    random_book_of(&utility->book, 60, 64, 1, 3);
    for (unsigned i = 0; i < BLOCKS; i++) {
        blocks[i].set = i % 7 == 6 ? blocks[i - 3].set : random_number();
        blocks[i].lower = 0;
        blocks[i].upper = 1;
    }
    for (unsigned uppers = BLOCKS; uppers < MOST; uppers++) {
        blocks[random_below(BLOCKS)].upper++;
    }
    for (unsigned lowers = 0; lowers < LOWERS;) {
        struct block *block = &blocks[random_below(BLOCKS)];
        if (block->lower < block->upper) {
            block->lower++;
            lowers++;
        }
    }
    mask_record(&utility->mask, blocks, BLOCKS);
}

/* The book of the next three: 63 states, 64 letters, no move missing. */
static void full_book(struct workload *workload)
{
    random_seed(2);
    random_book_of(&workload->book, 63, 64, 0, 1);
}

static void make_full(struct workload *full)
{
    static const struct block block = {UINT64_MAX, MOST, MOST};
    full_book(full);
    mask_record(&full->mask, &block, 1);
}

/* Each set has about half of the letters. */
static void make_row(struct workload *row)
{
    static struct block blocks[MOST];
    full_book(row);
    for (unsigned i = 0; i < MOST; i++) {
        blocks[i].set = random_number();
        blocks[i].lower = blocks[i].upper = 1;
    }
    mask_record(&row->mask, blocks, MOST);
}

static void make_optional(struct workload *optional)
{
    static const struct block block = {UINT64_MAX, 0, MOST};
    full_book(optional);
    mask_record(&optional->mask, &block, 1);
}

struct workload workloads[WORKLOADS] = {
    {.name = "height", .target = 1.0, .make = make_height},
    {.name = "utility", .target = 0.35, .make = make_utility},
    {.name = "full", .target = 0.05, .make = make_full},
    {.name = "row", .target = 0.1, .make = make_row},
    {.name = "optional", .target = 1.0, .make = make_optional},
};

static void make_list(struct workload *workload)
{
    static struct bytes list;
    mask_list(&list, &workload->mask, 0);
    memcpy(workload->list, list.at, list.len);
    workload->blocks = list_count(&list);
}

void workloads_make(void)
{
    for (unsigned i = 0; i < WORKLOADS; i++) {
        workloads[i].make(&workloads[i]);
        make_list(&workloads[i]);
    }
}

const struct workload *workload_named(const char *name)
{
    for (unsigned i = 0; i < WORKLOADS; i++) {
        if (strcmp(workloads[i].name, name) == 0) {
            return &workloads[i];
        }
    }
    return NULL;
}
