/* How the time grows with the blocks: see bench.h. */
#include "bench.h"

#include "narrows.h"
#include "random.h"
#include "timing.h"

#include <stdio.h>

enum { BLOCKS = 5, MOST_TIMES = 64, ROUNDS = 100 };

/* A form of 5 blocks, lowers 8 and uppers 16, so many times one behind the other; a third of the book's moves are missing. */
static void make_form(struct workload *form, unsigned times)
{
    static struct block blocks[BLOCKS * MOST_TIMES];
    static const struct block bounds[BLOCKS] = {{0, 1, 1}, {0, 2, 4}, {0, 0, 3}, {0, 4, 4}, {0, 1, 4}};
    random_seed(1);
    random_book_of(&form->book, 60, 64, 1, 3);
    for (unsigned i = 0; i < BLOCKS * times; i++) {
        blocks[i] = bounds[i % BLOCKS];
        blocks[i].set = i < BLOCKS ? random_number() : blocks[i - BLOCKS].set;
    }
    mask_record(&form->mask, blocks, BLOCKS * times);
}

void bench_growth(void)
{
    static struct workload form = {.name = "growth"};
    double former = 0;
    printf("\nA form of 5 blocks, again and again in a mask: one narrow by the product, best, in microseconds\n\n");
    printf("%5s %6s %6s %-7s %10s %10s %14s\n", "times", "blocks", "uppers", "verdict", "narrow", "a block", "to the former");
    for (unsigned times = 1; times <= MOST_TIMES; times *= 2) {
        make_form(&form, times);
        const char *verdict = verdict_of_both(&form);
        struct contender product = {run_product, &form, 0, 0}, *by[] = {&product};
        const char *disturbed = time_by_turns(by, 1, ROUNDS, 0.5);
        printf("%5u %6u %6u %-7s %10.2f %10.2f", times, BLOCKS * times, 16 * times, verdict, product.best / 1e3,
               product.best / 1e3 / (BLOCKS * times));
        if (times > 1) {
            printf(" %14.2f", product.best / former);
        }
        printf("%s\n", disturbed);
        former = product.best;
    }
}
