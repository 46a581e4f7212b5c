/*
 * The benchmark: see bench.h. Usage: bench PROGRAM PLAIN_PROGRAM, the paths of the line program and of plain_lines; bench, the
 * workloads beside the plain narrow alone; or bench --count WORKLOAD product|list|plain TIMES, which only runs that narrow so
 * many times, for a tool that counts instructions.
 */
#include "bench.h"

#include "gecode.h"
#include "narrows.h"
#include "random.h"
#include "timing.h"

#include <stdio.h>
#include <stdlib.h>
#include <string.h>

/* How many times faster than Gecode the product is to be. */
enum { GECODE_TARGET = 20 };

enum { ROUNDS = 200, GECODE_ROUNDS = 25 };

/* The product's best time for each workload, in nanoseconds. */
static double product_best[WORKLOADS];

void bench_workloads(void)
{
    printf("One narrow, from records to record, in microseconds\n\n");
    printf("%-17s %19s %19s %15s\n", "", "product", "plain", "product/plain");
    printf("%-9s %-7s %9s %9s %9s %9s %7s %7s %7s\n", "workload", "verdict", "best", "median", "best", "median", "best",
           "median", "target");
    for (unsigned i = 0; i < WORKLOADS; i++) {
        const struct workload *w = &workloads[i];
        struct contender product = {run_product, w, 0, 0}, plain = {run_plain, w, 0, 0};
        const char *verdict = verdict_of_both(w);
        struct contender *by[] = {&product, &plain};
        const char *disturbed = time_by_turns(by, 2, ROUNDS, 2);
        double ratio = product.best / plain.best;
        printf("%-9s %-7s %9.2f %9.2f %9.2f %9.2f %7.3f %7.3f %7.2f %s%s\n", w->name, verdict, product.best / 1e3,
               product.median / 1e3, plain.best / 1e3, plain.median / 1e3, ratio, product.median / plain.median, w->target,
               ratio <= w->target ? "met" : "missed", disturbed);
        fflush(stdout);
        product_best[i] = product.best;
    }
}

void bench_lists(void)
{
    printf("\nThe same by the product, with the mask as a list beside its record\n\n");
    printf("%-9s %19s %19s %15s\n", "", "list", "record", "list/record");
    printf("%-9s %9s %9s %9s %9s %7s %7s\n", "workload", "best", "median", "best", "median", "best", "median");
    for (unsigned i = 0; i < WORKLOADS; i++) {
        const struct workload *w = &workloads[i];
        struct contender list = {run_list, w, 0, 0}, record = {run_product, w, 0, 0};
        struct contender *by[] = {&list, &record};
        demand_same_of_list(w);
        const char *disturbed = time_by_turns(by, 2, ROUNDS, 1);
        printf("%-9s %9.2f %9.2f %9.2f %9.2f %7.3f %7.3f%s\n", w->name, list.best / 1e3, list.median / 1e3, record.best / 1e3,
               record.median / 1e3, list.best / record.best, list.median / record.median, disturbed);
        fflush(stdout);
    }
}

static void demand_gecode_agrees(const struct workload *workload)
{
    if (!gecode_agrees(workload)) {
        printf("%s: the product and Gecode differ\n", workload->name);
        exit(1);
    }
}

/* The workloads lose few letters; of small random masks many are left with few, or none. */
static void compare_random(void)
{
    enum { SEEDS = 1000, LONGEST_MASK = 100 };
    static struct workload random = {.name = "random"};
    unsigned compared = 0;
    for (unsigned seed = 1; seed <= SEEDS; seed++) {
        random_seed(seed);
        random_book(&random.book);
        random_mask(&random.mask, &random.book);
        if (random.mask.len <= LONGEST_MASK) {
            demand_gecode_agrees(&random);
            compared++;
        }
    }
    printf("\nGecode's extensional and the product agree on %u random masks\n", compared);
}

/* Not by turns with the product, whose memory it would push out of the caches. */
void bench_gecode(void)
{
    if (!gecode_built) {
        printf("\nGecode is not installed, and left out\n");
        return;
    }
    compare_random();
    printf("\nGecode's extensional, in microseconds, and how many times the product's best that is\n\n");
    printf("%-9s %31s %39s\n", "", "from records", "posted and propagated alone");
    printf("%-9s %11s %11s %7s %7s %11s %11s %7s\n", "workload", "best", "median", "times", "target", "best", "median",
           "times");
    for (unsigned i = 0; i < WORKLOADS; i++) {
        const struct workload *w = &workloads[i];
        struct contender whole = {run_gecode, w, 0, 0}, alone = {run_gecode_alone, w, 0, 0};
        struct contender *by[] = {&whole, &alone};
        demand_gecode_agrees(w);
        const char *disturbed = time_by_turns(by, 2, GECODE_ROUNDS, 1);
        double times = whole.best / product_best[i];
        printf("%-9s %11.2f %11.2f %7.1f %7d %11.2f %11.2f %7.1f %s%s\n", w->name, whole.best / 1e3, whole.median / 1e3, times,
               GECODE_TARGET, alone.best / 1e3, alone.median / 1e3, alone.best / product_best[i],
               times >= GECODE_TARGET ? "met" : "missed", disturbed);
        fflush(stdout);
    }
}

static int run_only(const struct workload *workload, const char *which, const char *times)
{
    unsigned count = (unsigned)atoi(times);
    if (strcmp(which, "plain") == 0) {
        run_plain(workload, count);
    } else if (strcmp(which, "list") == 0) {
        run_list(workload, count);
    } else {
        run_product(workload, count);
    }
    return 0;
}

int main(int argc, char **argv)
{
    workloads_make();
    if (argc == 5 && strcmp(argv[1], "--count") == 0 && workload_named(argv[2]) != NULL) {
        return run_only(workload_named(argv[2]), argv[3], argv[4]);
    }
    if (argc != 1 && argc != 3) {
        fprintf(stderr, "usage: bench [PROGRAM PLAIN_PROGRAM], or bench --count WORKLOAD product|list|plain TIMES\n");
        return 2;
    }
    stay_on_one_processor();
    printf("A row is disturbed where other programs had over a twentieth of the processor: its long times are too long.\n\n");
    bench_workloads();
    if (argc == 3) {
        bench_lists();
        bench_gecode();
        bench_growth();
        bench_streams(argv[1], argv[2]);
    }
    return 0;
}
