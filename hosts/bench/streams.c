/* Streams of masks through the line program: see bench.h. */
#include "bench.h"

#include "process.h"
#include "random.h"
#include "temporary.h"
#include "timing.h"
#include "workloads.h"

#include <stdio.h>
#include <stdlib.h>

enum { ROUNDS = 11, HEIGHTS_FED = 100000, FORMS_FED = 500 };

static struct stream fed;

static const char *file;

static void feed(const struct bytes *record)
{
    stream_add(&fed, record->at, record->len);
}

/* The height field while one types: the first letters of a random height are there, none to all five. */
static void feed_heights(const struct workload *height)
{
    static struct bytes mask;
    feed(&height->book);
    for (unsigned i = 0; i < HEIGHTS_FED; i++) {
        int number = (int)random_below(1451) - 250;
        unsigned typed = random_below(6), count = 0, digits = (unsigned)abs(number);
        unsigned letters[] = {number < 0, 2 + digits / 1000, 2 + digits / 100 % 10, 2 + digits / 10 % 10, 2 + digits % 10};
        struct block blocks[6];
        for (; count < typed; count++) {
            blocks[count] = (struct block){LETTER(letters[count]), 1, 1};
        }
        if (typed == 0) {
            blocks[count++] = (struct block){0x003, 1, 1};
        }
        if (count < 5) {
            uint16_t open = (uint16_t)(5 - count);
            blocks[count++] = (struct block){0xFFC, open, open};
        }
        mask_record(&mask, blocks, count);
        feed(&mask);
    }
}

/* The long form, in each mask with one set that is another. */
static void feed_forms(const struct workload *utility)
{
    static struct bytes mask;
    feed(&utility->book);
    for (unsigned i = 0; i < FORMS_FED; i++) {
        mask = utility->mask;
        uint64_t set = random_number();
        for (unsigned b = 0, at = 6 + 12 * random_below((unsigned)(mask.len - 6) / 12); b < 8; b++) {
            mask.at[at + b] = (uint8_t)(set >> 8 * b);
        }
        feed(&mask);
    }
}

/* Runs a program on the file; what it prints is collected, or not. */
static double run_on_file(const char *path, const char *out, struct stream *printed)
{
    struct start start = {path, file, out, 0, NULL};
    struct process process;
    double begun = now();
    process_start(&process, &start);
    if (process_end(&process) != 0 || process.complained.len != 0 || process.late) {
        printf("%s: failed\n", path);
        exit(1);
    }
    double taken = now() - begun;
    if (printed != NULL) {
        *printed = process.printed;
    } else {
        process_free(&process);
    }
    return taken;
}

static double run_program(const void *path, unsigned times)
{
    double taken = 0;
    for (unsigned i = 0; i < times; i++) {
        taken += run_on_file(path, "/dev/null", NULL);
    }
    return taken;
}

/* Compares what both programs print, then times them. */
static void bench_stream(const char *name, unsigned masks, const char *program, const char *plain_program)
{
    struct stream printed, expected;
    write_file(file, fed.at, fed.len);
    run_on_file(program, NULL, &printed);
    run_on_file(plain_program, NULL, &expected);
    if (!stream_equal(&printed, &expected)) {
        printf("%s: the line program and the plain one differ\n", name);
        exit(1);
    }
    struct contender product = {run_program, program, 0, 0}, plain = {run_program, plain_program, 0, 0};
    struct contender *by[] = {&product, &plain};
    const char *disturbed = time_by_turns(by, 2, ROUNDS, 0);
    printf("%-8s %7u %9.1f %9.1f %9.1f %9.1f %7.3f %7.3f %12.0f%s\n", name, masks, product.best / 1e6,
           product.median / 1e6, plain.best / 1e6, plain.median / 1e6, product.best / plain.best,
           product.median / plain.median, masks / (product.best / 1e9), disturbed);
    fflush(stdout);
    free(printed.at);
    free(expected.at);
    stream_clear(&fed);
}

void bench_streams(const char *program, const char *plain_program)
{
    file = temporary_file();
    printf("\nStreams of masks from a file, whole runs of the line program, in milliseconds\n\n");
    printf("%-16s %19s %19s %15s\n", "", "product", "plain", "product/plain");
    printf("%-8s %7s %9s %9s %9s %9s %7s %7s %12s\n", "stream", "masks", "best", "median", "best", "median", "best", "median",
           "masks/s");
    random_seed(1);
    feed_heights(workload_named("height"));
    bench_stream("height", HEIGHTS_FED, program, plain_program);
    feed_forms(workload_named("utility"));
    bench_stream("utility", FORMS_FED, program, plain_program);
}
