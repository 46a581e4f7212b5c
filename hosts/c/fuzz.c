/* The comparison of the C entries with a plain version: see fuzz.h. */
#define _POSIX_C_SOURCE 200809L
#include "fuzz.h"

#include "list.h"
#include "random.h"

#include <inttypes.h>
#include <signal.h>
#include <stdarg.h>
#include <stdio.h>
#include <stdlib.h>
#include <time.h>
#include <unistd.h>

/* A run that takes longer does not end. */
enum { LIMIT_SECONDS = 20 };

static uint64_t seed, run;

static struct input input;

static unsigned long differences;

/* ---- what is shown */

static void show_bytes(const char *name, const struct bytes *bytes)
{
    printf("  %s, %zu bytes:", name, bytes->len);
    for (size_t i = 0; i < bytes->len; i++) {
        printf(" %02X", bytes->at[i]);
    }
    printf("\n");
}

/* The input in hand, in hex as record.h reads it. */
static void show_input(void)
{
    static const char *const ways[] = {"in front of a page", "behind a page", "allocated"};
    printf("  seed %" PRIu64 ", run %" PRIu64 ", slices %s%s\n", seed, run, ways[input.way],
           input.null ? ", null where empty" : "");
    show_bytes("book", &input.book);
    show_bytes("mask", &input.mask);
    show_bytes("code", &input.code);
    if (input.mask_in_book != APART) {
        printf("  the mask lies in the book's bytes, from byte %zu on\n", input.mask_in_book);
    }
    if (input.code_in_book != APART) {
        printf("  the code lies in the book's bytes, from byte %zu on\n", input.code_in_book);
    }
    printf("  the list has %zu of the mask's blocks, and padding from %u on\n", list_count(&input.list), input.padding);
    printf("  answer buffer of narrow %zu bytes, with the list %zu bytes, of tidy %zu bytes\n", input.narrow_room,
           input.list_room, input.tidy_room);
    printf("  block %" PRIu32 ", place %" PRIu32 "\n", input.block, input.place);
}

void differs(const char *text, ...)
{
    if (differences++ == 0) {
        va_list values;
        va_start(values, text);
        printf("DIFFERENCE: %s ", entry);
        vprintf(text, values);
        printf("\n");
        va_end(values);
        show_input();
        fflush(stdout);
    }
}

/* A call that touches what was not lent, or does not end; also a sanitizer that has found something. */
static void stopped(int number)
{
    printf("DIFFERENCE: %s is stopped by signal %d\n", entry, number);
    show_input();
    fflush(stdout);
    _exit(1);
}

static void catch_signals(void)
{
    static const int signals[] = {SIGSEGV, SIGBUS, SIGILL, SIGFPE, SIGABRT, SIGALRM};
    struct sigaction action = {.sa_handler = stopped};
    for (size_t i = 0; i < sizeof signals / sizeof signals[0]; i++) {
        sigaction(signals[i], &action, NULL);
    }
}

/* ---- how the calls ended */

enum { N = 1 << NARROW, L = 1 << NARROW_LIST, T = 1 << TIDY, P = 1 << PLACE, Y = 1 << TRY };

static const struct {
    const char *name;
    unsigned operations; /* where it can come */
} outcomes[OUTCOMES] = {
    {"book refused 1", N | L | P | Y},
    {"book refused 2", N | L | P | Y},
    {"book refused 3", N | L | P | Y},
    {"book refused 4", N | L | P | Y},
    {"book refused 5", N | L | P | Y},
    {"book refused 6", N | L | P | Y},
    {"mask refused 1", N | T | P | Y},
    {"mask refused 2", N | T | P | Y},
    {"mask refused 3", N | T | P | Y},
    {"mask refused 4", N | L | T | P | Y},
    {"mask refused 5", N | T | P | Y},
    {"mask refused 7", N | L | T | P | Y},
    {"mask refused 8", N | L | T | P | Y},
    {"refused 9", N | L | P | Y},
    {"refused 10", N | L | T},
    {"refused 11", P},
    {"refused 12", Y},
    {"refused 13", Y},
    {"none", N | L | P},
    {"all", N | L | P},
    {"one", N | L | P},
    {"some", N | L | P},
    {"tidied", T},
    {"mask no, book no", Y},
    {"mask yes, book no", Y},
    {"mask no, book yes", Y},
    {"mask yes, book yes", Y},
};

/* Prints how often each came, and gives how many never came, though they can. */
static unsigned print_tally(void)
{
    unsigned never = 0;
    printf("%-20s%12s%12s%12s%12s%12s\n", "", "narrow", "list", "tidy", "place", "try");
    for (int i = 0; i < OUTCOMES; i++) {
        printf("%-20s", outcomes[i].name);
        for (int operation = 0; operation < OPERATIONS; operation++) {
            int can = outcomes[i].operations >> operation & 1;
            never += can && tally[i][operation] == 0;
            if (can || tally[i][operation] > 0) {
                printf("%12lu", tally[i][operation]);
            } else {
                printf("%12s", "-");
            }
        }
        printf("\n");
    }
    return never;
}

/* ---- runs */

/* The run in hand. Neighbouring numbers give states of random.h that are alike, so a few numbers are passed over. */
static void one_run(void)
{
    random_seed(seed * UINT64_C(0x9E3779B97F4A7C15) + run);
    for (int i = 0; i < 4; i++) {
        random_number();
    }
    random_input(&input);
    alarm(LIMIT_SECONDS);
    compare(&input);
    if (one_in(4)) {
        change_input(&input);
        compare(&input);
    }
}

static int runs(unsigned long seconds)
{
    time_t begin = time(NULL), now = begin;
    printf("seed %" PRIu64 ", %lu seconds\n", seed, seconds);
    fflush(stdout);
    for (run = 0; (unsigned long)(now - begin) < seconds; now = time(NULL)) {
        run++;
        one_run();
    }
    unsigned never = print_tally();
    if (never > 0) {
        printf("%u ways to end never came: a longer run, or another seed, is needed\n", never);
    }
    printf("%" PRIu64 " runs, %lu differences\n", run, differences);
    return differences > 0 || never > 0;
}

/* For so many seconds, or the run of this number alone. */
int main(int argc, char **argv)
{
    if (argc != 3 && argc != 4) {
        fprintf(stderr, "usage: fuzz SEED SECONDS [RUN]\n");
        return 2;
    }
    lent_open();
    catch_signals();
    seed = strtoull(argv[1], NULL, 10);
    if (argc == 3) {
        return runs(strtoul(argv[2], NULL, 10));
    }
    run = strtoull(argv[3], NULL, 10);
    one_run();
    show_input();
    printf("1 run, %lu differences\n", differences);
    return differences > 0;
}
