/* The product's narrow and the plain one: see narrows.h. */
#include "narrows.h"

#include "fekhvina.h"
#include "plain.h"
#include "plain_line.h"
#include "timing.h"

#include <stdio.h>
#include <stdlib.h>
#include <string.h>

enum { ROOM = 6 + 12 * 1024 };

static uint8_t out[ROOM], plain_out[ROOM];

double run_product(const void *workload, unsigned times)
{
    const struct workload *w = workload;
    double start = now();
    for (unsigned i = 0; i < times; i++) {
        fekhvina_narrow_bytes(w->book.at, w->book.len, w->mask.at, w->mask.len, out, ROOM);
    }
    return now() - start;
}

double run_plain(const void *workload, unsigned times)
{
    const struct workload *w = workload;
    double start = now();
    for (unsigned i = 0; i < times; i++) {
        plain_narrow(w->book.at, w->book.len, w->mask.at, w->mask.len, plain_out, ROOM);
    }
    return now() - start;
}

double run_list(const void *workload, unsigned times)
{
    const struct workload *w = workload;
    double start = now();
    for (unsigned i = 0; i < times; i++) {
        fekhvina_narrow_list_bytes(w->book.at, w->book.len, w->list, w->blocks, out, ROOM);
    }
    return now() - start;
}

const char *verdict_of_both(const struct workload *w)
{
    memset(out, 0xAA, ROOM);
    memset(plain_out, 0x55, ROOM);
    struct plain_answer plain = plain_narrow(w->book.at, w->book.len, w->mask.at, w->mask.len, plain_out, ROOM);
    uint32_t refusal = fekhvina_narrow_refusal(w->book.at, w->book.len, w->mask.at, w->mask.len, out, ROOM);
    uint32_t verdict = fekhvina_narrow_verdict(w->book.at, w->book.len, w->mask.at, w->mask.len, out, ROOM);
    uint32_t bytes = fekhvina_narrow_bytes(w->book.at, w->book.len, w->mask.at, w->mask.len, out, ROOM);
    if (refusal != plain.refusal || verdict != plain.verdict || bytes != plain.bytes || memcmp(out, plain_out, bytes) != 0) {
        printf("%s: the product and the plain narrow differ\n", w->name);
        exit(1);
    }
    if (refusal != 0 || verdict == PLAIN_NONE) {
        printf("%s: refused %u, or none\n", w->name, (unsigned)refusal);
        exit(1);
    }
    return verdict_words[verdict];
}

void demand_same_of_list(const struct workload *w)
{
    static uint8_t list_out[ROOM];
    uint32_t verdict = fekhvina_narrow_verdict(w->book.at, w->book.len, w->mask.at, w->mask.len, out, ROOM);
    uint32_t bytes = fekhvina_narrow_bytes(w->book.at, w->book.len, w->mask.at, w->mask.len, out, ROOM);
    if (fekhvina_narrow_list_refusal(w->book.at, w->book.len, w->list, w->blocks, list_out, ROOM) != 0 ||
        fekhvina_narrow_list_verdict(w->book.at, w->book.len, w->list, w->blocks, list_out, ROOM) != verdict ||
        fekhvina_narrow_list_bytes(w->book.at, w->book.len, w->list, w->blocks, list_out, ROOM) != bytes ||
        memcmp(out, list_out, bytes) != 0) {
        printf("%s: the product narrows the list and the record differently\n", w->name);
        exit(1);
    }
}
