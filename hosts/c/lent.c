/* Slices for tests: see lent.h. */
#define _DEFAULT_SOURCE
#include "lent.h"

#include <stdio.h>
#include <stdlib.h>
#include <string.h>
#include <sys/mman.h>
#include <unistd.h>

/* How many bytes beside a buffer are looked at. */
enum { BESIDE = 64 };

/* Each place's memory lies between two pages that can't be touched. */
static uint8_t *starts[PLACES], *ends[PLACES];

static uint8_t *allocated[PLACES], *out;

static enum way way = BEFORE_PAGE;

/* No two neighbours are equal, and none is 0. */
static uint8_t pattern[LONGEST + BESIDE];

static void stop(const char *where)
{
    perror(where);
    exit(2);
}

void lent_open(void)
{
    size_t page = (size_t)sysconf(_SC_PAGESIZE);
    size_t size = ((LONGEST + BESIDE + page - 1) / page) * page;
    for (int i = 0; i < PLACES; i++) {
        uint8_t *start = mmap(NULL, page + size + page, PROT_NONE, MAP_PRIVATE | MAP_ANONYMOUS, -1, 0);
        if (start == MAP_FAILED || mprotect(start + page, size, PROT_READ | PROT_WRITE) != 0) {
            stop("lent_open");
        }
        starts[i] = start + page;
        ends[i] = start + page + size;
    }
    for (size_t i = 0; i < sizeof pattern; i++) {
        pattern[i] = (uint8_t)(i * 37 % 251 + 1);
    }
}

void lent_by(enum way chosen)
{
    way = chosen;
}

static uint8_t *slice(enum place place, size_t len)
{
    if (way != ALLOCATED) {
        return way == BEFORE_PAGE ? ends[place] - len : starts[place];
    }
    free(allocated[place]);
    allocated[place] = malloc(len);
    if (allocated[place] == NULL && len > 0) {
        stop("lent");
    }
    return allocated[place];
}

const uint8_t *lent_copy(enum place place, const uint8_t *bytes, size_t len)
{
    uint8_t *copy = slice(place, len);
    if (len > 0) {
        memcpy(copy, bytes, len);
    }
    return copy;
}

const void *lent_zeros(size_t len)
{
    void *zeros = mmap(NULL, len, PROT_READ, MAP_PRIVATE | MAP_ANONYMOUS | MAP_NORESERVE, -1, 0);
    return zeros == MAP_FAILED ? NULL : zeros;
}

/* How much pattern lies in front of a buffer, and how much behind it. */
static size_t front(void)
{
    return way == BEFORE_PAGE ? BESIDE : 0;
}

static size_t behind(void)
{
    return way == BEHIND_PAGE ? BESIDE : 0;
}

uint8_t *lent_out(size_t len)
{
    out = slice(OUT, len);
    if (front() + len + behind() > 0) {
        memcpy(out - front(), pattern, front() + len + behind());
    }
    return out;
}

/* Whether these bytes are equal; where there are none, they may be null pointers. */
static int equal(const uint8_t *these, const uint8_t *those, size_t len)
{
    return len == 0 || memcmp(these, those, len) == 0;
}

int lent_out_is(size_t len, const uint8_t *written, size_t written_len)
{
    return written_len <= len && equal(out - front(), pattern, front()) && equal(out, written, written_len)
        && equal(out + written_len, pattern + front() + written_len, len - written_len + behind());
}
