/*
 * A C host in brief, with document 01's book A: it tidies a mask, narrows the answer, as a record and as a list of blocks, asks
 * which letters can stand in its first place, and tries a code.
 */
#include "fekhvina.h"

#include <stdio.h>

/* Book A: 3 states, 3 letters, start 0, state 1 accepts; 0 by letter 0 to 1, 1 by 1 to 2, 2 by 2 to 1. */
static const uint8_t book[] = {24, 0, 1, 0, 3, 3, 0, 2, 0, 0, 0, 0, 0, 0, 0, 1, 255, 255, 255, 2, 255, 255, 255, 1};

/* A mask of three blocks: {0,1,2} 0-1, {1} 0-0, {0,1,2} 1-2. */
static const uint8_t mask[] = {42, 0, 2, 0, 3, 0, 7, 0, 0, 0, 0, 0, 0, 0, 0, 0, 1, 0, 2, 0, 0,
                               0,  0, 0, 0, 0, 0, 0, 0, 0, 7, 0, 0, 0, 0, 0, 0, 0, 1, 0, 2, 0};

/* The code 0 1 2. */
static const uint8_t code[] = {0, 1, 2};

/* Whether a call was refused, which it then says. */
static int refused(const char *operation, uint32_t refusal)
{
    if (refusal != 0) {
        printf("%s: refused %u\n", operation, (unsigned)refusal);
    }
    return refusal != 0;
}

static void print_record(const char *what, const uint8_t *record, uint32_t bytes)
{
    printf("%s, %u bytes:", what, (unsigned)bytes);
    for (uint32_t i = 0; i < bytes; i++) {
        printf(" %02X", record[i]);
    }
    printf("\n");
}

/* The tidied mask as blocks in memory, narrowed. Whether it was refused. */
static int narrow_list(uint8_t *answer, size_t room)
{
    const struct fekhvina_block blocks[] = {{.set = 7, .lower = 1, .upper = 3}};
    if (refused("narrow, list", fekhvina_narrow_list_refusal(book, sizeof book, blocks, 1, answer, room))) {
        return 1;
    }
    print_record("narrow, list", answer, fekhvina_narrow_list_bytes(book, sizeof book, blocks, 1, answer, room));
    return 0;
}

int main(void)
{
    static const char *const verdicts[] = {"", "none", "all", "one", "some"};
    uint8_t tidy[sizeof mask]; /* a tidied mask is never longer than the mask */
    if (refused("tidy", fekhvina_tidy_refusal(mask, sizeof mask, tidy, sizeof tidy))) {
        return 1;
    }
    uint32_t len = fekhvina_tidy_bytes(mask, sizeof mask, tidy, sizeof tidy);
    print_record("tidy", tidy, len);

    uint8_t answer[6 + 12 * 1024]; /* room for every answer of narrow */
    if (refused("narrow", fekhvina_narrow_refusal(book, sizeof book, tidy, len, answer, sizeof answer))) {
        return 1;
    }
    printf("narrow: %s\n", verdicts[fekhvina_narrow_verdict(book, sizeof book, tidy, len, answer, sizeof answer)]);
    print_record("narrow", answer, fekhvina_narrow_bytes(book, sizeof book, tidy, len, answer, sizeof answer));

    if (narrow_list(answer, sizeof answer) || refused("place", fekhvina_place_refusal(book, sizeof book, tidy, len, 1, 1))) {
        return 1;
    }
    uint64_t set = fekhvina_place_set(book, sizeof book, tidy, len, 1, 1);
    printf("block 1, place 1:");
    for (int letter = 0; letter < 64; letter++) {
        if (set >> letter & 1) {
            printf(" %d", letter);
        }
    }
    printf("\n");

    if (refused("try", fekhvina_try_refusal(book, sizeof book, tidy, len, code, sizeof code))) {
        return 1;
    }
    printf("try: mask %s, book %s\n", fekhvina_try_mask(book, sizeof book, tidy, len, code, sizeof code) ? "yes" : "no",
           fekhvina_try_book(book, sizeof book, tidy, len, code, sizeof code) ? "yes" : "no");
    return 0;
}
