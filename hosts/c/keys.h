/*
 * A half-filled form: a book, a mask and the letters typed so far. Which keys are lit, what narrow says of the form and whether
 * it is a legal code already are asked of the C entries.
 */
#ifndef KEYS_H
#define KEYS_H

#include "record.h"

#include <stdint.h>

enum verdict { NONE = 1, ALL, ONE, SOME };

struct form {
    const struct bytes *book, *mask;
    struct block blocks[MOST + 1]; /* the mask's with u > 0; behind them one with u = 0, the end */
    unsigned count;                /* without the end */
    uint8_t typed[MOST];
    unsigned len;
};

struct keys {
    uint64_t lit;         /* bit c: some legal code begins with the typed letters and then has c */
    enum verdict verdict; /* of the codes of the mask that begin with the typed letters */
    int legal;            /* whether the typed letters are a legal code */
};

/* An empty form. Book and mask must not be refused, and are kept. */
void form_open(struct form *form, const struct bytes *book, const struct bytes *mask);

/* What the form now shows. */
void form_keys(const struct form *form, struct keys *keys);

#endif
