/*
 * Records that the checks of document 01 refuse, for the tests of every operation. Each table ends with a name of NULL.
 */
#ifndef FAULTS_H
#define FAULTS_H

#include <stdint.h>

struct fault {
    const char *name;
    uint32_t refusal;
    const char *bytes; /* in hex */
};

extern const struct fault mask_faults[], book_faults[];

#endif
