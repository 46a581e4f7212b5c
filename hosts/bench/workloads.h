/*
 * The books and masks that are timed. The random ones have fixed seeds.
 */
#ifndef WORKLOADS_H
#define WORKLOADS_H

#include "fekhvina.h"
#include "record.h"

enum { WORKLOADS = 5 };

struct workload {
    const char *name;
    double target; /* the most that the product may take, in times of the plain narrow */
    void (*make)(struct workload *workload);
    struct bytes book, mask;
    struct fekhvina_block list[MOST]; /* the mask's blocks */
    size_t blocks;
};

extern struct workload workloads[WORKLOADS];

void workloads_make(void);

/* The workload of this name, NULL where there is none. */
const struct workload *workload_named(const char *name);

#endif
