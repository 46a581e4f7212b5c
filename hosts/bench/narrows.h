/*
 * The product's narrow and the plain one: run again and again, and compared.
 */
#ifndef NARROWS_H
#define NARROWS_H

#include "workloads.h"

/* Run a whole narrow of a workload so many times, from records to record, and give the nanoseconds. */
double run_product(const void *workload, unsigned times);
double run_plain(const void *workload, unsigned times);

/* The same by the product, with the mask as a list. */
double run_list(const void *workload, unsigned times);

/* The verdict of a workload, once refusal, verdict, bytes and record of both are the same; ends the program where they are
   not, or where the verdict is none. */
const char *verdict_of_both(const struct workload *workload);

/* Ends the program where the list gets another answer than the mask. */
void demand_same_of_list(const struct workload *workload);

#endif
