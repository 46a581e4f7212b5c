/*
 * The parts of the benchmark. Each compares the answers first, and ends the program where they differ.
 */
#ifndef BENCH_H
#define BENCH_H

/* The workloads: the product beside the plain narrow. */
void bench_workloads(void);

/* The workloads by the product, with the mask as a list beside its record. */
void bench_lists(void);

/* The workloads by Gecode, where it is built in; behind bench_workloads. */
void bench_gecode(void);

/* One form, again and again in a mask: how the time grows with the blocks. */
void bench_growth(void);

/* Streams of masks: the line program beside one that has the plain narrow. */
void bench_streams(const char *program, const char *plain_program);

#endif
