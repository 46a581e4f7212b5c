/*
 * Gecode's extensional on a workload. The automaton is the book; each block has a variable for each letter it may have, the
 * first l of them over its set, the others over its set and a letter that stands for none, by which no state moves. So the
 * assignments spell the words of the mask, cut as in document 01.
 */
#ifndef GECODE_H
#define GECODE_H

#include "workloads.h"

/* Whether Gecode is built in; where it is not, the others do nothing. */
extern const int gecode_built;

/* Whether both find no legal word, or both some, and then the domains of the mandatory places are the sets that place returns,
   and those of the optional parts lie in theirs. */
int gecode_agrees(const struct workload *workload);

/* A whole narrow, from records to the letters of each place, so many times; the nanoseconds. */
double run_gecode(const void *workload, unsigned times);

/* The constraint alone, posted and propagated: the automaton and the variables are made before, which is not timed. It is the
   posting that does most of the work: it builds the layers and prunes. */
double run_gecode_alone(const void *workload, unsigned times);

#endif
