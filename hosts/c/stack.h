/*
 * How much stack a call takes: it is run on a stack of its own that was filled with a pattern, and what it left of that is
 * counted.
 */
#ifndef STACK_H
#define STACK_H

#include <stddef.h>

/* The bytes of stack that the function and all that it calls touched. */
size_t stack_used(void (*function)(void));

#endif
