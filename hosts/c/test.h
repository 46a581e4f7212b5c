/*
 * Tries the C entries of the proved archive as a host calls them. What is expected is written from document 01 by hand. Each
 * line of a table is one case.
 */
#ifndef TEST_H
#define TEST_H

#include "count.h"

/* In each way of lending slices that finds what is touched outside them. */
void test_tidy_try(void);
void test_narrow_place(void);
void test_list(void);

/* Null slices and the stack, which do not depend on it. */
void test_tidy_try_once(void);
void test_narrow_place_once(void);
void test_list_once(void);

#endif
