/*
 * Counts the cases of a test. The last line that a test prints is 'N passed, M failed'.
 */
#ifndef COUNT_H
#define COUNT_H

/* Counts a case, and names one that fails. */
void count(const char *operation, const char *name, int holds);

/* Prints the last line, and gives the exit status: 1 where a case failed. */
int count_end(void);

#endif
