/*
 * Files of a test, in the system's folder for such files (or TMPDIR), which are removed when the program ends.
 */
#ifndef TEMPORARY_H
#define TEMPORARY_H

#include <stddef.h>

/* Makes an empty file, and gives its path, which stays valid. */
const char *temporary_file(void);

/* Writes these bytes as all that a file has. */
void write_file(const char *path, const void *bytes, size_t len);

#endif
