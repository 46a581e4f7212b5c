/*
 * Tries the line program as a program: it is started, fed and read through pipes, and what it prints is compared byte by byte.
 * What is expected is written from document 01 by hand, for random records by plain.h. In every case the program must end by
 * itself with status 0, and print nothing on its standard error.
 */
#ifndef LINES_H
#define LINES_H

#include "process.h"
#include "record.h"
#include "stream.h"

/* The path of the line program. */
extern const char *program;

/* The case in hand: what is fed, and what must be printed. */
extern struct stream fed, expected;

/* A mask that book A narrows to the line 'some 1 1 2': 01's sample. */
#define MASK_A "12 00 02 00 01 00 07 00 00 00 00 00 00 00 00 00 02 00"

/* Begins a case. */
void begin(void);

/* Adds a record, or any bytes in hex, to what is fed. */
void feed(const struct bytes *record);
void feed_hex(const char *text);

/* Runs the case in hand, and counts it; the second feeds it in pieces. */
void prints(const char *name);
void prints_fed_by(const char *name, size_t piece);

/* Ends a program that was started otherwise, and counts it; a death by SIGPIPE may be as good as status 0. */
void ends(const char *name, struct process *process, int may_die);

void test_records(void);
void test_streams(void);
void test_pipes(void);

#endif
