/*
 * A program run as a process: fed through a pipe while what it writes is collected, so that neither side waits for the other
 * for ever. A program that does nothing for 20 seconds while it could is killed, and found late.
 */
#ifndef PROCESS_H
#define PROCESS_H

#include "stream.h"

#include <sys/types.h>

/* How a program is started. */
struct start {
    const char *path;
    const char *in, *out; /* a file for its standard input or output; NULL for a pipe to us */
    int ignores_sigpipe;
    const char *const *arguments; /* behind the path, NULL behind the last; NULL for none */
};

struct process {
    pid_t pid;
    int in, in_seen, out, err; /* -1 where closed; in_seen is the program's end of in */
    struct stream printed, complained; /* from its standard output, and its standard error */
    int late;
};

void process_start(struct process *process, const struct start *start);

/* Feeds these bytes, unless the program ends first. Where piece is not 0, no read of the program gets more than so many. */
void process_feed(struct process *process, const void *bytes, size_t len, size_t piece);

/* Waits until the program has printed so many bytes in all, or ended. */
void process_await(struct process *process, size_t printed);

/* Whether the program has ended, as far as we have seen: its outputs are closed. */
int process_ended(const struct process *process);

/* Closes our end of the program's standard output. */
void process_close_out(struct process *process);

/* Ends the program's input, waits for its end, and gives its status as waitpid does. What was collected stays. */
int process_end(struct process *process);

/* Gives back what was collected. */
void process_free(struct process *process);

#endif
