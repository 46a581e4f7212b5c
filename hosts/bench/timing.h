/*
 * Times contenders by turns, so that all of them see the machine in the same state.
 */
#ifndef TIMING_H
#define TIMING_H

/* Nanoseconds of a clock that only goes on. */
double now(void);

/* A contender, and what it took for one run of its work. */
struct contender {
    double (*run)(const void *work, unsigned times); /* gives the nanoseconds that so many runs took */
    const void *work;
    double best, median; /* nanoseconds */
};

/* Keeps the program, and those that it starts, on the processor that it is on, where that can be done. */
void stay_on_one_processor(void);

/* Times each of these contenders, at most two, in turn, again and again: at least so many rounds, and for about so many
   seconds. Gives what is to be said of it: "" or, where other programs had over a twentieth of the processor meanwhile,
   " disturbed"; long runs are then found longer than they are, short ones are not. */
const char *time_by_turns(struct contender *const *contenders, unsigned count, unsigned rounds, double seconds);

#endif
