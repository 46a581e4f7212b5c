/* Times contenders by turns: see timing.h. */
#define _GNU_SOURCE
#include "timing.h"

#include <sched.h>
#include <stdio.h>
#include <stdlib.h>
#include <sys/resource.h>
#include <time.h>

enum { CONTENDERS = 2, SAMPLES = 20000, SHORTEST = 100000 /* nanoseconds of a sample */ };

static double samples[CONTENDERS][SAMPLES];

double now(void)
{
    struct timespec time;
    clock_gettime(CLOCK_MONOTONIC, &time);
    return (double)time.tv_sec * 1e9 + (double)time.tv_nsec;
}

void stay_on_one_processor(void)
{
#ifdef __linux__
    cpu_set_t set;
    CPU_ZERO(&set);
    CPU_SET((size_t)sched_getcpu(), &set);
    if (sched_setaffinity(0, sizeof set, &set) != 0) {
        perror("sched_setaffinity");
    }
#endif
}

/* Nanoseconds of processor that this program had, and those that it started and that have ended. */
static double processor_time(void)
{
    struct rusage self, children;
    getrusage(RUSAGE_SELF, &self);
    getrusage(RUSAGE_CHILDREN, &children);
    return 1e9 * (double)(self.ru_utime.tv_sec + self.ru_stime.tv_sec + children.ru_utime.tv_sec + children.ru_stime.tv_sec) +
           1e3 * (double)(self.ru_utime.tv_usec + self.ru_stime.tv_usec + children.ru_utime.tv_usec +
                          children.ru_stime.tv_usec);
}

/* How many runs make a sample that is long enough for the clock. */
static unsigned runs_of_a_sample(const struct contender *contender)
{
    unsigned times = 1;
    while (contender->run(contender->work, times) < SHORTEST) {
        times *= 2;
    }
    return times;
}

static int compare(const void *a, const void *b)
{
    double x = *(const double *)a, y = *(const double *)b;
    return (x > y) - (x < y);
}

const char *time_by_turns(struct contender *const *contenders, unsigned count, unsigned rounds, double seconds)
{
    unsigned times[CONTENDERS], done = 0;
    for (unsigned i = 0; i < count; i++) {
        times[i] = runs_of_a_sample(contenders[i]);
    }
    double start = now(), had = processor_time();
    while (done < SAMPLES && (done < rounds || now() - start < seconds * 1e9)) {
        for (unsigned i = 0; i < count; i++) {
            samples[i][done] = contenders[i]->run(contenders[i]->work, times[i]) / times[i];
        }
        done++;
    }
    double share = (processor_time() - had) / (now() - start);
    for (unsigned i = 0; i < count; i++) {
        qsort(samples[i], done, sizeof samples[i][0], compare);
        contenders[i]->best = samples[i][0];
        contenders[i]->median = samples[i][done / 2];
    }
    return share < 0.95 ? " disturbed" : "";
}
